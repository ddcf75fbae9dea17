//! The columns of a table: which there are, under which names, and what their numbers are.
use super::error::number;
use super::{Table, TableError};
use crate::{raw, Column, Error, ErrorKind, Float, Floats};

/// Columns of tables, and their logical types.
impl Table {
    /// Returns the columns of these names, in this order, each once; refused as `RepeatedName` and `NoSuchColumn`.
    ///
    /// ```
    /// use hivevigil::{Column, Table, TableError};
    /// let levels = Column::new(&[900i32, 40])?;
    /// let table = Table::try_from_iter([("level", levels.clone()), ("depth", levels)])?;
    /// assert_eq!(table.select(["depth", "level"])?.names().collect::<Vec<_>>(), ["depth", "level"]);
    /// assert!(matches!(table.select(&["place"]), Err(TableError::NoSuchColumn { .. })));
    /// # Ok::<(), TableError>(())
    /// ```
    pub fn select(
        &self,
        names: impl IntoIterator<Item = impl AsRef<str>>,
    ) -> Result<Table, TableError> {
        self.by_names(names, |table, names, out, fields| unsafe {
            raw::hv_table_select(table, names, out, fields)
        })
    }

    /// Returns all columns but those of these names; refused as `NoSuchColumn`.
    pub fn without(
        &self,
        names: impl IntoIterator<Item = impl AsRef<str>>,
    ) -> Result<Table, TableError> {
        let mut left_out = Vec::new();
        for name in names {
            left_out.push(self.place(name.as_ref())?);
        }
        let places = (0..self.len()).filter(|place| !left_out.contains(place));
        self.select(places.map(|place| &self.names[place]))
    }

    /// Returns the same columns, of which those of the first names have the second ones; refused as `RepeatedName` and
    /// `NoSuchColumn`.
    pub fn rename<'a>(
        &self,
        names: impl IntoIterator<Item = (&'a str, &'a str)>,
    ) -> Result<Table, TableError> {
        let (names, new_names): (Vec<&str>, Vec<&str>) = names.into_iter().unzip();
        let others = Column::texts(&new_names, None)?;
        let made = self.by_names(&names, |table, names, out, fields| unsafe {
            raw::hv_table_rename(table, names, others.handle.get(), out, fields)
        });
        made.map_err(|error| match error {
            TableError::Refused(error) if error.number == number::NEW_NAME_TWICE => {
                let name = self.names[error.fields.second as usize].as_str();
                let place = names.iter().position(|renamed| *renamed == name);
                TableError::RepeatedName(place.map_or(name, |place| new_names[place]).to_string())
            }
            other => other,
        })
    }

    /// Returns the same columns and one more, or another in place of that of this name. Refused as `UnevenRows`, except
    /// where there is neither a column nor a row yet.
    pub fn with_column(&self, name: &str, column: Column) -> Result<Table, TableError> {
        let mut held = self.held.try_clone()?;
        held.put(name, &column)?;
        Table::holding(held)
    }

    /// Returns the same with a column of floats: their keys, which the table knows as floats.
    pub fn with_floats<T: Float>(
        &self,
        name: &str,
        floats: &Floats<T>,
    ) -> Result<Table, TableError> {
        let keys = floats.keys().try_clone();
        self.with_column(name, keys.map_err(TableError::of(name))?)
    }

    /// Returns the column of floats of a name; refused as `NoSuchColumn`, and as `TypeMismatch` where it does not have
    /// floats of this width.
    pub fn floats<T: Float>(&self, name: &str) -> Result<Floats<T>, TableError> {
        let column = self.column(name)?;
        let asked = Error::said(
            ErrorKind::TypeMismatch,
            "it does not have floats of this width",
        );
        let is_float = column.logical_type().as_deref() == Some(T::FORMAT);
        let keys = is_float.then_some(column).ok_or(asked);
        keys.and_then(Column::try_clone)
            .and_then(|keys| Floats::of_keys(keys).map_err(|_| asked))
            .map_err(TableError::of(name))
    }

    /// Returns the logical type of the column of a name, a format of Arrow as `tsu:UTC`; `None` where it has none.
    /// Refused as `NoSuchColumn`.
    pub fn logical_type(&self, name: &str) -> Result<Option<String>, TableError> {
        self.column(name).map(Column::logical_type)
    }

    /// Returns the same columns, where the numbers of that of this name are what a format of Arrow says; the empty
    /// format takes its logical type away. The format is kept, and not tested. Refused as `NoSuchColumn`.
    ///
    /// ```
    /// use hivevigil::{Column, Table};
    /// let days = Column::new(&[19_783i32, 19_783, 19_784])?.encode()?;
    /// let table = Table::try_from_iter([("day", days)])?.with_logical_type("day", "tdD")?;
    /// assert_eq!(table.slice(1..)?.logical_type("day")?.as_deref(), Some("tdD"));
    /// # Ok::<(), hivevigil::TableError>(())
    /// ```
    pub fn with_logical_type(&self, name: &str, format: &str) -> Result<Table, TableError> {
        let column = self.column(name)?.with_logical_type(format);
        self.with_column(name, column.map_err(TableError::of(name))?)
    }
}
