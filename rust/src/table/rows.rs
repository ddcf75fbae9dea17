//! The rows of a table: those of a range, of a mask, of indices, and those of another table after them.
use super::error::number;
use super::held::Held;
use super::{Difference, Table, TableError};
use crate::arrow::concat;
use crate::commands::ends_of;
use crate::{raw, Column, Error, ErrorKind, Fields, Operator, Value};
use std::ops::RangeBounds;

/// Rows of tables.
impl Table {
    /// Returns the rows of a range of any kind; refused as `BadRange` where they are not all there.
    pub fn slice(&self, rows: impl RangeBounds<usize>) -> Result<Table, TableError> {
        let (start, end) = ends_of(rows, self.rows())?;
        let made = self.held.part(|table, out, fields| unsafe {
            raw::hv_table_slice(table, start, end, out, fields)
        });
        Table::holding(made?)
    }

    /// Takes the rows at the indices, integers in any form: null at a null index. Refused as `OutOfBounds`, and as
    /// `TypeMismatch` for indices that are not integers.
    pub fn take(&self, indices: &Column) -> Result<Table, TableError> {
        let call = |table, indices, out, fields| unsafe {
            raw::hv_table_take(table, indices, out, fields)
        };
        let made = self.held.beside(indices, call);
        let words = "indices are integers, not";
        Table::holding(made.map_err(|error| error.of_other(words, indices.kind()))?)
    }

    /// Keeps the rows where the mask, booleans in any form, is true: a null in the mask selects nothing. Refused as
    /// `MaskLength` for a mask of another length, and as `TypeMismatch` for one that is not of booleans. The mask is read
    /// once, by its runs where it is in runs.
    ///
    /// ```
    /// use hivevigil::{Column, Table};
    /// let table = Table::try_from_iter([("level", Column::new(&[900i32, 40, 41])?)])?;
    /// let kept = table.filter(&Column::try_from([Some(true), None, Some(true)])?)?;
    /// assert_eq!(kept["level"].numbers::<i32>()?, [900, 41]);
    /// let refused = table.filter(&Column::try_from([true])?).unwrap_err();
    /// assert_eq!(refused.to_string(), "a mask of 1 rows over a column of 3 rows");
    /// # Ok::<(), hivevigil::TableError>(())
    /// ```
    pub fn filter(&self, mask: &Column) -> Result<Table, TableError> {
        let call =
            |table, mask, out, fields| unsafe { raw::hv_table_filter(table, mask, out, fields) };
        let made = self.held.beside(mask, call);
        let words = "a mask is of type bool, not";
        Table::holding(made.map_err(|error| error.of_other(words, mask.kind()))?)
    }

    /// Keeps the rows where `row operator value` is true of the column of a name, as [`Column::compare_value`]
    /// compares. Refused as `NoSuchColumn`, and as `TypeMismatch` for a value of another sort.
    ///
    /// ```
    /// use hivevigil::{Column, Floats, Operator, Table};
    /// let table = Table::try_from_iter([("level", Column::new(&[900i32, 40, 41])?)])?;
    /// let table = table.with_floats("depth", &Floats::of(&[0.5, 2.0, f64::NAN])?)?;
    /// assert_eq!(table.filter_by("level", Operator::Less, 100)?.rows(), 2);
    /// assert_eq!(table.filter_by("depth", Operator::Greater, 0.5)?["level"].get(0)?, Some(40));
    /// # Ok::<(), hivevigil::TableError>(())
    /// ```
    pub fn filter_by(
        &self,
        name: &str,
        operator: Operator,
        value: impl Into<Value>,
    ) -> Result<Table, TableError> {
        let mask = self.column(name)?.compare_value(operator, value);
        self.filter(&mask.map_err(TableError::of(name))?)
    }

    /// Keeps the rows at which no column of these names is null, or, without a name, no column at all. Refused as
    /// `RepeatedName` and `NoSuchColumn`.
    ///
    /// ```
    /// use hivevigil::{Column, Table};
    /// let levels = Column::try_from([Some(900), None, Some(40)])?;
    /// let doors = Column::try_from([None, Some(true), Some(true)])?;
    /// let table = Table::try_from_iter([("level", levels), ("open", doors)])?;
    /// assert_eq!(table.drop_null(["level"])?["level"].options::<i32>()?, [Some(900), Some(40)]);
    /// assert_eq!(table.drop_null([] as [&str; 0])?["level"].options::<i32>()?, [Some(40)]);
    /// # Ok::<(), hivevigil::TableError>(())
    /// ```
    pub fn drop_null(
        &self,
        names: impl IntoIterator<Item = impl AsRef<str>>,
    ) -> Result<Table, TableError> {
        self.by_names(names, |table, names, out, fields| unsafe {
            raw::hv_table_drop_null(table, names, out, fields)
        })
    }

    /// Returns the rows of this table, then those of another, which has columns of the same names, types and logical
    /// types, in any order; a type has null where it has in one of them, and decimals of two types become decimals of
    /// one that has the digits of both. Refused as `OtherColumns`, and as `CastOutOfRange` for a row that has more than
    /// 38 digits at the greater scale.
    ///
    /// ```
    /// use hivevigil::{Column, Table};
    /// let table = Table::try_from_iter([("level", Column::new(&[900i32, 40])?)])?;
    /// assert_eq!(table.append(&table.slice(1..)?)?["level"].numbers::<i32>()?, [900, 40, 40]);
    /// # Ok::<(), hivevigil::TableError>(())
    /// ```
    pub fn append(&self, other: &Table) -> Result<Table, TableError> {
        let next = match other.select(&self.names) {
            Ok(next) if next.len() == other.len() => next,
            Ok(_) | Err(TableError::NoSuchColumn { .. }) => other.try_clone()?, // which has other names
            Err(error) => return Err(error),
        };
        let refused = match self.held.append(&next.held) {
            Ok(joined) => return Table::holding(joined),
            Err(refused) => refused,
        };
        let unsupported = ErrorKind::Unsupported as i32;
        match self.difference(other) {
            Some(difference) => Err(TableError::OtherColumns(difference)),
            None if [number::OTHER_TYPE, unsupported].contains(&refused.number) => {
                self.append_columns(&next)
            }
            None => Err(refused.into()),
        }
    }

    /// Appends the columns of another table, which are in this order, one by one: where columns have lists, null in one
    /// table only, or decimals of two types.
    fn append_columns(&self, other: &Table) -> Result<Table, TableError> {
        let overflow = Error::of(ErrorKind::WindowOverflow);
        let rows = self.rows().checked_add(other.rows()).ok_or(overflow)?;
        let mut joined = Held::with_rows(rows)?;
        for ((name, column), next) in self.iter().zip(&other.columns) {
            let both = concat(&[column, next]).and_then(|both| both.typed_as(column));
            let both = both.map_err(TableError::of(name))?;
            joined.put(name, &both)?;
        }
        Table::holding(joined)
    }

    /// Looks up a row, by the order of the columns; refused as `OutOfBounds`.
    ///
    /// ```
    /// use hivevigil::{Column, Table, Value};
    /// let names = Column::try_from(["north", "south"])?;
    /// let table = Table::try_from_iter([("station", names), ("level", Column::new(&[900i32, 40])?)])?;
    /// assert_eq!(table.row(1)?, [Value::from("south"), Value::from(40)]);
    /// # Ok::<(), hivevigil::TableError>(())
    /// ```
    pub fn row(&self, row: usize) -> Result<Vec<Value>, TableError> {
        if row >= self.rows() {
            let (first, second) = (row as u64, self.rows() as u64);
            let fields = Fields {
                first,
                second,
                third: 0,
            };
            return Err(Error::new(ErrorKind::OutOfBounds as i32, fields).into());
        }
        let found = self.iter().map(|(name, column)| {
            let row = column.at(row);
            row.map_err(TableError::of(name))
        });
        found.collect()
    }

    /// Returns each column in as few runs as possible; lists as they are.
    pub fn encode_rows(&self) -> Result<Table, TableError> {
        let mut encoded = self.held.try_clone()?;
        for (name, column) in self.iter().filter(|(_, column)| !column.kind().is_list()) {
            let column = column.encode_rows().map_err(TableError::of(name))?;
            encoded.put(name, &column)?;
        }
        Table::holding(encoded)
    }

    /// Finds how the columns of another table differ in names, types and logical types, but for null and for the digits
    /// of decimals.
    fn difference(&self, other: &Table) -> Option<Difference> {
        let only_other = other.names().find(|name| self.get(name).is_none());
        let differs = |(name, column): (&str, &Column)| match other.get(name) {
            None => Some(Difference::OnlyFirst(name.to_string())),
            Some(next) => difference(name, column, next),
        };
        let found = self.iter().find_map(differs);
        found.or_else(|| only_other.map(|name| Difference::OnlyOther(name.to_string())))
    }
}

/// Finds how two columns of a name differ in types and logical types.
fn difference(name: &str, column: &Column, next: &Column) -> Option<Difference> {
    let name = name.to_string();
    let (first, other) = (column.kind(), next.kind());
    if first.nullable() != other.nullable() && !first.is_other_decimal(other) {
        return Some(Difference::Kinds { name, first, other });
    }
    let (first, other) = (column.logical_type(), next.logical_type());
    (first != other).then_some(Difference::LogicalTypes { name, first, other })
}
