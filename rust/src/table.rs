//! Several named columns of one number of rows, in memory and in a file.
use crate::raw::{Handle, TableHandle};
use crate::{Column, Fields, Kind};
use held::Held;
use std::collections::HashSet;
use std::iter::{FusedIterator, Zip};
use std::ops::Index;
use std::slice;

mod arrow;
mod bounds;
mod columns;
mod comparing;
mod differences;
mod error;
mod floats;
mod footer;
mod groups;
mod held;
mod message;
mod reading;
mod rows;
mod runs;
mod same;
mod show;
mod sorting;
mod writing;

pub use error::{Difference, TableError};
pub use footer::{ColumnFooter, RowsFooter, TableFooter};
pub use groups::Groups;
pub use reading::LoadOptions;
pub use sorting::Order;
pub use writing::SaveOptions;

/// Holds columns by name, all of one number of rows, each in its own form and each with the logical type that it has. A
/// table is a value: each method makes another one, and where it is refused the table is as it was. What several tables
/// share of a column is not copied. Like a column, a table is `Send` and not `Sync`.
///
/// ```
/// use hivevigil::{Column, Operator, Table};
///
/// let stations = Column::try_from(["north", "north", "north", "south"])?.encode_rows()?;
/// let levels = Column::try_from([Some(900), Some(902), None, Some(40)])?;
/// let table = Table::try_from_iter([("station", stations), ("level", levels)])?;
/// assert_eq!((table.rows(), table.len()), (4, 2));
///
/// let high = table.filter_by("level", Operator::GreaterOrEqual, 901)?.select(["level"])?;
/// assert_eq!(high["level"].get::<i32>(0)?, Some(902));
/// let sums = table.group_by(["station"])?.sum("level")?;
/// assert_eq!(sums["level"].options::<i64>()?, [Some(1802), Some(40)]);
///
/// let again = Table::from_bytes(&table.to_bytes()?)?;
/// assert_eq!(again, table);
/// # Ok::<(), hivevigil::TableError>(())
/// ```
pub struct Table {
    held: Held,
    names: Vec<String>,
    columns: Vec<Column>, // copies of those that are held, which share their buffers: these are lent
}

/// Tables made of columns, and what they have.
impl Table {
    /// Makes a table of pairs of a name and a column, in their order. Refused as `RepeatedName`, and as `UnevenRows`
    /// where a column does not have as many rows as the first.
    pub fn try_from_iter<N: Into<String>>(
        columns: impl IntoIterator<Item = (N, Column)>,
    ) -> Result<Table, TableError> {
        let named = columns
            .into_iter()
            .map(|(name, column)| (name.into(), column));
        let columns: Vec<(String, Column)> = named.collect();
        let rows = columns.first().map_or(0, |(_, column)| column.len());
        Table::of(&columns, rows)
    }

    /// Makes a table that has rows, and no columns yet; panics where memory is refused.
    pub fn without_columns(rows: usize) -> Table {
        let made = Held::with_rows(rows).map_err(TableError::from);
        made.and_then(Table::holding)
            .unwrap_or_else(|error| panic!("no table is made: {error}"))
    }

    /// Makes a table of columns of this number of rows.
    fn of(columns: &[(String, Column)], rows: usize) -> Result<Table, TableError> {
        refuse_twice(columns.iter().map(|(name, _)| name.as_str()))?;
        let mut held = Held::with_rows(rows)?;
        for (name, column) in columns {
            held.put(name, column)?;
        }
        Table::holding(held)
    }

    /// Lends the columns of a table that is held.
    fn holding(held: Held) -> Result<Table, TableError> {
        let (names, columns) = (held.names(), held.columns()?);
        Ok(Table {
            held,
            names,
            columns,
        })
    }

    /// Makes a table by a call that is lent this one and a column of names.
    fn by_names(
        &self,
        names: impl IntoIterator<Item = impl AsRef<str>>,
        call: impl FnOnce(*mut TableHandle, *mut Handle, *mut TableHandle, *mut Fields) -> i32,
    ) -> Result<Table, TableError> {
        let names: Vec<_> = names.into_iter().collect();
        let names: Vec<&str> = names.iter().map(AsRef::as_ref).collect();
        let made = self.held.beside(&Column::texts(&names, None)?, call);
        Table::holding(made.map_err(|error| self.refusal(error, &names))?)
    }

    /// Counts the rows of each column.
    pub fn rows(&self) -> usize {
        self.held.rows()
    }

    /// Counts the columns.
    pub fn len(&self) -> usize {
        self.columns.len()
    }

    /// Returns whether the table has no columns.
    pub fn is_empty(&self) -> bool {
        self.columns.is_empty()
    }

    /// Lists the names in their order.
    pub fn names(&self) -> impl ExactSizeIterator<Item = &str> {
        self.names.iter().map(String::as_str)
    }

    /// Finds the column of a name; `None` where there is none. `table["level"]` is the same, and panics there.
    pub fn get(&self, name: &str) -> Option<&Column> {
        self.held.place(name).map(|place| &self.columns[place])
    }

    /// Finds the column of a name; refused as `NoSuchColumn`.
    pub fn column(&self, name: &str) -> Result<&Column, TableError> {
        self.place(name).map(|place| &self.columns[place])
    }

    /// Returns the type of the column of a name; refused as `NoSuchColumn`.
    pub fn kind(&self, name: &str) -> Result<Kind, TableError> {
        self.column(name).map(Column::kind)
    }

    /// Lists the columns with their names, in their order.
    pub fn iter(&self) -> Columns<'_> {
        Columns(self.names.iter().zip(&self.columns))
    }

    /// Counts the bytes that the columns take for what they show, as [`Column::bytes_used`] does.
    pub fn bytes_used(&self) -> usize {
        self.columns.iter().map(Column::bytes_used).sum()
    }

    fn place(&self, name: &str) -> Result<usize, TableError> {
        let found = self.held.place(name);
        found.ok_or_else(|| no_such(name, self.names()))
    }
}

impl Index<&str> for Table {
    type Output = Column;

    /// Finds the column of a name; panics where there is none.
    fn index(&self, name: &str) -> &Column {
        self.column(name).unwrap_or_else(|error| panic!("{error}"))
    }
}

/// Lists the columns of a table with their names, as [`Table::iter`] makes it.
#[derive(Clone)]
pub struct Columns<'a>(Zip<slice::Iter<'a, String>, slice::Iter<'a, Column>>);

impl<'a> Iterator for Columns<'a> {
    type Item = (&'a str, &'a Column);

    fn next(&mut self) -> Option<Self::Item> {
        self.0.next().map(named)
    }

    fn size_hint(&self) -> (usize, Option<usize>) {
        self.0.size_hint()
    }
}

impl DoubleEndedIterator for Columns<'_> {
    fn next_back(&mut self) -> Option<Self::Item> {
        self.0.next_back().map(named)
    }
}

impl ExactSizeIterator for Columns<'_> {}
impl FusedIterator for Columns<'_> {}

impl<'a> IntoIterator for &'a Table {
    type Item = (&'a str, &'a Column);
    type IntoIter = Columns<'a>;

    fn into_iter(self) -> Columns<'a> {
        self.iter()
    }
}

fn named<'a>((name, column): (&'a String, &'a Column)) -> (&'a str, &'a Column) {
    (name, column)
}

fn no_such<'a>(name: &str, names: impl Iterator<Item = &'a str>) -> TableError {
    TableError::NoSuchColumn {
        name: name.to_string(),
        names: names.map(str::to_string).collect(),
    }
}

/// Refuses names of which one is there twice.
fn refuse_twice<'a>(names: impl Iterator<Item = &'a str>) -> Result<(), TableError> {
    let mut seen = HashSet::new();
    for name in names {
        if !seen.insert(name) {
            return Err(TableError::RepeatedName(name.to_string()));
        }
    }
    Ok(())
}
