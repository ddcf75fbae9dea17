//! Equal tables, and copies.
use super::{Table, TableError};

/// Tables compared as wholes.
impl Table {
    /// Returns whether both have the same names in the same order, types, logical types and rows, whatever the forms;
    /// refused only as `OutOfMemory`. Floats are the same where their bits are.
    pub fn same_rows(&self, other: &Table) -> Result<bool, TableError> {
        if self.rows() != other.rows() || self.names != other.names {
            return Ok(false);
        }
        for ((name, column), next) in self.iter().zip(&other.columns) {
            let is_same = column.logical_type() == next.logical_type()
                && column.same_rows(next).map_err(TableError::of(name))?;
            if !is_same {
                return Ok(false);
            }
        }
        Ok(true)
    }

    /// Returns the same table, whose columns share what holds 32 items or more.
    pub fn try_clone(&self) -> Result<Table, TableError> {
        Table::holding(self.held.try_clone()?)
    }
}

/// Compares names, types and rows, as [`Table::same_rows`] finds; panics where memory is refused.
impl PartialEq for Table {
    fn eq(&self, other: &Table) -> bool {
        self.same_rows(other)
            .unwrap_or_else(|error| panic!("tables are not compared: {error}"))
    }
}

impl Eq for Table {}

/// Copies the table, as [`Table::try_clone`] does; panics where memory is refused.
impl Clone for Table {
    fn clone(&self) -> Table {
        self.try_clone()
            .unwrap_or_else(|error| panic!("the table is not copied: {error}"))
    }
}
