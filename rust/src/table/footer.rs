//! What the end of a file says of a table and its columns.
use super::comparing::may_hold;
use super::differences::is_integer;
use super::message::{put_content, put_number, Fields};
use super::reading::{untyped, Unread};
use super::runs::Shown;
use super::{bounds, no_such, TableError};
use crate::{Column, Error, Form, Kind, Operator, Value};

/// Holds what the end of a file says of a table, for which no column is read.
#[derive(Clone, Debug, PartialEq, Eq)]
pub struct TableFooter {
    /// Counts the rows of each column.
    pub rows: usize,
    /// Says of each column what is known.
    pub columns: Vec<ColumnFooter>,
}

/// Holds what the end of a file says of a column.
#[derive(Clone, Debug, PartialEq, Eq)]
pub struct ColumnFooter {
    /// Names the column.
    pub name: String,
    /// Has its logical type, a format of Arrow, if it has one.
    pub logical_type: Option<String>,
    /// Counts the bytes of its message.
    pub size: usize,
    /// Says what its rows are within; `None` for lists.
    pub rows: Option<RowsFooter>,
}

/// Holds what the rows of a column are within. Floats are by their keys, as the column has them.
#[derive(Clone, Debug, PartialEq, Eq)]
pub struct RowsFooter {
    /// Has the type of the rows.
    pub kind: Kind,
    /// Counts the rows that are null.
    pub nulls: usize,
    /// Counts the runs of the rows, as few as they can be put into.
    pub runs: usize,
    /// Has the least and the greatest row that are not null; `None` where all are null.
    pub bounds: Option<(Value, Value)>,
    /// Says in which form the column comes back that is kept as differences; `None` where its rows are kept.
    pub differences: Option<Form>,
}

impl TableFooter {
    /// Finds what is said of the column of a name; refused as `NoSuchColumn`.
    pub fn column(&self, name: &str) -> Result<&ColumnFooter, TableError> {
        let found = self.columns.iter().find(|column| column.name == name);
        found.ok_or_else(|| no_such(name, self.columns.iter().map(|column| column.name.as_str())))
    }

    /// Returns whether `row operator value` may hold of a row of the column of a name, as [`crate::Table::filter_by`]
    /// compares: where not, the file can be skipped. Refused as that call is, except for lists, which may have any row.
    pub fn may_have(
        &self,
        name: &str,
        operator: Operator,
        value: impl Into<Value>,
    ) -> Result<bool, TableError> {
        let column = self.column(name)?;
        let found = column.may_have(operator, &value.into());
        found.map_err(TableError::of(name))
    }
}

impl TableFooter {
    /// Counts the bytes that the rows of columns take which come back from their differences.
    pub(super) fn kept_bytes<'a>(&self, columns: impl Iterator<Item = &'a ColumnFooter>) -> u64 {
        columns.fold(0, |bytes: u64, column| {
            bytes.saturating_add(column.kept_bytes(self.rows))
        })
    }
}

impl ColumnFooter {
    /// Counts the rows that are written out, or the runs, where the column comes back from its differences.
    pub(super) fn kept_items(&self, rows: usize) -> usize {
        let found = self.rows.as_ref().and_then(|known| {
            known.differences.map(|form| match form {
                Form::Flat => rows,
                _ => known.runs,
            })
        });
        found.unwrap_or(0)
    }

    /// Counts their bytes: each as wide as its type, and 8 for the end of a run.
    fn kept_bytes(&self, rows: usize) -> u64 {
        let each = self.rows.as_ref().map_or(0, |known| {
            let is_in_runs = known.differences == Some(Form::Runs);
            (1 << (known.kind.number % 4)) + if is_in_runs { 8 } else { 0 }
        });
        (self.kept_items(rows) as u64).saturating_mul(each)
    }

    fn may_have(&self, operator: Operator, value: &Value) -> Result<bool, Error> {
        let Some(rows) = &self.rows else {
            return Ok(true);
        };
        let bounds = self.typed(Column::from_bytes(&rows.bounds_message())?)?;
        may_hold(&bounds, operator, value)
    }

    /// Returns a column, or its bounds, under the logical type of the footer.
    pub(super) fn typed(&self, column: Column) -> Result<Column, Error> {
        column.with_logical_type(self.logical_type.as_deref().unwrap_or(""))
    }

    /// Describes a column whose message has `size` bytes, the differences of one that comes back in a form.
    pub(super) fn of(
        name: &str,
        column: &Column,
        size: usize,
        differences: Option<Form>,
    ) -> Result<ColumnFooter, Error> {
        let is_list = column.kind().is_list();
        let rows = (!is_list).then(|| RowsFooter::of(column, differences));
        Ok(ColumnFooter {
            name: name.to_string(),
            logical_type: column.logical_type(),
            size,
            rows: rows.transpose()?,
        })
    }

    /// Writes the message, in this version of tables.
    pub(super) fn message(&self, version: u64) -> Vec<u8> {
        let mut out = Vec::new();
        put_content(&mut out, 1, self.name.as_bytes());
        put_content(
            &mut out,
            2,
            self.logical_type.as_deref().unwrap_or("").as_bytes(),
        );
        put_number(&mut out, 3, self.size as u64);
        if let Some(rows) = &self.rows {
            put_number(&mut out, 4, rows.nulls as u64);
            put_number(&mut out, 5, rows.runs as u64);
            put_content(&mut out, 6, &rows.bounds_message());
            if version == 2 {
                put_number(&mut out, 7, number_of(rows.differences));
            }
        }
        out
    }

    /// Reads the message that was written so.
    pub(super) fn read(message: &[u8], version: u64) -> Result<ColumnFooter, Unread> {
        let mut fields = Fields::of(message);
        let (name, logical_type) = (fields.text(1)?.to_string(), fields.text(2)?);
        let logical_type = (!logical_type.is_empty()).then(|| logical_type.to_string());
        let size = fields.number(3)? as usize;
        let rows = match fields.is_at_end() {
            true => None,
            false => Some(RowsFooter::read(fields, version)?),
        };
        Ok(ColumnFooter {
            name,
            logical_type,
            size,
            rows,
        })
    }
}

impl RowsFooter {
    fn of(column: &Column, differences: Option<Form>) -> Result<RowsFooter, Error> {
        let runs = column.with_logical_type("")?.encode_rows()?; // the bounds are of what is stored
        let bounds = runs.least_and_greatest()?;
        Ok(RowsFooter {
            kind: column.kind(),
            nulls: runs.null_count(),
            runs: Shown::of_runs(&runs)?.stops.len(),
            bounds: (bounds.0 != Value::Null).then_some(bounds),
            differences,
        })
    }

    fn bounds_message(&self) -> Vec<u8> {
        let rows = self
            .bounds
            .iter()
            .flat_map(|(least, greatest)| [least, greatest]);
        bounds::message(self.kind, &rows.collect::<Vec<_>>())
    }

    fn read(mut fields: Fields, version: u64) -> Result<RowsFooter, Unread> {
        let (nulls, runs) = (fields.number(4)? as usize, fields.number(5)? as usize);
        let message = fields.content(6)?;
        let differences = match version {
            2 => form_of(fields.number(7)?)?,
            _ => None,
        };
        let column = untyped(message)?;
        let bounds = match (column.form(), column.len()) {
            (Form::Flat, 0) => None,
            (Form::Flat, 2) => Some((column.at(0)?, column.at(1)?)),
            _ => return Err(Unread::Damaged),
        };
        let kind = column.kind();
        let found = RowsFooter {
            kind,
            nulls,
            runs,
            bounds,
            differences,
        };
        let may_be_kept_so = found.differences.is_none() || is_integer(kind);
        match fields.is_at_end() && may_be_kept_so && found.bounds_message() == message {
            true => Ok(found),
            false => Err(Unread::Damaged),
        }
    }
}

/// Numbers the form of a column that is kept as differences, as docs/table.proto does.
fn number_of(differences: Option<Form>) -> u64 {
    match differences {
        None => 0,
        Some(Form::Flat) => 1,
        Some(_) => 2,
    }
}

fn form_of(differences: u64) -> Result<Option<Form>, Unread> {
    match differences {
        0 => Ok(None),
        1 => Ok(Some(Form::Flat)),
        2 => Ok(Some(Form::Runs)),
        _ => Err(Unread::Damaged),
    }
}
