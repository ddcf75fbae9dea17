//! Refusals of tables.
use super::groups::Asked;
use super::{no_such, Table};
use crate::arrow::ArrowError;
use crate::groups::sums_of;
use crate::{Error, ErrorKind, Fold, Kind};
use std::fmt;
use std::io;
use std::path::PathBuf;

/// Says what a table refused; `Display` is a sentence, which names the column. Where a call is refused, the tables that
/// it was given are as they were.
///
/// ```
/// use hivevigil::{Column, Table, TableError};
/// let levels = Column::new(&[900i32, 901])?;
/// let refused = Table::try_from_iter([("level", levels.clone()), ("level", levels)]).unwrap_err();
/// assert!(matches!(&refused, TableError::RepeatedName(name) if name == "level"));
/// assert_eq!(refused.to_string(), "two columns have the name \"level\"");
/// # Ok::<(), TableError>(())
/// ```
#[derive(Debug)]
#[non_exhaustive]
pub enum TableError {
    /// Refuses what is asked of all rows, as a mask of another length.
    Refused(Error),
    /// Refuses what is asked of one column.
    Column {
        /// Names the column.
        name: String,
        /// Says why, as the call on the column does.
        error: Error,
    },
    /// Says that no column has this name.
    NoSuchColumn {
        /// Has the name that was asked for.
        name: String,
        /// Lists the names that there are.
        names: Vec<String>,
    },
    /// Says that two columns would have this name.
    RepeatedName(String),
    /// Says that a column does not have as many rows as the table.
    UnevenRows {
        /// Names the column.
        name: String,
        /// Counts its rows.
        rows: usize,
        /// Counts the rows of the table.
        expected: usize,
    },
    /// Says how the columns of a table that is appended are others.
    OtherColumns(Difference),
    /// Says that rows are sorted or grouped by no column.
    NoKeys,
    /// Says that the bytes, or those of this file, are not what a table writes.
    Damaged(Option<PathBuf>),
    /// Says that the columns of the bytes, or of this file, that are kept as differences would take more bytes in
    /// memory than the limit. No column is read then.
    OverLimit {
        /// Names the file.
        path: Option<PathBuf>,
        /// Counts the bytes.
        bytes: u64,
        /// Has the limit that was given, or that of [`LoadOptions::default`](crate::LoadOptions).
        limit: u64,
    },
    /// Says that a file is not read or not written.
    File {
        /// Names the file.
        path: PathBuf,
        /// Says why, as the system does.
        error: io::Error,
    },
    /// Refuses what goes to Arrow or comes from there.
    Arrow(ArrowError),
}

/// Says how the columns of one table differ from those of another.
#[derive(Clone, Debug, PartialEq, Eq)]
#[non_exhaustive]
pub enum Difference {
    /// Says that only the first table has a column of this name.
    OnlyFirst(String),
    /// Says that only the other table has one.
    OnlyOther(String),
    /// Says that the columns of this name have two types, of which one is not the other with null.
    Kinds {
        /// Names both columns.
        name: String,
        /// Has the type in the first table.
        first: Kind,
        /// Has that in the other.
        other: Kind,
    },
    /// Says that the columns of this name have two logical types.
    LogicalTypes {
        /// Names both columns.
        name: String,
        /// Has that in the first table, if it has one.
        first: Option<String>,
        /// Has that in the other.
        other: Option<String>,
    },
}

impl TableError {
    /// Names the column that a call refused.
    pub(super) fn of(name: &str) -> impl Fn(Error) -> TableError + '_ {
        |error| TableError::Column {
            name: name.to_string(),
            error,
        }
    }

    /// Names the column that was not put into a table.
    pub(super) fn of_put(name: &str) -> impl Fn(Error) -> TableError + '_ {
        |error| match error.number {
            number::ROW_COUNT => TableError::UnevenRows {
                name: name.to_string(),
                rows: error.fields.second as usize,
                expected: error.fields.third as usize,
            },
            _ => TableError::of(name)(error),
        }
    }
}

/// Has the numbers of `hivevigil_tables.h` by which the library refuses.
pub(super) mod number {
    pub const UNKNOWN_NAME: i32 = 201;
    pub const NAME_TWICE: i32 = 202;
    pub const ROW_COUNT: i32 = 206;
    pub const OTHER_TYPE: i32 = 209;
    pub const NEW_NAME_TWICE: i32 = 210;
    pub const NO_KEYS: i32 = 211;
    pub const KEY_OF_LISTS: i32 = 212;
    pub const UNKNOWN_COLUMN: i32 = 213;
    pub const UNSUPPORTED_ANSWER: i32 = 214;
    pub const ANSWER_TWICE: i32 = 215;
    pub const SUM_OVERFLOW: i32 = 216;
}

impl Table {
    /// Says what a call refused that was lent this table and a column of these names.
    pub(super) fn refusal(&self, error: Error, names: &[&str]) -> TableError {
        let (first, second) = (error.fields.first as usize, error.fields.second as usize);
        match error.number {
            number::UNKNOWN_NAME => no_such(names[first], self.names()),
            number::NAME_TWICE => TableError::RepeatedName(names[second].to_string()),
            number::NO_KEYS => TableError::NoKeys,
            number::KEY_OF_LISTS => TableError::of(names[first])(Error::of(ErrorKind::Unsupported)),
            _ => TableError::Refused(error),
        }
    }

    /// Says what a call refused that was asked this of groups by columns of these names.
    pub(super) fn refusal_of_groups(
        &self,
        error: Error,
        keys: &[&str],
        asked: &[Asked],
    ) -> TableError {
        let (first, second) = (error.fields.first as usize, error.fields.second as usize);
        match error.number {
            number::UNKNOWN_COLUMN => no_such(asked[first].column, self.names()),
            number::ANSWER_TWICE => TableError::RepeatedName(asked[second].name.to_string()),
            number::UNSUPPORTED_ANSWER => {
                let Asked { column, fold, .. } = asked[first];
                let error = Error::of(ErrorKind::Unsupported);
                TableError::of(column)(match fold {
                    Fold::Sum => self[column].without_sum(error),
                    _ => error,
                })
            }
            number::SUM_OVERFLOW => {
                let column = asked[first].column;
                let kind = sums_of(self[column].kind());
                TableError::of(column)(Error::group_overflow(second, kind))
            }
            _ => self.refusal(error, keys),
        }
    }
}

impl From<Error> for TableError {
    fn from(error: Error) -> TableError {
        TableError::Refused(error)
    }
}

impl From<ArrowError> for TableError {
    fn from(error: ArrowError) -> TableError {
        TableError::Arrow(error)
    }
}

impl fmt::Display for Difference {
    fn fmt(&self, formatter: &mut fmt::Formatter<'_>) -> fmt::Result {
        let or_none =
            |format: &Option<String>| format.clone().unwrap_or_else(|| "none".to_string());
        match self {
            Difference::OnlyFirst(name) => write!(formatter, "only the first has {name:?}"),
            Difference::OnlyOther(name) => write!(formatter, "only the other has {name:?}"),
            Difference::Kinds { name, first, other } => {
                write!(formatter, "the types of {name:?} are {first} and {other}")
            }
            Difference::LogicalTypes { name, first, other } => {
                let (first, other) = (or_none(first), or_none(other));
                write!(
                    formatter,
                    "the logical types of {name:?} are {first} and {other}"
                )
            }
        }
    }
}

impl fmt::Display for TableError {
    fn fmt(&self, formatter: &mut fmt::Formatter<'_>) -> fmt::Result {
        match self {
            TableError::Refused(error) => error.fmt(formatter),
            TableError::Column { name, error } => write!(formatter, "column {name:?}: {error}"),
            TableError::NoSuchColumn { name, names } => {
                let some: Vec<&String> = names.iter().take(SHOWN).collect();
                let more = if names.len() > SHOWN { ", .." } else { "" };
                write!(
                    formatter,
                    "no column has the name {name:?}: the names are {some:?}{more}"
                )
            }
            TableError::RepeatedName(name) => {
                write!(formatter, "two columns have the name {name:?}")
            }
            TableError::UnevenRows {
                name,
                rows,
                expected,
            } => {
                write!(
                    formatter,
                    "column {name:?} has {rows} rows, and the table {expected}"
                )
            }
            TableError::OtherColumns(difference) => {
                write!(formatter, "the tables have other columns: {difference}")
            }
            TableError::NoKeys => {
                formatter.write_str("rows are sorted and grouped by at least one column")
            }
            TableError::Damaged(None) => formatter.write_str("the bytes are not those of a table"),
            TableError::Damaged(Some(path)) => {
                write!(formatter, "{} is not the file of a table", path.display())
            }
            TableError::OverLimit { path, bytes, limit } => {
                if let Some(path) = path {
                    write!(formatter, "{}: ", path.display())?;
                }
                write!(
                    formatter,
                    "the columns kept as differences take {bytes} bytes in memory, above the limit of {limit}"
                )
            }
            TableError::File { path, error } => write!(formatter, "{}: {error}", path.display()),
            TableError::Arrow(error) => error.fmt(formatter),
        }
    }
}

const SHOWN: usize = 4; // names in a sentence

impl std::error::Error for TableError {
    fn source(&self) -> Option<&(dyn std::error::Error + 'static)> {
        match self {
            TableError::Column { error, .. } => Some(error),
            TableError::File { error, .. } => Some(error),
            _ => None,
        }
    }
}
