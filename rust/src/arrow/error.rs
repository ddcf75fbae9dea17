//! Refusals of what goes in and out.
use super::{ArrowSchema, Reading};
use crate::{Error, ErrorKind, Fields};
use std::fmt;

/// Says why an array is not one of its format.
#[derive(Clone, Copy, Debug, PartialEq, Eq)]
#[non_exhaustive]
pub enum Flaw {
    /// Says that a struct is missing, or was released.
    Released,
    /// Says that a pointer is null which the format needs.
    NoPointer,
    /// Says that there are other buffers or children than the format has.
    Parts,
    /// Says that a length or an offset is negative, or past what there is.
    Length,
    /// Says that `null_count` is not the number of nulls.
    NullCount,
    /// Says that an array of runs has a bitmap, or that a run end is null.
    NullInRuns,
    /// Says that only one of schema and array has a dictionary, or that the codes are not integers.
    Dictionary,
    /// Says that the view of this row is not within its buffers, or does not begin as they do.
    View(u64),
    /// Gives the reason of a later version.
    Other(u64),
}

/// Says what was refused of a call over Arrow's structs; `Display` is a sentence.
#[derive(Clone, Debug, PartialEq, Eq)]
#[non_exhaustive]
pub enum ArrowError {
    /// Refuses as every call does, as a format that is not served.
    Refused(Error),
    /// Says that the array is not one of its format.
    Invalid(Flaw),
    /// Says that the text in this row of an array that came in is not UTF-8.
    NotUtf8(u64),
    /// Says that a run ends past the greatest end of the width that was asked for.
    EndTooLarge {
        /// Is the row before which the run ends.
        end: u64,
        /// Is the greatest end of the width.
        greatest: u64,
    },
    /// Says that the stream answered a number as of `errno.h`, and these words, if any.
    StreamFailed {
        /// Is the stream's own number.
        number: i64,
        /// Has what it said, if anything.
        words: String,
    },
    /// Says that a name or a format has a zero byte, which ends a text of C.
    ZeroByte,
}

impl From<Error> for ArrowError {
    fn from(error: Error) -> ArrowError {
        ArrowError::Refused(error)
    }
}

impl ArrowError {
    /// Puts a refused text in words about its row.
    pub(super) fn of_text(self) -> ArrowError {
        match self {
            ArrowError::Refused(error) if error.number == crate::ErrorKind::TypeMismatch as i32 => {
                ArrowError::NotUtf8(error.fields.first)
            }
            other => other,
        }
    }

    /// Names the first column of chunks, and its format, that is not served as it is read.
    pub(super) fn of_chunk(
        self,
        schema: &ArrowSchema,
        how: impl Fn(usize) -> Reading,
    ) -> ArrowError {
        let is_batch = schema.format() == "+s";
        let count = if is_batch { schema.child_count() } else { 1 };
        let columns = (0..count).filter_map(|place| {
            let column = if is_batch {
                schema.child(place)
            } else {
                Some(schema)
            }?;
            Some((column.name(), unserved_format(column, how(place))?))
        });
        self.of_format(columns)
    }

    /// Names the format of an array that is not served.
    pub(super) fn of_array(self, schema: &ArrowSchema, how: Reading) -> ArrowError {
        let format = schema.value_format();
        let format = format.filter(|format| !is_served(format, how));
        self.of_format(format.into_iter().map(|format| ("", format)))
    }

    fn of_format<'a>(self, mut found: impl Iterator<Item = (&'a str, &'a str)>) -> ArrowError {
        match self {
            ArrowError::Refused(error) if error.kind() == Some(ErrorKind::Unsupported) => {
                ArrowError::Refused(match found.next() {
                    Some((name, format)) => error.of_format(name, format),
                    None => error,
                })
            }
            other => other,
        }
    }

    /// Adds what the stream said.
    pub(super) fn saying(self, said: String) -> ArrowError {
        match self {
            ArrowError::StreamFailed { number, .. } => ArrowError::StreamFailed {
                number,
                words: said,
            },
            other => other,
        }
    }
}

/// Finds the format of the values of a column, or of the items of its lists, where it is not served.
fn unserved_format(column: &ArrowSchema, how: Reading) -> Option<&str> {
    let format = column.value_format()?;
    match column.child(0).filter(|_| matches!(format, "+l" | "+L")) {
        Some(items) => unserved_format(items, how),
        None => Some(format).filter(|format| !is_served(format, how)),
    }
}

/// Returns whether values of a format come in: of decimals those of 256 bits do not, and floats by their bits.
fn is_served(format: &str, how: Reading) -> bool {
    let served = if how == Reading::Bits {
        "bcCsSiIlLuUzZefg"
    } else {
        "bcCsSiIlLuUzZ"
    };
    let is_one_letter = format.len() == 1 && served.contains(format);
    let begins = |with: &[&str]| with.iter().any(|start| format.starts_with(start));
    let is_decimal = begins(&["d:"]) && !format.ends_with(",256");
    let is_other = begins(&["vu", "vz", "w:", "td", "tt", "ts", "tD", "tiM"]);
    how == Reading::LeftOut || is_one_letter || is_decimal || is_other
}

/// Calls what answers by a number and fields, those of `hivevigil_arrow.h` too.
pub(super) fn ask(call: impl FnOnce(*mut Fields) -> i32) -> Result<(), ArrowError> {
    let mut fields = Fields::default();
    let number = call(&mut fields);
    let Fields { first, second, .. } = fields;
    Err(match number {
        0 => return Ok(()),
        101 => ArrowError::Invalid(match first {
            1 => Flaw::Released,
            2 => Flaw::NoPointer,
            3 => Flaw::Parts,
            4 => Flaw::Length,
            5 => Flaw::NullCount,
            6 => Flaw::NullInRuns,
            7 => Flaw::Dictionary,
            8 => Flaw::View(second),
            other => Flaw::Other(other),
        }),
        102 => ArrowError::EndTooLarge {
            end: first,
            greatest: second,
        },
        103 => ArrowError::StreamFailed {
            number: first as i64,
            words: String::new(),
        },
        _ => ArrowError::Refused(Error::new(number, fields)),
    })
}

impl fmt::Display for Flaw {
    fn fmt(&self, formatter: &mut fmt::Formatter<'_>) -> fmt::Result {
        formatter.write_str(match self {
            Flaw::Released => "a struct is missing, or was released",
            Flaw::NoPointer => "a pointer that the format needs is null",
            Flaw::Parts => "it does not have the buffers or the children of its format",
            Flaw::Length => "a length or an offset is negative, or past what there is",
            Flaw::NullCount => "null_count is not the number of nulls",
            Flaw::NullInRuns => "an array of runs has a bitmap, or a run end is null",
            Flaw::Dictionary => {
                "only one of schema and array has a dictionary, or the codes are not integers"
            }
            Flaw::View(row) => {
                let said = "a view is not within its buffers, or does not begin as they do";
                return write!(formatter, "row {row}: {said}");
            }
            Flaw::Other(_) => "it is not one of its format",
        })
    }
}

impl fmt::Display for ArrowError {
    fn fmt(&self, formatter: &mut fmt::Formatter<'_>) -> fmt::Result {
        match self {
            ArrowError::Refused(error) => error.fmt(formatter),
            ArrowError::Invalid(flaw) => write!(formatter, "the Arrow array is not valid: {flaw}"),
            ArrowError::NotUtf8(row) => {
                write!(formatter, "the text in row {row} of an array is not UTF-8")
            }
            ArrowError::EndTooLarge { end, greatest } => write!(
                formatter,
                "a run ends before row {end}, past the greatest end of its width, {greatest}"
            ),
            ArrowError::StreamFailed { number, words } if words.is_empty() => {
                write!(formatter, "the Arrow stream failed with {number}")
            }
            ArrowError::StreamFailed { number, words } => {
                write!(formatter, "the Arrow stream failed with {number}: {words}")
            }
            ArrowError::ZeroByte => {
                formatter.write_str("a name or a format of Arrow has no zero byte")
            }
        }
    }
}

impl std::error::Error for ArrowError {}
