//! Rows that come batch by batch, encoded.
use crate::raw::{self, BuilderHandle};
use crate::{ask, Column, Error, ErrorKind, Kind, Value};
use std::cell::UnsafeCell;
use std::fmt;
use std::ptr;

/// The encoding of rows that come batch by batch: an end and a value for each run, and nothing for a row. Where a call
/// is refused, the builder has the rows that it had.
///
/// ```
/// use hivevigil::{Builder, Column, Kind, Value};
///
/// let mut builder = Builder::new(Kind::I64.nullable())?;
/// builder.append(&Column::try_from(&[Some(7i64), Some(7), None])?)?;
/// builder.append_value(Value::Null, 1_000)?;
/// assert_eq!((builder.len(), builder.runs()), (1_003, 2));
/// let runs = builder.finish()?;
/// assert_eq!(runs.at(2)?, Value::Null);
/// # Ok::<(), hivevigil::Error>(())
/// ```
pub struct Builder {
    handle: UnsafeCell<BuilderHandle>, // a call that reads takes the builder out of the handle and puts it back
    kind: Kind,
}

// A builder is on the heap of the process, bound to no thread.
unsafe impl Send for Builder {}

impl Drop for Builder {
    fn drop(&mut self) {
        unsafe { raw::hv_builder_free(self.handle.get()) }
    }
}

impl Builder {
    /// Makes a builder of rows of this type, which is not one of lists. It has no rows.
    pub fn new(kind: Kind) -> Result<Builder, Error> {
        let at = ptr::null_mut();
        let handle = UnsafeCell::new(BuilderHandle { at });
        let builder = Builder { handle, kind };
        ask(|fields| unsafe { raw::hv_builder_new(&kind, builder.handle.get(), fields) })?;
        Ok(builder)
    }

    /// Appends the rows of a column, in any form; refused as `TypeMismatch` unless it is of the builder's type, also
    /// where only one of the two types has null.
    pub fn append(&mut self, batch: &Column) -> Result<(), Error> {
        let (kind, other) = (self.kind, batch.kind());
        ask(|fields| unsafe { raw::hv_append(self.handle.get(), batch.handle.get(), fields) })
            .map_err(|error| {
                error.about(
                    ErrorKind::TypeMismatch,
                    other,
                    "does not go into a builder of",
                    Some(kind),
                )
            })
    }

    /// Appends `count` rows of one value; refused as `CastOutOfRange` for a number that the type does not have, as
    /// `TypeMismatch` for a value of another sort, and as `NullNotAllowed` for null in a type without null.
    pub fn append_value(&mut self, value: impl Into<Value>, count: usize) -> Result<(), Error> {
        self.append_row(&value.into().fitted(self.kind)?, count)
    }

    /// Appends `count` rows that are one of the type.
    pub(crate) fn append_row(&mut self, row: &Value, count: usize) -> Result<(), Error> {
        let (passed, text) = row.passed();
        let (handle, bytes) = (self.handle.get(), text.as_ptr());
        ask(|fields| unsafe {
            raw::hv_append_value(handle, &passed, bytes, text.len(), count, fields)
        })
        .map_err(|error| error.of_null(self.kind))
    }

    /// Returns all rows so far as runs, as few as there can be. The builder keeps its rows.
    pub fn encoding(&self) -> Result<Column, Error> {
        Column::made(|out, fields| unsafe { raw::hv_encoding(self.handle.get(), out, fields) })
    }

    /// Returns the same, made of the builder's own memory where that can be. The builder has no rows after, and takes
    /// others; where the call is refused, it is as it was.
    pub fn finish(&mut self) -> Result<Column, Error> {
        Column::made(|out, fields| unsafe { raw::hv_finish(self.handle.get(), out, fields) })
    }

    /// Returns the type of the rows.
    pub fn kind(&self) -> Kind {
        self.kind
    }

    /// Counts the rows.
    pub fn len(&self) -> usize {
        unsafe { raw::hv_builder_rows(self.handle.get()) }
    }

    /// Returns whether the builder has no rows.
    pub fn is_empty(&self) -> bool {
        self.len() == 0
    }

    /// Counts the runs that are held: as many as the encoding has.
    pub fn runs(&self) -> usize {
        unsafe { raw::hv_builder_runs(self.handle.get()) }
    }
}

impl fmt::Debug for Builder {
    fn fmt(&self, formatter: &mut fmt::Formatter<'_>) -> fmt::Result {
        write!(
            formatter,
            "Builder {{ rows: {}, runs: {} }}",
            self.len(),
            self.runs()
        )
    }
}
