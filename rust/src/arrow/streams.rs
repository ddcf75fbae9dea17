//! Streams of arrays, in and out.
use super::calls::{self, RawOptions, RawReader};
use super::columns::{handles_of, lent, text_of, Passed};
use super::error::ask;
use super::{ArrowArray, ArrowArrayStream, ArrowError, ArrowOptions, ArrowSchema};
use crate::column::turn_of;
use crate::raw::Handle;
use crate::{Column, Session};
use std::ffi::{c_char, CStr, CString};
use std::fmt;
use std::iter::FusedIterator;
use std::ptr;

/// Chooses how a column of the chunks that follow is read.
#[derive(Clone, Copy, Debug, Default, PartialEq, Eq)]
#[repr(u8)]
pub enum Reading {
    /// Reads it as it is.
    #[default]
    Rows = 0,
    /// Leaves it out.
    LeftOut = 1,
    /// Reads floats as integers without sign that have their bits.
    Bits = 2,
}

/// Reads the chunks of a stream, each as a column for each column of a batch, `None` for one that is left out, or as one
/// column of an array. A chunk that is refused is gone; after a failure of the stream there is none. A dictionary that
/// chunks share is read once.
pub struct ArrowReader {
    at: *mut RawReader,
    shares_lists: bool, // with what the reader keeps of a dictionary
    how: Vec<Reading>,  // of the columns that were chosen, those before them, and no more
}

// A reader is on the heap of the process, and its stream may be released on any thread.
unsafe impl Send for ArrowReader {}

impl Drop for ArrowReader {
    fn drop(&mut self) {
        unsafe { calls::hv_close_stream(self.at) }
    }
}

impl ArrowReader {
    /// Takes over a stream, and asks it for its schema; refused as [`ArrowError::StreamFailed`] where it gives none,
    /// and as [`ArrowError::Invalid`] where it was released. The stream is released where the reader is dropped.
    pub fn open(mut stream: ArrowArrayStream) -> Result<ArrowReader, ArrowError> {
        let mut at = ptr::null_mut();
        let answer = ask(|fields| unsafe { calls::hv_open_stream(&mut stream, &mut at, fields) });
        let mut reader = ArrowReader {
            at,
            shares_lists: false,
            how: Vec::new(),
        };
        match answer {
            Ok(()) => {
                reader.shares_lists = reader.schema().has_dictionary();
                Ok(reader)
            }
            Err(error) if at.is_null() => Err(error),
            Err(error) => Err(error.saying(reader.words())),
        }
    }

    /// Returns the schema of every chunk.
    pub fn schema(&self) -> &ArrowSchema {
        unsafe { &*calls::hv_stream_schema(self.at) }
    }

    /// Counts the columns of a chunk.
    pub fn width(&self) -> usize {
        unsafe { calls::hv_stream_width(self.at) }
    }

    /// Chooses how a column of the chunks that follow is read. A number that no column has is ignored.
    pub fn choose(&mut self, column: usize, how: Reading) {
        unsafe { calls::hv_stream_choose(self.at, column, how as u8) }
        if column < self.width() {
            self.how
                .resize(self.how.len().max(column + 1), Reading::Rows);
            self.how[column] = how;
        }
    }

    fn words(&self) -> String {
        let words = unsafe { CStr::from_ptr(calls::hv_stream_words(self.at)) };
        words.to_string_lossy().into_owned()
    }

    fn chunk(&mut self) -> Result<Option<Vec<Option<Column>>>, ArrowError> {
        let (session, mut handles, mut more) = (Session::initial(), none_of(self.width()), 0);
        let (places, count) = (handles.as_mut_ptr(), handles.len());
        ask(|fields| unsafe {
            calls::hv_stream_next(&session, self.at, places, count, &mut more, fields)
        })
        .map_err(|error| {
            let how = |place| self.how.get(place).copied().unwrap_or_default();
            let error = error.of_text().of_chunk(self.schema(), how);
            error.saying(self.words())
        })?;
        if more == 0 {
            return Ok(None);
        }
        let columns = owned(handles).into_iter().map(|column| self.apart(column));
        columns.collect::<Result<_, _>>().map(Some)
    }

    /// Copies lists that share elements with the reader, which may go to another thread.
    fn apart(&self, column: Option<Column>) -> Result<Option<Column>, ArrowError> {
        match column {
            Some(lists) if self.shares_lists && lists.kind().is_list() => {
                Ok(Some(lists.try_compact()?))
            }
            other => Ok(other),
        }
    }
}

impl Iterator for ArrowReader {
    type Item = Result<Vec<Option<Column>>, ArrowError>;

    fn next(&mut self) -> Option<Self::Item> {
        self.chunk().transpose()
    }
}

impl FusedIterator for ArrowReader {}

impl fmt::Debug for ArrowReader {
    fn fmt(&self, formatter: &mut fmt::Formatter<'_>) -> fmt::Result {
        formatter
            .debug_struct("ArrowReader")
            .field("schema", self.schema())
            .finish_non_exhaustive()
    }
}

fn none_of(count: usize) -> Vec<Handle> {
    (0..count)
        .map(|_| Handle {
            at: ptr::null_mut(),
        })
        .collect()
}

/// Takes over the columns that a call put in handles, none where it left one as it was.
fn owned(handles: Vec<Handle>) -> Vec<Option<Column>> {
    let columns = handles.into_iter().map(|handle| {
        (!handle.at.is_null()).then(|| {
            let column = Column::none();
            unsafe { *column.handle.get() = handle };
            column
        })
    });
    columns.collect()
}

/// Streams as columns, and columns as streams.
impl ArrowArrayStream {
    /// Asks the stream for the schema of its arrays; refused as [`ArrowError::StreamFailed`].
    pub fn schema(&mut self) -> Result<ArrowSchema, ArrowError> {
        let mut schema = ArrowSchema::empty();
        let Some(get_schema) = self.get_schema.filter(|_| !self.is_released()) else {
            return Err(ArrowError::Invalid(super::Flaw::Released));
        };
        match unsafe { get_schema(self, &mut schema) } {
            0 => Ok(schema),
            number => {
                std::mem::forget(schema); // what a stream leaves that failed is not a schema
                Err(ArrowError::StreamFailed {
                    number: number.into(),
                    words: self.words(),
                })
            }
        }
    }

    /// Takes the next array of the stream, `None` after the last; refused as [`ArrowError::StreamFailed`].
    pub fn next_array(&mut self) -> Result<Option<ArrowArray>, ArrowError> {
        let mut array = ArrowArray::empty();
        let Some(get_next) = self.get_next.filter(|_| !self.is_released()) else {
            return Err(ArrowError::Invalid(super::Flaw::Released));
        };
        match unsafe { get_next(self, &mut array) } {
            0 => Ok(Some(array).filter(|array| !array.is_released())),
            number => {
                std::mem::forget(array); // what a stream leaves that failed is not an array
                Err(ArrowError::StreamFailed {
                    number: number.into(),
                    words: self.words(),
                })
            }
        }
    }

    fn words(&mut self) -> String {
        let words = self
            .get_last_error
            .map_or(ptr::null(), |ask| unsafe { ask(self) });
        if words.is_null() {
            return String::new();
        }
        unsafe { CStr::from_ptr(words) }
            .to_string_lossy()
            .into_owned()
    }

    /// Reads all chunks as one column for each column of a chunk, without rows where the stream has no chunk: runs
    /// where each chunk came as runs, else flat. `how` says how the columns are read, those that it does not reach as
    /// they are.
    pub fn into_columns(mut self, how: &[Reading]) -> Result<Vec<Option<Column>>, ArrowError> {
        const ROOM: usize = 512;
        let schema = self.schema()?;
        let width = if schema.format() == "+s" {
            schema.child_count()
        } else {
            1
        };
        let (session, mut handles) = (Session::initial(), none_of(width));
        let mut choices: Vec<u8> = how.iter().map(|how| *how as u8).collect();
        choices.resize(width, Reading::Rows as u8);
        let mut words = vec![0u8; ROOM];
        ask(|fields| unsafe {
            let (said, places) = (words.as_mut_ptr().cast::<c_char>(), handles.as_mut_ptr());
            let how = choices.as_ptr();
            calls::hv_import_stream(&session, &mut self, places, width, how, said, ROOM, fields)
        })
        .map_err(|error| {
            let end = words.iter().position(|byte| *byte == 0).unwrap_or(0);
            let how = |place| how.get(place).copied().unwrap_or_default();
            let error = error.of_text().of_chunk(&schema, how);
            error.saying(String::from_utf8_lossy(&words[..end]).into_owned())
        })?;
        Ok(owned(handles))
    }

    /// Makes a stream of batches of `chunk_rows` rows, the last one of what is left, or of one batch where it is 0. All
    /// is copied now, so that the stream is free of the columns and their thread. Options that are not set are of 32
    /// bits here, and each chunk has the schema of the first. Refused as `ColumnLength` where columns differ in their
    /// number of rows, as `Unsupported` for no columns, and else as [`Column::to_arrow_with`].
    pub fn of_batches(
        columns: &[(&str, &Column, ArrowOptions)],
        chunk_rows: usize,
    ) -> Result<ArrowArrayStream, ArrowError> {
        let names = columns.iter().map(|(name, _, _)| text_of(name));
        let names = names.collect::<Result<Vec<CString>, _>>()?;
        let pointers: Vec<*const c_char> = names.iter().map(|name| name.as_ptr()).collect();
        let parts: Vec<_> = columns
            .iter()
            .map(|(_, column, options)| (*column, *options))
            .collect();
        // no columns are refused by the library, which is then given an address that is not null
        stream_of(&parts, pointers.as_ptr(), chunk_rows)
    }

    /// Makes the same stream of the arrays of one column.
    pub fn of_arrays(
        column: &Column,
        options: &ArrowOptions,
        chunk_rows: usize,
    ) -> Result<ArrowArrayStream, ArrowError> {
        stream_of(&[(column, *options)], ptr::null(), chunk_rows)
    }
}

fn stream_of(
    parts: &[(&Column, ArrowOptions)],
    names: *const *const c_char,
    chunk_rows: usize,
) -> Result<ArrowArrayStream, ArrowError> {
    let copies = parts.iter().map(|(column, _)| column.try_clone());
    let copies = copies.collect::<Result<Vec<Column>, _>>()?;
    let passed = parts.iter().map(|(_, options)| options.passed());
    let passed = passed.collect::<Result<Vec<Passed>, _>>()?;
    let lent: Vec<&Column> = parts
        .iter()
        .flat_map(|(column, options)| lent(column, options))
        .collect();
    let options: Vec<RawOptions> = passed.iter().map(Passed::raw).collect();
    let (session, mut handles) = (Session::initial(), handles_of(&copies));
    let (mut stream, columns, count) =
        (ArrowArrayStream::empty(), handles.as_mut_ptr(), parts.len());
    let _turn = turn_of(&lent);
    ask(|fields| unsafe {
        calls::hv_export_stream(
            &session,
            columns,
            names,
            count,
            chunk_rows,
            options.as_ptr(),
            &mut stream,
            fields,
        )
    })?;
    Ok(stream)
}
