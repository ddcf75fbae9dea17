//! Columns as arrays, and arrays as columns.
use super::calls::{self, RawOptions};
use super::error::ask;
use super::{ArrowArray, ArrowError, ArrowSchema, Reading};
use crate::column::turn_of;
use crate::raw::Handle;
use crate::scales::at_one_type;
use crate::{Column, Error, Fields, Session};
use std::ffi::CString;
use std::ptr;

/// Chooses the form in which a column goes out.
#[derive(Clone, Copy, Debug, Default, PartialEq, Eq)]
#[repr(u8)]
pub enum ArrowForm {
    /// Writes a flat column as a flat array, runs as run ends, a constant as one run, lists as lists.
    #[default]
    AsItLies = 0,
    /// Writes one level of runs over flat values.
    Runs = 1,
    /// Writes row by row.
    Flat = 2,
}

/// Chooses how a column goes out; by default as it lies, in the least widths that suffice, in the format of its type.
#[derive(Clone, Copy, Debug, Default)]
pub struct ArrowOptions<'a> {
    /// Chooses the form.
    pub form: ArrowForm,
    /// Counts the bits of run ends: 16, 32 or 64; 0 for the least that has the last end.
    pub end_bits: u8,
    /// Counts the bits of the offsets of texts and bytes: 32 or 64; 0 for 32 where they suffice.
    pub offset_bits: u8,
    /// Writes integers of 16, 32 or 64 bits without sign as the floats of these bits.
    pub bits_of_float: bool,
    /// Names the format of the values, as `tsu:UTC` of an i64; `None` for that of their type.
    pub format: Option<&'a str>,
    /// Lends the column whose rows the rows of this one number from 0.
    pub dictionary: Option<&'a Column>,
}

/// Keeps options and what they point to as the library takes them: a copy of the dictionary, which shares its buffers, since
/// a column is lent once to a call.
pub(super) struct Passed<'a> {
    options: ArrowOptions<'a>,
    format: Option<CString>,
    dictionary: Option<Column>,
}

pub(super) fn text_of(text: &str) -> Result<CString, ArrowError> {
    CString::new(text).map_err(|_| ArrowError::ZeroByte)
}

impl<'a> ArrowOptions<'a> {
    pub(super) fn passed(self) -> Result<Passed<'a>, ArrowError> {
        Ok(Passed {
            format: self.format.map(text_of).transpose()?,
            dictionary: self.dictionary.map(Column::try_clone).transpose()?,
            options: self,
        })
    }
}

impl Passed<'_> {
    /// Points to what is passed, as long as it stays where it is.
    pub(super) fn raw(&self) -> RawOptions {
        let format = self.format.as_ref();
        let dictionary = self.dictionary.as_ref();
        RawOptions {
            form: self.options.form as u8,
            end_bits: self.options.end_bits,
            offset_bits: self.options.offset_bits,
            bits_of_float: u8::from(self.options.bits_of_float),
            format: format.map_or(ptr::null(), |format| format.as_ptr()),
            dictionary: dictionary.map_or(ptr::null_mut(), |column| column.handle.get()),
        }
    }
}

/// Columns out of arrays of Arrow, whose shown rows are copied, and as such arrays.
impl Column {
    /// Copies the rows of an array; refused as [`ArrowError::Invalid`] where it is not one of its format, and as
    /// `Unsupported` for a format that is not served.
    ///
    /// # Safety
    /// `array` is of the type that `schema` says, and its buffers are as long as the specification wants them. What the
    /// structs say in themselves is tested.
    pub unsafe fn from_arrow(
        schema: &ArrowSchema,
        array: &ArrowArray,
    ) -> Result<Column, ArrowError> {
        imported(|session, out, fields| calls::hv_import_array(session, schema, array, out, fields))
            .map_err(|error| error.of_array(schema, Reading::Rows))
    }

    /// Copies the same, and floats, at any depth, as integers of 16, 32 or 64 bits without sign that have their bits.
    ///
    /// # Safety
    /// Same as for [`Column::from_arrow`].
    pub unsafe fn from_arrow_bits(
        schema: &ArrowSchema,
        array: &ArrowArray,
    ) -> Result<Column, ArrowError> {
        imported(|session, out, fields| calls::hv_import_bits(session, schema, array, out, fields))
            .map_err(|error| error.of_array(schema, Reading::Bits))
    }

    /// Copies one child of a batch: the rows that the batch shows, null also where the batch's row is null.
    ///
    /// # Safety
    /// Same as for [`Column::from_arrow`].
    pub unsafe fn from_arrow_child(
        schema: &ArrowSchema,
        batch: &ArrowArray,
        child: usize,
    ) -> Result<Column, ArrowError> {
        let child = i64::try_from(child).unwrap_or(i64::MAX);
        imported(|session, out, fields| {
            calls::hv_import_child(session, schema, batch, child, out, fields)
        })
    }

    /// Copies one child of a batch, floats as [`Column::from_arrow_bits`] has them.
    ///
    /// # Safety
    /// Same as for [`Column::from_arrow`].
    pub unsafe fn from_arrow_child_bits(
        schema: &ArrowSchema,
        batch: &ArrowArray,
        child: usize,
    ) -> Result<Column, ArrowError> {
        let child = i64::try_from(child).unwrap_or(i64::MAX);
        imported(|session, out, fields| {
            calls::hv_import_child_bits(session, schema, batch, child, out, fields)
        })
    }

    /// Writes the column as an array with its schema, as it lies.
    pub fn to_arrow(&self, name: &str) -> Result<(ArrowSchema, ArrowArray), ArrowError> {
        self.to_arrow_with(name, &ArrowOptions::default())
    }

    /// Writes the column as an array with its schema. Refused as [`ArrowError::EndTooLarge`] or `CastOutOfRange` where
    /// ends or offsets do not fit the width that is asked for, as `TypeMismatch` for a format that is not one of the
    /// type and for codes that are not integers, as `OutOfBounds` for a code past the dictionary, as `Unsupported` for
    /// decimals of a precision that Arrow has not, and as `BadNumber` for bits other than those named.
    ///
    /// ```
    /// use hivevigil::{arrow::ArrowOptions, Column};
    /// let options = ArrowOptions { format: Some("tdD"), ..ArrowOptions::default() };
    /// let (schema, _) = Column::new(&[19_000i32, 19_001])?.to_arrow_with("day", &options)?;
    /// assert_eq!((schema.name(), schema.format()), ("day", "tdD"));
    /// # Ok::<(), hivevigil::arrow::ArrowError>(())
    /// ```
    pub fn to_arrow_with(
        &self,
        name: &str,
        options: &ArrowOptions,
    ) -> Result<(ArrowSchema, ArrowArray), ArrowError> {
        let (name, passed, session) = (text_of(name)?, options.passed()?, Session::initial());
        let (mut schema, mut array) = (ArrowSchema::empty(), ArrowArray::empty());
        let _turn = turn_of(&lent(self, options));
        ask(|fields| unsafe {
            calls::hv_export_with(
                &session,
                self.handle.get(),
                name.as_ptr(),
                &passed.raw(),
                &mut schema,
                &mut array,
                fields,
            )
        })?;
        Ok((schema, array))
    }
}

/// Lists what a call is lent.
pub(super) fn lent<'a>(column: &'a Column, options: &ArrowOptions<'a>) -> Vec<&'a Column> {
    options.dictionary.into_iter().chain([column]).collect()
}

fn imported(
    call: impl FnOnce(*const Session, *mut Handle, *mut Fields) -> i32,
) -> Result<Column, ArrowError> {
    let (session, column) = (Session::initial(), Column::none());
    match ask(|fields| call(&session, column.handle.get(), fields)) {
        Ok(()) => Ok(column),
        Err(error) => Err(error.of_text()),
    }
}

/// Joins columns of one type, but for null, one after the other: runs over flat values where each is runs or a
/// constant, or where there are more than 64 rows for each run and each flat row, else flat; lists as lists; decimals of
/// several types as those of one that has the digits of each. Refused as `TypeMismatch` for two types, as `Unsupported`
/// for no columns, and as `CastOutOfRange` for a row that has more than 38 digits at the greatest scale.
///
/// ```
/// use hivevigil::{arrow::concat, Column, Form};
/// let runs = Column::new(&[4i64, 4])?.encode()?;
/// let twice = concat(&[&runs, &runs])?;
/// assert_eq!((twice.form(), twice.numbers::<i64>()?), (Form::Runs, vec![4; 4]));
/// # Ok::<(), hivevigil::Error>(())
/// ```
pub fn concat(columns: &[&Column]) -> Result<Column, Error> {
    let copies = match at_one_type(columns)? {
        Some(copies) => copies,
        None => columns
            .iter()
            .map(|column| column.try_clone())
            .collect::<Result<Vec<_>, _>>()?,
    };
    let mut handles = handles_of(&copies);
    let session = Session::initial();
    let _turn = turn_of(columns);
    let (count, at) = (handles.len(), handles.as_mut_ptr());
    Column::made(|out, fields| unsafe {
        calls::hv_concat_columns(&session, at, count, out, fields)
    })
}

/// Copies handles next to one another, for a call that is lent several columns.
pub(super) fn handles_of(columns: &[Column]) -> Vec<Handle> {
    let handles = columns.iter().map(|column| Handle {
        at: unsafe { (*column.handle.get()).at },
    });
    handles.collect()
}
