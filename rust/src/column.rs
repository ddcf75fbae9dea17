//! Columns, and how they are made of rows.
use crate::raw::{self, Handle};
use crate::{ask, Error, Fields, Kind, Native, Value};
use std::cell::UnsafeCell;
use std::ptr;
use std::sync::{Mutex, MutexGuard, PoisonError};

/// A column. It is `Send`: the owners of shared buffers are counted by atomics, and those of the elements of lists by
/// calls that wait for one another. It is not `Sync`, since a call that reads takes the column out of its handle.
/// Commands run in the initial session.
pub struct Column {
    pub(crate) handle: UnsafeCell<Handle>, // a call that reads takes the column out of the handle and puts it back
}

// A column is on the heap of the process, bound to no thread.
unsafe impl Send for Column {}

impl Drop for Column {
    fn drop(&mut self) {
        let _turn = turn_of(&[self]);
        unsafe { raw::hv_free(self.handle.get()) }
    }
}

/// Held while a call counts owners of the elements of lists, which the library counts without atomics: columns of lists
/// that were made one from the other may be on several threads, and so one call at a time is lent any, makes or frees
/// it.
static LISTS: Mutex<()> = Mutex::new(());

/// Takes the turn of a call that these columns are lent to, if one of them is of lists.
pub(crate) fn turn_of(columns: &[&Column]) -> Option<MutexGuard<'static, ()>> {
    turn_if(columns.iter().any(|column| column.kind().is_list()))
}

/// Takes the turn of a call that is lent lists, if these are.
pub(crate) fn turn_if(are_lists: bool) -> Option<MutexGuard<'static, ()>> {
    are_lists.then(|| LISTS.lock().unwrap_or_else(PoisonError::into_inner))
}

/// Packs flags as bits, 8 to a byte, and a byte where there are none.
fn bits_of(flags: &[bool]) -> Vec<u8> {
    let mut bits = vec![0u8; flags.len() / 8 + 1];
    for (row, flag) in flags.iter().enumerate() {
        bits[row / 8] |= u8::from(*flag) << (row % 8);
    }
    bits
}

/// What the makers take as validity: which rows are null, of how many.
struct Nulls {
    number: u8,
    bits: Vec<u8>,
}

impl Nulls {
    fn of(rows: usize, valid: Option<&[bool]>) -> Result<Nulls, Error> {
        let flags = valid.unwrap_or(&[]);
        if valid.is_some() && flags.len() != rows {
            return Err(Error::lengths(rows, flags.len()));
        }
        let number = if valid.is_some() { 2 } else { 0 };
        Ok(Nulls {
            number,
            bits: bits_of(flags),
        })
    }
}

/// Columns made of rows.
impl Column {
    pub(crate) fn made(
        call: impl FnOnce(*mut Handle, *mut Fields) -> i32,
    ) -> Result<Column, Error> {
        let column = Column::none();
        ask(|fields| call(column.handle.get(), fields))?;
        Ok(column)
    }

    /// Holds no column yet, for a call to put one in.
    pub(crate) fn none() -> Column {
        Column {
            handle: UnsafeCell::new(Handle {
                at: ptr::null_mut(),
            }),
        }
    }

    /// Calls with this column.
    pub(crate) fn part(
        &self,
        call: impl FnOnce(*mut Handle, *mut Handle, *mut Fields) -> i32,
    ) -> Result<Column, Error> {
        let _turn = turn_of(&[self]);
        Column::made(|out, fields| call(self.handle.get(), out, fields))
    }

    /// Calls with this column and another: two handles, so that a column that is lent twice is cloned first.
    pub(crate) fn beside(
        &self,
        other: &Column,
        call: impl FnOnce(*mut Handle, *mut Handle, *mut Fields) -> i32,
    ) -> Result<Column, Error> {
        if ptr::eq(self, other) {
            let copy = other.try_clone()?;
            return self.beside(&copy, call);
        }
        let _turn = turn_of(&[self, other]);
        Column::made(|out, fields| call(other.handle.get(), out, fields))
    }

    /// Integers, of which none is null.
    pub fn new<T: Native>(items: &[T]) -> Result<Column, Error> {
        Column::with_validity(items, None)
    }

    /// Integers, null where the flag is false.
    pub fn with_validity<T: Native>(items: &[T], valid: Option<&[bool]>) -> Result<Column, Error> {
        let nulls = Nulls::of(items.len(), valid)?;
        Column::made(|out, fields| unsafe {
            T::make(items, nulls.number, &nulls.bits, out, fields)
        })
    }

    /// Makes integers of a type with null, of which none is null.
    pub(crate) fn all_valid<T: Native>(items: &[T]) -> Result<Column, Error> {
        const ALL_VALID: u8 = 1;
        Column::made(|out, fields| unsafe { T::make(items, ALL_VALID, &[], out, fields) })
    }

    /// Booleans, null where `valid` is given and false.
    pub fn truths(rows: &[bool], valid: Option<&[bool]>) -> Result<Column, Error> {
        let (nulls, truths) = (Nulls::of(rows.len(), valid)?, bits_of(rows));
        let (bits, count) = (nulls.bits.as_ptr(), nulls.bits.len());
        Column::made(|out, fields| unsafe {
            raw::hv_bools(
                truths.as_ptr(),
                truths.len(),
                0,
                rows.len(),
                nulls.number,
                bits,
                count,
                0,
                out,
                fields,
            )
        })
    }

    /// Numbers of `precision` digits, `scale` of them after the point: 12 with scale 1 is 1.2. How many digits they
    /// have is not tested.
    pub fn decimals(
        rows: &[i128],
        precision: u8,
        scale: i8,
        valid: Option<&[bool]>,
    ) -> Result<Column, Error> {
        let nulls = Nulls::of(rows.len(), valid)?;
        let pair = |row: &i128| raw::Pair {
            low: *row as u64,
            high: (*row >> 64) as i64,
        };
        let pairs: Vec<raw::Pair> = rows.iter().map(pair).collect();
        let (bits, count) = (nulls.bits.as_ptr(), nulls.bits.len());
        Column::made(|out, fields| unsafe {
            raw::hv_decimals(
                pairs.as_ptr(),
                pairs.len(),
                precision,
                scale,
                nulls.number,
                bits,
                count,
                0,
                out,
                fields,
            )
        })
    }

    /// Texts, null where `valid` is given and false.
    pub fn texts(rows: &[&str], valid: Option<&[bool]>) -> Result<Column, Error> {
        let rows: Vec<&[u8]> = rows.iter().map(|row| row.as_bytes()).collect();
        Column::cut(false, &rows, valid)
    }

    /// Bytes, null where `valid` is given and false.
    pub fn bytes(rows: &[&[u8]], valid: Option<&[bool]>) -> Result<Column, Error> {
        Column::cut(true, rows, valid)
    }

    fn cut(binary: bool, rows: &[&[u8]], valid: Option<&[bool]>) -> Result<Column, Error> {
        let (nulls, bytes) = (Nulls::of(rows.len(), valid)?, rows.concat());
        let mut offsets = vec![0i64];
        for row in rows {
            offsets.push(offsets[offsets.len() - 1] + row.len() as i64);
        }
        let (bits, count) = (nulls.bits.as_ptr(), nulls.bits.len());
        Column::made(|out, fields| unsafe {
            let (starts, some) = (offsets.as_ptr(), bytes.as_ptr());
            raw::hv_large_texts(
                u8::from(binary),
                starts,
                offsets.len(),
                some,
                bytes.len(),
                nulls.number,
                bits,
                count,
                0,
                out,
                fields,
            )
        })
    }

    /// Makes a column of the value in each of `rows` rows of a type, in memory for one; refused as `NullNotAllowed` for
    /// null in a type without null, as `CastOutOfRange` for a number that the type does not have, and as `TypeMismatch`
    /// for a value of another sort.
    ///
    /// ```
    /// use hivevigil::{Column, Kind, Value};
    /// let column = Column::constant(Kind::U8, 7, 1 << 60)?;
    /// assert_eq!((column.len(), column.at(5)?), (1 << 60, Value::Unsigned(7)));
    /// # Ok::<(), hivevigil::Error>(())
    /// ```
    pub fn constant(kind: Kind, value: impl Into<Value>, rows: usize) -> Result<Column, Error> {
        let value = value.into().fitted(kind)?;
        let (passed, text) = value.passed();
        Column::made(|out, fields| unsafe {
            raw::hv_constant(&kind, &passed, text.as_ptr(), text.len(), rows, out, fields)
        })
        .map_err(|error| error.of_null(kind))
    }

    /// Runs of these ends and values, of which `rows` rows from row `offset` on are shown. Both are copied.
    pub fn from_runs(
        ends: &Column,
        values: &Column,
        offset: usize,
        rows: usize,
    ) -> Result<Column, Error> {
        ends.beside(values, |values, out, fields| unsafe {
            raw::hv_runs(ends.handle.get(), values, offset, rows, out, fields)
        })
    }

    /// Makes the runs that a record describes, over these ends and values.
    pub fn deserialize(
        kind: Kind,
        rows: usize,
        record: &[u8],
        ends: &Column,
        values: &Column,
    ) -> Result<Column, Error> {
        ends.beside(values, |values, out, fields| unsafe {
            raw::hv_deserialize(
                &kind,
                rows,
                record.as_ptr(),
                record.len(),
                ends.handle.get(),
                values,
                out,
                fields,
            )
        })
    }

    /// Reads the column that [`Column::to_bytes`] wrote, with its logical type; refused as `BadMetadata` for bytes that
    /// are not a column's message.
    pub fn from_bytes(message: &[u8]) -> Result<Column, Error> {
        Column::made(|out, fields| unsafe {
            raw::hv_read_column(message.as_ptr(), message.len(), out, fields)
        })
    }

    /// Returns whether the bytes are what [`Column::to_bytes`] writes of some column. Nothing is made.
    pub fn is_message(bytes: &[u8]) -> bool {
        let (mut truth, mut fields) = (0, Fields::default());
        unsafe { raw::hv_is_message(bytes.as_ptr(), bytes.len(), &mut truth, &mut fields) };
        truth != 0
    }

    /// Returns the same column in the same form. What holds 32 items or more is shared and not copied.
    pub fn try_clone(&self) -> Result<Column, Error> {
        self.part(|column, out, fields| unsafe { raw::hv_clone(column, out, fields) })
    }

    /// Copies the column in its form, into buffers that no other column shares except the bytes of texts. A slice of
    /// a few rows keeps the whole buffers that it is a part of; of its compact copy they may be freed.
    pub fn try_compact(&self) -> Result<Column, Error> {
        self.part(|column, out, fields| unsafe { raw::hv_compact(column, out, fields) })
    }
}

/// What the rows of a column mean. Calls that give back its rows keep it: copies, slices, takes, filters and so on, as
/// `hivevigil.h` lists them. Rows that are looked up, sums, and the least and the greatest row go by it: floats are
/// floats, and dates have no sum. All other calls take rows as they are stored.
impl Column {
    /// Returns the logical type, a format of Arrow as `tsu:UTC`; `None` where the column has none.
    ///
    /// ```
    /// use hivevigil::Column;
    /// let days = Column::new(&[19_783i32, 19_783, 19_784])?.with_logical_type("tdD")?;
    /// assert_eq!(days.encode()?.slice(1..)?.logical_type().as_deref(), Some("tdD"));
    /// # Ok::<(), hivevigil::Error>(())
    /// ```
    pub fn logical_type(&self) -> Option<String> {
        let (mut format, mut size) = (vec![0u8; 32], 0);
        while let Err(error) = ask(|fields| unsafe {
            let (room, len) = (format.as_mut_ptr(), format.len());
            raw::hv_type(self.handle.get(), room, len, &mut size, fields)
        }) {
            format.resize(error.fields.first as usize, 0); // it has as many bytes
        }
        format.truncate(size);
        let format = String::from_utf8(format).expect("formats are UTF-8");
        (!format.is_empty()).then_some(format)
    }

    /// Returns the column under a format of Arrow that says what its rows mean; the empty format takes it away. Any is
    /// kept, and none is tested.
    pub fn with_logical_type(&self, format: &str) -> Result<Column, Error> {
        self.part(|column, out, fields| unsafe {
            raw::hv_with_type(column, format.as_ptr(), format.len(), out, fields)
        })
    }

    /// Returns the column under the logical type of another, or under none.
    pub(crate) fn typed_as(&self, other: &Column) -> Result<Column, Error> {
        self.with_logical_type(other.logical_type().as_deref().unwrap_or(""))
    }
}
