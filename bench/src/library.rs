//! The library's columns, by its calls for C and with nothing between.
use crate::bits::Bits;
use crate::data::{Flat, Lists, Runs, Truths};
use crate::raw::{self, BuilderHandle, Handle, Pair, RawTotal, RawValue};
use hivevigil::{Fields, Form, Kind, Session};
use std::cell::UnsafeCell;
use std::ops::Range;
use std::ptr;

/// Owns a column of the library, which is freed when it is dropped.
pub struct Column(UnsafeCell<Handle>);

impl Drop for Column {
    fn drop(&mut self) {
        unsafe { raw::hv_free(self.0.get()) }
    }
}

/// Ends the program where a call is refused: what a bench asks never is.
fn done(call: impl FnOnce(*mut Fields) -> i32) {
    let mut fields = Fields::default();
    let number = call(&mut fields);
    assert!(number == 0, "the library answers {number} {fields:?}");
}

fn made(call: impl FnOnce(*mut Handle, *mut Fields) -> i32) -> Column {
    let column = Column(UnsafeCell::new(Handle {
        at: ptr::null_mut(),
    }));
    done(|fields| call(column.0.get(), fields));
    column
}

/// Returns what the makers take as validity.
fn nulls(flags: &Option<Bits>) -> (u8, *const u8, usize) {
    static NONE: u64 = 0;
    match flags {
        Some(bits) if bits.len > 0 => (2, bits.bytes().as_ptr(), bits.bytes().len()),
        other => (u8::from(other.is_some()), ptr::addr_of!(NONE).cast(), 0),
    }
}

/// Stores rows of a kind in the same way on both sides.
pub trait Item: Copy + PartialEq + Default + std::fmt::Debug + 'static {
    fn column(rows: &Flat<Self>) -> Column;
    fn read(column: &Column) -> Vec<Self>;
}

/// Numbers that are read window by window.
pub trait Windows: Item {
    fn window(column: &Column, rows: Range<usize>) -> Vec<Self>;
}

macro_rules! items {
    ($($type:ty, $make:ident, $read:ident;)*) => { $(
        impl Item for $type {
            fn column(rows: &Flat<$type>) -> Column {
                let (number, bits, len) = nulls(&rows.flags);
                let (items, count) = (rows.items.as_ptr(), rows.items.len());
                made(|out, fields| unsafe { raw::$make(items, count, number, bits, len, 0, out, fields) })
            }
            fn read(column: &Column) -> Vec<$type> {
                let mut items = vec![<$type>::default(); column.len()];
                let (room, count) = (items.as_mut_ptr(), items.len());
                done(|fields| unsafe { raw::$read(column.0.get(), 0, room, count, fields) });
                items
            }
        }
        impl Windows for $type {
            fn window(column: &Column, rows: Range<usize>) -> Vec<$type> {
                let mut items = vec![<$type>::default(); rows.len()];
                let (room, count) = (items.as_mut_ptr(), items.len());
                done(|fields| unsafe { raw::$read(column.0.get(), rows.start, room, count, fields) });
                items
            }
        }
    )* };
}

items! {
    u8, hv_u8, hv_read_u8;
    u32, hv_u32, hv_read_u32;
    u64, hv_u64, hv_read_u64;
    i32, hv_i32, hv_read_i32;
    i64, hv_i64, hv_read_i64;
}

/// Digits of the decimals here, and after the point.
const DIGITS: (u8, i8) = (30, 2);

impl Item for i128 {
    fn column(rows: &Flat<i128>) -> Column {
        let (number, bits, len) = nulls(&rows.flags);
        let pair = |item: &i128| Pair {
            low: *item as u64,
            high: (*item >> 64) as i64,
        };
        let pairs: Vec<Pair> = rows.items.iter().map(pair).collect();
        let (precision, scale) = DIGITS;
        made(|out, fields| unsafe {
            let (items, count) = (pairs.as_ptr(), pairs.len());
            raw::hv_decimals(
                items, count, precision, scale, number, bits, len, 0, out, fields,
            )
        })
    }

    fn read(column: &Column) -> Vec<i128> {
        let mut pairs = vec![Pair::default(); column.len()];
        let (room, count) = (pairs.as_mut_ptr(), pairs.len());
        done(|fields| unsafe { raw::hv_read_decimals(column.0.get(), 0, room, count, fields) });
        pairs
            .iter()
            .map(|pair| i128::from(pair.high) << 64 | i128::from(pair.low))
            .collect()
    }
}

/// Columns of other kinds, and of runs.
impl Column {
    pub fn truths(rows: &Truths) -> Column {
        let (number, bits, len) = nulls(&rows.flags);
        let (truths, bytes) = (rows.bits.bytes().as_ptr(), rows.bits.bytes().len());
        let count = rows.bits.len;
        made(|out, fields| unsafe {
            raw::hv_bools(truths, bytes, 0, count, number, bits, len, 0, out, fields)
        })
    }

    /// Texts that lie one after the other in `bytes`.
    pub fn texts(offsets: &[i64], bytes: &[u8], flags: &Option<Bits>) -> Column {
        let (number, bits, len) = nulls(flags);
        made(|out, fields| unsafe {
            let (starts, count) = (offsets.as_ptr(), offsets.len());
            let (some, size) = (bytes.as_ptr(), bytes.len());
            raw::hv_large_texts(
                0, starts, count, some, size, number, bits, len, 0, out, fields,
            )
        })
    }

    /// Returns the runs of these ends, whose values are a column.
    pub fn runs(ends: &[u32], values: &Column) -> Column {
        let rows = ends.last().map_or(0, |end| *end as usize);
        let ends = u32::column(&Flat {
            items: ends.to_vec(),
            flags: None,
        });
        made(|out, fields| unsafe {
            raw::hv_runs(ends.0.get(), values.0.get(), 0, rows, out, fields)
        })
    }

    pub fn of_runs<T: Item>(runs: &Runs<T>) -> Column {
        Column::runs(&runs.ends, &T::column(&runs.values))
    }
}

impl Column {
    pub fn of_lists<T: Item>(lists: &Lists<T>) -> Column {
        let elements = T::column(&lists.elements);
        let (number, bits, len) = nulls(&None);
        made(|out, fields| unsafe {
            let (offsets, sizes) = (&lists.offsets.items, &lists.sizes.items);
            raw::hv_lists(
                elements.0.get(),
                offsets.as_ptr(),
                offsets.len(),
                sizes.as_ptr(),
                sizes.len(),
                number,
                bits,
                len,
                0,
                out,
                fields,
            )
        })
    }

    pub fn read_lists<T: Item>(&self) -> Lists<T> {
        let part = |call: unsafe extern "C" fn(_, _, _) -> i32| {
            made(|out, fields| unsafe { call(self.0.get(), out, fields) })
        };
        Lists {
            elements: part(raw::hv_list_elements).read_flat(),
            offsets: part(raw::hv_list_offsets).read_flat(),
            sizes: part(raw::hv_list_sizes).read_flat(),
        }
    }
}

/// Has the calls that are timed.
impl Column {
    fn command(&self, call: impl FnOnce(*mut Handle, *mut Handle, *mut Fields) -> i32) -> Column {
        made(|out, fields| call(self.0.get(), out, fields))
    }

    pub fn encode(&self, session: &Session) -> Column {
        self.command(|column, out, fields| unsafe { raw::hv_encode(session, column, out, fields) })
    }

    pub fn encode_rows(&self) -> Column {
        self.command(|column, out, fields| unsafe { raw::hv_encode_rows(column, out, fields) })
    }

    /// Returns the encoding of these columns of one type, one after the other, by a builder.
    pub fn built(batches: &[Column]) -> Column {
        let mut builder = BuilderHandle {
            at: ptr::null_mut(),
        };
        let kind = unsafe { raw::hv_kind_of(batches[0].0.get()) };
        done(|fields| unsafe { raw::hv_builder_new(&kind, &mut builder, fields) });
        for batch in batches {
            done(|fields| unsafe { raw::hv_append(&mut builder, batch.0.get(), fields) });
        }
        let encoding = made(|out, fields| unsafe { raw::hv_finish(&mut builder, out, fields) });
        unsafe { raw::hv_builder_free(&mut builder) };
        encoding
    }

    pub fn decode(&self, session: &Session) -> Column {
        self.command(|column, out, fields| unsafe { raw::hv_decode(session, column, out, fields) })
    }

    pub fn slice(&self, session: &Session, start: usize, stop: usize) -> Column {
        self.command(|column, out, fields| unsafe {
            raw::hv_slice(session, column, start, stop, out, fields)
        })
    }

    pub fn try_clone(&self) -> Column {
        self.command(|column, out, fields| unsafe { raw::hv_clone(column, out, fields) })
    }

    pub fn cast(&self, session: &Session, kind: Kind) -> Column {
        self.command(|column, out, fields| unsafe {
            raw::hv_cast(session, column, &kind, out, fields)
        })
    }

    pub fn take(&self, session: &Session, indices: &Column) -> Column {
        let indices = indices.0.get();
        self.command(|column, out, fields| unsafe {
            raw::hv_take(session, column, indices, out, fields)
        })
    }

    pub fn filter(&self, session: &Session, mask: &Column) -> Column {
        let mask = mask.0.get();
        self.command(|column, out, fields| unsafe {
            raw::hv_filter(session, column, mask, out, fields)
        })
    }

    pub fn take_from(&self, session: &Session, dictionary: &Column) -> Column {
        let rows = dictionary.0.get();
        self.command(|codes, out, fields| unsafe {
            raw::hv_take_from(session, codes, rows, out, fields)
        })
    }

    pub fn less_than(&self, session: &Session, right: RawValue) -> Column {
        const LESS: u8 = hivevigil::Operator::Less as u8;
        self.command(|column, out, fields| unsafe {
            raw::hv_compare_scalar(session, column, LESS, &right, [0].as_ptr(), 0, out, fields)
        })
    }

    pub fn fill(&self, session: &Session, value: RawValue) -> Column {
        self.command(|column, out, fields| unsafe {
            raw::hv_fill(session, column, &value, [0].as_ptr(), 0, out, fields)
        })
    }

    pub fn sum(&self, session: &Session) -> Option<i128> {
        let mut total = RawTotal::default();
        done(|fields| unsafe { raw::hv_sum(session, self.0.get(), &mut total, fields) });
        match total.kind {
            0 => None,
            1 => Some(i128::from(total.as_unsigned)),
            _ => Some(i128::from(total.as_signed)),
        }
    }

    pub fn is_constant(&self, session: &Session) -> bool {
        let mut truth = 0;
        done(|fields| unsafe { raw::hv_is_constant(session, self.0.get(), &mut truth, fields) });
        truth != 0
    }

    pub fn is_sorted(&self, session: &Session) -> bool {
        let mut truth = 0;
        done(|fields| unsafe { raw::hv_is_sorted(session, self.0.get(), 0, &mut truth, fields) });
        truth != 0
    }

    pub fn least_and_greatest(&self, session: &Session) -> Option<(i128, i128)> {
        let (mut least, mut greatest) = (RawValue::default(), RawValue::default());
        done(|fields| unsafe {
            let (column, low, high) = (self.0.get(), [0].as_mut_ptr(), [0].as_mut_ptr());
            raw::hv_min_max(
                session,
                column,
                &mut least,
                low,
                0,
                &mut greatest,
                high,
                0,
                fields,
            )
        });
        number_of(least).zip(number_of(greatest))
    }

    pub fn extreme(&self, session: &Session, greatest: bool) -> Option<i128> {
        let mut value = RawValue::default();
        done(|fields| unsafe {
            let (text, greatest) = ([0].as_mut_ptr(), u8::from(greatest));
            raw::hv_extreme(session, self.0.get(), greatest, &mut value, text, 0, fields)
        });
        number_of(value)
    }

    pub fn run_of(&self, row: usize) -> usize {
        let mut run = 0;
        done(|fields| unsafe { raw::hv_run_of(self.0.get(), row, &mut run, fields) });
        run
    }

    pub fn at(&self, row: usize) -> Option<i128> {
        let mut value = RawValue::default();
        done(|fields| unsafe {
            raw::hv_at(self.0.get(), row, &mut value, [0].as_mut_ptr(), 0, fields)
        });
        number_of(value)
    }
}

#[inline]
fn number_of(value: RawValue) -> Option<i128> {
    match value.kind {
        0 => None,
        1 => Some(i128::from(value.as_unsigned)),
        _ => Some(i128::from(value.as_signed)),
    }
}

/// Returns a number as C passes it.
pub fn passed(item: i128, signed: bool) -> RawValue {
    let (kind, as_unsigned, as_signed) = if signed {
        (2, 0, item as i64)
    } else {
        (1, item as u64, 0)
    };
    RawValue {
        as_unsigned,
        as_signed,
        kind,
        ..RawValue::default()
    }
}

/// Messages.
impl Column {
    pub fn message_size(&self) -> usize {
        let mut size = 0;
        done(|fields| unsafe { raw::hv_write_size(self.0.get(), &mut size, fields) });
        size
    }

    /// Returns the message of a column, written into this number of bytes of room.
    pub fn message(&self, room: usize) -> Vec<u8> {
        let (mut message, mut size) = (Vec::<u8>::with_capacity(room), 0);
        done(|fields| unsafe {
            raw::hv_write(self.0.get(), message.as_mut_ptr(), room, &mut size, fields)
        });
        unsafe { message.set_len(size) };
        message
    }

    pub fn of_message(message: &[u8]) -> Column {
        made(|out, fields| unsafe {
            raw::hv_read_column(message.as_ptr(), message.len(), out, fields)
        })
    }
}

/// Reads back what is compared with the answers of the other side.
impl Column {
    pub fn len(&self) -> usize {
        unsafe { raw::hv_length(self.0.get()) }
    }

    pub fn form(&self) -> Form {
        match unsafe { raw::hv_form(self.0.get()) } {
            0 => Form::Flat,
            1 => Form::Constant,
            2 => Form::Lists,
            _ => Form::Runs,
        }
    }

    fn flags(&self) -> Option<Bits> {
        let mut bits = Bits::filled(false, self.len());
        let (words, len) = (bits.words.as_mut_ptr(), bits.words.len());
        let rows = self.len();
        done(|fields| unsafe {
            raw::hv_read_validity_from(self.0.get(), 0, rows, words, len, fields)
        });
        Some(bits)
    }

    pub fn read_flat<T: Item>(&self) -> Flat<T> {
        let flat = self.decode(&Session::initial());
        Flat {
            items: T::read(&flat),
            flags: flat.flags(),
        }
    }

    /// Returns the runs of a run column whose first row is the first of its runs.
    pub fn read_runs<T: Item>(&self) -> Runs<T> {
        Runs {
            ends: self.run_ends(),
            values: self.run_values().read_flat(),
        }
    }

    /// Where the runs of a run column end.
    pub fn run_ends(&self) -> Vec<u32> {
        let ends = made(|out, fields| unsafe { raw::hv_ends(self.0.get(), out, fields) });
        u32::read(&ends.cast(&Session::initial(), Kind::U32))
    }

    /// Returns the values of a run column.
    pub fn run_values(&self) -> Column {
        made(|out, fields| unsafe { raw::hv_values(self.0.get(), out, fields) })
    }

    pub fn read_truths(&self) -> Truths {
        let flat = self.decode(&Session::initial());
        let mut bits = Bits::filled(false, self.len());
        let (words, len) = (bits.words.as_mut_ptr(), bits.words.len());
        done(|fields| unsafe { raw::hv_read_bools(flat.0.get(), words, len, fields) });
        Truths {
            bits,
            flags: flat.flags(),
        }
    }

    /// Offsets of the rows' bytes, these bytes, and which rows are not null.
    pub fn read_texts(&self) -> (Vec<i64>, Vec<u8>, Option<Bits>) {
        let flat = self.decode(&Session::initial());
        let mut offsets = vec![0; self.len() + 1];
        let (starts, count) = (offsets.as_mut_ptr(), offsets.len());
        done(|fields| unsafe {
            raw::hv_read_large_offsets(flat.0.get(), 0, starts, count, fields)
        });
        let mut bytes = vec![0; offsets[self.len()] as usize];
        let (room, size) = (bytes.as_mut_ptr(), bytes.len());
        done(|fields| unsafe {
            raw::hv_read_bytes(flat.0.get(), 0, self.len(), room, size, fields)
        });
        (offsets, bytes, flat.flags())
    }
}
