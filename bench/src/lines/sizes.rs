//! How many bytes columns have as messages, flat and in runs, relative to their items as arrays.
use super::kinds::written;
use super::session;
use crate::bits::Bits;
use crate::data::Truths;
use crate::library::{Column, Item};
use crate::load::Load;
use std::fmt::Write;
use std::mem::size_of;

/// Counts the bytes of one form of a column.
struct Sizes {
    /// Counts them as arrays: items, bits of booleans and offsets of 32 bits in front of texts.
    arrays: usize,
    message: usize,
}

/// Returns a table of the bytes of columns of this number of rows without null: flat, and in runs with ends of 32 bits.
pub fn sizes(rows: usize) -> String {
    let mut text = format!(
        "Bytes of {rows} rows. Arrays are items one after the other (bits of booleans, offsets of 32 bits and bytes of \
         texts), and in runs an end of 32 bits beside each.\n\n\
         | Rows | Mean run | Flat, arrays | Flat, message | Runs, arrays | Runs, message | Flat arrays / message of runs |\n\
         |---|---|---|---|---|---|---|\n"
    );
    for mean in super::MEANS {
        let load = Load::new(rows, mean, false);
        numbers::<u64>(&mut text, &load, "u64", |number| number);
        numbers::<i32>(&mut text, &load, "i32", |number| number as i32);
        numbers::<u8>(&mut text, &load, "u8", |number| number as u8);
        numbers::<i128>(&mut text, &load, "decimals", i128::from);
        row(&mut text, &load, "booleans", 1, &truths(&load));
        texts(&mut text, &load);
    }
    text
}

fn numbers<T: Item>(text: &mut String, load: &Load, kind: &str, of: impl Fn(u64) -> T) {
    let values = T::column(&load.runs(of).values);
    row(text, load, kind, 8 * size_of::<T>(), &values);
}

fn truths(load: &Load) -> Column {
    let bits = Bits::from_fn(load.ends.len(), |run| load.numbers[run] % 3 == 0);
    Column::truths(&Truths { bits, flags: None })
}

/// Rows of this number of bits each.
fn row(text: &mut String, load: &Load, kind: &str, bits: usize, values: &Column) {
    let bytes = |items: usize| (items * bits).div_ceil(8);
    let runs = load.ends.len();
    tell(text, load, kind, values, [bytes(load.rows()), bytes(runs)]);
}

fn texts(text: &mut String, load: &Load) {
    let (offsets, texts) = written(load);
    let lens = offsets.windows(2).map(|pair| (pair[1] - pair[0]) as usize);
    let rows_of_runs = load.ends.iter().scan(0, |start, end| {
        let rows = *end - *start;
        *start = *end;
        Some(rows as usize)
    });
    let flat: usize = rows_of_runs.zip(lens).map(|(rows, len)| rows * len).sum();
    let values = Column::texts(&offsets, &texts.bytes, &None);
    let offsets = |rows: usize| 4 * (rows + 1);
    let arrays = [
        offsets(load.rows()) + flat,
        offsets(load.ends.len()) + texts.bytes.len(),
    ];
    tell(text, load, "texts", &values, arrays);
}

fn tell(text: &mut String, load: &Load, kind: &str, values: &Column, arrays: [usize; 2]) {
    let column = Column::runs(&load.ends, values);
    let flat = Sizes {
        arrays: arrays[0],
        message: column.decode(&session()).message_size(),
    };
    let runs = Sizes {
        arrays: arrays[1] + 4 * load.ends.len(),
        message: column.message_size(),
    };
    let _ = writeln!(
        text,
        "| {kind} | {} | {} | {} | {} | {} | {:.1} |",
        load.mean,
        flat.arrays,
        flat.message,
        runs.arrays,
        runs.message,
        flat.arrays as f64 / runs.message as f64,
    );
}
