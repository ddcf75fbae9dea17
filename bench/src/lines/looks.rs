//! Single rows, ranges and copies.
use super::{again, session};
use crate::data::Runs;
use crate::kernels::{
    look_up, look_up_by_halves, run_of, window, ArrayColumn, NumberType, RunArray, SharedRuns,
    SharedSlice, Slice,
};
use crate::library::{Column, Item, Windows};
use crate::line::{Bench, Form, Shape};
use crate::load::{Load, Random};
use std::ops::Range;

const LOOKS: usize = 1_000_000;

pub fn lines(bench: &mut Bench) {
    if !["scalar_at", "slice", "clone", "read", "run"]
        .iter()
        .any(|call| bench.wants(call))
    {
        return;
    }
    for nulls in [false, true] {
        for runs in [1_000, bench.rows / 40, bench.rows] {
            rows(bench, runs, nulls);
        }
        ranges(bench, nulls);
    }
    windows(bench);
}

fn shape(call: &str, nulls: bool, size: String) -> Shape {
    Shape {
        call: call.to_string(),
        kind: "u64",
        nulls,
        size,
    }
}

fn rows(bench: &mut Bench, runs: usize, nulls: bool) {
    let load = Load::new(runs * 16, 16, nulls);
    let runs = load.runs(|number| number);
    let column = Column::of_runs(&runs);
    let mut random = Random::new(5);
    let looks = LOOKS.min(bench.rows);
    let rows: Vec<usize> = (0..looks)
        .map(|_| random.below(load.rows() as u64) as usize)
        .collect();
    let add = |total: i128, row: Option<i128>| total.wrapping_add(row.unwrap_or(1));
    let ours = || {
        rows.iter()
            .fold(0, |total, row| add(total, column.at(*row)))
    };
    let size = format!("{} runs", load.ends.len());
    let found = |search: fn(&Runs<u64>, usize) -> Option<u64>| {
        let row = |row: &usize| search(&runs, *row).map(i128::from);
        rows.iter().fold(0, |total, at| add(total, row(at)))
    };
    let forms: [Form<i128>; 2] = [
        ("partition_point", &|| found(look_up)),
        ("halves", &|| found(look_up_by_halves)),
    ];
    let shape = shape("scalar_at", nulls, size);
    bench.question(shape, (rows.len(), "row"), ours, &forms, i128::eq);
}

/// Reads a thousand rows at a time, out of runs into memory of the caller's, and asks which run has a row.
fn windows(bench: &mut Bench) {
    let load = Load::new(bench.rows, 16, false);
    let (runs, mut random) = (load.runs(|number| number), Random::new(41));
    let (column, width) = (Column::of_runs(&runs), 1000.min(load.rows()));
    let starts: Vec<usize> = (0..TIMES)
        .map(|_| random.below((load.rows() - width + 1) as u64) as usize)
        .collect();
    let shape = |call: &str| shape(call, false, format!("{} runs", load.ends.len()));
    let ours = |start: &usize| u64::window(&column, *start..start + width);
    let rust = |start: &usize| window(&runs, *start..start + width);
    bench.line(
        shape("read of a window"),
        (TIMES * width, "row"),
        || starts.iter().map(ours).collect::<Vec<_>>(),
        || starts.iter().map(rust).collect::<Vec<_>>(),
        |ours, rust| ours == rust,
    );
    bench.line(
        shape("run of a row"),
        (TIMES, "row"),
        || {
            starts
                .iter()
                .map(|row| column.run_of(*row))
                .collect::<Vec<_>>()
        },
        || {
            starts
                .iter()
                .map(|row| run_of(&runs, *row))
                .collect::<Vec<_>>()
        },
        |ours, rust| ours == rust,
    );
}

const TIMES: usize = 1000;

/// Shares its buffers, as a column of Rust's: one struct of pointers, or arrays on the heap.
enum Shared {
    Buffers(SharedSlice<u64>),
    Arrays(Option<Box<ArrayColumn<u64>>>),
}

impl Shared {
    fn same(&self, column: &Column, range: Range<usize>, nulls: bool) -> bool {
        match self {
            Shared::Buffers(slice) => same_slice(column, &slice.copied(), range),
            Shared::Arrays(Some(array)) => same_array(column, array, range, nulls),
            Shared::Arrays(None) => false,
        }
    }
}

fn ranges(bench: &mut Bench, nulls: bool) {
    let load = Load::new(bench.rows * 4, 16, nulls);
    let (session, runs) = (session(), load.runs(|number| number));
    let (column, shared) = (Column::of_runs(&runs), SharedRuns::of(runs.clone()));
    let arrays = RunArray::of(runs);
    let (rows, one) = (load.rows(), load.ends[load.ends.len() / 2] as usize);
    let ranges = [
        ("half", rows / 4..rows / 4 * 3),
        ("100 rows", one..one + 100),
        ("1 run", one..one + 1),
    ];
    for (size, range) in ranges {
        let ours = again(TIMES, || column.slice(&session, range.start, range.end));
        let same = |ours: &Column, rust: &Shared| rust.same(ours, range.clone(), nulls);
        let buffers = again(TIMES, || Shared::Buffers(shared.slice(range.clone())));
        let boxes = again(TIMES, || Shared::Arrays(arrays.slice(range.clone())));
        let forms: [Form<Shared>; 2] = [("shared buffers", &buffers), ("arrays", &boxes)];
        let shape = shape("slice", nulls, size.to_string());
        bench.question(shape, (TIMES, "call"), ours, &forms, same);
    }
    let ours = again(TIMES, || column.try_clone());
    let same = |ours: &Column, rust: &Shared| rust.same(ours, 0..rows, nulls);
    let owner = || Shared::Buffers(SharedSlice::Runs(shared.clone()));
    let (buffers, boxes) = (
        again(TIMES, owner),
        again(TIMES, || Shared::Arrays(Some(arrays.owner()))),
    );
    let forms: [Form<Shared>; 2] = [("shared buffers", &buffers), ("arrays", &boxes)];
    let shape = shape("clone", nulls, format!("{} runs", load.ends.len()));
    bench.question(shape, (TIMES, "call"), ours, &forms, same);
}

/// Do both have the rows of this range, and has the array their type?
fn same_array(
    column: &Column,
    array: &ArrayColumn<u64>,
    range: Range<usize>,
    nullable: bool,
) -> bool {
    let dtype = NumberType { bytes: 8, nullable };
    array.dtype() == dtype
        && array.len() == range.len()
        && same_slice(column, &array.copied(), range)
}

/// Returns whether the library's column has the rows of this range.
pub fn same_slice<T: Item>(column: &Column, slice: &Slice<T>, range: Range<usize>) -> bool {
    let found = column.read_flat::<T>();
    let row = |at: usize| {
        found
            .flags
            .as_ref()
            .is_none_or(|flags| flags.get(at))
            .then(|| found.items[at])
    };
    let wanted = |at: usize| match slice {
        Slice::Constant(value) => *value,
        Slice::Runs(runs, offset) => look_up(runs, at + offset),
    };
    found.items.len() == range.len() && (0..range.len()).all(|at| row(at) == wanted(at))
}
