//! How costs grow from a thousand runs to ten million, three rows to a run.
use super::looks::same_slice;
use super::selects::{index_column, indices, mask, mask_column, same_kept};
use super::{again, same_runs, session};
use crate::data::Runs;
use crate::kernels::{self, SharedRuns, SharedSlice};
use crate::library::{passed, Column, Item};
use crate::line::{Bench, Line, Shape};
use crate::load::{Load, Random};
use hivevigil::Kind;
use std::fmt::Write;

const POWERS: [u32; 5] = [3, 4, 5, 6, 7];
const RUN_ROWS: u64 = 3;

/// Returns a table of nanoseconds, and the slopes: 1 where costs are as many times more as there are more runs, 0 where
/// they stay.
pub fn growth(bench: &mut Bench) -> String {
    for power in POWERS {
        step(bench, 10usize.pow(power));
    }
    let mut calls: Vec<String> = bench
        .lines
        .iter()
        .map(|line| line.shape.call.clone())
        .collect();
    calls.dedup();
    calls.truncate(bench.lines.len() / POWERS.len());
    let sizes = POWERS.map(|power| format!("10^{power} runs")).join(" | ");
    let mut text = format!(
        "| Call | {sizes} | Slope, ours | Slope, Rust |\n|---|---|---|---|---|---|---|---|\n"
    );
    for call in calls {
        let lines: Vec<&Line> = bench
            .lines
            .iter()
            .filter(|line| line.shape.call == call)
            .collect();
        row(&mut text, &call, &lines);
    }
    text
}

fn row(text: &mut String, call: &str, lines: &[&Line]) {
    let cells: Vec<String> = lines
        .iter()
        .map(|line| format!("{:.2}", line.ours))
        .collect();
    let unit = lines[0].unit;
    let ours = slope(unit, lines.iter().map(|line| line.ours));
    let rust = slope(unit, lines.iter().map(|line| line.fastest().rust));
    let _ = writeln!(
        text,
        "| {call}, ns a {unit} | {} | {ours:.2} | {rust:.2} |",
        cells.join(" | ")
    );
}

/// Returns the slope of the straight line through the logarithms of what a call takes, by least squares. Lines that
/// have nanoseconds a run get 1 added.
fn slope(unit: &str, each: impl Iterator<Item = f64>) -> f64 {
    let points: Vec<(f64, f64)> = POWERS
        .iter()
        .map(|power| f64::from(*power))
        .zip(each.map(f64::log10))
        .collect();
    let count = points.len() as f64;
    let mean = |of: fn(&(f64, f64)) -> f64| points.iter().map(of).sum::<f64>() / count;
    let (middle, height) = (mean(|point| point.0), mean(|point| point.1));
    let above: f64 = points
        .iter()
        .map(|(at, high)| (at - middle) * (high - height))
        .sum();
    let below: f64 = points.iter().map(|(at, _)| (at - middle).powi(2)).sum();
    f64::from(u8::from(unit == "run")) + above / below
}

fn step(bench: &mut Bench, runs: usize) {
    let load = Load::new(runs * RUN_ROWS as usize, RUN_ROWS, true);
    let runs = load.runs(|number| number);
    let column = Column::of_runs(&runs);
    codec(bench, &load, &runs, &column);
    values(bench, &load, &runs, &column);
    selects(bench, &load, &runs, &column);
    looks(bench, &load, &runs, &column);
}

fn shape(load: &Load, call: &str) -> Shape {
    let size = format!("{} runs", load.ends.len());
    Shape {
        call: call.to_string(),
        kind: "u64",
        nulls: true,
        size,
    }
}

fn codec(bench: &mut Bench, load: &Load, runs: &Runs<u64>, column: &Column) {
    let (session, units, flat) = (session(), (load.ends.len(), "run"), kernels::decode(runs));
    let ours = u64::column(&flat);
    let encoded = || ours.encode(&session);
    bench.line(
        shape(load, "encode"),
        units,
        encoded,
        || kernels::encode_by_bits(&flat),
        same_runs,
    );
    drop(ours);
    bench.line(
        shape(load, "decode"),
        units,
        || column.decode(&session),
        || kernels::decode(runs),
        |ours, rust| ours.read_flat::<u64>().same_rows(rust),
    );
}

fn values(bench: &mut Bench, load: &Load, runs: &Runs<u64>, column: &Column) {
    let (session, units) = (session(), (load.ends.len(), "run"));
    let summed = || column.sum(&session);
    bench.line(
        shape(load, "sum"),
        units,
        summed,
        || kernels::sum_by_blocks(runs),
        |ours, rust| *ours == Some(*rust),
    );
    let filled = || column.fill(&session, passed(9, false));
    bench.line(
        shape(load, "fill"),
        units,
        filled,
        || kernels::fill(runs, 9),
        same_runs,
    );
    let cast = || column.cast(&session, Kind::I64.nullable());
    let rust = || kernels::cast(runs, |item| i64::try_from(item).is_ok(), |item| item as i64);
    bench.line(shape(load, "cast"), units, cast, rust, |ours, rust| {
        rust.as_ref().is_some_and(|runs| same_runs(ours, runs))
    });
    let less = || column.less_than(&session, passed(1 << 39, false));
    let rust = || kernels::less_by_ones(runs, 1 << 39);
    bench.line(shape(load, "compare"), units, less, rust, |ours, rust| {
        ours.read_truths().flat().same_rows(&rust.flat())
    });
}

fn selects(bench: &mut Bench, load: &Load, runs: &Runs<u64>, column: &Column) {
    let (session, units, rows) = (session(), (load.ends.len(), "run"), load.rows());
    let bits = mask(rows, 2);
    let kept = mask_column(&bits);
    let filtered = || column.filter(&session, &kept);
    let rust = || kernels::filter_joined(&runs.ends, &runs.values, &bits);
    bench.line(
        shape(load, "filter, half"),
        units,
        filtered,
        rust,
        same_kept,
    );
    let indices = indices(rows, 4, true);
    let places = index_column(&indices);
    let taken = || column.take(&session, &places);
    let rust = || kernels::take_by_ranks(&runs.ends, &runs.values, &indices);
    bench.line(
        shape(load, "take, a quarter in order"),
        units,
        taken,
        rust,
        |ours, rust| ours.read_flat::<u64>().same_rows(rust),
    );
}

/// Times what does not go by runs: one row of a number, a range, and all of them shared.
fn looks(bench: &mut Bench, load: &Load, runs: &Runs<u64>, column: &Column) {
    const TIMES: usize = 1000;
    let (session, rows) = (session(), load.rows());
    let mut random = Random::new(31);
    let places: Vec<usize> = (0..100_000)
        .map(|_| random.below(rows as u64) as usize)
        .collect();
    let found = || places.iter().map(|row| column.at(*row)).collect::<Vec<_>>();
    let rust = || {
        let row = |row: &usize| kernels::look_up(runs, *row).map(i128::from);
        places.iter().map(row).collect::<Vec<_>>()
    };
    let units = (places.len(), "row");
    bench.line(
        shape(load, "scalar_at"),
        units,
        found,
        rust,
        |ours, rust| ours == rust,
    );
    let (range, shared) = (rows / 4..rows / 4 * 3, SharedRuns::of(runs.clone()));
    let sliced = again(TIMES, || column.slice(&session, range.start, range.end));
    let rust = again(TIMES, || shared.slice(range.clone()));
    let same =
        |ours: &Column, rust: &SharedSlice<u64>| same_slice(ours, &rust.copied(), range.clone());
    let name = "slice of half";
    bench.line(shape(load, name), (TIMES, "call"), sliced, rust, same);
    let cloned = again(TIMES, || column.try_clone());
    let rust = again(TIMES, || shared.clone());
    let same = |ours: &Column, rust: &SharedRuns<u64>| same_runs(ours, &rust.copied().0);
    let name = "clone";
    bench.line(shape(load, name), (TIMES, "call"), cloned, rust, same);
}
