//! Calls that change the values of runs.
use super::{same_runs, session, shape, Number};
use crate::data::{Flat, Runs, Truths};
use crate::kernels::{
    cast_shared, fill_shared, less_by_ones, less_by_runs, less_by_turns, take_from_shared,
    SharedRuns,
};
use crate::library::{passed, Column, Item};
use crate::line::{Bench, Form};
use crate::load::Load;

pub fn lines<T: Number>(bench: &mut Bench, load: &Load) {
    if !["cast", "fill", "compare", "take_from"]
        .iter()
        .any(|call| bench.wants(call))
    {
        return;
    }
    let runs = load.runs(T::of);
    let column = Column::of_runs(&runs);
    casts::<T>(bench, load, &column, &runs);
    fills::<T>(bench, load, &column, &runs);
    compare::<T>(bench, load, &column);
    codes::<T>(bench, load);
}

/// Returns whether the library's column has the runs that a kernel shares.
fn same_shared<T: Item>(column: &Column, runs: &SharedRuns<T>) -> bool {
    same_runs(column, &runs.copied().0)
}

fn casts<T: Number>(bench: &mut Bench, load: &Load, column: &Column, runs: &Runs<T>) {
    let (session, units) = (session(), (load.ends.len(), "run"));
    let kind = if load.flags.is_some() {
        T::OTHER.nullable()
    } else {
        T::OTHER
    };
    let ours = || column.cast(&session, kind);
    let shared = SharedRuns::of(runs.clone());
    let rust = || cast_shared(&shared, T::fits, T::other).expect("each value fits");
    bench.line(shape(load, "cast", T::NAME), units, ours, rust, same_shared);
}

fn fills<T: Number>(bench: &mut Bench, load: &Load, column: &Column, runs: &Runs<T>) {
    let (session, units, nine) = (session(), (load.ends.len(), "run"), passed(9, T::SIGNED));
    let ours = || column.fill(&session, nine);
    let shared = SharedRuns::of(runs.clone());
    let rust = || fill_shared(&shared, T::of(9));
    bench.line(shape(load, "fill", T::NAME), units, ours, rust, same_shared);
}

fn compare_with<T: Number>() -> T {
    T::of(128 << 32 | 128 << 22 | 128)
}

fn compare<T: Number>(bench: &mut Bench, load: &Load, column: &Column) {
    let (session, runs, rows) = (session(), load.runs(T::of), (load.rows(), "row"));
    let right = compare_with::<T>();
    let ours = || column.less_than(&session, passed(right.wide(), T::SIGNED));
    let answers = |ours: &Column, rust: &Truths| ours.read_truths().flat().same_rows(&rust.flat());
    let forms: [Form<Truths>; 3] = [
        ("", &|| less_by_runs(&runs, right)),
        ("turns", &|| less_by_turns(&runs, right)),
        ("ones", &|| less_by_ones(&runs, right)),
    ];
    bench.question(shape(load, "compare", T::NAME), rows, ours, &forms, answers);
}

/// Codes below 100, each for a row of a dictionary of 100 rows.
fn codes<T: Number>(bench: &mut Bench, load: &Load) {
    let (session, units) = (session(), (load.ends.len(), "run"));
    let codes = load.runs(|number| T::of(number % 100));
    let dictionary = Flat {
        items: (0..100u64).map(|code| code * 3 + 1).collect(),
        flags: None,
    };
    let (column, rows) = (Column::of_runs(&codes), u64::column(&dictionary));
    let (ours, place) = (
        || column.take_from(&session, &rows),
        |code: T| code.wide() as usize,
    );
    let shared = SharedRuns::of(codes.clone());
    let rust = || take_from_shared(&shared, &dictionary.items, place).expect("each has a row");
    bench.line(
        shape(load, "take_from", T::NAME),
        units,
        ours,
        rust,
        same_shared,
    );
}
