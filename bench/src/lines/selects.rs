//! Rows by indices, and rows by a mask.
use super::{same_runs, session, shape, Number};
use crate::bits::Bits;
use crate::data::{Flat, Runs, Truths};
use crate::kernels::{filter_joined, take, take_by_fours, take_by_ranks, take_in_one_pass, Kept};
use crate::library::{Column, Item};
use crate::line::{Bench, Form};
use crate::load::{Load, Random};

/// Rows for each index of a take of few.
pub const FEW: usize = 40;
/// Names takes, with how many rows there are for each index, and whether indices are in order.
pub const TAKES: [(&str, usize, bool); 4] = [
    ("take, a quarter at random", 4, false),
    ("take, a quarter in order", 4, true),
    ("take, a fortieth at random", FEW, false),
    ("take, a fortieth in order", FEW, true),
];
/// Names filters, with the number of rows of which one is kept.
pub const FILTERS: [(&str, u64); 3] = [
    ("filter, half", 2),
    ("filter, a tenth", 10),
    ("filter, a thousandth", 1000),
];

pub fn indices(rows: usize, every: usize, ordered: bool) -> Vec<u64> {
    let mut random = Random::new(11);
    let mut indices: Vec<u64> = (0..rows / every)
        .map(|_| random.below(rows as u64))
        .collect();
    if ordered {
        indices.sort_unstable();
    }
    indices
}

pub fn index_column(indices: &[u64]) -> Column {
    u64::column(&Flat {
        items: indices.to_vec(),
        flags: None,
    })
}

pub fn mask(rows: usize, every: u64) -> Bits {
    let mut random = Random::new(23 + every);
    Bits::from_fn(rows, |_| random.below(every) == 0)
}

pub fn mask_column(mask: &Bits) -> Column {
    Column::truths(&Truths {
        bits: mask.clone(),
        flags: None,
    })
}

pub fn lines<T: Number>(bench: &mut Bench, load: &Load) {
    let runs = load.runs(T::of);
    let column = Column::of_runs(&runs);
    takes(bench, load, &column, &runs);
    filters(bench, load, &column, &runs);
}

/// Picks the forms of a take of few or many indices, in order or not.
fn faster<F>(forms: &[F; 4], every: usize, ordered: bool) -> &[F] {
    match (every, ordered) {
        (_, true) => &forms[1..],
        (FEW, false) => &forms[..3],
        _ => &forms[1..3],
    }
}

fn takes<T: Number>(bench: &mut Bench, load: &Load, column: &Column, runs: &Runs<T>) {
    for (name, every, ordered) in TAKES {
        if !bench.wants(name) {
            continue;
        }
        let (session, indices) = (session(), indices(load.rows(), every, ordered));
        let (places, units) = (index_column(&indices), (indices.len(), "index"));
        let ours = || column.take(&session, &places);
        let same = |ours: &Column, rust: &Flat<T>| ours.read_flat::<T>().same_rows(rust);
        let (ends, values) = (&runs.ends, &runs.values);
        let forms: [Form<Flat<T>>; 4] = [
            ("fours", &|| take_by_fours(ends, values, &indices)),
            ("", &|| take(ends, values, &indices)),
            ("ranks", &|| take_by_ranks(ends, values, &indices)),
            ("one pass", &|| take_in_one_pass(ends, values, &indices)),
        ];
        let forms = faster(&forms, every, ordered);
        bench.question(shape(load, name, T::NAME), units, ours, forms, same);
    }
}

fn filters<T: Number>(bench: &mut Bench, load: &Load, column: &Column, runs: &Runs<T>) {
    for (name, every) in FILTERS {
        if !bench.wants(name) {
            continue;
        }
        let (session, mask) = (session(), mask(load.rows(), every));
        let (places, units) = (mask_column(&mask), (load.rows(), "row"));
        let ours = || column.filter(&session, &places);
        let rust = || filter_joined(&runs.ends, &runs.values, &mask);
        bench.line(shape(load, name, T::NAME), units, ours, rust, same_kept);
    }
}

pub fn same_kept<T: Item>(column: &Column, kept: &Kept<Runs<T>, Flat<T>>) -> bool {
    match kept {
        Kept::Runs(runs) => same_runs(column, runs),
        Kept::Flat(flat) => column.read_flat::<T>().same_rows(flat),
    }
}
