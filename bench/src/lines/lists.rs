//! Lists of ten commands, each made on what the one before it left, relative to ten kernels: what is left between them
//! is given back at once. C has no call that runs a list, so that ours are ten calls.
use super::selects::{index_column, indices, mask, mask_column};
use super::{again, session};
use crate::bits::Bits;
use crate::data::{Flat, Runs};
use crate::kernels::{self, Kept};
use crate::library::{passed, Column, Item};
use crate::line::{Bench, Form, Shape};
use crate::load::Load;
use hivevigil::{Kind, Session};

const NAME: &str = "list of ten";

/// Masks and indices for the rows that there are when their turn comes.
struct Given {
    halves: [Bits; 2],
    indices: Vec<u64>,
}

impl Given {
    fn of(rows: usize) -> Given {
        let first = mask(rows, 2);
        let left = first.count();
        let second = mask(left, 2);
        let last = second.count();
        Given {
            indices: indices(last, 1, true),
            halves: [first, second],
        }
    }
}

pub fn lines(bench: &mut Bench) {
    if !bench.wants(NAME) {
        return;
    }
    for rows in [10, 1_000, bench.rows] {
        let load = Load::new(rows.min(bench.rows), 16, true);
        let flat = kernels::decode(&load.runs(|number| number));
        let given = Given::of(load.rows());
        line(bench, &flat, &given);
    }
}

fn line(bench: &mut Bench, flat: &Flat<u64>, given: &Given) {
    let (session, column) = (session(), u64::column(flat));
    let masks = [0, 1].map(|half: usize| mask_column(&given.halves[half]));
    let places = index_column(&given.indices);
    let times = (1_000_000 / flat.items.len()).clamp(1, 1_000);
    let ours = || by_calls(&session, &column, &masks, &places);
    let plain = again(times, || {
        by_kernels(flat, given, kernels::encode, kernels::take)
    });
    let faster = again(times, || {
        by_kernels(flat, given, kernels::encode_by_bits, kernels::take_by_ranks)
    });
    let forms: [Form<(Flat<u64>, i128)>; 2] = [("", &plain), ("bits, ranks", &faster)];
    let shape = Shape {
        call: NAME.to_string(),
        kind: "u64",
        nulls: true,
        size: format!("{} rows", flat.items.len()),
    };
    let same = |ours: &(Column, i128), rust: &(Flat<u64>, i128)| {
        ours.0.read_flat::<u64>().same_rows(&rust.0) && ours.1 == rust.1
    };
    let units = (times, "call");
    bench.question(shape, units, again(times, ours), &forms, same);
}

/// encode, cast, filter, fill, filter, cast, decode, encode, take, sum.
fn by_calls(
    session: &Session,
    flat: &Column,
    masks: &[Column; 2],
    places: &Column,
) -> (Column, i128) {
    let column = flat.encode(session);
    let column = column.cast(session, Kind::I64.nullable());
    let column = column.filter(session, &masks[0]);
    let column = column.fill(session, passed(9, true));
    let column = column.filter(session, &masks[1]);
    let column = column.cast(session, Kind::U64);
    let column = column.decode(session);
    let column = column.encode(session);
    let column = column.take(session, places);
    let sum = column.sum(session).expect("sums stay in range");
    (column, sum)
}

fn by_kernels(
    flat: &Flat<u64>,
    given: &Given,
    encode: fn(&Flat<u64>) -> Runs<u64>,
    take: fn(&[u32], &Flat<u64>, &[u64]) -> Flat<u64>,
) -> (Flat<u64>, i128) {
    let runs = encode(flat);
    let runs = kernels::cast(&runs, fits, |item| item as i64).expect("each value fits");
    let runs = runs_of(kernels::filter_joined(
        &runs.ends,
        &runs.values,
        &given.halves[0],
    ));
    let runs = kernels::fill(&runs, 9);
    let runs = runs_of(kernels::filter_joined(
        &runs.ends,
        &runs.values,
        &given.halves[1],
    ));
    let runs = kernels::cast(&runs, |item| item >= 0, |item| item as u64).expect("each value fits");
    let flat = kernels::decode(&runs);
    let runs = encode(&flat);
    let taken = take(&runs.ends, &runs.values, &given.indices);
    let sum = taken.items.iter().map(|item| i128::from(*item)).sum();
    (taken, sum)
}

fn fits(item: u64) -> bool {
    i64::try_from(item).is_ok()
}

/// Few rows are kept one by one: each is a run then.
fn runs_of(kept: Kept<Runs<i64>, Flat<i64>>) -> Runs<i64> {
    match kept {
        Kept::Runs(runs) => runs,
        Kept::Flat(rows) => kernels::encode(&rows),
    }
}
