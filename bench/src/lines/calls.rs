//! What a call costs that has little to do: ten rows, called again and again, with what it makes given back.
use super::looks::same_slice;
use super::selects::{index_column, mask_column};
use super::{again, same_runs, session};
use crate::bits::Bits;
use crate::data::{Flat, Runs, Truths};
use crate::kernels::{self, black_box};
use crate::library::{passed, Column, Item};
use crate::line::{Bench, Form, Shape};

const TIMES: usize = 10_000;

/// 5 5 5 7 7 null null 5 9 9
fn rows() -> Flat<i64> {
    let items = vec![5, 5, 5, 7, 7, 0, 0, 5, 9, 9];
    let flags = Some(Bits::from_fn(10, |row| row != 5 && row != 6));
    Flat { items, flags }
}

fn line<O, R>(
    bench: &mut Bench,
    call: &str,
    ours: impl Fn() -> O,
    rust: impl Fn() -> R,
    same: impl Fn(&O, &R) -> bool,
) {
    question(bench, call, ours, &[("", &rust)], same);
}

fn question<O, R>(
    bench: &mut Bench,
    call: &str,
    ours: impl Fn() -> O,
    forms: &[Form<R>],
    same: impl Fn(&O, &R) -> bool,
) {
    let call = format!("{call}, ten rows");
    let shape = Shape {
        call,
        kind: "i64",
        nulls: true,
        size: "a call".to_string(),
    };
    let calls = forms.iter();
    let calls: Vec<_> = calls
        .map(|(name, rust)| (*name, again(TIMES, rust)))
        .collect();
    let forms: Vec<Form<R>> = calls
        .iter()
        .map(|(name, call)| (*name, call as _))
        .collect();
    bench.question(shape, (TIMES, "call"), again(TIMES, ours), &forms, same);
}

pub fn lines(bench: &mut Bench) {
    let flat = rows();
    let runs: Runs<i64> = kernels::encode(&flat);
    let (session, ours) = (session(), i64::column(&flat));
    let column = ours.encode(&session);
    line(
        bench,
        "make",
        || i64::column(&flat),
        || black_box(&flat).clone(),
        |ours, rust| ours.read_flat::<i64>().same_rows(rust),
    );
    let forms: [Form<Runs<i64>>; 2] = [
        ("", &|| kernels::encode(black_box(&flat))),
        ("bits", &|| kernels::encode_by_bits(black_box(&flat))),
    ];
    question(bench, "encode", || ours.encode(&session), &forms, same_runs);
    line(
        bench,
        "decode",
        || column.decode(&session),
        || kernels::decode(black_box(&runs)),
        |ours, rust| ours.read_flat::<i64>().same_rows(rust),
    );
    questions(bench, &column, &runs);
    copies(bench, &column, &runs);
    changes(bench, &column, &runs);
    selects(bench, &column, &runs);
}

fn questions(bench: &mut Bench, column: &Column, runs: &Runs<i64>) {
    let session = session();
    line(
        bench,
        "scalar_at",
        || column.at(7),
        || kernels::look_up(black_box(runs), 7),
        |ours, rust| *ours == rust.map(i128::from),
    );
    line(
        bench,
        "sum",
        || column.sum(&session),
        || kernels::sum(black_box(runs)),
        |ours, rust| *ours == Some(*rust),
    );
}

fn changes(bench: &mut Bench, column: &Column, runs: &Runs<i64>) {
    let session = session();
    line(
        bench,
        "fill",
        || column.fill(&session, passed(3, true)),
        || kernels::fill(black_box(runs), 3),
        same_runs,
    );
    let ours = || column.less_than(&session, passed(7, true));
    let forms: [Form<Truths>; 2] = [
        ("", &|| kernels::less_by_runs(black_box(runs), 7)),
        ("ones", &|| kernels::less_by_ones(black_box(runs), 7)),
    ];
    let same = |ours: &Column, rust: &Truths| ours.read_truths().flat().same_rows(&rust.flat());
    question(bench, "compare", ours, &forms, same);
}

fn copies(bench: &mut Bench, column: &Column, runs: &Runs<i64>) {
    let session = session();
    line(
        bench,
        "clone",
        || column.try_clone(),
        || black_box(runs).clone(),
        same_runs,
    );
    let sliced = || kernels::slice(black_box(runs), 2..8);
    line(
        bench,
        "slice",
        || column.slice(&session, 2, 8),
        sliced,
        |ours, rust| same_slice(ours, rust, 2..8),
    );
}

fn selects(bench: &mut Bench, column: &Column, runs: &Runs<i64>) {
    let (session, indices, mask) = (
        session(),
        [9u64, 0, 6, 3],
        Bits::from_fn(10, |row| row % 3 == 0),
    );
    let (places, kept) = (index_column(&indices), mask_column(&mask));
    line(
        bench,
        "take",
        || column.take(&session, &places),
        || kernels::take(&runs.ends, &runs.values, black_box(&indices)),
        |ours, rust| ours.read_flat::<i64>().same_rows(rust),
    );
    line(
        bench,
        "filter",
        || column.filter(&session, &kept),
        || kernels::filter_joined(&runs.ends, &runs.values, black_box(&mask)),
        |ours, rust| match rust {
            kernels::Kept::Flat(rows) => ours.read_flat::<i64>().same_rows(rows),
            kernels::Kept::Runs(runs) => same_runs(ours, runs),
        },
    );
}
