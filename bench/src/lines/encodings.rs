//! Rows of any kind to runs, and batches of them.
use super::kinds::written;
use super::{same_runs, shape};
use crate::bits::Bits;
use crate::data::{Flat, Runs, Texts, TruthRuns, Truths, View};
use crate::kernels::{
    decode, decode_truths, encode, encode_by_bits, encode_by_words, encode_texts,
    encode_texts_by_bits, encode_truths, encode_truths_by_bits, encode_truths_by_words,
};
use crate::library::{Column, Item};
use crate::line::{Bench, Form};
use crate::load::Load;

pub fn lines(bench: &mut Bench, load: &Load) {
    if !["encode rows", "built"]
        .iter()
        .any(|call| bench.wants(call))
    {
        return;
    }
    decimals(bench, load);
    truths(bench, load);
    texts(bench, load);
    numbers(bench, load);
}

/// Encodes a flat column as it is, and builds it of a hundred batches; the Rust loops have it as one column.
fn both<R>(
    bench: &mut Bench,
    load: &Load,
    kind: &'static str,
    column: &Column,
    forms: &[Form<R>],
    same: fn(&Column, &R) -> bool,
) {
    let units = (load.rows(), "row");
    if kind != "u64" {
        let ours = || column.encode_rows();
        bench.question(shape(load, "encode rows", kind), units, ours, forms, same);
    }
    let parts = batches(column, load.rows());
    let ours = || Column::built(&parts);
    let shape = shape(load, "built of a hundred batches", kind);
    bench.question(shape, units, ours, forms, same);
}

fn batches(column: &Column, rows: usize) -> Vec<Column> {
    let session = super::session();
    let cut = |batch: usize| rows * batch / 100;
    (0..100)
        .map(|batch| column.slice(&session, cut(batch), cut(batch + 1)))
        .collect()
}

fn numbers(bench: &mut Bench, load: &Load) {
    let flat = decode(&load.runs(|number| number));
    let column = u64::column(&flat);
    let forms: [Form<Runs<u64>>; 3] = [
        ("", &|| encode(&flat)),
        ("words", &|| encode_by_words(&flat)),
        ("bits", &|| encode_by_bits(&flat)),
    ];
    both(bench, load, "u64", &column, &forms, same_runs);
}

fn decimals(bench: &mut Bench, load: &Load) {
    let flat = decode(&load.runs(|number| i128::from(number) << 30));
    let column = i128::column(&flat);
    let forms: [Form<Runs<i128>>; 3] = [
        ("", &|| encode(&flat)),
        ("words", &|| encode_by_words(&flat)),
        ("bits", &|| encode_by_bits(&flat)),
    ];
    both(bench, load, "decimals", &column, &forms, same_runs);
}

fn truths(bench: &mut Bench, load: &Load) {
    let bits = Bits::from_fn(load.ends.len(), |run| {
        load.numbers[run] % 3 == 0 && load.flags.as_ref().is_none_or(|flags| flags.get(run))
    });
    let flags = load.flags.clone();
    let ends = load.ends.clone();
    let values = Truths { bits, flags };
    let rows = decode_truths(&TruthRuns { ends, values });
    let column = Column::truths(&rows);
    let forms: [Form<TruthRuns>; 3] = [
        ("", &|| encode_truths(&rows)),
        ("words", &|| encode_truths_by_words(&rows)),
        ("bits", &|| encode_truths_by_bits(&rows)),
    ];
    both(bench, load, "booleans", &column, &forms, same_truths);
}

fn same_truths(ours: &Column, rust: &TruthRuns) -> bool {
    let values = ours.run_values().read_truths().flat();
    ours.run_ends() == rust.ends && values.same_rows(&rust.values.flat())
}

fn texts(bench: &mut Bench, load: &Load) {
    let (offsets, texts) = written(load);
    let values = Column::texts(&offsets, &texts.bytes, &load.flags);
    let column = Column::runs(&load.ends, &values).decode(&super::session());
    let views = decode(&texts.views);
    let bytes = texts.bytes.clone();
    let rows = Texts { views, bytes };
    let forms: [Form<Texts<Runs<View>>>; 2] = [
        ("", &|| encode_texts(&rows)),
        ("bits", &|| encode_texts_by_bits(&rows)),
    ];
    both(bench, load, "texts", &column, &forms, same_texts);
}

fn same_texts(ours: &Column, rust: &Texts<Runs<View>>) -> bool {
    let (offsets, bytes, flags) = ours.run_values().read_texts();
    let items = offsets
        .windows(2)
        .map(|pair| &bytes[pair[0] as usize..pair[1] as usize])
        .collect();
    let values = Texts {
        views: rust.views.values.clone(),
        bytes: rust.bytes.clone(),
    };
    ours.run_ends() == rust.views.ends && Flat { items, flags }.same_rows(&values.flat())
}
