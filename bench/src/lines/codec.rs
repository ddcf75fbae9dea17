//! Rows to runs, and runs to rows.
use super::{same_runs, session, shape, Number};
use crate::data::Runs;
use crate::kernels::{decode, encode, encode_by_bits, encode_by_words};
use crate::library::Column;
use crate::line::{Bench, Form};
use crate::load::Load;

pub fn lines<T: Number>(bench: &mut Bench, load: &Load) {
    if !["encode", "decode"].iter().any(|call| bench.wants(call)) {
        return;
    }
    let (session, runs, rows) = (session(), load.runs(T::of), (load.rows(), "row"));
    let flat = decode(&runs);
    let column = T::column(&flat);
    let ours = || column.encode(&session);
    let forms: [Form<Runs<T>>; 3] = [
        ("", &|| encode(&flat)),
        ("words", &|| encode_by_words(&flat)),
        ("bits", &|| encode_by_bits(&flat)),
    ];
    let shape_of = |call: &str| shape(load, call, T::NAME);
    bench.question(shape_of("encode"), rows, ours, &forms, same_runs);
    let column = Column::of_runs(&runs);
    bench.line(
        shape_of("decode"),
        rows,
        || column.decode(&session),
        || decode(&runs),
        |ours, rust| ours.read_flat::<T>().same_rows(rust),
    );
}
