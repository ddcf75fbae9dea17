//! Questions over all runs.
use super::{session, shape, Number};
use crate::data::{Flat, Runs};
use crate::kernels::{
    is_constant, is_sorted, least, least_and_greatest, least_and_greatest_by_blocks,
    least_by_blocks, sum, sum_by_blocks, Addend,
};
use crate::library::Column;
use crate::line::{Bench, Form};
use crate::load::Load;

pub fn lines<T: Number>(bench: &mut Bench, load: &Load) {
    if !["sum", "least", "min_max", "is_"]
        .iter()
        .any(|call| bench.wants(call))
    {
        return;
    }
    let (session, runs, units) = (session(), load.runs(T::of), (load.ends.len(), "run"));
    let column = Column::of_runs(&runs);
    let sums: [Form<i128>; 2] = [("", &|| sum(&runs)), ("blocks", &|| sum_by_blocks(&runs))];
    let shape_of = |call: &str| shape(load, call, T::NAME);
    let same = |ours: &Option<i128>, rust: &i128| *ours == Some(*rust);
    bench.question(shape_of("sum"), units, || column.sum(&session), &sums, same);
    let values = &runs.values;
    let forms: [Form<Option<T>>; 2] = [
        ("", &|| least(values)),
        ("blocks", &|| least_by_blocks(values)),
    ];
    let ours = || column.extreme(&session, false);
    let same = |ours: &Option<i128>, rust: &Option<T>| *ours == rust.map(Addend::wide);
    bench.question(shape_of("least"), units, ours, &forms, same);
    let forms: [Form<Option<(T, T)>>; 2] = [
        ("", &|| least_and_greatest(values)),
        ("blocks", &|| least_and_greatest_by_blocks(values)),
    ];
    let forms = if load.flags.is_some() {
        &forms[..]
    } else {
        &forms[..1]
    };
    let ours = || column.least_and_greatest(&session);
    let same = |ours: &Option<(i128, i128)>, rust: &Option<(T, T)>| {
        *ours == rust.map(|(low, high)| (low.wide(), high.wide()))
    };
    bench.question(shape_of("min_max"), units, ours, forms, same);
    if load.flags.is_none() {
        orders(bench, load, &runs);
    }
}

/// Of equal values, and of values in order: all are looked at.
fn orders<T: Number>(bench: &mut Bench, load: &Load, runs: &Runs<T>) {
    let (session, units) = (session(), (load.ends.len(), "run"));
    let of = |items: Vec<T>| {
        let values = Flat { items, flags: None };
        Column::of_runs(&Runs {
            ends: load.ends.clone(),
            values,
        })
    };
    let same = vec![T::of(7); load.ends.len()];
    let column = of(same.clone());
    let ours = || column.is_constant(&session);
    let answers = |ours: &bool, rust: &bool| *ours && *rust;
    bench.line(
        shape(load, "is_constant", T::NAME),
        units,
        ours,
        || is_constant(&same),
        answers,
    );
    let mut ordered = runs.values.items.clone();
    ordered.sort_by(|left, right| left.partial_cmp(right).expect("numbers are ordered"));
    let column = of(ordered.clone());
    let ours = || column.is_sorted(&session);
    bench.line(
        shape(load, "is_sorted", T::NAME),
        units,
        ours,
        || is_sorted(&ordered),
        answers,
    );
}
