//! Runs of decimals, booleans, texts, and runs whose values are runs.
use super::selects::{index_column, indices, mask, mask_column, FEW, FILTERS, TAKES};
use super::{session, shape};
use crate::bits::Bits;
use crate::data::{Flat, Runs, Texts, TruthRuns, Truths, View};
use crate::kernels::{
    decode, decode_truths, decode_truths_by_ones, decode_truths_by_turns, filter, filter_joined,
    filter_truths, one_level, take, take_by_fours, take_by_ranks, take_in_one_pass, take_truths,
    take_truths_by_fours, take_truths_by_ranks, Kept,
};
use crate::library::{Column, Item};
use crate::line::{Bench, Form};
use crate::load::Load;
use std::sync::Arc;

type Takes<'a, F> = [(&'static str, &'a dyn Fn(&[u64]) -> F)];
type Filters<'a, F> = [(&'static str, &'a dyn Fn(&Bits) -> F)];

/// Has the forms of the Rust side of one kind of rows: decode, takes of indices (few at random; any; in order), and
/// filters by a mask.
struct Rust<'a, F> {
    kind: &'static str,
    column: &'a Column,
    decode: &'a [Form<'a, F>],
    few: &'a Takes<'a, F>,
    take: &'a Takes<'a, F>,
    ordered: &'a Takes<'a, F>,
    filter: &'a Filters<'a, F>,
    same: &'a dyn Fn(&Column, &F) -> bool,
}

pub fn lines(bench: &mut Bench, load: &Load) {
    if !["decode", "take,", "filter"]
        .iter()
        .any(|call| bench.wants(call))
    {
        return;
    }
    decimals(bench, load);
    truths(bench, load);
    texts(bench, load);
    nested(bench, load);
}

fn each<F>(bench: &mut Bench, load: &Load, rust: Rust<F>) {
    let (session, column, rows) = (session(), rust.column, load.rows());
    let shape = |call: &str| shape(load, call, rust.kind);
    let ours = || column.decode(&session);
    bench.question(shape("decode"), (rows, "row"), ours, rust.decode, rust.same);
    for (name, every, ordered) in TAKES {
        let indices = indices(rows, every, ordered);
        let (places, units) = (index_column(&indices), (indices.len(), "index"));
        let further = match (every, ordered) {
            (_, true) => rust.ordered,
            (FEW, false) => rust.few,
            _ => &[],
        };
        let takes = rust.take.iter().chain(further);
        let calls: Vec<_> = takes
            .map(|(name, take)| (*name, || take(&indices)))
            .collect();
        let forms: Vec<Form<F>> = calls
            .iter()
            .map(|(name, call)| (*name, call as _))
            .collect();
        let ours = || column.take(&session, &places);
        bench.question(shape(name), units, ours, &forms, rust.same);
    }
    for (name, every) in FILTERS {
        let bits = mask(rows, every);
        let mask = mask_column(&bits);
        let calls = rust.filter.iter();
        let calls: Vec<_> = calls
            .map(|(name, filter)| (*name, || filter(&bits)))
            .collect();
        let forms: Vec<Form<F>> = calls
            .iter()
            .map(|(name, call)| (*name, call as _))
            .collect();
        let ours = || column.filter(&session, &mask);
        bench.question(shape(name), (rows, "row"), ours, &forms, rust.same);
    }
}

/// Holds the rows of what a filter kept, which only the comparison of answers asks for.
enum Answer<R, F> {
    Rows(F),
    Kept(Kept<R, F>),
}

impl<T: Item> Answer<Runs<T>, Flat<T>> {
    fn same(&self, column: &Column) -> bool {
        let found = column.read_flat::<T>();
        match self {
            Answer::Rows(rows) | Answer::Kept(Kept::Flat(rows)) => found.same_rows(rows),
            Answer::Kept(Kept::Runs(runs)) => found.same_rows(&decode(runs)),
        }
    }
}

type FlatAnswer<T> = Answer<Runs<T>, Flat<T>>;

/// Items of any type in runs: what they keep is left as it falls.
fn items<T: Copy + Default>(
    bench: &mut Bench,
    load: &Load,
    (kind, column): (&'static str, &Column),
    runs: &Runs<T>,
    same: &dyn Fn(&Column, &FlatAnswer<T>) -> bool,
) {
    let (ends, values) = (&runs.ends, &runs.values);
    let rust = Rust {
        kind,
        column,
        decode: &[("", &|| Answer::Rows(decode(runs)))],
        few: &[("fours", &|places| {
            Answer::Rows(take_by_fours(ends, values, places))
        })],
        take: &[
            ("", &|places| Answer::Rows(take(ends, values, places))),
            ("ranks", &|places| {
                Answer::Rows(take_by_ranks(ends, values, places))
            }),
        ],
        ordered: &[("one pass", &|places| {
            Answer::Rows(take_in_one_pass(ends, values, places))
        })],
        filter: &[("", &|mask| Answer::Kept(filter(ends, values, mask)))],
        same,
    };
    each(bench, load, rust);
}

fn decimals(bench: &mut Bench, load: &Load) {
    let runs = load.runs(|number| i128::from(number) << 30);
    let column = Column::of_runs(&runs);
    let same = |ours: &Column, rust: &FlatAnswer<i128>| rust.same(ours);
    items(bench, load, ("decimals", &column), &runs, &same);
}

fn truths(bench: &mut Bench, load: &Load) {
    let bits = Bits::from_fn(load.ends.len(), |run| {
        load.numbers[run] % 3 == 0 && load.flags.as_ref().is_none_or(|flags| flags.get(run))
    });
    let values = Truths {
        bits,
        flags: load.flags.clone(),
    };
    let runs = TruthRuns {
        ends: load.ends.clone(),
        values,
    };
    let column = Column::runs(&runs.ends, &Column::truths(&runs.values));
    let same = |ours: &Column, rust: &Answer<TruthRuns, Truths>| {
        let rows = match rust {
            Answer::Rows(rows) | Answer::Kept(Kept::Flat(rows)) => rows.flat(),
            Answer::Kept(Kept::Runs(runs)) => decode_truths(runs).flat(),
        };
        ours.read_truths().flat().same_rows(&rows)
    };
    let rust = Rust {
        kind: "booleans",
        column: &column,
        decode: &[
            ("", &|| Answer::Rows(decode_truths(&runs))),
            ("turns", &|| Answer::Rows(decode_truths_by_turns(&runs))),
            ("ones", &|| Answer::Rows(decode_truths_by_ones(&runs))),
        ],
        few: &[("fours", &|places| {
            Answer::Rows(take_truths_by_fours(&runs, places))
        })],
        take: &[
            ("", &|places| Answer::Rows(take_truths(&runs, places))),
            ("ranks", &|places| {
                Answer::Rows(take_truths_by_ranks(&runs, places))
            }),
        ],
        ordered: &[],
        filter: &[("", &|mask| Answer::Kept(filter_truths(&runs, mask)))],
        same: &same,
    };
    each(bench, load, rust);
}

/// Texts of 12 to 20 bytes, one for each run.
pub fn written(load: &Load) -> (Vec<i64>, Texts<Runs<View>>) {
    let (mut bytes, mut offsets, mut items) = (Vec::new(), vec![0], Vec::new());
    for (run, number) in load.numbers.iter().enumerate() {
        let start = bytes.len();
        if load.flags.as_ref().is_none_or(|flags| flags.get(run)) {
            bytes.extend_from_slice(&b"a text of some length"[..12 + (number % 9) as usize]);
            bytes[start..start + 4].copy_from_slice(
                &(run as u32 | 0x2020_2020)
                    .to_le_bytes()
                    .map(|byte| byte & 127),
            );
        }
        let (start, len) = (start as u32, (bytes.len() - start) as u32);
        let prefix = bytes[start as usize..]
            .get(..4)
            .map_or([0; 4], |head| head.try_into().expect("four bytes"));
        items.push(View {
            len,
            prefix,
            buffer: 0,
            start,
        });
        offsets.push(bytes.len() as i64);
    }
    let views = Runs {
        ends: load.ends.clone(),
        values: Flat {
            items,
            flags: load.flags.clone(),
        },
    };
    (
        offsets,
        Texts {
            views,
            bytes: Arc::new(bytes),
        },
    )
}

fn texts(bench: &mut Bench, load: &Load) {
    let (offsets, texts) = written(load);
    let runs = &texts.views;
    let column = Column::texts(&offsets, &texts.bytes, &load.flags);
    let column = Column::runs(&runs.ends, &column);
    let same = |ours: &Column, rust: &Answer<Runs<View>, Flat<View>>| {
        let views = match rust {
            Answer::Rows(views) | Answer::Kept(Kept::Flat(views)) => views.clone(),
            Answer::Kept(Kept::Runs(runs)) => decode(runs),
        };
        let (offsets, bytes, flags) = ours.read_texts();
        let items = offsets
            .windows(2)
            .map(|pair| &bytes[pair[0] as usize..pair[1] as usize])
            .collect();
        Flat { items, flags }.same_rows(
            &Texts {
                views,
                bytes: texts.bytes.clone(),
            }
            .flat(),
        )
    };
    items(bench, load, ("texts", &column), runs, &same);
}

/// Runs of which three in a row, about, show one value, which is stored once. Rust writes the values out first, or makes
/// one level of runs of the two.
fn nested(bench: &mut Bench, load: &Load) {
    let inner = Load::new(load.ends.len(), 3, load.flags.is_some());
    let values = inner.runs(|number| number);
    let column = Column::runs(&load.ends, &Column::of_runs(&values));
    let outer = || Runs {
        ends: load.ends.clone(),
        values: decode(&values),
    };
    let one = || one_level(&load.ends, &values);
    let taken = |places: &[u64], runs: Runs<u64>, take: Take<u64>| {
        Answer::Rows(take(&runs.ends, &runs.values, places))
    };
    let kept =
        |mask: &Bits, runs: Runs<u64>| Answer::Kept(filter_joined(&runs.ends, &runs.values, mask));
    let rust = Rust {
        kind: "nested runs",
        column: &column,
        decode: &[
            ("", &|| Answer::Rows(decode(&outer()))),
            ("one level", &|| Answer::Rows(decode(&one()))),
        ],
        few: &[("one level, fours", &|places| {
            taken(places, one(), take_by_fours)
        })],
        take: &[
            ("", &|places| taken(places, outer(), take)),
            ("one level", &|places| taken(places, one(), take)),
            ("one level, ranks", &|places| {
                taken(places, one(), take_by_ranks)
            }),
        ],
        ordered: &[],
        filter: &[
            ("", &|mask| kept(mask, outer())),
            ("one level", &|mask| kept(mask, one())),
        ],
        same: &|ours, rust: &FlatAnswer<u64>| rust.same(ours),
    };
    each(bench, load, rust);
}

type Take<T> = fn(&[u32], &Flat<T>, &[u64]) -> Flat<T>;
