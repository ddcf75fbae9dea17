//! What the first call of a process costs, which meets its code, its branches and its memory for the first time: each
//! call is made once in a process of its own, which reports what it took and what it answered. Its column was made just
//! before, so that a small one lies in the cache.
use super::selects::{index_column, indices, mask, mask_column};
use super::session;
use crate::bits::Bits;
use crate::clock::now;
use crate::data::{Flat, Runs};
use crate::kernels::{self, black_box, Kept, SharedRuns, Slice};
use crate::library::{passed, Column};
use crate::line::{Bench, Line, Shape, Timed};
use crate::load::Load;
use crate::memory::Taken;
use std::hash::{DefaultHasher, Hash, Hasher};
use std::process::Command;

const CALLS: [&str; 8] = [
    "scalar_at",
    "sum",
    "slice",
    "clone",
    "fill",
    "decode",
    "take",
    "filter",
];
const SIDES: [&str; 2] = ["ours", "rust"];

pub fn lines(bench: &mut Bench) {
    for call in CALLS {
        let name = format!("first {call}");
        for rows in [10, bench.rows] {
            if bench.wants(&name) {
                line(bench, &name, call, rows);
            }
        }
    }
}

/// Nanoseconds, and the answer in words.
type Told = (f64, String);

fn line(bench: &mut Bench, name: &str, call: &str, rows: usize) {
    let shape = Shape {
        call: name.to_string(),
        kind: "u64",
        nulls: true,
        size: format!("{rows} rows"),
    };
    let mut told: [Vec<Told>; 2] = [vec![], vec![]];
    for _ in 0..bench.turns {
        (0..2).for_each(|side| told[side].push(in_a_process(call, SIDES[side], rows)));
    }
    let answer = told[0][0].1.clone();
    if told.iter().flatten().any(|(_, other)| *other != answer) {
        bench.differ.push((shape.clone(), ""));
    }
    let middle = |mut told: Vec<Told>| {
        told.sort_by(|left, right| left.0.total_cmp(&right.0));
        told[told.len() / 2].0
    };
    let [ours, rust] = told.map(middle);
    let (ours_taken, taken, plain) = (Taken::default(), Taken::default(), "");
    bench.add(Line {
        shape,
        unit: "call",
        calls: 1,
        ours,
        ours_taken,
        forms: vec![Timed {
            name: plain,
            rust,
            taken,
        }],
    });
}

fn in_a_process(call: &str, side: &str, rows: usize) -> Told {
    let program = std::env::current_exe().expect("a program knows where it is");
    let asked = Command::new(program)
        .args(["--first", call, side, &rows.to_string()])
        .output()
        .expect("the program starts once more");
    let said = String::from_utf8(asked.stdout).expect("words are UTF-8");
    let (nanoseconds, answer) = said.split_once(' ').expect("a time and an answer");
    (nanoseconds.parse().expect("a number"), answer.to_string())
}

/// In the process of its own: `--first CALL SIDE ROWS`.
pub fn first(call: &str, side: &str, rows: usize) -> Option<String> {
    let load = Load::new(rows, 16, true);
    let runs = load.runs(|number| number);
    let (nanoseconds, answer) = if side == SIDES[0] {
        ours(call, &runs)?
    } else {
        rust(call, &runs)?
    };
    Some(format!("{nanoseconds} {answer}"))
}

fn timed<A>(call: impl FnOnce() -> A, told: impl FnOnce(A) -> String) -> (u64, String) {
    let start = now();
    let answer = black_box(call());
    let taken = now() - start;
    (taken, told(answer))
}

fn ours(call: &str, runs: &Runs<u64>) -> Option<(u64, String)> {
    let (session, column, rows) = (session(), Column::of_runs(runs), runs.rows());
    let flat = |column: Column| told(&column.read_flat());
    Some(match call {
        "scalar_at" => timed(|| column.at(rows / 2), |row| format!("{row:?}")),
        "sum" => timed(|| column.sum(&session), |sum| format!("{sum:?}")),
        "slice" => timed(|| column.slice(&session, rows / 4, rows), flat),
        "clone" => timed(|| column.try_clone(), flat),
        "fill" => timed(|| column.fill(&session, passed(9, false)), flat),
        "decode" => timed(|| column.decode(&session), flat),
        "take" => {
            let places = index_column(&indices(rows, 4, true));
            timed(|| column.take(&session, &places), flat)
        }
        "filter" => {
            let kept = mask_column(&mask(rows, 2));
            timed(|| column.filter(&session, &kept), flat)
        }
        _ => return None,
    })
}

fn rust(call: &str, runs: &Runs<u64>) -> Option<(u64, String)> {
    let (rows, flat) = (runs.rows(), |rows: Flat<u64>| told(&rows));
    let decoded = |runs: Runs<u64>| told(&kernels::decode(&runs));
    let (ends, values) = (&runs.ends, &runs.values);
    Some(match call {
        "scalar_at" => timed(
            || kernels::look_up(runs, rows / 2).map(i128::from),
            |row| format!("{row:?}"),
        ),
        "sum" => timed(
            || Some(kernels::sum_by_blocks(runs)),
            |sum| format!("{sum:?}"),
        ),
        "slice" => {
            let shared = SharedRuns::of(runs.clone());
            timed(
                || shared.slice(rows / 4..rows),
                |slice| told(&rows_of(slice.copied(), rows - rows / 4)),
            )
        }
        "clone" => {
            let shared = SharedRuns::of(runs.clone());
            timed(|| shared.clone(), |shared| decoded(shared.copied().0))
        }
        "fill" => timed(|| kernels::fill(runs, 9), decoded),
        "decode" => timed(|| kernels::decode(runs), flat),
        "take" => {
            let indices = indices(rows, 4, true);
            let many = rows > 1_000;
            let take = if many {
                kernels::take_by_ranks
            } else {
                kernels::take
            };
            timed(|| take(ends, values, &indices), flat)
        }
        "filter" => {
            let mask = mask(rows, 2);
            timed(
                || kernels::filter_joined(ends, values, &mask),
                |kept| match kept {
                    Kept::Runs(runs) => decoded(runs),
                    Kept::Flat(rows) => flat(rows),
                },
            )
        }
        _ => return None,
    })
}

fn rows_of(slice: Slice<u64>, count: usize) -> Flat<u64> {
    let row = |at: usize| match &slice {
        Slice::Constant(value) => *value,
        Slice::Runs(runs, offset) => kernels::look_up(runs, at + offset),
    };
    let rows: Vec<Option<u64>> = (0..count).map(row).collect();
    Flat {
        items: rows.iter().map(|row| row.unwrap_or_default()).collect(),
        flags: Some(Bits::from_fn(count, |at| rows[at].is_some())),
    }
}

/// Says how many rows there are, and what their numbers come to.
fn told(rows: &Flat<u64>) -> String {
    let mut hasher = DefaultHasher::new();
    for (at, item) in rows.items.iter().enumerate() {
        let valid = rows.flags.as_ref().is_none_or(|flags| flags.get(at));
        valid.then_some(item).hash(&mut hasher);
    }
    format!("{} rows {:x}", rows.items.len(), hasher.finish())
}
