//! Times the calls of libhivevigil.a relative to plain Rust kernels that do the same work, in turns in one process, by
//! the thread's processor time, and compares what both answer. The tables go to the output, each line as it is measured
//! to the error output. The status is 1 where an answer differs.
mod bits;
mod clock;
mod data;
mod kernels;
mod library;
mod line;
mod lines;
mod load;
mod memory;
#[allow(dead_code, clippy::all)]
#[path = "../../rust/src/raw.rs"]
mod raw;
mod report;

pub(crate) use hivevigil::{Fields, Kind, Session};
use kernels::black_box;
use line::Bench;
use std::process::ExitCode;
use std::time::{Duration, Instant};

const USAGE: &str =
    "bench [--rows N] [--turns N] [--rounds N] [--seconds N] [--only NAME,NAME] [--cold] [--growth] [--sizes] [--smoke]";

/// Holds what is asked for on the command line.
struct Asked {
    bench: Bench,
    rounds: usize,
    /// Ends the rounds: none is begun that would end later, if it took as long as the one before.
    seconds: u64,
    cold: bool,
    growth: bool,
    sizes: bool,
    smoke: bool,
}

fn asked() -> Option<Asked> {
    let bench = Bench {
        rows: 4_000_000,
        turns: 7,
        only: vec![],
        lines: vec![],
        differ: vec![],
        compares: true,
    };
    let mut asked = Asked {
        bench,
        rounds: 1,
        seconds: u64::MAX,
        cold: false,
        growth: false,
        sizes: false,
        smoke: false,
    };
    let mut words = std::env::args().skip(1);
    while let Some(word) = words.next() {
        match word.as_str() {
            "--rows" => asked.bench.rows = words.next()?.parse().ok()?,
            "--turns" => {
                asked.bench.turns = words.next()?.parse().ok().filter(|turns| *turns > 0)?
            }
            "--rounds" => asked.rounds = words.next()?.parse().ok()?,
            "--seconds" => asked.seconds = words.next()?.parse().ok()?,
            "--only" => asked.bench.only = words.next()?.split(',').map(String::from).collect(),
            "--cold" => asked.cold = true,
            "--growth" => asked.growth = true,
            "--sizes" => asked.sizes = true,
            "--smoke" => asked.smoke = true,
            _ => return None,
        }
    }
    Some(asked)
}

/// Makes one call in a process of its own, for `lines::first`.
fn first_call() -> Option<String> {
    let words: Vec<String> = std::env::args().skip(1).collect();
    match words.iter().map(String::as_str).collect::<Vec<_>>()[..] {
        ["--first", call, side, rows] => lines::first(call, side, rows.parse().ok()?),
        _ => None,
    }
}

/// Measures all lines, at most as many times as asked for, and once at least; answers with how many times.
fn all_rounds(bench: &mut Bench, rounds: usize, time: Duration) -> usize {
    let begin = Instant::now();
    for round in 1..=rounds {
        let start = begin.elapsed();
        lines::all(bench);
        bench.compares = false;
        let stop = begin.elapsed();
        if stop + (stop - start) > time {
            return round;
        }
    }
    rounds
}

fn main() -> ExitCode {
    if let Some(told) = first_call() {
        print!("{told}");
        return ExitCode::SUCCESS;
    }
    let Some(mut asked) = asked() else {
        eprintln!("{USAGE}");
        return ExitCode::from(2);
    };
    if asked.sizes {
        print!("{}", lines::sizes(asked.bench.rows));
        return ExitCode::SUCCESS;
    }
    if asked.cold {
        clock::map_anew();
    } else {
        clock::keep_memory();
    }
    let bench = &mut asked.bench;
    if asked.smoke {
        (bench.rows, bench.turns) = (5_000, 1);
        lines::all(bench);
        black_box(lines::sizes(bench.rows));
    } else if asked.growth {
        print!("{}", lines::growth(bench));
    } else {
        let rounds = all_rounds(bench, asked.rounds, Duration::from_secs(asked.seconds));
        bench.lines = line::middle_rounds(&bench.lines);
        println!("{rounds} rounds of {} turns.", bench.turns);
        print!("{}", report::tables(bench));
    }
    for (shape, form) in &bench.differ {
        println!("DIFFERS: {shape:?} {form}");
    }
    if bench.differ.is_empty() {
        println!("{} lines agree", bench.lines.len());
        return ExitCode::SUCCESS;
    }
    ExitCode::FAILURE
}
