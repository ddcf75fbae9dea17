//! Encodes, decodes, sums and filters a column on several threads, each of which works a window of its own. Prints for
//! each operation and number of threads the least time of some turns; the status is 1 where an answer differs from that
//! of a loop over the rows.
//!
//!     threads ROWS TURNS THREADS..
use hivevigil::{Column, Error, Operator, SplitBy};
use std::process::ExitCode;
use std::thread;
use std::time::{Duration, Instant};

const THRESHOLD: i64 = 40;

/// Counts and adds what is left of the rows.
#[derive(Clone, Copy, Debug, Default, PartialEq)]
struct Found {
    rows: usize,
    sum: i64,
}

fn filtered(part: &Column) -> Result<Column, Error> {
    part.filter(&part.compare_value(Operator::GreaterOrEqual, THRESHOLD)?)
}

fn summed(part: &Column) -> Result<Column, Error> {
    Column::new(&[i64::try_from(part.sum()?.total)?])
}

/// Works each part on a thread of its own; returns how long that takes, and what is left.
fn worked(
    parts: Vec<Column>,
    call: fn(&Column) -> Result<Column, Error>,
) -> Result<(Duration, Found), Error> {
    let begin = Instant::now();
    let threads: Vec<_> = parts
        .into_iter()
        .map(|part| thread::spawn(move || call(&part)))
        .collect();
    let made: Result<Vec<Column>, Error> = threads
        .into_iter()
        .map(|thread| thread.join().unwrap())
        .collect();
    let (time, mut found) = (begin.elapsed(), Found::default());
    for part in made? {
        found.rows += part.len();
        found.sum += i64::try_from(part.sum()?.total)?;
    }
    Ok((time, found))
}

struct Operation<'a> {
    name: &'static str,
    column: &'a Column,
    by: SplitBy,
    call: fn(&Column) -> Result<Column, Error>,
    due: Found,
}

/// Prints the least time of some turns; returns whether the answers are those of the loop.
fn time_of(operation: &Operation, threads: usize, turns: usize) -> Result<bool, Error> {
    let mut least = Duration::MAX;
    let mut holds = true;
    for _ in 0..turns {
        let parts = operation.column.split(threads, operation.by)?;
        let (time, found) = worked(parts, operation.call)?;
        least = least.min(time);
        let is_sum = operation.name.starts_with("sum");
        holds &= found.sum == operation.due.sum && (is_sum || found.rows == operation.due.rows);
    }
    println!("Rust,{},{threads},{}", operation.name, least.as_micros());
    Ok(holds)
}

fn run(rows: usize, turns: usize, threads: &[usize]) -> Result<bool, Error> {
    let items: Vec<i64> = (0..rows).map(|row| (row / 29 * 37 % 101) as i64).collect();
    let all = Found {
        rows,
        sum: items.iter().sum(),
    };
    let kept = items.iter().filter(|item| **item >= THRESHOLD);
    let kept = Found {
        rows: kept.clone().count(),
        sum: kept.sum(),
    };
    let flat = Column::new(&items)?;
    drop(items);
    let runs = flat.encode()?;
    let (by_rows, by_runs) = (SplitBy::Rows, SplitBy::Runs);
    let operations = [
        Operation {
            name: "encode",
            column: &flat,
            by: by_rows,
            call: Column::encode,
            due: all,
        },
        Operation {
            name: "decode",
            column: &runs,
            by: by_runs,
            call: Column::decode,
            due: all,
        },
        Operation {
            name: "sum",
            column: &runs,
            by: by_runs,
            call: summed,
            due: all,
        },
        Operation {
            name: "sum flat",
            column: &flat,
            by: by_rows,
            call: summed,
            due: all,
        },
        Operation {
            name: "filter",
            column: &runs,
            by: by_runs,
            call: filtered,
            due: kept,
        },
        Operation {
            name: "filter flat",
            column: &flat,
            by: by_rows,
            call: filtered,
            due: kept,
        },
    ];
    let mut same = true;
    for operation in &operations {
        for threads in threads {
            same &= time_of(operation, *threads, turns)?;
        }
    }
    Ok(same)
}

fn main() -> ExitCode {
    let numbers: Vec<usize> = std::env::args()
        .skip(1)
        .filter_map(|word| word.parse().ok())
        .collect();
    if numbers.len() < 3 {
        eprintln!("threads ROWS TURNS THREADS..");
        return ExitCode::from(2);
    }
    match run(numbers[0], numbers[1].max(1), &numbers[2..]) {
        Ok(true) => ExitCode::SUCCESS,
        Ok(false) => {
            eprintln!("another answer than that of a loop");
            ExitCode::FAILURE
        }
        Err(error) => {
            eprintln!("refused: {error}");
            ExitCode::FAILURE
        }
    }
}
