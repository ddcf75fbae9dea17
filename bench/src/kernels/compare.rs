//! Each row compared with one value.
use super::words::word_of;
use crate::bits::Bits;
use crate::data::{Runs, Truths};
use crate::kernels::decode::{spread, spread_by_ones, spread_by_turns};

fn less<T: Copy + PartialOrd>(
    runs: &Runs<T>,
    right: T,
    spread: impl Fn(&[u32], &Bits, usize) -> Bits,
) -> Truths {
    let items = &runs.values.items;
    let word = |part: &[T]| match <&[T; 64]>::try_from(part) {
        Ok(part) => word_of(|at| part[at] < right),
        Err(_) => word_of(|at| at < part.len() && part[at] < right),
    };
    let words = items.chunks(64).map(word).collect();
    let mut answers = Bits {
        words,
        len: items.len(),
    };
    let flags = runs.values.flags.as_ref().map(|valid| {
        answers
            .words
            .iter_mut()
            .zip(&valid.words)
            .for_each(|(word, valid)| *word &= valid);
        spread(&runs.ends, valid, runs.rows())
    });
    Truths {
        bits: spread(&runs.ends, &answers, runs.rows()),
        flags,
    }
}

/// Fills the rows run by run.
#[inline(never)]
pub fn less_by_runs<T: Copy + PartialOrd>(runs: &Runs<T>, right: T) -> Truths {
    less(runs, right, spread)
}

/// Turns the rows 64 at a time.
#[inline(never)]
pub fn less_by_turns<T: Copy + PartialOrd>(runs: &Runs<T>, right: T) -> Truths {
    less(runs, right, spread_by_turns)
}

/// Of 64 runs a word says which rows are filled.
#[inline(never)]
pub fn less_by_ones<T: Copy + PartialOrd>(runs: &Runs<T>, right: T) -> Truths {
    less(runs, right, spread_by_ones)
}
