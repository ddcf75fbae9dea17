//! Rows to runs in two passes: a bit for each row that differs from the one before, 64 to a word, and then ends and
//! values by these bits.
use super::words::word_of;
use crate::bits::Bits;
use crate::data::{Flat, Runs, Texts, TruthRuns, Truths, View};

/// Says which rows differ from the row before them. The first has none before it, and its bit is 0.
struct Changes {
    words: Vec<u64>,
    rows: usize,
}

impl Changes {
    /// `differs` answers with the bits of the rows from its first argument up to its second, of at most 64 rows.
    fn of(rows: usize, flags: Option<&Bits>, differs: impl Fn(usize, usize) -> u64) -> Changes {
        let word = |at: usize| {
            let (start, stop) = (at * 64, (at * 64 + 64).min(rows));
            let items = differs(start, stop);
            let Some(flags) = flags else {
                return items & !u64::from(at == 0);
            };
            let (valid, before) = (flags.words[at], before(flags, at));
            let found = (valid ^ before) | (valid & before & items);
            found & !u64::from(at == 0) & u64::MAX >> (64 - (stop - start))
        };
        let words = (0..rows.div_ceil(64)).map(word).collect();
        Changes { words, rows }
    }

    /// Where runs end. Four are written at a time, and what is too much is written over.
    fn ends(&self) -> Vec<u32> {
        let count: u32 = self.words.iter().map(|word| word.count_ones()).sum();
        let mut ends = Vec::with_capacity(count as usize + 4);
        let room = ends.spare_capacity_mut();
        let mut kept = 0;
        for (number, word) in self.words.iter().enumerate() {
            let (start, stop) = ((number * 64) as u32, kept + word.count_ones() as usize);
            let mut left = *word;
            while kept < stop {
                for end in &mut room[kept..kept + 4] {
                    end.write(start + left.trailing_zeros());
                    left &= left.wrapping_sub(1);
                }
                kept += 4;
            }
            kept = stop;
        }
        if self.rows > 0 {
            room[kept].write(self.rows as u32);
            kept += 1;
        }
        unsafe { ends.set_len(kept) };
        ends
    }
}

/// Moves the bits of a word one row later.
#[inline(always)]
fn before(bits: &Bits, at: usize) -> u64 {
    bits.words[at] << 1 | if at == 0 { 0 } else { bits.words[at - 1] >> 63 }
}

/// Takes the last row of each run, blank under null.
fn values_at<T: Copy + Default>(rows: &Flat<T>, ends: &[u32]) -> Flat<T> {
    let items = &rows.items;
    let Some(flags) = &rows.flags else {
        let items = ends.iter().map(|end| items[*end as usize - 1]).collect();
        return Flat { items, flags: None };
    };
    let valid = bits_at(flags, ends);
    let shown = |(run, end): (usize, &u32)| {
        let item = items[*end as usize - 1];
        if valid.get(run) {
            item
        } else {
            T::default()
        }
    };
    Flat {
        items: ends.iter().enumerate().map(shown).collect(),
        flags: Some(valid),
    }
}

fn bits_at(bits: &Bits, ends: &[u32]) -> Bits {
    Bits::from_fn(ends.len(), |run| bits.get(ends[run] as usize - 1))
}

#[inline(never)]
pub fn encode_by_bits<T: Copy + PartialEq + Default>(rows: &Flat<T>) -> Runs<T> {
    let items = &rows.items[..];
    let differs = |start: usize, stop: usize| {
        if let (1.., 64) = (start, stop - start) {
            let (these, others) = (&items[start..stop], &items[start - 1..stop - 1]);
            return word_of(|at| these[at] != others[at]);
        }
        let bit = |at: usize| u64::from(items[at] != items[at - 1]) << (at - start);
        (start.max(1)..stop).fold(0, |word, at| word | bit(at))
    };
    let ends = Changes::of(items.len(), rows.flags.as_ref(), differs).ends();
    let values = values_at(rows, &ends);
    Runs { ends, values }
}

/// 64 booleans, and their flags, are compared at once. Without null the values of runs are true and false in turns.
#[inline(never)]
pub fn encode_truths_by_bits(rows: &Truths) -> TruthRuns {
    let (bits, len) = (&rows.bits, rows.bits.len);
    let differs = |start: usize, stop: usize| {
        let at = start / 64;
        (bits.words[at] ^ before(bits, at)) & u64::MAX >> (64 - (stop - start))
    };
    let ends = Changes::of(len, rows.flags.as_ref(), differs).ends();
    let values = match &rows.flags {
        None => super::encode::in_turns(len > 0 && bits.get(0), ends.len()),
        Some(flags) => {
            let (mut bits, flags) = (bits_at(bits, &ends), bits_at(flags, &ends));
            let both = bits.words.iter_mut().zip(&flags.words);
            both.for_each(|(word, valid)| *word &= valid);
            let flags = Some(flags);
            Truths { bits, flags }
        }
    };
    TruthRuns { ends, values }
}

/// Compares views, since the same view shows the same text, and the texts of those that differ.
#[inline(never)]
pub fn encode_texts_by_bits(rows: &Texts<Flat<View>>) -> Texts<Runs<View>> {
    let items = &rows.views.items[..];
    let bytes = |view: &View| &rows.bytes[view.start as usize..][..view.len as usize];
    let same_text = |left: &View, right: &View| {
        (left.len, left.prefix) == (right.len, right.prefix) && bytes(left) == bytes(right)
    };
    let differs = |start: usize, stop: usize| {
        let bit = |at: usize| u64::from(items[at] != items[at - 1]) << (at - start);
        let word = if let (1.., 64) = (start, stop - start) {
            let (these, others) = (&items[start..stop], &items[start - 1..stop - 1]);
            word_of(|at| these[at] != others[at])
        } else {
            (start.max(1)..stop).fold(0, |word, at| word | bit(at))
        };
        let (mut left, mut found) = (word, 0);
        while left != 0 {
            let at = start + left.trailing_zeros() as usize;
            found |= u64::from(!same_text(&items[at - 1], &items[at])) << (at - start);
            left &= left - 1;
        }
        found
    };
    let ends = Changes::of(items.len(), rows.views.flags.as_ref(), differs).ends();
    let values = values_at(&rows.views, &ends);
    Texts {
        views: Runs { ends, values },
        bytes: rows.bytes.clone(),
    }
}
