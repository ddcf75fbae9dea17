//! Kernels over buffers that columns share: what a call leaves as it is has one more owner, and is not copied.
use crate::bits::Bits;
use crate::data::{Flat, Runs};
use crate::kernels::join::join;
use crate::kernels::Slice;
use std::ops::Range;
use std::sync::Arc;

/// Those of a range of stored runs, of which `offset` rows lie before the first row.
#[derive(Clone, Debug)]
pub struct SharedRuns<T> {
    ends: Arc<Vec<u32>>,
    items: Arc<Vec<T>>,
    flags: Option<Arc<Bits>>,
    kept: Range<usize>,
    offset: usize,
}

/// Holds what a slice leaves: rows that are all the same, or runs.
#[derive(Debug)]
pub enum SharedSlice<T> {
    Constant(Option<T>),
    Runs(SharedRuns<T>),
}

impl<T: Copy> SharedSlice<T> {
    /// Copied, for comparisons.
    pub fn copied(&self) -> Slice<T> {
        match self {
            SharedSlice::Constant(value) => Slice::Constant(*value),
            SharedSlice::Runs(runs) => {
                let (runs, offset) = runs.copied();
                Slice::Runs(runs, offset)
            }
        }
    }
}

impl<T: Copy> SharedRuns<T> {
    pub fn of(runs: Runs<T>) -> SharedRuns<T> {
        let kept = 0..runs.ends.len();
        SharedRuns {
            ends: Arc::new(runs.ends),
            items: Arc::new(runs.values.items),
            flags: runs.values.flags.map(Arc::new),
            kept,
            offset: 0,
        }
    }

    /// Copied, for comparisons: the ends are those that are stored.
    pub fn copied(&self) -> (Runs<T>, usize) {
        let part = |flags: &Arc<Bits>| flags.part(self.kept.clone());
        let values = Flat {
            items: self.items[self.kept.clone()].to_vec(),
            flags: self.flags.as_ref().map(part),
        };
        let ends = self.ends[self.kept.clone()].to_vec();
        (Runs { ends, values }, self.offset)
    }

    #[inline(never)]
    pub fn slice(&self, rows: Range<usize>) -> SharedSlice<T> {
        let ends = &self.ends[self.kept.clone()];
        let (start, stop) = (rows.start + self.offset, rows.end + self.offset);
        let first = self.kept.start + ends.partition_point(|end| *end as usize <= start);
        let last = self.kept.start + ends.partition_point(|end| (*end as usize) < stop);
        if first == last {
            let valid = self.flags.as_ref().is_none_or(|flags| flags.get(first));
            return SharedSlice::Constant(valid.then(|| self.items[first]));
        }
        let mut part = self.clone();
        (part.kept, part.offset) = (first..last + 1, start);
        SharedSlice::Runs(part)
    }
}

/// Runs to a block: what is tested, mapped and compared with its neighbours while it is in the cache.
const BLOCK: usize = 1024;

/// Says what a call leaves under null: nulls, over a value, or that value in their place.
enum UnderNull<U> {
    Null(U),
    Row(U),
}

/// Maps each value of the runs, and joins them where neighbours show the same; where none do, the ends are shared. `None`
/// where `fits` refuses a value that is shown. The call is made on all runs of the column.
#[inline(always)]
fn mapped<T: Copy, U: Copy + PartialEq>(
    runs: &SharedRuns<T>,
    under_null: UnderNull<U>,
    fits: impl Fn(T) -> bool,
    to: impl Fn(T) -> U,
) -> Option<SharedRuns<U>> {
    let (stored, flags) = match under_null {
        UnderNull::Null(stored) => (stored, runs.flags.as_ref()),
        UnderNull::Row(row) => (row, None),
    };
    let valid = |flags: Option<&Arc<Bits>>, at: usize| flags.is_none_or(|flags| flags.get(at));
    let mut items: Vec<U> = Vec::with_capacity(runs.items.len());
    let mut joins = false;
    for part in runs.items.chunks(BLOCK) {
        let start = items.len();
        let fit = part.iter().fold(true, |all, item| all & fits(*item));
        let refused = |at: usize| valid(runs.flags.as_ref(), start + at) && !fits(part[at]);
        if !fit && (0..part.len()).any(refused) {
            return None;
        }
        items.extend(part.iter().map(|item| to(*item)));
        write_under_null(&mut items, start, runs.flags.as_ref(), stored);
        let first = start.max(1);
        let pairs = items[first..].iter().zip(&items[first - 1..]);
        let some = pairs.fold(false, |some, (item, other)| some | (item == other));
        let same =
            |at: usize| items[at] == items[at - 1] && valid(flags, at) == valid(flags, at - 1);
        joins = joins || some && (first..items.len()).any(same);
    }
    if joins {
        let flags = flags.map(|flags| Bits::clone(flags));
        let values = Flat { items, flags };
        return Some(SharedRuns::of(join(runs.ends.to_vec(), values)));
    }
    Some(SharedRuns {
        ends: runs.ends.clone(),
        items: Arc::new(items),
        flags: flags.cloned(),
        kept: runs.kept.clone(),
        offset: 0,
    })
}

/// Writes an item under each null, of the items from `start` on, which is a multiple of 64.
#[inline(always)]
fn write_under_null<U: Copy>(items: &mut [U], start: usize, flags: Option<&Arc<Bits>>, item: U) {
    let Some(flags) = flags else {
        return;
    };
    let words = &flags.words[start / 64..];
    for (part, word) in items[start..].chunks_mut(64).zip(words) {
        let mut left = !word & u64::MAX >> (64 - part.len());
        while left != 0 {
            part[left.trailing_zeros() as usize] = item;
            left &= left - 1;
        }
    }
}

#[inline(never)]
pub fn cast_shared<T: Copy, U: Copy + PartialEq + Default>(
    runs: &SharedRuns<T>,
    fits: impl Fn(T) -> bool,
    to: impl Fn(T) -> U,
) -> Option<SharedRuns<U>> {
    mapped(runs, UnderNull::Null(U::default()), fits, to)
}

#[inline(never)]
pub fn fill_shared<T: Copy + PartialEq>(runs: &SharedRuns<T>, value: T) -> SharedRuns<T> {
    mapped(runs, UnderNull::Row(value), |_| true, |item| item).expect("each value fits")
}

#[inline(never)]
pub fn take_from_shared<T: Copy, U: Copy + PartialEq + Default>(
    codes: &SharedRuns<T>,
    dictionary: &[U],
    place: impl Fn(T) -> usize,
) -> Option<SharedRuns<U>> {
    let inside = |all: bool, code: &T| all & (place(*code) < dictionary.len());
    if !codes.items.iter().fold(true, inside) {
        return None;
    }
    let row = |code: T| dictionary[place(code)];
    mapped(codes, UnderNull::Null(U::default()), |_| true, row)
}
