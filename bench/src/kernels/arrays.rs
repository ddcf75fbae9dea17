//! Kernels over columns as libraries of arrays hold them: a column is a handle on the heap, and the ends and the values
//! of runs are arrays of their own on the heap, each with its type and a part of a buffer that others may hold too.
use crate::bits::Bits;
use crate::data::{Flat, Runs};
use crate::kernels::Slice;
use std::ops::Range;
use std::sync::Arc;

/// Names the type of rows: whole numbers of this number of bytes, and whether they may be null.
#[derive(Clone, Copy, Debug, PartialEq, Eq)]
pub struct NumberType {
    pub bytes: usize,
    pub nullable: bool,
}

/// Holds a part of a buffer, as a column.
#[derive(Debug)]
struct FlatArray<T> {
    dtype: NumberType,
    items: Arc<Vec<T>>,
    flags: Option<Arc<Bits>>,
    kept: Range<usize>,
}

/// Runs, of which `len` rows are shown from row `offset` on.
#[derive(Clone, Debug)]
pub struct RunArray<T> {
    dtype: NumberType,
    ends: Arc<FlatArray<u32>>,
    values: Arc<FlatArray<T>>,
    offset: usize,
    len: usize,
}

/// Holds a column of either form.
#[derive(Debug)]
pub enum ArrayColumn<T> {
    Constant {
        dtype: NumberType,
        value: Option<T>,
        len: usize,
    },
    Runs(RunArray<T>),
}

impl<T: Copy> FlatArray<T> {
    fn of(items: Vec<T>, flags: Option<Bits>) -> Arc<FlatArray<T>> {
        let (bytes, nullable) = (size_of::<T>(), flags.is_some());
        let kept = 0..items.len();
        Arc::new(FlatArray {
            dtype: NumberType { bytes, nullable },
            items: Arc::new(items),
            flags: flags.map(Arc::new),
            kept,
        })
    }

    fn items(&self) -> &[T] {
        &self.items[self.kept.clone()]
    }

    fn get(&self, at: usize) -> Option<T> {
        let at = self.kept.start + at;
        let valid = self.flags.as_ref().is_none_or(|flags| flags.get(at));
        valid.then(|| self.items[at])
    }

    fn slice(&self, range: Range<usize>) -> Arc<FlatArray<T>> {
        Arc::new(FlatArray {
            dtype: self.dtype,
            items: self.items.clone(),
            flags: self.flags.clone(),
            kept: self.kept.start + range.start..self.kept.start + range.end,
        })
    }

    fn copied(&self) -> Flat<T> {
        let part = |flags: &Arc<Bits>| flags.part(self.kept.clone());
        Flat {
            items: self.items().to_vec(),
            flags: self.flags.as_ref().map(part),
        }
    }
}

impl<T: Copy> RunArray<T> {
    pub fn of(runs: Runs<T>) -> RunArray<T> {
        let len = runs.rows();
        let values = FlatArray::of(runs.values.items, runs.values.flags);
        RunArray {
            dtype: values.dtype,
            ends: FlatArray::of(runs.ends, None),
            values,
            offset: 0,
            len,
        }
    }

    /// Another owner of the same ends and values.
    #[inline(never)]
    pub fn owner(&self) -> Box<ArrayColumn<T>> {
        Box::new(ArrayColumn::Runs(self.clone()))
    }

    /// Returns the rows of the range, or nothing where it ends past the last.
    #[inline(never)]
    pub fn slice(&self, rows: Range<usize>) -> Option<Box<ArrayColumn<T>>> {
        if rows.start > rows.end || rows.end > self.len {
            return None;
        }
        let (start, stop, ends) = (
            rows.start + self.offset,
            rows.end + self.offset,
            self.ends.items(),
        );
        let first = ends.partition_point(|end| *end as usize <= start);
        let last = ends.partition_point(|end| (*end as usize) < stop);
        if first == last {
            return Some(Box::new(ArrayColumn::Constant {
                dtype: self.dtype,
                value: self.values.get(first),
                len: rows.len(),
            }));
        }
        Some(Box::new(ArrayColumn::Runs(RunArray {
            dtype: self.dtype,
            ends: self.ends.slice(first..last + 1),
            values: self.values.slice(first..last + 1),
            offset: start,
            len: rows.len(),
        })))
    }
}

impl<T: Copy> ArrayColumn<T> {
    pub fn dtype(&self) -> NumberType {
        match self {
            ArrayColumn::Constant { dtype, .. } => *dtype,
            ArrayColumn::Runs(runs) => runs.dtype,
        }
    }

    pub fn len(&self) -> usize {
        match self {
            ArrayColumn::Constant { len, .. } => *len,
            ArrayColumn::Runs(runs) => runs.len,
        }
    }

    /// Copied, for comparisons.
    pub fn copied(&self) -> Slice<T> {
        match self {
            ArrayColumn::Constant { value, .. } => Slice::Constant(*value),
            ArrayColumn::Runs(runs) => {
                let (ends, values) = (runs.ends.copied().items, runs.values.copied());
                Slice::Runs(Runs { ends, values }, runs.offset)
            }
        }
    }
}
