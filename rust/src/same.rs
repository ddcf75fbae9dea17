//! Equal columns, copies, and columns made of iterators.
use crate::raw::{self, Handle};
use crate::{Column, Error, Fields, Row, Run};
use std::iter::FromIterator;

/// Columns compared as wholes.
impl Column {
    /// Returns whether both columns have the same type and the same rows, whatever their forms; null is equal to null.
    /// Each run of both is read at most once, and no row is written out except those of lists; refused only as
    /// `OutOfMemory`.
    ///
    /// ```
    /// let flat = hivevigil::Column::try_from([4i64, 4, 4, 9])?;
    /// assert!(flat.same_rows(&flat.encode()?)?);
    /// assert!(!flat.same_rows(&flat.slice(..3)?)?);
    /// # Ok::<(), hivevigil::Error>(())
    /// ```
    pub fn same_rows(&self, other: &Column) -> Result<bool, Error> {
        if self.kind() != other.kind() || self.len() != other.len() {
            return Ok(false);
        }
        if self.kind().is_list() {
            return same_lists(self, other);
        }
        same_runs(self, other)
    }
}

/// Walks the runs of two columns of as many rows.
fn same_runs(left: &Column, right: &Column) -> Result<bool, Error> {
    let (mut lefts, mut rights) = (left.runs()?, right.runs()?);
    let (mut one, mut other): (Option<Run>, Option<Run>) = (None, None);
    let mut row = 0;
    while row < left.len() {
        one = reaching(one, row, &mut lefts)?;
        other = reaching(other, row, &mut rights)?;
        match (&one, &other) {
            (Some(one), Some(other)) if one.value == other.value => {
                row = one.rows.end.min(other.rows.end)
            }
            _ => return Ok(false),
        }
    }
    Ok(true)
}

/// Returns the run if it has the row, else the next one.
pub(crate) fn reaching(
    run: Option<Run>,
    row: usize,
    others: &mut impl Iterator<Item = Result<Run, Error>>,
) -> Result<Option<Run>, Error> {
    match run {
        Some(run) if row < run.rows.end => Ok(Some(run)),
        _ => others.next().transpose(),
    }
}

/// Holds the parts of lists: row i is null, or `sizes[i]` elements from `offsets[i]` on.
struct Lists {
    elements: Column,
    offsets: Vec<u64>,
    sizes: Vec<u64>,
    valid: Vec<bool>,
}

impl Lists {
    fn of(column: &Column) -> Result<Lists, Error> {
        let flat = column.decode()?;
        let part = |call: unsafe extern "C" fn(*mut Handle, *mut Handle, *mut Fields) -> i32| {
            flat.part(|column, out, fields| unsafe { call(column, out, fields) })
        };
        let valid = part(raw::hv_list_validity)?;
        Ok(Lists {
            elements: part(raw::hv_list_elements)?,
            offsets: part(raw::hv_list_offsets)?.numbers()?,
            sizes: part(raw::hv_list_sizes)?.numbers()?,
            valid: (0..valid.len())
                .map(|row| Ok(valid.get(row)?.unwrap_or_default()))
                .collect::<Result<_, Error>>()?,
        })
    }

    fn list(&self, row: usize) -> Result<Column, Error> {
        let start = self.offsets[row] as usize;
        self.elements.slice(start..start + self.sizes[row] as usize)
    }
}

fn same_lists(left: &Column, right: &Column) -> Result<bool, Error> {
    let (left, right) = (Lists::of(left)?, Lists::of(right)?);
    if left.elements.kind() != right.elements.kind() || left.valid != right.valid {
        return Ok(false);
    }
    for row in (0..left.valid.len()).filter(|row| left.valid[*row]) {
        let is_same = left.sizes[row] == right.sizes[row];
        if !is_same || !left.list(row)?.same_rows(&right.list(row)?)? {
            return Ok(false);
        }
    }
    Ok(true)
}

/// Compares the types and the rows, as [`Column::same_rows`] finds; panics where memory is refused.
///
/// ```
/// let flat = hivevigil::Column::try_from(["Oslo", "Oslo", "Bergen"])?;
/// assert_eq!(flat, flat.encode_rows()?);
/// # Ok::<(), hivevigil::Error>(())
/// ```
impl PartialEq for Column {
    fn eq(&self, other: &Column) -> bool {
        self.same_rows(other)
            .unwrap_or_else(|error| panic!("columns are not compared: {error}"))
    }
}

impl Eq for Column {}

/// Copies the column in its form, as [`Column::try_clone`] does; panics where memory is refused.
impl Clone for Column {
    fn clone(&self) -> Column {
        self.try_clone()
            .unwrap_or_else(|error| panic!("the column is not copied: {error}"))
    }
}

/// Makes a flat column of the items in turn; panics where memory is refused.
///
/// ```
/// use hivevigil::{Column, Value};
/// let column: Column = (1..=3).map(|row: i32| (row != 2).then_some(row)).collect();
/// assert_eq!((column.len(), column.at(1)?), (3, Value::Null));
/// # Ok::<(), hivevigil::Error>(())
/// ```
impl<R: Row> FromIterator<R> for Column {
    fn from_iter<I: IntoIterator<Item = R>>(rows: I) -> Column {
        let rows: Vec<R> = rows.into_iter().collect();
        Column::try_from(rows).unwrap_or_else(|error| panic!("no column is made: {error}"))
    }
}
