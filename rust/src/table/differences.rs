//! Columns of integers as differences, in files: of each row that is not null to the one before it that is not, and of
//! the first one to 0. Times at regular steps are one run of these. docs/BYTES.md says when a file has them.
use super::reading::{untyped, Unread};
use super::runs::{runs_of, Shown};
use crate::{Column, Error, Form, Kind, Native};

/// Finds a message of the differences of a column that is shorter than its own, from which the same column comes back
/// in its form, and that form; `None` where there is none.
pub(super) fn kept(column: &Column) -> Result<Option<(Form, Vec<u8>)>, Error> {
    let (kind, form) = (column.kind(), column.form());
    if !is_integer(kind) || !matches!(form, Form::Flat | Form::Runs) {
        return Ok(None);
    }
    let Some(steps) = steps_of(column)? else {
        return Ok(None);
    };
    let (message, shorter) = (column.with_logical_type("")?.to_bytes()?, steps.to_bytes()?);
    if shorter.len() >= message.len() {
        return Ok(None);
    }
    match rows_of(&steps, kind, form, MOST)? {
        Some(again) if again.to_bytes()? == message => Ok(Some((form, shorter))),
        _ => Ok(None),
    }
}

/// Makes the column, of a type and in a form, of at most `most` rows, or runs, of which a message has the differences.
/// Damaged where there is none, or where they are not in as few runs as possible.
pub(super) fn read(message: &[u8], kind: Kind, form: Form, most: usize) -> Result<Column, Unread> {
    let steps = untyped(message)?;
    let differences = if kind.is_nullable() {
        Kind::I64.nullable()
    } else {
        Kind::I64
    };
    let is_of_kind = is_integer(kind) && steps.kind() == differences;
    if !is_of_kind || steps.form() != Form::Runs || steps.encode_rows()?.to_bytes()? != message {
        return Err(Unread::Damaged);
    }
    rows_of(&steps, kind, form, most.min(MOST))?.ok_or(Unread::Damaged)
}

pub(super) fn is_integer(kind: Kind) -> bool {
    kind.is_unsigned() || kind.is_signed()
}

/// Reads the rows of a column of integers; where a row is null it may be any.
fn numbers(column: &Column) -> Result<Vec<i128>, Error> {
    fn items<T: Native + Into<i128>>(column: &Column) -> Result<Vec<i128>, Error> {
        Ok(column.numbers::<T>()?.into_iter().map(Into::into).collect())
    }
    match column.kind().not_nullable() {
        Kind::U8 => items::<u8>(column),
        Kind::U16 => items::<u16>(column),
        Kind::U32 => items::<u32>(column),
        Kind::U64 => items::<u64>(column),
        Kind::I8 => items::<i8>(column),
        Kind::I16 => items::<i16>(column),
        Kind::I32 => items::<i32>(column),
        _ => items::<i64>(column),
    }
}

/// Returns the differences of a column in runs; `None` where one does not fit 64 bits.
fn steps_of(column: &Column) -> Result<Option<Column>, Error> {
    let shown = Shown::of(column)?;
    let (rows, valid) = (numbers(&shown.values)?, shown.values.validity()?);
    let (mut stops, mut steps, mut are_valid) = (Vec::new(), Vec::new(), Vec::new());
    let (mut start, mut last) = (0, 0i128);
    for ((stop, row), is_valid) in shown.stops.into_iter().zip(rows).zip(valid) {
        let Ok(step) = i64::try_from(if is_valid { row - last } else { 0 }) else {
            return Ok(None);
        };
        let first_stop = if is_valid { start + 1 } else { stop };
        stops.push(first_stop);
        steps.push(step);
        are_valid.push(is_valid);
        if first_stop < stop {
            stops.push(stop);
            steps.push(0);
            are_valid.push(true);
        }
        start = stop;
        last = if is_valid { row } else { last };
    }
    let is_nullable = column.kind().is_nullable();
    let steps = Column::with_validity(&steps, is_nullable.then_some(&are_valid))?;
    Ok(Some(runs_of(&stops, &steps)?.encode_rows()?))
}

/// Makes the column that has these differences, which are i64 in runs; `None` where there is none, or it has too many
/// rows or runs.
fn rows_of(steps: &Column, kind: Kind, form: Form, most: usize) -> Result<Option<Column>, Error> {
    match kind.not_nullable() {
        Kind::U8 => Totals::<u8>::of(steps, form, most),
        Kind::U16 => Totals::<u16>::of(steps, form, most),
        Kind::U32 => Totals::<u32>::of(steps, form, most),
        Kind::U64 => Totals::<u64>::of(steps, form, most),
        Kind::I8 => Totals::<i8>::of(steps, form, most),
        Kind::I16 => Totals::<i16>::of(steps, form, most),
        Kind::I32 => Totals::<i32>::of(steps, form, most),
        _ => Totals::<i64>::of(steps, form, most),
    }
}

const MOST: usize = 1 << 26; // rows that are written out, or runs, since a few bytes may say that there are many

/// Holds rows of a type, which are added in stretches: the running totals of differences. Those of u64 may be past i64,
/// which the library's own totals are not.
struct Totals<T> {
    items: Vec<T>,
    valid: Vec<bool>,
    stops: Vec<usize>, // of runs, where rows are not written out
    is_in_runs: bool,
    most: usize, // items
    total: i128,
    rows: usize,
    is_after_value: bool,
}

impl<T: Native + TryFrom<i128>> Totals<T> {
    fn of(steps: &Column, form: Form, most: usize) -> Result<Option<Column>, Error> {
        let shown = Shown::of_runs(steps)?;
        let (numbers, valid) = (numbers(&shown.values)?, shown.values.validity()?);
        let mut totals = Totals::<T> {
            items: Vec::new(),
            valid: Vec::new(),
            stops: Vec::new(),
            is_in_runs: form == Form::Runs,
            most,
            total: 0,
            rows: 0,
            is_after_value: false,
        };
        for ((stop, step), is_valid) in shown.stops.into_iter().zip(numbers).zip(valid) {
            let rows = stop - totals.rows;
            let added = match is_valid {
                true => totals.add(step, rows),
                false => totals.add_nulls(rows),
            };
            if added.is_none() {
                return Ok(None);
            }
        }
        totals.column(steps.kind().is_nullable()).map(Some)
    }

    /// Adds rows of which each is the one before and this difference; `None` where one does not fit the type.
    fn add(&mut self, step: i128, rows: usize) -> Option<()> {
        let last = self.total.checked_add(step.checked_mul(rows as i128)?)?; // no row is past it
        if step == 0 && self.is_in_runs && self.is_after_value {
            if let Some(stop) = self.stops.last_mut() {
                *stop += rows;
            }
        } else if step == 0 {
            self.put_same(last, rows, true)?;
        } else {
            self.put_each(step, rows)?;
        }
        (self.total, self.is_after_value) = (last, true);
        self.rows += rows;
        Some(())
    }

    fn add_nulls(&mut self, rows: usize) -> Option<()> {
        self.put_same(0, rows, false)?;
        self.is_after_value = false;
        self.rows += rows;
        Some(())
    }

    /// Puts rows of one number, which are one run.
    fn put_same(&mut self, number: i128, rows: usize, is_valid: bool) -> Option<()> {
        let count = self.room(if self.is_in_runs { 1 } else { rows })?;
        let item = T::try_from(number).ok()?;
        self.items.resize(count, item);
        self.valid.resize(count, is_valid);
        if self.is_in_runs {
            self.stops.push(self.rows + rows);
        }
        Some(())
    }

    /// Puts rows of which each is another.
    fn put_each(&mut self, step: i128, rows: usize) -> Option<()> {
        let count = self.room(rows)?;
        for row in 1..=rows {
            self.items
                .push(T::try_from(self.total + step * row as i128).ok()?);
        }
        self.valid.resize(count, true);
        if self.is_in_runs {
            self.stops.extend(self.rows + 1..=self.rows + rows);
        }
        Some(())
    }

    /// Returns how many items there are with as many more, where these are not too many.
    fn room(&self, more: usize) -> Option<usize> {
        let count = self.items.len().checked_add(more);
        count.filter(|count| *count <= self.most)
    }

    fn column(self, is_nullable: bool) -> Result<Column, Error> {
        let has_null = self.valid.contains(&false);
        let values = match (is_nullable, has_null) {
            (false, _) => Column::new(&self.items),
            (true, false) => Column::all_valid(&self.items),
            (true, true) => Column::with_validity(&self.items, Some(&self.valid)),
        }?;
        match self.is_in_runs {
            true => runs_of(&self.stops, &values)?.encode_rows(),
            false => Ok(values),
        }
    }
}
