//! The rows of one column, grouped by runs of equal neighbouring rows of another, and totals at the ends of its own runs.
use crate::column::turn_of;
use crate::{ask, raw, Column, Error, Fold, Kind};
use std::ptr;

impl Column {
    /// Groups the rows of `values` by runs of equal neighbouring rows of this column, null equal to null. Returns the
    /// key of each group, and what is answered of it, both flat: null where no value in the group is valid, and 0 for
    /// a count of it. Refused as `Unsupported` where keys are lists or values are not integers, then as `ColumnLength`,
    /// and as `CastOutOfRange` where the sum of a group does not fit 64 bits: the first field is the group, counted
    /// from 0.
    ///
    /// ```
    /// use hivevigil::{Column, Fold, Value};
    /// let keys = Column::new(&[4u8, 4, 7])?;
    /// let values = Column::new(&[-1i16, 6, 9])?;
    /// let (groups, counts) = keys.fold_by(&values, Fold::Count)?;
    /// assert_eq!((groups.at(0)?, counts.at(0)?), (Value::Unsigned(4), Value::Unsigned(2)));
    /// # Ok::<(), hivevigil::Error>(())
    /// ```
    pub fn fold_by(&self, values: &Column, fold: Fold) -> Result<(Column, Column), Error> {
        if ptr::eq(self, values) {
            let copy = values.try_clone()?;
            return self.fold_by(&copy, fold);
        }
        let _turn = turn_of(&[self, values]);
        let (keys, answers) = (Column::none(), Column::none());
        ask(|fields| unsafe {
            raw::hv_fold_by(
                self.handle.get(),
                values.handle.get(),
                fold as u8,
                keys.handle.get(),
                answers.handle.get(),
                fields,
            )
        })
        .map_err(|error| error.of_group(sums_of(values.kind())))?;
        Ok((keys, answers))
    }

    /// Sums the values in each group: `fold_by` with `Fold::Sum`.
    ///
    /// ```
    /// use hivevigil::{Column, Value};
    /// let keys = Column::new(&[4u8, 4, 7])?;
    /// let (groups, sums) = keys.sum_by(&Column::new(&[-1i16, 6, 9])?)?;
    /// assert_eq!((groups.at(1)?, sums.at(0)?), (Value::Unsigned(7), Value::Signed(5)));
    /// let refused = keys.sum_by(&Column::new(&[1, i64::MAX, 9])?).unwrap_err();
    /// assert_eq!(refused.to_string(), "integer overflow: the sum of group 0 does not fit i64");
    /// # Ok::<(), hivevigil::Error>(())
    /// ```
    pub fn sum_by(&self, values: &Column) -> Result<(Column, Column), Error> {
        self.fold_by(values, Fold::Sum)
    }

    /// Returns where each run of equal neighbouring rows ends, null equal to null, and the sum of all rows before that
    /// end, both flat. Null rows are skipped: a total is null only where all rows so far are. Refused as `Unsupported`
    /// where rows are not integers, and as `CastOutOfRange` where a total does not fit 64 bits: the first field is the
    /// run, counted from 0.
    ///
    /// ```
    /// let (ends, totals) = hivevigil::Column::new(&[4u8, 4, 4, 9])?.running_totals()?;
    /// assert_eq!(ends.numbers::<u8>()?, [3, 4]);
    /// assert_eq!(totals.options::<u64>()?, [Some(12), Some(21)]);
    /// # Ok::<(), hivevigil::Error>(())
    /// ```
    pub fn running_totals(&self) -> Result<(Column, Column), Error> {
        let _turn = turn_of(&[self]);
        let (ends, totals) = (Column::none(), Column::none());
        ask(|fields| unsafe {
            raw::hv_running_totals(
                self.handle.get(),
                ends.handle.get(),
                totals.handle.get(),
                fields,
            )
        })
        .map_err(|error| error.of_total(sums_of(self.kind())))?;
        Ok((ends, totals))
    }
}

/// Returns the type of the sums of integers, or of decimals, of a type.
pub(crate) fn sums_of(kind: Kind) -> Kind {
    if kind.is_decimal() {
        return Kind::decimal(GREATEST_PRECISION, kind.scale);
    }
    match kind.is_signed() {
        true => Kind::I64,
        false => Kind::U64,
    }
}

const GREATEST_PRECISION: u8 = 38;
