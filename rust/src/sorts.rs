//! The rows of a column in another order, and counted by value.
use crate::column::turn_of;
use crate::{ask, raw, Column, Error};

/// Puts the rows of any type but lists in another order, at the cost of their runs: a constant stays one, and any other
/// column becomes runs, as few as possible. Refused as `Unsupported` for lists.
impl Column {
    /// Returns the rows in order: null first, then numbers by value, false before true, texts and bytes by their bytes.
    ///
    /// ```
    /// use hivevigil::{Column, Value};
    /// let sorted = Column::try_from([Some(7i64), None, Some(4), Some(7)])?.sorted()?;
    /// assert_eq!(sorted.decode()?.options::<i64>()?, [None, Some(4), Some(7), Some(7)]);
    /// assert_eq!((sorted.runs()?.count(), sorted.at(0)?), (3, Value::Null));
    /// # Ok::<(), hivevigil::Error>(())
    /// ```
    pub fn sorted(&self) -> Result<Column, Error> {
        self.part(|column, out, fields| unsafe { raw::hv_sort(column, out, fields) })
    }

    /// Returns the last row first.
    ///
    /// ```
    /// let column = hivevigil::Column::new(&[4u8, 4, 9])?;
    /// assert_eq!(column.reversed()?.decode()?.numbers::<u8>()?, [9, 4, 4]);
    /// # Ok::<(), hivevigil::Error>(())
    /// ```
    pub fn reversed(&self) -> Result<Column, Error> {
        self.part(|column, out, fields| unsafe { raw::hv_reverse(column, out, fields) })
    }

    /// Returns the distinct rows in order, null first, and how many rows are equal to each, in `u64`, both flat.
    ///
    /// ```
    /// let (values, counts) = hivevigil::Column::new(&[9u8, 4, 9])?.value_counts()?;
    /// assert_eq!(values.numbers::<u8>()?, [4, 9]);
    /// assert_eq!(counts.numbers::<u64>()?, [1, 2]);
    /// # Ok::<(), hivevigil::Error>(())
    /// ```
    pub fn value_counts(&self) -> Result<(Column, Column), Error> {
        let _turn = turn_of(&[self]);
        let (values, counts) = (Column::none(), Column::none());
        ask(|fields| unsafe {
            raw::hv_value_counts(
                self.handle.get(),
                values.handle.get(),
                counts.handle.get(),
                fields,
            )
        })?;
        Ok((values, counts))
    }
}
