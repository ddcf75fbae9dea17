//! What a column looks like.
use crate::{Column, Form, Run};
use std::fmt;

const SHOWN: usize = 8;

/// "10 rows of i32? as Runs"; by `{:#?}` also the first runs, of other columns the first rows.
///
/// ```
/// let runs = hivevigil::Column::try_from(&[Some(4i64), Some(4), None])?.encode()?;
/// assert_eq!(format!("{runs:?}"), "3 rows of i64? as Runs");
/// assert_eq!(format!("{runs:#?}"), "3 rows of i64? as Runs\n    0..2: 4\n    2..3: null");
/// # Ok::<(), hivevigil::Error>(())
/// ```
impl fmt::Debug for Column {
    fn fmt(&self, formatter: &mut fmt::Formatter<'_>) -> fmt::Result {
        let (rows, kind, form) = (self.len(), self.kind(), self.form());
        write!(formatter, "{rows} rows of {kind} as {form:?}")?;
        if formatter.alternate() && form != Form::Lists {
            first_runs(self, formatter)?;
        }
        Ok(())
    }
}

/// Writes the first rows, and how many more there are: "4, 4, null".
///
/// ```
/// let runs = hivevigil::Column::try_from(&[Some(4i64), Some(4), None])?.encode()?;
/// assert_eq!(runs.to_string(), "4, 4, null");
/// let many = hivevigil::Column::new(&[7u8; 100])?;
/// assert_eq!(many.to_string(), "7, 7, 7, 7, 7, 7, 7, 7 and 92 more");
/// # Ok::<(), hivevigil::Error>(())
/// ```
impl fmt::Display for Column {
    fn fmt(&self, formatter: &mut fmt::Formatter<'_>) -> fmt::Result {
        if self.kind().is_list() {
            return write!(formatter, "{} rows of {}", self.len(), self.kind());
        }
        for row in 0..self.len().min(SHOWN) {
            let value = self.at(row).map_err(|_| fmt::Error)?;
            write!(formatter, "{}{value}", if row == 0 { "" } else { ", " })?;
        }
        match self.len().saturating_sub(SHOWN) {
            0 => Ok(()),
            more => write!(formatter, " and {more} more"),
        }
    }
}

fn first_runs(column: &Column, formatter: &mut fmt::Formatter<'_>) -> fmt::Result {
    let mut runs = column.runs().map_err(|_| fmt::Error)?;
    for run in runs.by_ref().take(SHOWN) {
        let Run { rows, value } = run.map_err(|_| fmt::Error)?;
        match column.form() {
            Form::Flat => write!(formatter, "\n    {}: {value}", rows.start)?,
            _ => write!(formatter, "\n    {rows:?}: {value}")?,
        }
    }
    match runs.len() {
        0 => Ok(()),
        more => write!(formatter, "\n    and {more} more"),
    }
}
