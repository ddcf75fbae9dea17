//! A column in parts, for threads.
use crate::{Column, Error, ErrorKind, Form};

/// Says what the parts of a column have in like numbers.
#[derive(Clone, Copy, Debug, PartialEq, Eq)]
pub enum SplitBy {
    /// Shares out the rows.
    Rows,
    /// Shares out the runs, at whose cost most is worked.
    Runs,
}

impl Column {
    /// Cuts the column into this many windows, which share its buffers and may go to threads of their own: of as many
    /// rows each, give or take one, or of as many runs. Some are empty where there are fewer. Refused as `BadNumber`
    /// for 0 parts, and by runs as `Unsupported` for lists.
    ///
    /// ```
    /// use hivevigil::{Column, SplitBy};
    /// let runs = Column::new(&[4i64, 4, 4, 4, 7, 9])?.encode()?;
    /// let parts = runs.split(3, SplitBy::Runs)?;
    /// let sums: Vec<_> = parts
    ///     .into_iter()
    ///     .map(|part| std::thread::spawn(move || i64::try_from(part.sum()?.total)))
    ///     .collect();
    /// let sums = sums.into_iter().map(|sum| sum.join().unwrap()).collect::<Result<Vec<_>, _>>()?;
    /// assert_eq!(sums, [16, 7, 9]);
    /// # Ok::<(), hivevigil::Error>(())
    /// ```
    pub fn split(&self, parts: usize, by: SplitBy) -> Result<Vec<Column>, Error> {
        if parts == 0 {
            return Err(Error::said(
                ErrorKind::BadNumber,
                "a column is split into at least one part",
            ));
        }
        let stops = match (by, self.form()) {
            (SplitBy::Rows, _) | (_, Form::Constant) => bounds(self.len(), parts).collect(),
            (SplitBy::Runs, Form::Runs) => self.stops(parts)?,
            (SplitBy::Runs, _) => self.encode_rows()?.stops(parts)?,
        };
        let mut start = 0;
        let windows = stops.into_iter().map(|stop| {
            let window = self.slice(start..stop);
            start = stop;
            window
        });
        windows.collect()
    }

    /// Finds where each part of the runs that are shown ends.
    fn stops(&self, parts: usize) -> Result<Vec<usize>, Error> {
        let (count, mut stops) = (self.runs()?.len(), Vec::with_capacity(parts));
        let first = if count == 0 { 0 } else { self.run_of(0)? };
        for shown in bounds(count, parts) {
            stops.push(match shown {
                0 => 0,
                _ => self.rows_of_run(first + shown - 1)?.end,
            });
        }
        Ok(stops)
    }
}

/// Gives where each of the parts of `count` rows or runs ends.
fn bounds(count: usize, parts: usize) -> impl Iterator<Item = usize> {
    (1..=parts).map(move |part| (count as u128 * part as u128 / parts as u128) as usize)
}
