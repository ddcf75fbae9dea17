//! Columns row by row, and run by run.
use crate::{Column, Error, Form, Value};
use std::iter::FusedIterator;
use std::ops::Range;

/// The rows of a column, each looked up when it is asked for.
#[derive(Clone, Debug)]
pub struct Rows<'a> {
    column: &'a Column,
    left: Range<usize>,
}

impl Iterator for Rows<'_> {
    type Item = Result<Value, Error>;

    fn next(&mut self) -> Option<Self::Item> {
        self.left.next().map(|row| self.column.at(row))
    }

    fn size_hint(&self) -> (usize, Option<usize>) {
        self.left.size_hint()
    }

    fn nth(&mut self, count: usize) -> Option<Self::Item> {
        self.left.nth(count).map(|row| self.column.at(row))
    }
}

impl DoubleEndedIterator for Rows<'_> {
    fn next_back(&mut self) -> Option<Self::Item> {
        self.left.next_back().map(|row| self.column.at(row))
    }
}

impl ExactSizeIterator for Rows<'_> {}
impl FusedIterator for Rows<'_> {}

impl<'a> IntoIterator for &'a Column {
    type Item = Result<Value, Error>;
    type IntoIter = Rows<'a>;

    fn into_iter(self) -> Rows<'a> {
        self.rows()
    }
}

/// Rows that are stored once.
#[derive(Clone, Debug, PartialEq, Eq)]
pub struct Run {
    /// Counted from the column's first row.
    pub rows: Range<usize>,
    /// Holds the value of each of these rows.
    pub value: Value,
}

/// The runs of a column, as `Column::runs` has them, each looked up where it is.
#[derive(Clone, Debug)]
pub struct Runs<'a> {
    column: &'a Column,
    form: Form,
    left: Range<usize>,
}

impl Runs<'_> {
    fn run(&self, run: usize) -> Result<Run, Error> {
        let rows = match self.form {
            Form::Runs => self.column.rows_of_run(run)?,
            Form::Constant => 0..self.column.len(),
            Form::Flat | Form::Lists => run..run + 1,
        };
        let value = self.column.at(rows.start)?;
        Ok(Run { rows, value })
    }
}

impl Iterator for Runs<'_> {
    type Item = Result<Run, Error>;

    fn next(&mut self) -> Option<Self::Item> {
        self.left.next().map(|run| self.run(run))
    }

    fn size_hint(&self) -> (usize, Option<usize>) {
        self.left.size_hint()
    }

    fn nth(&mut self, count: usize) -> Option<Self::Item> {
        self.left.nth(count).map(|run| self.run(run))
    }
}

impl DoubleEndedIterator for Runs<'_> {
    fn next_back(&mut self) -> Option<Self::Item> {
        self.left.next_back().map(|run| self.run(run))
    }
}

impl ExactSizeIterator for Runs<'_> {}
impl FusedIterator for Runs<'_> {}

impl Column {
    /// Returns the rows in turn.
    pub fn rows(&self) -> Rows<'_> {
        let left = 0..self.len();
        Rows { column: self, left }
    }

    /// Returns the runs as they are stored, cut to the window, and copied nowhere: each is looked up when it is asked
    /// for. A constant is one run, and of other columns each row is one.
    ///
    /// ```
    /// use hivevigil::{Column, Run, Value};
    /// let runs = Column::new(&[4i64, 4, 4, 7, 7, 9])?.encode()?.slice(1..4)?;
    /// let runs: Vec<Run> = runs.runs()?.collect::<Result<_, _>>()?;
    /// assert_eq!(runs[0], Run { rows: 0..2, value: Value::Signed(4) });
    /// assert_eq!(runs[1], Run { rows: 2..3, value: Value::Signed(7) });
    /// # Ok::<(), hivevigil::Error>(())
    /// ```
    pub fn runs(&self) -> Result<Runs<'_>, Error> {
        let (rows, form) = (self.len(), self.form());
        let left = match form {
            Form::Runs if rows > 0 => self.run_of(0)?..self.run_of(rows - 1)? + 1,
            Form::Constant => 0..rows.min(1),
            _ => 0..rows,
        };
        Ok(Runs {
            column: self,
            form,
            left,
        })
    }
}
