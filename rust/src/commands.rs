//! Commands on columns.
use crate::raw::{self, Handle, RawValue};
use crate::{Column, Error, ErrorKind, Fields, Form, Kind, Operator, Session, Value};
use std::ops::{Bound, RangeBounds};

/// Commands, each of which makes a column.
impl Column {
    fn command(
        &self,
        call: impl FnOnce(&Session, *mut Handle, *mut Handle, *mut Fields) -> i32,
    ) -> Result<Column, Error> {
        let session = Session::initial();
        self.part(|column, out, fields| call(&session, column, out, fields))
    }

    /// Encodes the rows as runs, as few as there can be, with ends of the least type; refused as `OnlyPrimitive` unless
    /// the rows are integers.
    pub fn encode(&self) -> Result<Column, Error> {
        self.command(|session, column, out, fields| unsafe {
            raw::hv_encode(session, column, out, fields)
        })
    }

    /// Encodes rows of any type but lists as runs, as few as there can be; refused as `Unsupported` for lists.
    pub fn encode_rows(&self) -> Result<Column, Error> {
        self.part(|column, out, fields| unsafe { raw::hv_encode_rows(column, out, fields) })
    }

    /// Writes the rows out in a flat form.
    pub fn decode(&self) -> Result<Column, Error> {
        self.command(|session, column, out, fields| unsafe {
            raw::hv_decode(session, column, out, fields)
        })
    }

    /// Returns the rows of a range of any kind; refused as `BadRange` where they are not all there.
    ///
    /// ```
    /// let column = hivevigil::Column::try_from([4i64, 5, 6, 7])?;
    /// assert_eq!(column.slice(2..)?.numbers::<i64>()?, [6, 7]);
    /// assert_eq!(column.slice(..=1)?.numbers::<i64>()?, [4, 5]);
    /// # Ok::<(), hivevigil::Error>(())
    /// ```
    pub fn slice(&self, rows: impl RangeBounds<usize>) -> Result<Column, Error> {
        let (start, end) = ends_of(rows, self.len())?;
        self.command(|session, column, out, fields| unsafe {
            raw::hv_slice(session, column, start, end, out, fields)
        })
    }

    /// Returns each row as the same value of another type; refused as `CastOutOfRange` or `NullNotAllowed` at the first
    /// row that does not fit, which the sentence names, and as `Unsupported` unless both types are of integers or
    /// decimals, or of one kind that is not lists. From and to decimals each run is cast once.
    ///
    /// ```
    /// use hivevigil::{Column, Kind};
    /// let counts = Column::new(&[7i64, 7, -3])?;
    /// let prices = counts.cast(Kind::decimal(10, 2))?;
    /// assert_eq!(prices.at(2)?.to_string(), "-3.00");
    /// assert!(prices.cast(Kind::decimal(3, 1))?.cast(Kind::I64)? == counts);
    /// let refused = prices.cast(Kind::U8).unwrap_err();
    /// assert_eq!(refused.to_string(), "row 2 is -3.00, which does not fit u8");
    /// # Ok::<(), hivevigil::Error>(())
    /// ```
    pub fn cast(&self, kind: Kind) -> Result<Column, Error> {
        if self.kind().is_scaled_to(kind) {
            return self.scaled(kind)?.cast(kind);
        }
        self.command(|session, column, out, fields| unsafe {
            raw::hv_cast(session, column, &kind, out, fields)
        })
        .map_err(|error| match error.kind() {
            Some(ErrorKind::CastOutOfRange | ErrorKind::NullNotAllowed) => {
                self.first_misfit(kind).unwrap_or(error)
            }
            _ => error.about(
                ErrorKind::Unsupported,
                self.kind(),
                "is not cast to",
                Some(kind),
            ),
        })
    }

    /// Returns numbers at another scale, with null where a row is.
    pub(crate) fn scaled(&self, kind: Kind) -> Result<Column, Error> {
        self.part(|column, out, fields| unsafe {
            match kind.is_decimal() {
                true => raw::hv_decimal_cast(column, kind.precision, kind.scale, out, fields),
                false => raw::hv_decimal_to_integers(column, kind.number, out, fields),
            }
        })
        .map_err(|error| match error.kind() {
            Some(ErrorKind::CastOutOfRange) => match self.first_misfit(kind) {
                Some(misfit) => error.in_words_of(misfit),
                None => error,
            },
            _ => error,
        })
    }

    /// Finds the first row that a cast does not serve, as the refusal of it.
    fn first_misfit(&self, kind: Kind) -> Option<Error> {
        for run in self.with_logical_type("").ok()?.runs().ok()? {
            let run = run.ok()?;
            let refused = match run.value {
                Value::Null if !kind.is_nullable() => {
                    Some(Error::of(ErrorKind::NullNotAllowed).with_sort("null", kind))
                }
                Value::Null => None,
                value => value.fitted(kind).err(),
            };
            if let Some(error) = refused {
                return Some(error.at_row(run.rows.start));
            }
        }
        None
    }

    /// Takes the rows at the indices, integers in any form: null at a null index; refused as `OutOfBounds`.
    pub fn take(&self, indices: &Column) -> Result<Column, Error> {
        let (session, column) = (Session::initial(), self.handle.get());
        self.beside(indices, |indices, out, fields| unsafe {
            raw::hv_take(&session, column, indices, out, fields)
        })
        .map_err(|error| error.of_other("indices are integers, not", indices.kind()))
    }

    /// Keeps the rows where the mask, booleans in any form, is true: a null in the mask selects nothing.
    pub fn filter(&self, mask: &Column) -> Result<Column, Error> {
        let (session, column) = (Session::initial(), self.handle.get());
        self.beside(mask, |mask, out, fields| unsafe {
            raw::hv_filter(&session, column, mask, out, fields)
        })
        .map_err(|error| error.of_other("a mask is of type bool, not", mask.kind()))
    }

    /// Looks up the rows of the dictionary that these codes number.
    pub fn take_from(&self, dictionary: &Column) -> Result<Column, Error> {
        let (session, codes) = (Session::initial(), self.handle.get());
        self.beside(dictionary, |rows, out, fields| unsafe {
            raw::hv_take_from(&session, codes, rows, out, fields)
        })
        .map_err(|error| error.of_other("codes are integers, not", self.kind()))
    }

    /// Compares row by row, null where either row is null; decimals of two scales exactly. The answer is in runs unless
    /// both columns are flat.
    ///
    /// ```
    /// use hivevigil::{Column, Decimal, Kind, Operator, Value};
    /// let prices = Column::constant(Kind::decimal(4, 2), Decimal::new(101, 2), 3)?;
    /// let finer = Column::constant(Kind::decimal(6, 3), Decimal::new(1005, 3), 3)?;
    /// assert_eq!(prices.compare(Operator::Greater, &finer)?.at(2)?, Value::Truth(true));
    /// # Ok::<(), hivevigil::Error>(())
    /// ```
    pub fn compare(&self, operator: Operator, right: &Column) -> Result<Column, Error> {
        if self.kind().is_other_decimal(right.kind()) {
            return self
                .compared_exactly(operator, right, |left, right| left.compare(operator, right));
        }
        if (self.form(), right.form()) != (Form::Flat, Form::Flat) {
            return self.compared(operator, right);
        }
        let (session, left, operator) = (Session::initial(), self.handle.get(), operator as u8);
        let (kind, other) = (self.kind(), right.kind());
        self.beside(right, |right, out, fields| unsafe {
            raw::hv_compare(&session, left, operator, right, out, fields)
        })
        .map_err(|error| {
            let words = "is not compared with";
            error.about(ErrorKind::TypeMismatch, kind, words, Some(other))
        })
    }

    /// Compares each row with one value, of the column's sort or null. Any number is compared with integers, decimals
    /// and floats, as the exact numbers that they are, and by IEEE 754 where one is a NaN or an infinity: each row of
    /// `i8` is less than 300, and 0.51 is greater than 0.505. Dates, times and durations are compared as they are
    /// stored. The answer is in runs where the column is, and of floats in as few as possible. Refused as `Unsupported`
    /// for lists, and as `TypeMismatch` for a value of another sort.
    ///
    /// ```
    /// use hivevigil::{Column, Operator, Value};
    /// let above = Column::new(&[4u64, 7])?.compare_value(Operator::Greater, 4)?;
    /// assert_eq!((above.at(0)?, above.at(1)?), (Value::Truth(false), Value::Truth(true)));
    /// let all = Column::new(&[4i8, 7])?.compare_value(Operator::Less, 4.5)?;
    /// assert_eq!((all.at(0)?, all.at(1)?), (Value::Truth(true), Value::Truth(false)));
    /// # Ok::<(), hivevigil::Error>(())
    /// ```
    pub fn compare_value(
        &self,
        operator: Operator,
        value: impl Into<Value>,
    ) -> Result<Column, Error> {
        if self.kind().is_list() {
            return Err(Error::of(ErrorKind::Unsupported));
        }
        let value = value.into();
        let compared = match value.as_number() {
            Some(number) => self.compared_with_number(operator, &number),
            None => self.compared_with_row(operator, &value),
        };
        match compared {
            Err(error) if error.kind() == Some(ErrorKind::TypeMismatch) => {
                match self.logical_type() {
                    Some(_) => self.with_logical_type("")?.compare_value(operator, value), // times are not numbers
                    None => Err(error.not_compared(self.kind(), value.sort())),
                }
            }
            compared => compared,
        }
    }

    /// Compares each row with a number of any type.
    fn compared_with_number(&self, operator: Operator, number: &RawValue) -> Result<Column, Error> {
        self.part(|column, out, fields| unsafe {
            raw::hv_compare_number(column, operator as u8, number, out, fields)
        })
    }

    /// Compares each row with one of the column's type: runs with a column of it, which is one run.
    fn compared_with_row(&self, operator: Operator, value: &Value) -> Result<Column, Error> {
        let (passed, text) = value.passed();
        let (some, count) = (text.as_ptr(), text.len());
        if self.form() != Form::Runs {
            let operator = operator as u8;
            return self.command(|session, column, out, fields| unsafe {
                raw::hv_compare_scalar(session, column, operator, &passed, some, count, out, fields)
            });
        }
        let kind = match value {
            Value::Null => self.kind().nullable(),
            _ => self.kind().not_nullable(),
        };
        let constant = Column::made(|out, fields| unsafe {
            raw::hv_constant(&kind, &passed, some, count, self.len(), out, fields)
        })?;
        self.combined(operator as u8, &constant)
    }

    /// Puts a value in place of each null, after which the type has no null; refused as `NullFill` for null, as
    /// `CastOutOfRange` for a number that the type does not have, and as `TypeMismatch` for a value of another sort.
    pub fn fill(&self, value: impl Into<Value>) -> Result<Column, Error> {
        let value = value.into().fitted(self.kind())?;
        let (passed, text) = value.passed();
        self.command(|session, column, out, fields| unsafe {
            raw::hv_fill(
                session,
                column,
                &passed,
                text.as_ptr(),
                text.len(),
                out,
                fields,
            )
        })
    }
}

/// Finds where a range among these rows starts and ends; refused as `BadRange` where one of these is past 64 bits.
pub(crate) fn ends_of(
    range: impl RangeBounds<usize>,
    rows: usize,
) -> Result<(usize, usize), Error> {
    let start = match range.start_bound() {
        Bound::Included(start) => Some(*start),
        Bound::Excluded(before) => before.checked_add(1),
        Bound::Unbounded => Some(0),
    };
    let end = match range.end_bound() {
        Bound::Included(last) => last.checked_add(1),
        Bound::Excluded(end) => Some(*end),
        Bound::Unbounded => Some(rows),
    };
    start.zip(end).ok_or_else(|| {
        let of = |end: Option<usize>| end.map_or(u64::MAX, |end| end as u64);
        let (first, second, third) = (of(start), of(end), rows as u64);
        let fields = Fields {
            first,
            second,
            third,
        };
        Error::new(ErrorKind::BadRange as i32, fields)
    })
}
