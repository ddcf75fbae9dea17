//! Questions to columns, and what is read out of them.
use crate::column::turn_of;
use crate::groups::sums_of;
use crate::raw::{self, Pair, RawTotal, RawValue};
use crate::{
    ask, Column, Error, ErrorKind, Fields, Form, Kind, Native, Run, Session, Sum, SumParts, Value,
};
use std::ops::Range;

/// Questions.
impl Column {
    /// Counts the rows.
    pub fn len(&self) -> usize {
        unsafe { raw::hv_length(self.handle.get()) }
    }

    /// Returns whether the column has no rows.
    pub fn is_empty(&self) -> bool {
        self.len() == 0
    }

    /// Returns the type of the rows.
    pub fn kind(&self) -> Kind {
        unsafe { raw::hv_kind_of(self.handle.get()) }
    }

    /// Returns how the column lies.
    pub fn form(&self) -> Form {
        match unsafe { raw::hv_form(self.handle.get()) } {
            0 => Form::Flat,
            1 => Form::Constant,
            2 => Form::Lists,
            _ => Form::Runs,
        }
    }

    /// Counts the bytes that the column takes for what it shows, in its form: numbers as wide as their type, bits eight
    /// to a byte, of texts and bytes 24 for each row and what the rows show; of runs the ends and the values.
    ///
    /// ```
    /// let flat = hivevigil::Column::new(&[7i32; 1000])?;
    /// assert_eq!((flat.bytes_used(), flat.encode()?.bytes_used()), (4000, 2 + 4));
    /// # Ok::<(), hivevigil::Error>(())
    /// ```
    pub fn bytes_used(&self) -> usize {
        unsafe { raw::hv_bytes_used(self.handle.get()) }
    }

    /// Counts the rows that are null, by runs and without memory.
    ///
    /// ```
    /// let column = hivevigil::Column::try_from(&[Some(3i32), None, None][..])?;
    /// assert_eq!((column.null_count(), column.encode()?.null_count()), (2, 2));
    /// # Ok::<(), hivevigil::Error>(())
    /// ```
    pub fn null_count(&self) -> usize {
        unsafe { raw::hv_null_count(self.handle.get()) }
    }

    /// Counts the rows of its runs that lie before the window of a run column.
    pub fn offset(&self) -> usize {
        unsafe { raw::hv_offset(self.handle.get()) }
    }

    /// Adds the rows that are not null, by what they mean: integers and durations one at a time, in 64 bits; decimals
    /// exactly, at the scale of the column and whatever its precision; floats exactly, and rounded once: an infinity
    /// past the finite floats, NaN where a row is or both infinities are. Refused as `Unsupported` for dates, times of
    /// day, timestamps and all other rows, and as `CastOutOfRange` where the sum leaves 64 bits, or 38 digits: the
    /// first field is the row with which it does.
    ///
    /// ```
    /// use hivevigil::{Column, Decimal, Floats, Kind, Value};
    /// let refused = Column::new(&[i64::MAX, 0, 1])?.sum().unwrap_err();
    /// let sentence = "integer overflow: with row 2 the sum leaves the range of i64";
    /// assert_eq!((refused.fields.first, refused.to_string().as_str()), (2, sentence));
    /// let prices = Column::constant(Kind::decimal(4, 2), Decimal::new(1050, 2), 1000)?;
    /// assert_eq!(prices.sum()?.total, Value::Decimal(Decimal::new(1_050_000, 2)));
    /// let floats = Floats::of(&[1e100, 1.0, -1e100])?;
    /// assert_eq!(floats.keys().sum()?.total, Value::Float(1.0));
    /// # Ok::<(), hivevigil::Error>(())
    /// ```
    pub fn sum(&self) -> Result<Sum, Error> {
        let (total, empty) = self.added().map_err(|error| self.without_sum(error))?;
        if total == Value::Null {
            let past = |rows: &Column| matches!(rows.added(), Ok((Value::Null, _)));
            return Err(Error::overflow(
                self.first_refused(past)?,
                sums_of(self.kind()),
            ));
        }
        Ok(Sum { total, empty })
    }

    /// Adds the rows, and says whether each is null; the sum is null where it left the range of 64 bits.
    fn added(&self) -> Result<(Value, bool), Error> {
        let (session, mut total) = (Session::initial(), RawTotal::default());
        ask(|fields| unsafe { raw::hv_sum(&session, self.handle.get(), &mut total, fields) })?;
        Ok((Value::of_total(total, self), total.empty != 0))
    }

    /// Puts the refusal of a sum in words.
    pub(crate) fn without_sum(&self, error: Error) -> Error {
        let kind = self.kind();
        match error.kind() {
            Some(ErrorKind::Unsupported) if kind.is_unsigned() || kind.is_signed() => {
                let words =
                    "dates, times of day and timestamps have no sum, and durations have one";
                Error::said(ErrorKind::Unsupported, words)
            }
            Some(ErrorKind::Unsupported) => {
                error.about(ErrorKind::Unsupported, kind, "has no sum", None)
            }
            _ => error.of_digits(),
        }
    }

    /// Finds the first row such that the rows up to it are refused, where all rows are.
    pub(crate) fn first_refused(
        &self,
        is_refused: impl Fn(&Column) -> bool,
    ) -> Result<usize, Error> {
        let (mut served, mut refused) = (0, self.len()); // as many rows from the first one on
        while served + 1 < refused {
            let middle = served + (refused - served) / 2;
            match is_refused(&self.slice(..middle)?) {
                true => refused = middle,
                false => served = middle,
            }
        }
        Ok(served)
    }

    /// Returns what the rows add to a sum, by which the sum of joined rows is known; refused as `Unsupported` unless
    /// they are integers.
    ///
    /// ```
    /// use hivevigil::{Column, SumParts};
    /// let parts = Column::new(&[-3i8, 5, 100, -1])?.sum_parts()?;
    /// let (total, least, greatest) = (101, -3, 102);
    /// assert_eq!(parts, SumParts::Signed { total, least, greatest });
    /// # Ok::<(), hivevigil::Error>(())
    /// ```
    pub fn sum_parts(&self) -> Result<SumParts, Error> {
        let mut pairs = [Pair::default(); 3];
        let [total, least, greatest] = &mut pairs;
        ask(|fields| unsafe {
            raw::hv_sum_parts(self.handle.get(), total, least, greatest, fields)
        })
        .map_err(|error| error.about(ErrorKind::Unsupported, self.kind(), "has no sum", None))?;
        let [total, least, greatest] =
            pairs.map(|pair| (i128::from(pair.high) << 64) | i128::from(pair.low));
        Ok(match self.kind().is_signed() {
            true => SumParts::Signed {
                total,
                least,
                greatest,
            },
            false => SumParts::Unsigned {
                total: total as u128,
            },
        })
    }

    /// Returns whether all rows are equal, null equal to null.
    pub fn is_constant(&self) -> Result<bool, Error> {
        let (session, mut truth) = (Session::initial(), 0);
        ask(|fields| unsafe {
            raw::hv_is_constant(&session, self.handle.get(), &mut truth, fields)
        })?;
        Ok(truth != 0)
    }

    /// Returns whether no row is above the next (`strict`: each is below it), null below all else.
    pub fn is_sorted(&self, strict: bool) -> Result<bool, Error> {
        let (session, mut truth) = (Session::initial(), 0);
        ask(|fields| unsafe {
            raw::hv_is_sorted(
                &session,
                self.handle.get(),
                u8::from(strict),
                &mut truth,
                fields,
            )
        })?;
        Ok(truth != 0)
    }

    /// Returns a hash of the rows, the same for all columns with these rows, in whatever forms and of whatever types.
    /// Refused as `Unsupported` for lists.
    ///
    /// ```
    /// let flat = hivevigil::Column::try_from([4i64, 4, 4, 9])?;
    /// assert_eq!(flat.hash_rows()?, flat.encode()?.hash_rows()?);
    /// # Ok::<(), hivevigil::Error>(())
    /// ```
    pub fn hash_rows(&self) -> Result<u64, Error> {
        let mut hash = 0;
        ask(|fields| unsafe { raw::hv_hash(self.handle.get(), &mut hash, fields) })?;
        Ok(hash)
    }

    /// Finds the least row that is not null, of floats the least number; `Null` where there is none.
    pub fn least(&self) -> Result<Value, Error> {
        Ok(self.least_and_greatest()?.0)
    }

    /// Finds the greatest row that is not null, of floats the greatest number; `Null` where there is none.
    pub fn greatest(&self) -> Result<Value, Error> {
        Ok(self.least_and_greatest()?.1)
    }

    /// Finds both at once. Among floats NaNs have no place, and -0.0 is below 0.0.
    pub fn least_and_greatest(&self) -> Result<(Value, Value), Error> {
        let (session, mut room) = (Session::initial(), 64);
        loop {
            let (mut least, mut greatest) = (RawValue::default(), RawValue::default());
            let (mut low, mut high) = (vec![0u8; room], vec![0u8; room]);
            let answer = ask(|fields| unsafe {
                let (left, right) = (low.as_mut_ptr(), high.as_mut_ptr());
                let column = self.handle.get();
                raw::hv_min_max(
                    &session,
                    column,
                    &mut least,
                    left,
                    room,
                    &mut greatest,
                    right,
                    room,
                    fields,
                )
            });
            match answer {
                Ok(()) => {
                    return Ok((Value::of(least, low, self), Value::of(greatest, high, self)))
                }
                Err(error) if error.kind() == Some(ErrorKind::ColumnLength) => {
                    room = error.fields.first as usize
                }
                Err(error) => return Err(error),
            }
        }
    }

    /// Looks up row `row`, by what it means: a float where the logical type says so. Refused as `OutOfBounds` past the
    /// end.
    ///
    /// ```
    /// use hivevigil::{Floats, Value};
    /// assert_eq!(Floats::of(&[0.5, 2.0])?.keys().at(1)?, Value::Float(2.0));
    /// # Ok::<(), hivevigil::Error>(())
    /// ```
    pub fn at(&self, row: usize) -> Result<Value, Error> {
        shown(self, |value, text, fields| unsafe {
            raw::hv_at(
                self.handle.get(),
                row,
                value,
                text.as_mut_ptr(),
                text.len(),
                fields,
            )
        })
    }
}

/// Rows and parts read out.
impl Column {
    /// Looks up row `row` as `T`, `None` where it is null: an integer, `f64`, `bool`, `Decimal`, `String` or `Vec<u8>`;
    /// refused as `CastOutOfRange` where `T` does not have the integer, and as `TypeMismatch` where the row is of
    /// another sort.
    ///
    /// ```
    /// let column = hivevigil::Column::try_from(&[Some(4i64), None])?;
    /// assert_eq!((column.get::<i64>(0)?, column.get::<i64>(1)?), (Some(4), None));
    /// assert!(column.get::<String>(0).is_err());
    /// # Ok::<(), hivevigil::Error>(())
    /// ```
    pub fn get<T: TryFrom<Value, Error = Error>>(&self, row: usize) -> Result<Option<T>, Error> {
        match self.at(row)? {
            Value::Null => Ok(None),
            value => T::try_from(value)
                .map(Some)
                .map_err(|error| error.at_row(row)),
        }
    }

    /// Reads the numbers of all rows, in any form, as the column's own integers; where a row is null it may be any
    /// number.
    pub fn numbers<T: Native>(&self) -> Result<Vec<T>, Error> {
        let mut items = vec![T::default(); self.len()];
        self.read(0, &mut items)?;
        Ok(items)
    }

    /// Reads as many into room of the caller's as it has, from row `start` on; refused as `BadRange` past the end.
    pub fn read<T: Native>(&self, start: usize, items: &mut [T]) -> Result<(), Error> {
        ask(|fields| unsafe { T::read(self.handle.get(), start, items, fields) }).map_err(|error| {
            let (kind, words) = (self.kind().not_nullable(), "rows are not read as");
            let error = error.about(ErrorKind::TypeMismatch, kind, words, Some(T::KIND));
            error.about(ErrorKind::Unsupported, kind, words, Some(T::KIND))
        })
    }

    /// Reads the rows of a column of integers, `None` where a row is null.
    pub fn options<T: Native>(&self) -> Result<Vec<Option<T>>, Error> {
        let rows = self.numbers()?.into_iter().zip(self.validity()?);
        Ok(rows.map(|(item, valid)| valid.then_some(item)).collect())
    }

    /// Reads whether each row is not null; refused as `Unsupported` for lists.
    pub fn validity(&self) -> Result<Vec<bool>, Error> {
        let mut words = vec![0u64; (self.len() + 63) / 64];
        ask(|fields| unsafe {
            let (column, rows) = (self.handle.get(), self.len());
            raw::hv_read_validity_from(column, 0, rows, words.as_mut_ptr(), words.len(), fields)
        })?;
        Ok((0..self.len())
            .map(|row| words[row / 64] >> (row % 64) & 1 == 1)
            .collect())
    }

    /// Copies the ends of a run column.
    pub fn ends(&self) -> Result<Column, Error> {
        self.part(|column, out, fields| unsafe { raw::hv_ends(column, out, fields) })
    }

    /// Copies the values of a run column.
    pub fn values(&self) -> Result<Column, Error> {
        self.part(|column, out, fields| unsafe { raw::hv_values(column, out, fields) })
    }

    /// Writes the metadata record of a run column.
    pub fn serialize(&self) -> Result<Vec<u8>, Error> {
        let (mut bytes, mut size) = (vec![0u8; 64], 0);
        ask(|fields| unsafe {
            raw::hv_serialize(
                self.handle.get(),
                bytes.as_mut_ptr(),
                bytes.len(),
                &mut size,
                fields,
            )
        })?;
        bytes.truncate(size);
        Ok(bytes)
    }

    /// Writes the column as bytes, in the form that it has and with its logical type, to keep or to send: a message of
    /// the Protocol Buffers encoding. Refused only as `Unsupported`, for more than 16 levels of runs.
    ///
    /// ```
    /// use hivevigil::Column;
    /// let days = Column::new(&[19_783i32, 19_783, 19_784])?.encode()?.with_logical_type("tdD")?;
    /// let read = Column::from_bytes(&days.to_bytes()?)?;
    /// assert_eq!((read.logical_type().as_deref(), read), (Some("tdD"), days));
    /// # Ok::<(), hivevigil::Error>(())
    /// ```
    pub fn to_bytes(&self) -> Result<Vec<u8>, Error> {
        let _turn = turn_of(&[self]);
        let mut size = 0;
        ask(|fields| unsafe { raw::hv_write_size(self.handle.get(), &mut size, fields) })?;
        let mut message = vec![0u8; size];
        ask(|fields| unsafe {
            raw::hv_write(
                self.handle.get(),
                message.as_mut_ptr(),
                message.len(),
                &mut size,
                fields,
            )
        })?;
        Ok(message)
    }
}

/// Runs of a run column, counted from 0 as `ends` and `values` have them.
impl Column {
    /// Finds the run of row `row`; refused as `OutOfBounds` past the end, and as `Unsupported` of other forms.
    pub fn run_of(&self, row: usize) -> Result<usize, Error> {
        let mut run = 0;
        ask(|fields| unsafe { raw::hv_run_of(self.handle.get(), row, &mut run, fields) })?;
        Ok(run)
    }

    /// Looks up the rows of a run, none where the window does not reach it, and their value, as [`Column::at`] does.
    /// Refused as `OutOfBounds` past the last run, and as `Unsupported` of other forms.
    pub fn run(&self, run: usize) -> Result<Run, Error> {
        let value = self.values()?.at(run)?;
        let rows = self.rows_of_run(run)?;
        Ok(Run { rows, value })
    }

    /// Finds the rows of a run.
    pub(crate) fn rows_of_run(&self, run: usize) -> Result<Range<usize>, Error> {
        let mut stops = [0u64; 2]; // of the run before, which the first one does not have, and of this one
        let absent = usize::from(run == 0);
        let room = &mut stops[absent..];
        ask(|fields| unsafe {
            let (first, len) = (run + absent - 1, room.len());
            raw::hv_read_ends_u64(self.handle.get(), first, room.as_mut_ptr(), len, fields)
        })?;
        Ok(stops[0] as usize..stops[1] as usize)
    }
}

/// Asks for a row of a column, and again with more room where its text has none.
fn shown(
    column: &Column,
    mut call: impl FnMut(&mut RawValue, &mut [u8], *mut Fields) -> i32,
) -> Result<Value, Error> {
    let mut text = vec![0u8; 64];
    loop {
        let mut value = RawValue::default();
        match ask(|fields| call(&mut value, &mut text, fields)) {
            Ok(()) => return Ok(Value::of(value, text, column)),
            Err(error) if error.kind() == Some(ErrorKind::ColumnLength) => {
                text.resize(error.fields.first as usize, 0)
            }
            Err(error) => return Err(error),
        }
    }
}
