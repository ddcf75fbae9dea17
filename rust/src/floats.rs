//! Columns of floats, stored by their keys.
use crate::error::What;
use crate::{raw, Column, Error, ErrorKind, Kind, Native, Operator, Value};
use std::marker::PhantomData;

/// Has the values of floats of 32 or 64 bits.
pub trait Float: Copy + sealed::Pattern {
    /// Names the type of its keys in columns, without null.
    const KEYS: Kind;
}

mod sealed {
    use crate::{Column, Error};

    /// Says what a float is by its bits.
    pub trait Pattern: Sized {
        /// Names the format of Arrow for columns of these floats.
        const FORMAT: &'static str;
        /// Returns the float with these bits.
        fn of(bits: u64) -> Self;
        /// Returns the same number in 64 bits.
        fn wide(self) -> f64;
        /// Returns the float that is this number, which it has.
        fn narrow(wide: f64) -> Self;
        /// Returns the place in the total order, counted from 0.0.
        fn key(self) -> i64;
        /// Makes the column of the bits of rows.
        fn column(rows: &[Self], valid: Option<&[bool]>) -> Result<Column, Error>;
        /// Returns the bits that a column has.
        fn read(bits: &Column) -> Result<Vec<Option<u64>>, Error>;
    }
}

macro_rules! float {
    ($($type:ty, $bits:ty, $key:ty, $keys:ident, $format:literal, $narrow:expr;)*) => { $(
        impl Float for $type {
            const KEYS: Kind = Kind::$keys;
        }
        impl sealed::Pattern for $type {
            const FORMAT: &'static str = $format;
            fn of(bits: u64) -> $type {
                <$type>::from_bits(bits as $bits)
            }
            fn wide(self) -> f64 {
                f64::from(self)
            }
            fn narrow(wide: f64) -> $type {
                $narrow(wide)
            }
            fn key(self) -> i64 {
                let magnitude = i64::from(self.abs().to_bits() as $key);
                if self.is_sign_negative() { -1 - magnitude } else { magnitude }
            }
            fn column(rows: &[$type], valid: Option<&[bool]>) -> Result<Column, Error> {
                let bits: Vec<$bits> = rows.iter().map(|row| row.to_bits()).collect();
                Column::with_validity(&bits, valid)
            }
            fn read(bits: &Column) -> Result<Vec<Option<u64>>, Error> {
                let rows = bits.options::<$bits>()?;
                Ok(rows.into_iter().map(|row| row.map(u64::from)).collect())
            }
        }
    )* };
}

float! {
    f32, u32, i32, I32, "f", single;
    f64, u64, i64, I64, "g", std::convert::identity;
}

/// Returns the float of 32 bits that is this number; a NaN keeps its sign and its payload.
fn single(wide: f64) -> f32 {
    let bits = wide.to_bits();
    match wide.is_nan() {
        true => f32::from_bits(
            (bits >> 32) as u32 & 0x8000_0000 | 0x7f80_0000 | (bits >> 29) as u32 & 0x7f_ffff,
        ),
        false => wide as f32,
    }
}

/// Says how floats are compared.
#[derive(Clone, Copy, Debug, PartialEq, Eq)]
pub enum FloatOrder {
    /// Compares in the total order of IEEE 754: only equal bits are equal, -0.0 is below 0.0, and NaNs are outside of all
    /// numbers, by their signs.
    Total = 0,
    /// Compares numbers by IEEE 754: 0.0 equals -0.0, and a NaN differs from every number, itself too.
    Ieee = 1,
}

/// Says what two floats give, by the numbers of `hivevigil.h`.
#[derive(Clone, Copy)]
enum FloatPairing {
    Add = 6,
    Subtract = 7,
    Multiply = 8,
    Divide = 14,
}

/// Holds a column of floats: that of their keys, which are their places in the total order, under the logical type of
/// these floats.
///
/// ```
/// use hivevigil::{Floats, Operator};
/// let floats = Floats::of(&[1.5, 1.5, f64::NAN, -0.0])?;
/// assert_eq!(floats.at(0)?, Some(1.5));
/// assert_eq!(floats.least_and_greatest(hivevigil::FloatOrder::Ieee)?, Some((-0.0, 1.5)));
/// assert_eq!(floats.compare(Operator::Equal, 0.0)?.at(3)?, hivevigil::Value::Truth(true));
/// assert_eq!(Floats::of(&[1e100, 1.0, -1e100])?.sum()?, (1.0, 3));
/// # Ok::<(), hivevigil::Error>(())
/// ```
pub struct Floats<T: Float> {
    keys: Column,
    float: PhantomData<T>,
}

impl<T: Float> Floats<T> {
    /// Makes the column of these floats, bit by bit, in as few runs as possible.
    pub fn of(rows: &[T]) -> Result<Floats<T>, Error> {
        Floats::of_bits(&T::column(rows, None)?)
    }

    /// Makes the same, null where there is none.
    pub fn of_options(rows: &[Option<T>]) -> Result<Floats<T>, Error> {
        let valid: Vec<bool> = rows.iter().map(Option::is_some).collect();
        let items: Vec<T> = rows
            .iter()
            .map(|row| row.unwrap_or_else(|| T::of(0)))
            .collect();
        Floats::of_bits(&T::column(&items, Some(&valid))?)
    }

    /// Makes the column that has one float in each of these rows.
    pub fn constant(number: T, rows: usize) -> Result<Floats<T>, Error> {
        Floats::of_keys(Column::constant(T::KEYS, number.key(), rows)?)
    }

    /// Takes a column as the keys of floats, whatever its logical type. Refused as `TypeMismatch` unless it has
    /// integers of the width.
    pub fn of_keys(keys: Column) -> Result<Floats<T>, Error> {
        match keys.kind().not_nullable() == T::KEYS {
            true => Ok(Floats {
                keys: keys.with_logical_type(T::FORMAT)?,
                float: PhantomData,
            }),
            false => {
                let words = "rows are not keys of these floats, which are";
                let (kind, other) = (keys.kind().not_nullable(), ErrorKind::TypeMismatch);
                Err(Error::of(other).about(other, kind, words, Some(T::KEYS)))
            }
        }
    }

    /// Returns the keys, under the logical type of the floats: slices, takes and filters are those of the floats, and
    /// so are the rows that are looked up, the sum, the least and the greatest.
    pub fn keys(&self) -> &Column {
        &self.keys
    }

    /// Counts the rows.
    pub fn len(&self) -> usize {
        self.keys.len()
    }

    /// Returns whether it is empty.
    pub fn is_empty(&self) -> bool {
        self.keys.is_empty()
    }

    /// Returns a row, `None` for null; refused as `OutOfBounds` past the end.
    pub fn at(&self, row: usize) -> Result<Option<T>, Error> {
        Ok(self.keys.get::<f64>(row)?.map(T::narrow))
    }

    /// Returns all rows, `None` for null.
    pub fn options(&self) -> Result<Vec<Option<T>>, Error> {
        let bits = self
            .keys
            .part(|keys, out, fields| unsafe { raw::hv_float_decode(keys, out, fields) })?;
        Ok(T::read(&bits)?
            .into_iter()
            .map(|row| row.map(T::of))
            .collect())
    }

    /// Compares each row with a number, by IEEE 754; null where the row is.
    pub fn compare(&self, operator: Operator, right: T) -> Result<Column, Error> {
        self.compare_in(operator, right, FloatOrder::Ieee)
    }

    /// Compares each row with a float, in this order.
    pub fn compare_in(
        &self,
        operator: Operator,
        right: T,
        order: FloatOrder,
    ) -> Result<Column, Error> {
        match order {
            FloatOrder::Ieee => self.keys.compare_value(operator, right.wide()),
            FloatOrder::Total => {
                let places = self.keys.with_logical_type("")?;
                places.compare_value(operator, right.key())
            }
        }
    }

    /// Finds the least and the greatest row that is not null, of numbers or of all floats; `None` where there is none.
    pub fn least_and_greatest(&self, order: FloatOrder) -> Result<Option<(T, T)>, Error> {
        let (least, greatest) = match order {
            FloatOrder::Ieee => self.keys.least_and_greatest()?,
            FloatOrder::Total => {
                let (least, greatest) = self.keys.with_logical_type("")?.least_and_greatest()?;
                (Floats::<T>::of_key(least)?, Floats::<T>::of_key(greatest)?)
            }
        };
        match (least, greatest) {
            (Value::Float(least), Value::Float(greatest)) => {
                Ok(Some((T::narrow(least), T::narrow(greatest))))
            }
            _ => Ok(None),
        }
    }

    /// Returns the float that has a key, or null.
    fn of_key(key: Value) -> Result<Value, Error> {
        let keys = Column::constant(T::KEYS.nullable(), key, 1)?;
        Floats::<T>::of_keys(keys)?.keys.at(0)
    }

    /// Adds the rows that are not null, exactly, and rounds once: an infinity past the finite floats, NaN where a row
    /// is or both infinities are. Returns the sum and how many rows were added.
    pub fn sum(&self) -> Result<(f64, u64), Error> {
        let count = self.len() - self.keys.null_count();
        Ok((self.keys.sum()?.total.try_into()?, count as u64))
    }

    /// Adds the two floats at each place as IEEE 754 says, rounded once, at the cost of the runs of both: an infinity past
    /// the finite floats; null where either row is null; of every NaN the one without sign and payload. The sums are in
    /// runs, as few as possible, or in a constant where both columns are constants that have a row. Refused as
    /// `ColumnLength` for another number of rows.
    ///
    /// ```
    /// use hivevigil::Floats;
    /// let prices = Floats::of(&[1.5, 1.5, 0.25])?;
    /// let taxed = prices.mul(&Floats::constant(1.5, prices.len())?)?.add(&prices)?;
    /// assert_eq!(taxed.options()?, [Some(3.75), Some(3.75), Some(0.625)]);
    /// assert_eq!(prices.div(&Floats::constant(0.0, 3)?)?.at(2)?, Some(f64::INFINITY));
    /// # Ok::<(), hivevigil::Error>(())
    /// ```
    pub fn add(&self, right: &Floats<T>) -> Result<Floats<T>, Error> {
        self.combined(FloatPairing::Add, right)
    }

    /// Subtracts the right float at each place from the left one, as [`Floats::add`] adds them.
    pub fn sub(&self, right: &Floats<T>) -> Result<Floats<T>, Error> {
        self.combined(FloatPairing::Subtract, right)
    }

    /// Multiplies the two floats at each place, as [`Floats::add`] adds them.
    pub fn mul(&self, right: &Floats<T>) -> Result<Floats<T>, Error> {
        self.combined(FloatPairing::Multiply, right)
    }

    /// Divides the left float at each place by the right one, as [`Floats::add`] adds them: by zero an infinity, and a
    /// NaN for zero by zero.
    pub fn div(&self, right: &Floats<T>) -> Result<Floats<T>, Error> {
        self.combined(FloatPairing::Divide, right)
    }

    fn combined(&self, by: FloatPairing, right: &Floats<T>) -> Result<Floats<T>, Error> {
        Floats::of_keys(self.keys.beside(&right.keys, |right, out, fields| unsafe {
            raw::hv_float_combine(self.keys.handle.get(), by as u8, right, out, fields)
        })?)
    }

    /// Returns the same floats in another format, in as few runs as possible; refused as `CastOutOfRange` where that does
    /// not have one, or the payload of a NaN.
    ///
    /// ```
    /// use hivevigil::Floats;
    /// let singles = Floats::of(&[1.5f64, 1.5, f64::NAN])?.cast::<f32>()?;
    /// assert_eq!(singles.at(1)?, Some(1.5f32));
    /// assert!(Floats::of(&[0.1f64])?.cast::<f32>().is_err());
    /// assert_eq!(Floats::of(&[0.1f64])?.rounded::<f32>()?.at(0)?, Some(0.1f32));
    /// # Ok::<(), hivevigil::Error>(())
    /// ```
    pub fn cast<U: Float>(&self) -> Result<Floats<U>, Error> {
        self.cast_by(0)
    }

    /// Returns the nearest floats in another format, at a tie the even ones: an infinity past the finite ones by half a
    /// step or more; the quiet NaN where the format does not have the payload of one.
    pub fn rounded<U: Float>(&self) -> Result<Floats<U>, Error> {
        self.cast_by(1)
    }

    fn cast_by<U: Float>(&self, is_rounded: u8) -> Result<Floats<U>, Error> {
        let to = U::KEYS.number;
        let cast = |keys: &Column| {
            keys.part(|keys, out, fields| unsafe {
                raw::hv_float_cast(keys, to, is_rounded, out, fields)
            })
        };
        Floats::of_keys(self.converted(format_of(U::KEYS), cast)?)
    }

    /// Converts the keys; of a refusal the sentence says which row is the first that is not one of the type.
    fn converted(
        &self,
        to: &'static str,
        convert: impl Fn(&Column) -> Result<Column, Error>,
    ) -> Result<Column, Error> {
        convert(&self.keys).map_err(|error| match first_refused(&self.keys, error, convert) {
            Some((row, Value::Float(float))) => error.inexact(row, What::Float(float), to),
            _ => error,
        })
    }

    /// Makes the floats that the integers of a column are, in as few runs as possible; refused as `TypeMismatch` unless
    /// they are integers, and as `CastOutOfRange` where no float is one of them.
    ///
    /// ```
    /// use hivevigil::{Column, Floats};
    /// let counts = Column::new(&[3u8, 3, 0])?;
    /// let floats = Floats::<f32>::of_integers(&counts)?;
    /// assert_eq!(floats.at(0)?, Some(3.0));
    /// assert_eq!(floats.to_integers::<u8>()?.decode()?.numbers::<u8>()?, [3, 3, 0]);
    /// # Ok::<(), hivevigil::Error>(())
    /// ```
    pub fn of_integers(integers: &Column) -> Result<Floats<T>, Error> {
        Floats::of_numbers(integers, 0)
    }

    /// Makes the floats that are nearest to the integers of a column, at a tie the even ones.
    pub fn of_rounded_integers(integers: &Column) -> Result<Floats<T>, Error> {
        Floats::of_numbers(integers, 1)
    }

    fn of_numbers(integers: &Column, is_rounded: u8) -> Result<Floats<T>, Error> {
        let convert = |integers: &Column| {
            integers.part(|integers, out, fields| unsafe {
                raw::hv_float_of_integers(integers, T::KEYS.number, is_rounded, out, fields)
            })
        };
        Floats::of_keys(convert(integers).map_err(|error| {
            let found = first_refused(integers, error, convert);
            let found = found.and_then(|(row, value)| Some((row, value.number()?)));
            found.map_or(error, |(row, number)| {
                error.inexact(row, What::Number(number.into()), format_of(T::KEYS))
            })
        })?)
    }

    /// Returns the integers that the floats are, in as few runs as possible; refused as `CastOutOfRange` where a float is
    /// not an integer of the type.
    pub fn to_integers<N: Native>(&self) -> Result<Column, Error> {
        self.converted(N::KIND.name(), |keys| {
            keys.part(|keys, out, fields| unsafe {
                raw::hv_float_to_integers(keys, N::KIND.number, out, fields)
            })
        })
    }

    fn of_bits(bits: &Column) -> Result<Floats<T>, Error> {
        Floats::of_keys(
            bits.part(|bits, out, fields| unsafe { raw::hv_float_encode(bits, 0, out, fields) })?,
        )
    }
}

/// Names the format of the floats that have keys of a type.
fn format_of(keys: Kind) -> &'static str {
    match keys == f32::KEYS {
        true => "float32",
        false => "float64",
    }
}

/// Returns the first row with which a conversion is refused as `CastOutOfRange`; `None` for another refusal.
fn first_refused(
    column: &Column,
    error: Error,
    convert: impl Fn(&Column) -> Result<Column, Error>,
) -> Option<(usize, Value)> {
    if error.kind() != Some(ErrorKind::CastOutOfRange) {
        return None;
    }
    let row = column.first_refused(|rows| convert(rows).is_err()).ok()?;
    Some((row, column.at(row).ok()?))
}
