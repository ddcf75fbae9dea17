//! Which values fit a type.
use crate::decimal::AtScale;
use crate::{Decimal, Error, ErrorKind, Kind, Value};
use std::ops::RangeInclusive;

impl Kind {
    fn is_numeric(self) -> bool {
        self.is_unsigned() || self.is_signed() || self.is_decimal()
    }

    /// Returns the numbers that a column of a numeric type may hold, without scale. C does not test the precision.
    fn range(self) -> RangeInclusive<i128> {
        let bits = 8 << (self.number % 4);
        if self.is_decimal() {
            i128::MIN..=i128::MAX
        } else if self.is_unsigned() {
            0..=(1 << bits) - 1
        } else {
            -(1 << (bits - 1))..=(1 << (bits - 1)) - 1
        }
    }

    /// Returns whether a value of the type may have these digits: decimals have at most `precision` of them. 128 bits
    /// have at most 39.
    fn has(self, digits: i128) -> bool {
        let is_short = |precision: u32| digits.unsigned_abs() < 10u128.pow(precision);
        let fits = !self.is_decimal() || self.precision > 38 || is_short(self.precision.into());
        fits && self.range().contains(&digits)
    }

    /// Counts the digits after the point.
    fn places(self) -> i8 {
        if self.is_decimal() {
            self.scale
        } else {
            0
        }
    }
}

impl Value {
    /// Names the sort of the value: "an integer", "a text" ..
    pub(crate) fn sort(&self) -> &'static str {
        match self {
            Value::Null => "null",
            Value::Unsigned(_) | Value::Signed(_) => "an integer",
            Value::Truth(_) => "a boolean",
            Value::Decimal(_) => "a decimal",
            Value::Float(_) => "a float",
            Value::Text(_) => "a text",
            Value::Bytes(_) => "bytes",
        }
    }

    pub(crate) fn number(&self) -> Option<Decimal> {
        match self {
            Value::Unsigned(item) => Some(Decimal::new(i128::from(*item), 0)),
            Value::Signed(item) => Some(Decimal::new(i128::from(*item), 0)),
            Value::Decimal(item) => Some(*item),
            _ => None,
        }
    }

    /// Makes a value of a number that the type has.
    fn of_digits(digits: i128, kind: Kind) -> Value {
        if kind.is_decimal() {
            Value::Decimal(Decimal::new(digits, kind.scale))
        } else if kind.is_unsigned() {
            Value::Unsigned(digits as u64)
        } else {
            Value::Signed(digits as i64)
        }
    }

    /// Returns whether a value may be of a type, by its sort. Lists are left to the call to refuse.
    fn may_be(&self, kind: Kind) -> bool {
        match self {
            Value::Null => true,
            Value::Truth(_) => kind.is_list() || kind.number == Kind::BOOL.number,
            Value::Text(_) => kind.is_list() || kind.number == Kind::UTF8.number,
            Value::Bytes(_) => kind.is_list() || kind.number == Kind::BINARY.number,
            Value::Float(_) => kind.is_list(),
            _ => kind.is_list() || kind.is_numeric(),
        }
    }

    /// Returns the value as a row of the type: 7 is 7.00 in decimals of scale 2. Refused as `TypeMismatch` where it is
    /// of another sort, and as `CastOutOfRange` where it is a number that the type does not have. Null is left to the
    /// call.
    pub(crate) fn fitted(self, kind: Kind) -> Result<Value, Error> {
        let kind = kind.not_nullable();
        if !self.may_be(kind) {
            return Err(Error::of(ErrorKind::TypeMismatch).with_sort(self.sort(), kind));
        }
        let Some(number) = self.number().filter(|_| kind.is_numeric()) else {
            return Ok(self);
        };
        match number.at_scale(kind.places()) {
            AtScale::Exact(digits) if kind.has(digits) => Ok(Value::of_digits(digits, kind)),
            _ => Err(Error::misfit(number, kind)),
        }
    }
}
