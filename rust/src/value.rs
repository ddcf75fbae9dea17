//! Rows and sums.
use crate::raw::{RawTotal, RawValue};
use crate::{Column, Decimal};
use std::cmp::Ordering;
use std::fmt;

/// A row. Two are equal where they are the same row, so floats where their bits are.
#[derive(Clone, Debug)]
pub enum Value {
    /// No value.
    Null,
    /// Holds a number of an unsigned type.
    Unsigned(u64),
    /// Holds a number of a signed type.
    Signed(i64),
    /// A boolean.
    Truth(bool),
    /// A decimal, of the column's scale.
    Decimal(Decimal),
    /// Holds a float of a column that has floats by its logical type.
    Float(f64),
    /// A text.
    Text(String),
    /// Bytes.
    Bytes(Vec<u8>),
}

impl PartialEq for Value {
    fn eq(&self, other: &Value) -> bool {
        match (self, other) {
            (Value::Null, Value::Null) => true,
            (Value::Unsigned(item), Value::Unsigned(other)) => item == other,
            (Value::Signed(item), Value::Signed(other)) => item == other,
            (Value::Truth(item), Value::Truth(other)) => item == other,
            (Value::Decimal(item), Value::Decimal(other)) => item == other,
            (Value::Float(item), Value::Float(other)) => item.to_bits() == other.to_bits(),
            (Value::Text(text), Value::Text(other)) => text == other,
            (Value::Bytes(bytes), Value::Bytes(other)) => bytes == other,
            _ => false,
        }
    }
}

impl Eq for Value {}

/// Numbers and booleans as Rust writes them, floats as `{:?}` does, decimals as "10.50", texts and bytes quoted,
/// `null`.
impl fmt::Display for Value {
    fn fmt(&self, formatter: &mut fmt::Formatter<'_>) -> fmt::Result {
        match self {
            Value::Null => formatter.write_str("null"),
            Value::Unsigned(item) => item.fmt(formatter),
            Value::Signed(item) => item.fmt(formatter),
            Value::Truth(item) => item.fmt(formatter),
            Value::Decimal(item) => item.fmt(formatter),
            Value::Float(item) => write!(formatter, "{item:?}"),
            Value::Text(text) => write!(formatter, "{text:?}"),
            Value::Bytes(bytes) => write!(formatter, "b\"{}\"", bytes.escape_ascii()),
        }
    }
}

/// Holds a sum: of integers and durations in 64 bits, with a sign where they have one; of decimals at their scale, in
/// up to 38 digits; of floats the `f64` that is nearest to it. `empty`: no row is valid, and the sum is 0.
#[derive(Clone, Debug, PartialEq, Eq)]
pub struct Sum {
    /// Holds the sum of the rows that are not null.
    pub total: Value,
    /// Says whether every row is null, or the column has none.
    pub empty: bool,
}

/// Holds what rows add to a sum, by which the sum of joined rows is known, also where it overflows on the way.
#[derive(Clone, Copy, Debug, PartialEq, Eq)]
pub enum SumParts {
    /// Holds, for signed rows, the total, and the least and the greatest sum on the way from row to row, one
    /// of which is the 0 before the first row.
    Signed {
        /// Holds the sum of the rows that are not null, of any size.
        total: i128,
        /// Holds the least sum on the way.
        least: i128,
        /// Holds the greatest sum on the way.
        greatest: i128,
    },
    /// Holds, for unsigned rows, the total, which is the greatest sum on the way; the least is 0.
    Unsigned {
        /// Holds the sum of the rows that are not null, of any size.
        total: u128,
    },
}

/// `row operator value`, by the numbers of `hivevigil.h`.
#[derive(Clone, Copy, Debug, PartialEq, Eq)]
#[repr(u8)]
pub enum Operator {
    /// `==`
    Equal = 0,
    /// `!=`
    NotEqual = 1,
    /// `>`
    Greater = 2,
    /// `>=`
    GreaterOrEqual = 3,
    /// `<`
    Less = 4,
    /// `<=`
    LessOrEqual = 5,
}

impl Operator {
    /// Returns whether it holds of two values in this order.
    pub(crate) fn holds(self, order: Ordering) -> bool {
        match self {
            Operator::Equal => order.is_eq(),
            Operator::NotEqual => order.is_ne(),
            Operator::Greater => order.is_gt(),
            Operator::GreaterOrEqual => order.is_ge(),
            Operator::Less => order.is_lt(),
            Operator::LessOrEqual => order.is_le(),
        }
    }
}

/// Names what is answered of the values in a group, by the numbers of `hivevigil.h`. Each but `Rows` looks only at the
/// values that are not null.
#[derive(Clone, Copy, Debug, PartialEq, Eq)]
#[repr(u8)]
pub enum Fold {
    /// Sums them, in `i64` for signed values and in `u64` for unsigned ones; `Groups` add floats and decimals too.
    Sum = 0,
    /// Counts the rows, in `u64`, null too.
    Rows = 1,
    /// Counts the values, in `u64`.
    Count = 2,
    /// Names the least of them.
    Least = 3,
    /// Names the greatest of them.
    Greatest = 4,
    /// Names the first of them.
    First = 5,
    /// Names the last of them.
    Last = 6,
}

impl Value {
    /// Takes what a call showed of a column, with the room that it was given for a text.
    pub(crate) fn of(raw: RawValue, mut text: Vec<u8>, column: &Column) -> Value {
        match raw.kind {
            1 => Value::Unsigned(raw.as_unsigned),
            2 => Value::Signed(raw.as_signed),
            3 => Value::Truth(raw.truth != 0),
            4 => raw.decimal(column.kind().scale),
            5 => {
                text.truncate(raw.as_unsigned as usize);
                Value::Text(String::from_utf8(text).expect("texts are UTF-8"))
            }
            6 => {
                text.truncate(raw.as_unsigned as usize);
                Value::Bytes(text)
            }
            7 => Value::Float(f64::from_bits(raw.as_unsigned)),
            8 => raw.decimal(raw.scale),
            _ => Value::Null,
        }
    }

    /// Takes the sum of a column; null where it left the range of 64 bits.
    pub(crate) fn of_total(total: RawTotal, column: &Column) -> Value {
        let raw = RawValue {
            as_unsigned: total.as_unsigned,
            as_signed: total.as_signed,
            kind: total.kind,
            truth: 0,
            scale: total.scale,
        };
        Value::of(raw, Vec::new(), column)
    }

    /// Passes a number of any type as C does; `None` for all else.
    pub(crate) fn as_number(&self) -> Option<RawValue> {
        let (raw, _) = self.passed();
        match self {
            Value::Unsigned(_) | Value::Signed(_) | Value::Float(_) => Some(raw),
            Value::Decimal(item) => Some(RawValue {
                kind: 8,
                scale: item.scale,
                ..raw
            }),
            _ => None,
        }
    }

    /// Passes the value as C does, with the bytes of a text next to it.
    pub(crate) fn passed(&self) -> (RawValue, &[u8]) {
        let raw = |kind, as_unsigned, as_signed, truth| RawValue {
            as_unsigned,
            as_signed,
            kind,
            truth,
            scale: 0,
        };
        match self {
            Value::Null => (raw(0, 0, 0, 0), &[]),
            Value::Unsigned(item) => (raw(1, *item, 0, 0), &[]),
            Value::Signed(item) => (raw(2, 0, *item, 0), &[]),
            Value::Truth(item) => (raw(3, 0, 0, u8::from(*item)), &[]),
            Value::Decimal(item) => {
                let (low, high) = (item.digits as u64, (item.digits >> 64) as i64);
                (raw(4, low, high, 0), &[])
            }
            Value::Float(item) => (raw(7, item.to_bits(), 0, 0), &[]),
            Value::Text(text) => (raw(5, text.len() as u64, 0, 0), text.as_bytes()),
            Value::Bytes(bytes) => (raw(6, bytes.len() as u64, 0, 0), bytes),
        }
    }
}

impl RawValue {
    fn decimal(&self, scale: i8) -> Value {
        let digits = (i128::from(self.as_signed) << 64) | i128::from(self.as_unsigned);
        Value::Decimal(Decimal::new(digits, scale))
    }
}
