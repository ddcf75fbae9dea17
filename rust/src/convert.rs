//! Columns made of slices, arrays and vectors by `try_from`, and rows as values of Rust's own types.
use crate::{Column, Decimal, Error, Native, Value};

/// What a row may be in a slice, an array or a vector of which a column is made: an integer, a boolean, a text,
/// bytes, or an `Option` of these, of which `None` is null.
///
/// ```
/// use hivevigil::{Column, Kind, Value};
/// let column = Column::try_from(&[Some(1u8), None])?;
/// assert_eq!((column.kind(), column.at(1)?), (Kind::U8.nullable(), Value::Null));
/// let names = vec!["Oslo".to_string(), "Bergen".to_string()];
/// assert_eq!(Column::try_from(&names)?.get::<String>(0)?.as_deref(), Some("Oslo"));
/// assert_eq!(Column::try_from(vec![7usize, 8])?.kind(), Kind::U64);
/// # Ok::<(), hivevigil::Error>(())
/// ```
pub trait Row: Sized {
    #[doc(hidden)]
    fn column(rows: &[Self]) -> Result<Column, Error>;
}

impl<R: Row> TryFrom<&[R]> for Column {
    type Error = Error;

    fn try_from(rows: &[R]) -> Result<Column, Error> {
        R::column(rows)
    }
}

impl<R: Row, const N: usize> TryFrom<&[R; N]> for Column {
    type Error = Error;

    fn try_from(rows: &[R; N]) -> Result<Column, Error> {
        R::column(rows)
    }
}

impl<R: Row> TryFrom<&Vec<R>> for Column {
    type Error = Error;

    fn try_from(rows: &Vec<R>) -> Result<Column, Error> {
        R::column(rows)
    }
}

impl<R: Row, const N: usize> TryFrom<[R; N]> for Column {
    type Error = Error;

    fn try_from(rows: [R; N]) -> Result<Column, Error> {
        R::column(&rows)
    }
}

impl<R: Row> TryFrom<Vec<R>> for Column {
    type Error = Error;

    fn try_from(rows: Vec<R>) -> Result<Column, Error> {
        R::column(&rows)
    }
}

impl<T: Native> Row for T {
    fn column(rows: &[T]) -> Result<Column, Error> {
        Column::new(rows)
    }
}

impl<T: Native> Row for Option<T> {
    fn column(rows: &[Option<T>]) -> Result<Column, Error> {
        let items: Vec<T> = rows.iter().map(|row| row.unwrap_or_default()).collect();
        Column::with_validity(&items, Some(&valid(rows)))
    }
}

impl Row for bool {
    fn column(rows: &[bool]) -> Result<Column, Error> {
        Column::truths(rows, None)
    }
}

impl Row for Option<bool> {
    fn column(rows: &[Option<bool>]) -> Result<Column, Error> {
        let truths: Vec<bool> = rows.iter().map(|row| row.unwrap_or_default()).collect();
        Column::truths(&truths, Some(&valid(rows)))
    }
}

macro_rules! texts {
    ($($row:ty, $text:ty, $make:ident;)*) => { $(
        impl Row for $row {
            fn column(rows: &[$row]) -> Result<Column, Error> {
                let texts: Vec<&$text> = rows.iter().map(|row| row.as_ref()).collect();
                Column::$make(&texts, None)
            }
        }

        impl Row for Option<$row> {
            fn column(rows: &[Option<$row>]) -> Result<Column, Error> {
                let texts: Vec<&$text> = rows
                    .iter()
                    .map(|row| match row {
                        Some(row) => row.as_ref(),
                        None => Default::default(),
                    })
                    .collect();
                Column::$make(&texts, Some(&valid(rows)))
            }
        }
    )* };
}

texts! {
    &str, str, texts;
    String, str, texts;
    &[u8], [u8], bytes;
    Vec<u8>, [u8], bytes;
}

fn valid<T>(rows: &[Option<T>]) -> Vec<bool> {
    rows.iter().map(Option::is_some).collect()
}

macro_rules! wholes {
    ($($type:ty, $sort:ident, $wide:ty;)*) => { $(
        impl From<$type> for Value {
            fn from(item: $type) -> Value {
                Value::$sort(item as $wide)
            }
        }

        /// Takes the same number, of any type of integers; refused as `CastOutOfRange` where this one does not have it,
        /// and as `TypeMismatch` where the value is of another sort.
        impl TryFrom<Value> for $type {
            type Error = Error;

            fn try_from(value: Value) -> Result<$type, Error> {
                let item: i128 = match value {
                    Value::Unsigned(item) => item.into(),
                    Value::Signed(item) => item.into(),
                    other => return Err(Error::sort(other.sort(), "an integer")),
                };
                let misfit = Error::misfit(Decimal::new(item, 0), <$type as Native>::KIND);
                item.try_into().map_err(|_| misfit)
            }
        }
    )* };
}

wholes! {
    u8, Unsigned, u64;
    u16, Unsigned, u64;
    u32, Unsigned, u64;
    u64, Unsigned, u64;
    i8, Signed, i64;
    i16, Signed, i64;
    i32, Signed, i64;
    i64, Signed, i64;
    usize, Unsigned, u64;
    isize, Signed, i64;
}

macro_rules! others {
    ($($type:ty, $sort:ident, $words:literal;)*) => { $(
        impl From<$type> for Value {
            fn from(item: $type) -> Value {
                Value::$sort(item)
            }
        }

        /// Refused as `TypeMismatch` where the value is of another sort.
        impl TryFrom<Value> for $type {
            type Error = Error;

            fn try_from(value: Value) -> Result<$type, Error> {
                match value {
                    Value::$sort(item) => Ok(item),
                    other => Err(Error::sort(other.sort(), $words)),
                }
            }
        }
    )* };
}

others! {
    bool, Truth, "a boolean";
    Decimal, Decimal, "a decimal";
    f64, Float, "a float";
    String, Text, "a text";
    Vec<u8>, Bytes, "bytes";
}

impl From<f32> for Value {
    fn from(item: f32) -> Value {
        Value::Float(item.into())
    }
}

impl From<&str> for Value {
    fn from(text: &str) -> Value {
        Value::Text(text.to_string())
    }
}

impl From<&[u8]> for Value {
    fn from(bytes: &[u8]) -> Value {
        Value::Bytes(bytes.to_vec())
    }
}

impl From<&Value> for Value {
    fn from(value: &Value) -> Value {
        value.clone()
    }
}

/// `None` is null.
impl<T: Into<Value>> From<Option<T>> for Value {
    fn from(item: Option<T>) -> Value {
        item.map_or(Value::Null, Into::into)
    }
}
