//! The rows of two columns worked place by place.
use crate::column::turn_of;
use crate::scales::check_lengths;
use crate::{raw, Column, Decimal, Error, ErrorKind, Kind, Operator, Value};
use std::ptr;

/// Says what the two rows at a place give, by the numbers of `hivevigil.h`.
#[derive(Clone, Copy, PartialEq, Eq)]
enum Pairing {
    Add = 6,
    Subtract = 7,
    Multiply = 8,
    And = 9,
    Or = 10,
    Coalesce = 11,
    Lesser = 12,
    Greater = 13,
}

impl Pairing {
    /// Says what is not done, in a sentence.
    fn words(self) -> &'static str {
        match self {
            Pairing::Add => "are not added",
            Pairing::Subtract => "are not subtracted",
            Pairing::Multiply => "are not multiplied",
            Pairing::And | Pairing::Or => "are not connected",
            Pairing::Coalesce | Pairing::Lesser | Pairing::Greater => "are not picked from",
        }
    }

    fn sign(self) -> char {
        match self {
            Pairing::Subtract => '-',
            Pairing::Multiply => '*',
            _ => '+',
        }
    }

    /// Returns whether it takes decimals only at one scale, and these are not: sums and picks.
    fn is_at_one_scale(self, left: Kind, right: Kind) -> bool {
        match self {
            Pairing::Add | Pairing::Subtract => {
                left.is_other_decimal(right) && left.scale != right.scale
            }
            Pairing::Coalesce | Pairing::Lesser | Pairing::Greater => left.is_other_decimal(right),
            _ => false,
        }
    }

    /// Returns the type of the answers, without null.
    fn answers(self, left: Kind, right: Kind) -> Kind {
        let digits = match self {
            _ if !left.is_decimal() => return left.not_nullable(),
            Pairing::Multiply => u16::from(left.precision) + u16::from(right.precision),
            _ => u16::from(left.precision.max(right.precision)),
        };
        let scale = match self {
            Pairing::Multiply => left.scale + right.scale,
            _ => left.scale,
        };
        Kind::decimal((digits + 1).min(38) as u8, scale)
    }
}

/// Works two columns place by place, at the cost of the runs of both. The answers are in runs, as few as possible, or
/// in a constant where both columns are constants that have a row. Refused as `ColumnLength` where they differ in rows.
impl Column {
    /// Adds the two integers at each place, in their type, null where either is null; decimals exactly, at the greater
    /// scale of both, in one digit more than either side has there, of 38 at most. Refused as `Unsupported` unless both
    /// columns are of integers or both of decimals, as `TypeMismatch` for two types of integers, and as `CastOutOfRange`
    /// where the type does not have a sum, or a row at the greater scale: the first field is the first such row.
    ///
    /// ```
    /// use hivevigil::{Column, Kind};
    /// let prices = Column::new(&[200u8, 200, 9])?.encode()?;
    /// let sums = prices.checked_add(&Column::constant(Kind::U8, 50, 3)?)?;
    /// assert_eq!(sums.numbers::<u8>()?, [250, 250, 59]);
    /// let refused = prices.checked_add(&Column::new(&[50u8, 100, 1])?).unwrap_err();
    /// let said = "integer overflow: row 1 is 200 + 100, which does not fit u8";
    /// assert_eq!((refused.to_string().as_str(), refused.fields.first), (said, 1));
    /// # Ok::<(), hivevigil::Error>(())
    /// ```
    pub fn checked_add(&self, right: &Column) -> Result<Column, Error> {
        self.paired(Pairing::Add, right)
    }

    /// Subtracts the right number at each place from the left one, as [`Column::checked_add`] adds them.
    pub fn checked_sub(&self, right: &Column) -> Result<Column, Error> {
        self.paired(Pairing::Subtract, right)
    }

    /// Multiplies the two integers at each place, as [`Column::checked_add`] adds them; decimals exactly, at the sum of
    /// the two scales and in all digits of both and one more, of 38 at most. Refused as `TypeMismatch` where no scale is
    /// that sum.
    ///
    /// ```
    /// use hivevigil::{Column, Decimal, Kind, Value};
    /// let prices = Column::constant(Kind::decimal(4, 2), Decimal::new(1050, 2), 3)?;
    /// let taxed = prices.checked_mul(&Column::constant(Kind::decimal(3, 2), Decimal::new(119, 2), 3)?)?;
    /// assert_eq!(taxed.kind(), Kind::decimal(8, 4));
    /// assert_eq!(taxed.at(2)?, Value::Decimal(Decimal::new(124_950, 4)));
    /// # Ok::<(), hivevigil::Error>(())
    /// ```
    pub fn checked_mul(&self, right: &Column) -> Result<Column, Error> {
        self.paired(Pairing::Multiply, right)
    }

    /// Says whether both booleans at each place are true, where null is unknown: `false and null` is false. Refused as
    /// `Unsupported` unless both columns are of booleans.
    ///
    /// ```
    /// use hivevigil::{Column, Value};
    /// let known = Column::try_from([Some(true), Some(false), None])?;
    /// let unknown = Column::try_from([None::<bool>, None, None])?;
    /// let both: Vec<Value> = known.and(&unknown)?.rows().collect::<Result<_, _>>()?;
    /// assert_eq!(both, [Value::Null, Value::Truth(false), Value::Null]);
    /// # Ok::<(), hivevigil::Error>(())
    /// ```
    pub fn and(&self, right: &Column) -> Result<Column, Error> {
        self.paired(Pairing::And, right)
    }

    /// Says whether either boolean at each place is true, where null is unknown: `true or null` is true.
    pub fn or(&self, right: &Column) -> Result<Column, Error> {
        self.paired(Pairing::Or, right)
    }

    /// Returns the left row at each place, or the right one where that is null; decimals of two types as those of one
    /// that has the digits of both. Refused as `Unsupported` unless both columns are of integers, of decimals or of
    /// booleans, as `TypeMismatch` for two types, and as `CastOutOfRange` for a row that has more than 38 digits at the
    /// greater scale.
    ///
    /// ```
    /// use hivevigil::Column;
    /// let rows = Column::try_from([Some(4i64), None])?.coalesce(&Column::new(&[7i64, 9])?)?;
    /// assert_eq!(rows.numbers::<i64>()?, [4, 9]);
    /// # Ok::<(), hivevigil::Error>(())
    /// ```
    pub fn coalesce(&self, right: &Column) -> Result<Column, Error> {
        self.paired(Pairing::Coalesce, right)
    }

    /// Returns the lesser row at each place, null where either is null; refused as [`Column::coalesce`].
    pub fn lesser(&self, right: &Column) -> Result<Column, Error> {
        self.paired(Pairing::Lesser, right)
    }

    /// Returns the greater row at each place, null where either is null; refused as [`Column::coalesce`].
    pub fn greater(&self, right: &Column) -> Result<Column, Error> {
        self.paired(Pairing::Greater, right)
    }

    /// Says whether each row is null, in booleans without null. Refused as `Unsupported` for lists.
    pub fn is_null(&self) -> Result<Column, Error> {
        self.part(|column, out, fields| unsafe { raw::hv_is_null(column, out, fields) })
    }

    /// Says whether each row is not null, in booleans without null. Refused as `Unsupported` for lists.
    pub fn is_valid(&self) -> Result<Column, Error> {
        self.part(|column, out, fields| unsafe { raw::hv_is_valid(column, out, fields) })
    }

    /// Returns the left row where this mask is true, the right one where it is false, and null where it is null;
    /// decimals of two types as [`Column::coalesce`] has them. Refused as `Unsupported` unless this column is of
    /// booleans and the others are of integers, of decimals or of booleans, then as `TypeMismatch` for two types, then
    /// as `ColumnLength`.
    ///
    /// ```
    /// use hivevigil::{Column, Value};
    /// let mask = Column::try_from([Some(true), Some(false), None])?;
    /// let rows = mask.choose(&Column::new(&[1i64, 2, 3])?, &Column::new(&[7i64, 8, 9])?)?;
    /// let due = [Value::Signed(1), Value::Signed(8), Value::Null];
    /// assert_eq!(rows.rows().collect::<Result<Vec<_>, _>>()?, due);
    /// # Ok::<(), hivevigil::Error>(())
    /// ```
    pub fn choose(&self, left: &Column, right: &Column) -> Result<Column, Error> {
        if ptr::eq(left, self) || ptr::eq(left, right) {
            return self.choose(&left.try_clone()?, right);
        }
        if ptr::eq(right, self) {
            return self.choose(left, &right.try_clone()?);
        }
        if self.kind().not_nullable() == Kind::BOOL && left.kind().is_other_decimal(right.kind()) {
            check_lengths(left, right)?;
            check_lengths(self, left)?;
            let (left, right) = left.aligned(right)?;
            return self.choose(&left, &right);
        }
        let _turn = turn_of(&[self, left, right]);
        Column::made(|out, fields| unsafe {
            let (mask, left, right) = (self.handle.get(), left.handle.get(), right.handle.get());
            raw::hv_if_else(mask, left, right, out, fields)
        })
        .map_err(|error| match error.kind() {
            Some(ErrorKind::TypeMismatch) => {
                error.of_pair(left.kind(), right.kind(), "are not chosen from")
            }
            _ => error,
        })
    }

    /// Returns the other boolean of each row, null for null. Refused as `Unsupported` unless the rows are booleans.
    ///
    /// ```
    /// use hivevigil::{Column, Value};
    /// let others = Column::try_from([Some(true), None])?.not()?;
    /// assert_eq!((others.at(0)?, others.at(1)?), (Value::Truth(false), Value::Null));
    /// # Ok::<(), hivevigil::Error>(())
    /// ```
    pub fn not(&self) -> Result<Column, Error> {
        self.part(|column, out, fields| unsafe { raw::hv_not(column, out, fields) })
            .map_err(|error| {
                error.about(
                    ErrorKind::Unsupported,
                    self.kind(),
                    "has no opposites",
                    None,
                )
            })
    }

    /// Says whether the two rows at each place are equal, null where either is null; decimals of two scales are compared
    /// exactly. Refused as `Unsupported` for lists and as `TypeMismatch` for two types.
    ///
    /// ```
    /// use hivevigil::{Column, Value};
    /// let left = Column::try_from([Some(4i64), Some(4), None])?;
    /// let equal = left.eq_rows(&Column::new(&[4i64, 7, 7])?)?;
    /// let rows: Vec<Value> = equal.rows().collect::<Result<_, _>>()?;
    /// assert_eq!(rows, [Value::Truth(true), Value::Truth(false), Value::Null]);
    /// # Ok::<(), hivevigil::Error>(())
    /// ```
    pub fn eq_rows(&self, right: &Column) -> Result<Column, Error> {
        self.compared(Operator::Equal, right)
    }

    /// Says whether they differ, as [`Column::eq_rows`] says whether they are equal.
    pub fn ne_rows(&self, right: &Column) -> Result<Column, Error> {
        self.compared(Operator::NotEqual, right)
    }

    /// Says whether the left one is less.
    pub fn lt_rows(&self, right: &Column) -> Result<Column, Error> {
        self.compared(Operator::Less, right)
    }

    /// Says whether the left one is less or equal.
    pub fn le_rows(&self, right: &Column) -> Result<Column, Error> {
        self.compared(Operator::LessOrEqual, right)
    }

    /// Says whether the left one is greater.
    pub fn gt_rows(&self, right: &Column) -> Result<Column, Error> {
        self.compared(Operator::Greater, right)
    }

    /// Says whether the left one is greater or equal.
    pub fn ge_rows(&self, right: &Column) -> Result<Column, Error> {
        self.compared(Operator::GreaterOrEqual, right)
    }

    pub(crate) fn combined(&self, operator: u8, right: &Column) -> Result<Column, Error> {
        let left = self.handle.get();
        self.beside(right, |right, out, fields| unsafe {
            raw::hv_combine(left, operator, right, out, fields)
        })
    }

    pub(crate) fn compared(&self, operator: Operator, right: &Column) -> Result<Column, Error> {
        if self.kind().is_other_decimal(right.kind()) {
            return self.compared_exactly(operator, right, |left, right| {
                left.compared(operator, right)
            });
        }
        self.combined(operator as u8, right).map_err(|error| {
            let words = "is not compared with";
            error.about(
                ErrorKind::TypeMismatch,
                self.kind(),
                words,
                Some(right.kind()),
            )
        })
    }

    fn paired(&self, by: Pairing, right: &Column) -> Result<Column, Error> {
        if by.is_at_one_scale(self.kind(), right.kind()) {
            check_lengths(self, right)?;
            let (left, right) = self.aligned(right)?;
            return left.paired(by, &right);
        }
        self.combined(by as u8, right).map_err(|error| {
            if error.kind() == Some(ErrorKind::CastOutOfRange) {
                return self.past_type(by, right, error);
            }
            error.of_pair(self.kind(), right.kind(), by.words())
        })
    }

    /// Names the two numbers whose answer the type does not have.
    fn past_type(&self, by: Pairing, right: &Column, error: Error) -> Error {
        let row = error.fields.first as usize;
        let kind = by.answers(self.kind(), right.kind());
        match (self.number(row), right.number(row)) {
            (Some(left), Some(right)) => error.of_pair_overflow(left, by.sign(), right, kind),
            _ => error,
        }
    }

    fn number(&self, row: usize) -> Option<Decimal> {
        match self.at(row) {
            Ok(Value::Unsigned(item)) => Some(Decimal::new(item.into(), 0)),
            Ok(Value::Signed(item)) => Some(Decimal::new(item.into(), 0)),
            Ok(Value::Decimal(item)) => Some(item),
            _ => None,
        }
    }
}
