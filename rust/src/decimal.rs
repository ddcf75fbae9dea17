//! Decimals with their scale.
use std::cmp::Ordering;
use std::fmt;

/// A number of `digits`, the last `scale` of which are after the point. Two are equal where they are the same number, and
/// in the order of their numbers.
///
/// ```
/// use hivevigil::{Column, Decimal, Kind};
/// let price = Decimal::new(1050, 2);
/// assert_eq!((price.to_string(), price), ("10.50".to_string(), Decimal::new(105, 1)));
/// assert_eq!(Decimal::new(-7, 4).to_string(), "-0.0007");
/// assert_eq!(Decimal::new(12, -2).to_string(), "1200");
/// assert!(Decimal::new(1005, 3) < Decimal::new(101, 2));
/// let prices = Column::constant(Kind::decimal(10, 2), price, 3)?;
/// assert_eq!(prices.at(2)?.to_string(), "10.50");
/// # Ok::<(), hivevigil::Error>(())
/// ```
#[derive(Clone, Copy, Default)]
pub struct Decimal {
    /// The number without its point.
    pub digits: i128,
    /// How many of the digits are after the point; where it is negative, how many zeros follow them before it.
    pub scale: i8,
}

/// A number at a scale.
#[derive(Clone, Copy, Debug, PartialEq, Eq)]
pub(crate) enum AtScale {
    /// This integer.
    Exact(i128),
    /// Between this integer and the next.
    Above(i128),
    /// Before every integer of 128 bits (`Less`), or past them (`Greater`).
    Outside(Ordering),
}

impl Decimal {
    /// Makes the number of `digits`, the last `scale` of which are after the point.
    pub const fn new(digits: i128, scale: i8) -> Decimal {
        Decimal { digits, scale }
    }

    /// Counts the number in units of the last place of this scale.
    pub(crate) fn at_scale(self, scale: i8) -> AtScale {
        let (mut digits, mut from, to) = (self.digits, i16::from(self.scale), i16::from(scale));
        let mut is_exact = true;
        while from < to && digits != 0 {
            match digits.checked_mul(10) {
                Some(more) => digits = more,
                None => return AtScale::Outside(digits.cmp(&0)),
            }
            from += 1;
        }
        while from > to && digits != 0 {
            is_exact &= digits.rem_euclid(10) == 0;
            digits = digits.div_euclid(10);
            from -= 1;
        }
        match is_exact {
            true => AtScale::Exact(digits),
            false => AtScale::Above(digits),
        }
    }
}

impl PartialEq for Decimal {
    fn eq(&self, other: &Decimal) -> bool {
        self.at_scale(other.scale) == AtScale::Exact(other.digits)
    }
}

impl Eq for Decimal {}

/// Compares the numbers, also those of two scales, exactly.
impl Ord for Decimal {
    fn cmp(&self, other: &Decimal) -> Ordering {
        match self.at_scale(other.scale) {
            AtScale::Exact(digits) => digits.cmp(&other.digits),
            AtScale::Above(digits) if digits < other.digits => Ordering::Less,
            AtScale::Above(_) => Ordering::Greater,
            AtScale::Outside(side) => side,
        }
    }
}

impl PartialOrd for Decimal {
    fn partial_cmp(&self, other: &Decimal) -> Option<Ordering> {
        Some(self.cmp(other))
    }
}

/// "10.50", and of a negative scale "1200".
impl fmt::Display for Decimal {
    fn fmt(&self, formatter: &mut fmt::Formatter<'_>) -> fmt::Result {
        let mut text = self.digits.unsigned_abs().to_string();
        if self.scale < 0 && self.digits != 0 {
            text.extend(std::iter::repeat('0').take(usize::from(self.scale.unsigned_abs())));
        }
        if self.scale > 0 {
            let places = usize::from(self.scale.unsigned_abs());
            text = format!("{text:0>width$}", width = places + 1);
            text.insert(text.len() - places, '.');
        }
        formatter.pad_integral(self.digits >= 0, "", &text)
    }
}

impl fmt::Debug for Decimal {
    fn fmt(&self, formatter: &mut fmt::Formatter<'_>) -> fmt::Result {
        fmt::Display::fmt(self, formatter)
    }
}
