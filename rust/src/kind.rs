//! Types of rows, and how columns lie.
use std::fmt;

/// The type of rows, by the numbers of `hivevigil.h`.
///
/// ```
/// use hivevigil::{Column, Kind};
/// let wide = Column::new(&[1u8, 2])?.cast(Kind::I64.nullable())?;
/// assert_eq!((wide.kind(), wide.kind().to_string()), (Kind::I64.nullable(), "i64?".to_string()));
/// # Ok::<(), hivevigil::Error>(())
/// ```
#[repr(C)]
#[derive(Clone, Copy, Debug, Default, PartialEq, Eq)]
pub struct Kind {
    /// Which type, in the order of `hivevigil.h`.
    pub number: u8,
    /// 1 where rows may be null, else 0.
    pub nullable: u8,
    /// For decimals: digits.
    pub precision: u8,
    /// For decimals: digits after the point.
    pub scale: i8,
}

macro_rules! kinds {
    ($($name:ident = $number:literal, $text:literal;)*) => {
        impl Kind {
            $(#[doc = concat!("`", $text, "`, without null.")] pub const $name: Kind = Kind::of($number);)*

            /// The types whose number is enough to name them.
            pub const PLAIN: &'static [Kind] = &[$(Kind::$name,)*];

            pub(crate) fn name(self) -> &'static str {
                match self.number {
                    $($number => $text,)*
                    DECIMAL => "decimal",
                    LIST => "list",
                    _ => "none",
                }
            }
        }
    };
}

const DECIMAL: u8 = 9;
const LIST: u8 = 12;

kinds! {
    U8 = 0, "u8";
    U16 = 1, "u16";
    U32 = 2, "u32";
    U64 = 3, "u64";
    I8 = 4, "i8";
    I16 = 5, "i16";
    I32 = 6, "i32";
    I64 = 7, "i64";
    BOOL = 8, "bool";
    UTF8 = 10, "utf8";
    BINARY = 11, "binary";
}

impl Kind {
    const fn of(number: u8) -> Kind {
        Kind {
            number,
            nullable: 0,
            precision: 0,
            scale: 0,
        }
    }

    /// Names numbers of `precision` digits, `scale` of them after the point, without null.
    pub const fn decimal(precision: u8, scale: i8) -> Kind {
        Kind {
            number: DECIMAL,
            nullable: 0,
            precision,
            scale,
        }
    }

    /// Names the same type, in which rows may be null.
    pub const fn nullable(self) -> Kind {
        Kind {
            nullable: 1,
            ..self
        }
    }

    /// Returns whether rows may be null.
    pub const fn is_nullable(self) -> bool {
        self.nullable != 0
    }

    /// Returns whether the rows are integers from 0 on.
    pub const fn is_unsigned(self) -> bool {
        self.number <= Kind::U64.number
    }

    /// Returns whether the rows are integers that may be negative.
    pub const fn is_signed(self) -> bool {
        Kind::I8.number <= self.number && self.number <= Kind::I64.number
    }

    /// Returns whether the rows are decimals.
    pub const fn is_decimal(self) -> bool {
        self.number == DECIMAL
    }

    /// Returns whether rows are cast to another type as numbers at two scales: integers have no digits after the point.
    pub(crate) fn is_scaled_to(self, to: Kind) -> bool {
        let is_integer = |kind: Kind| kind.is_unsigned() || kind.is_signed();
        match (self.is_decimal(), to.is_decimal()) {
            (true, true) => (self.precision, self.scale) != (to.precision, to.scale),
            (true, false) => is_integer(to),
            (false, true) => is_integer(self),
            (false, false) => false,
        }
    }

    /// Names the same type, in which no row is null.
    pub const fn not_nullable(self) -> Kind {
        Kind {
            nullable: 0,
            ..self
        }
    }

    /// Returns whether the rows are lists. A list type is only named, and cannot be asked for.
    pub const fn is_list(self) -> bool {
        self.number == LIST
    }
}

impl fmt::Display for Kind {
    fn fmt(&self, formatter: &mut fmt::Formatter<'_>) -> fmt::Result {
        formatter.write_str(self.name())?;
        if self.number == DECIMAL {
            write!(formatter, "({}, {})", self.precision, self.scale)?;
        }
        formatter.write_str(if self.is_nullable() { "?" } else { "" })
    }
}

/// The form of a column.
#[derive(Clone, Copy, Debug, PartialEq, Eq)]
#[repr(u8)]
pub enum Form {
    /// Row by row.
    Flat = 0,
    /// One value for all rows.
    Constant = 1,
    /// Lists, which share their elements.
    Lists = 2,
    /// Ends and values of runs.
    Runs = 3,
}
