//! Refusals.
use crate::{Decimal, Kind};
use std::fmt;

/// The fields of an error, in the order of `hivevigil.h`; 0 where it has fewer.
#[repr(C)]
#[derive(Clone, Copy, Debug, Default, PartialEq, Eq)]
pub struct Fields {
    /// The first field that `hivevigil.h` names of the error.
    pub first: u64,
    /// The second.
    pub second: u64,
    /// The third.
    pub third: u64,
}

/// A refusal: its number, as in `hivevigil.h`, and its fields. `Display` is a sentence, with the row, the value and the
/// types where these are known, and `Debug`, which `unwrap` shows, has the kind and the sentence. Two are equal where
/// number and fields are.
///
/// ```
/// use hivevigil::{Column, ErrorKind};
/// let error = Column::new(&[4i64, 4, 7])?.at(9).unwrap_err();
/// assert_eq!(error.kind(), Some(ErrorKind::OutOfBounds));
/// assert_eq!(error.to_string(), "row 9 is not among 3 rows");
/// let shown = format!("{error:?}");
/// assert_eq!(shown, r#"Error { kind: OutOfBounds, message: "row 9 is not among 3 rows" }"#);
/// let error = Column::new(&[7i64, 300])?.get::<u8>(1).unwrap_err();
/// assert_eq!(error.to_string(), "row 1 is 300, which does not fit u8");
/// # Ok::<(), hivevigil::Error>(())
/// ```
#[derive(Clone, Copy)]
pub struct Error {
    /// As in `hivevigil.h`.
    pub number: i32,
    /// In its order.
    pub fields: Fields,
    detail: Detail,
}

/// What the sentence says beyond the number's own.
#[derive(Clone, Copy)]
enum Detail {
    None,
    /// A number, or null or a value of another sort, that a type does not have.
    Misfit {
        row: Option<usize>,
        what: What,
        kind: Kind,
    },
    /// Says that a row is not a float, or an integer, of the type of this name.
    Inexact {
        row: usize,
        what: What,
        to: &'static str,
    },
    /// A row of another sort than is asked for.
    Sort {
        row: Option<usize>,
        found: &'static str,
        asked: &'static str,
    },
    /// Says all of it.
    Said(&'static str),
    /// Words about a type, or about a type and another.
    Words(Kind, &'static str, Option<Kind>),
    /// Words that end in a type.
    Ends(&'static str, Kind),
    /// A comparison with a value of another sort.
    NotCompared(Kind, &'static str),
    /// The sum leaves the range of a type with this row.
    Overflow(usize, Kind),
    /// Says that the sum of this group does not fit its type.
    GroupOverflow(u64, Kind),
    /// Says that the total at the end of this run does not fit its type.
    TotalOverflow(u64, Kind),
    /// Says that a sum of decimals leaves 38 digits with this row.
    DigitsOverflow(u64),
    /// Has words about two types.
    Pair(Kind, Kind, &'static str),
    /// Says that what two numbers give does not fit the type of the answers.
    PairOverflow(Packed, char, Packed, Kind),
    /// Names a column of Arrow and its format, which is not served.
    Format(Short<24>, Short<16>),
}

#[derive(Clone, Copy)]
pub(crate) enum What {
    Number(Packed),
    Float(f64),
    Sort(&'static str),
}

/// Has a decimal byte by byte, so that a refusal, which is returned by value everywhere, stays small.
#[derive(Clone, Copy)]
pub(crate) struct Packed {
    digits: [u8; 16],
    scale: i8,
}

impl From<Decimal> for Packed {
    fn from(number: Decimal) -> Packed {
        let (digits, scale) = (number.digits.to_ne_bytes(), number.scale);
        Packed { digits, scale }
    }
}

impl fmt::Display for Packed {
    fn fmt(&self, formatter: &mut fmt::Formatter<'_>) -> fmt::Result {
        Decimal::new(i128::from_ne_bytes(self.digits), self.scale).fmt(formatter)
    }
}

/// Has a text of at most `N` bytes, or the beginning of one.
#[derive(Clone, Copy)]
struct Short<const N: usize> {
    bytes: [u8; N],
    len: u8,
    is_whole: bool,
}

impl<const N: usize> Short<N> {
    fn of(text: &str) -> Short<N> {
        let len = (0..=text.len().min(N))
            .rev()
            .find(|end| text.is_char_boundary(*end));
        let (len, mut bytes) = (len.unwrap_or(0), [0; N]);
        bytes[..len].copy_from_slice(&text.as_bytes()[..len]);
        Short {
            bytes,
            len: len as u8,
            is_whole: len == text.len(),
        }
    }
}

impl<const N: usize> fmt::Display for Short<N> {
    fn fmt(&self, formatter: &mut fmt::Formatter<'_>) -> fmt::Result {
        let text = String::from_utf8_lossy(&self.bytes[..usize::from(self.len)]);
        formatter.write_str(&text)?;
        formatter.write_str(if self.is_whole { "" } else { ".." })
    }
}

impl PartialEq for Error {
    fn eq(&self, other: &Error) -> bool {
        (self.number, self.fields) == (other.number, other.fields)
    }
}

impl Eq for Error {}

impl fmt::Display for Fields {
    fn fmt(&self, formatter: &mut fmt::Formatter<'_>) -> fmt::Result {
        write!(
            formatter,
            "({}, {}, {})",
            self.first, self.second, self.third
        )
    }
}

macro_rules! errors {
    ($($name:ident = $number:literal, $sentence:literal;)*) => {
        /// What a refusal is, by the numbers of `hivevigil.h`.
        #[derive(Clone, Copy, Debug, PartialEq, Eq)]
        #[non_exhaustive]
        pub enum ErrorKind {
            $(#[doc = $sentence] $name = $number,)*
        }

        impl ErrorKind {
            /// Every kind, in the order of the numbers.
            pub const ALL: &'static [ErrorKind] = &[$(ErrorKind::$name,)*];

            /// Returns the sentence, in which the fields replace `%1`, `%2` and `%3`.
            pub fn sentence(self) -> &'static str {
                match self {
                    $(ErrorKind::$name => $sentence,)*
                }
            }
        }
    };
}

// made by tools/declarations.py from hivevigil_errors.h
errors! {
    EndsNotUnsigned = 1, "ends of runs are a flat column of an unsigned type without null";
    LengthsDiffer = 2, "there are %1 ends and %2 values: each run has one of both";
    NoRunsWindow = 3, "there is no run, yet a window of %2 rows from row %1 on";
    EndsNotStrict = 4, "the end of run %1 is not above the end before it";
    WindowOverflow = 5, "offset and length, or all rows together, are 2^64 or more";
    FirstEndBelowOffset = 6, "the first run ends before row %1, below the offset %2";
    LastEndBelowWindow = 7, "the last run ends before row %1, the window before row %2";
    OutOfBounds = 8, "row %1 is not among %2 rows";
    BadRange = 9, "rows %1 to %2 are not among %3 rows";
    MaskLength = 10, "a mask of %1 rows over a column of %2 rows";
    ColumnLength = 11, "a length of %1 next to one of %2";
    TypeMismatch = 12, "the types do not match";
    Unsupported = 13, "the call does not serve columns of this type or form";
    CastOutOfRange = 14, "a row does not fit the type";
    NullNotAllowed = 15, "a row is null, and the type has no null";
    NullFill = 16, "nulls are filled with a value, and null is not one";
    BadMetadata = 17, "the bytes are not a metadata record, or not a column";
    EndsTypeNumber = 18, "%1 is not the number of a type of ends";
    RunCount = 19, "the record says %1 runs, and there are %2";
    OnlyPrimitive = 20, "only integers are encoded by this call";
    OutOfMemory = 21, "a request for memory was refused";
    NoColumn = 22, "there is no column: it was never made, freed, moved away, or lent twice to one call";
    BadNumber = 23, "the number is not that of a type or of an operator";
}
// end of what tools/declarations.py makes

impl Error {
    /// Returns what the refusal is; `None` for a number that `hivevigil.h` does not list.
    pub fn kind(&self) -> Option<ErrorKind> {
        ErrorKind::ALL
            .iter()
            .copied()
            .find(|kind| *kind as i32 == self.number)
    }

    /// Makes the refusal that a call of `hivevigil.h` answered by this number and these fields.
    pub const fn new(number: i32, fields: Fields) -> Error {
        Error {
            number,
            fields,
            detail: Detail::None,
        }
    }

    /// Makes a refusal without fields.
    pub(crate) fn of(kind: ErrorKind) -> Error {
        Error::new(kind as i32, Fields::default())
    }

    /// Makes a refusal with a sentence of its own.
    pub(crate) fn said(kind: ErrorKind, words: &'static str) -> Error {
        Error::of(kind).with(Detail::Said(words))
    }

    fn with(self, detail: Detail) -> Error {
        Error { detail, ..self }
    }

    /// Refuses two lengths that belong together and differ.
    pub(crate) fn lengths(left: usize, right: usize) -> Error {
        let (first, second, third) = (left as u64, right as u64, 0);
        let fields = Fields {
            first,
            second,
            third,
        };
        Error::new(ErrorKind::ColumnLength as i32, fields)
    }

    /// Refuses a number that a type does not have.
    pub(crate) fn misfit(number: Decimal, kind: Kind) -> Error {
        let what = What::Number(number.into());
        Error::of(ErrorKind::CastOutOfRange).with(Detail::Misfit {
            row: None,
            what,
            kind,
        })
    }

    /// Names the sort of the value that the type does not have.
    pub(crate) fn with_sort(self, sort: &'static str, kind: Kind) -> Error {
        let what = What::Sort(sort);
        self.with(Detail::Misfit {
            row: None,
            what,
            kind,
        })
    }

    /// Names the row that is not one of the type of this name.
    pub(crate) fn inexact(self, row: usize, what: What, to: &'static str) -> Error {
        self.with(Detail::Inexact { row, what, to })
    }

    /// Refuses a value of another sort than is asked for.
    pub(crate) fn sort(found: &'static str, asked: &'static str) -> Error {
        let row = None;
        Error::of(ErrorKind::TypeMismatch).with(Detail::Sort { row, found, asked })
    }

    /// Refuses a sum that leaves the range of this type with this row, which is the first field.
    pub(crate) fn overflow(row: usize, kind: Kind) -> Error {
        let first = row as u64;
        let fields = Fields {
            first,
            ..Fields::default()
        };
        Error::new(ErrorKind::CastOutOfRange as i32, fields).with(Detail::Overflow(row, kind))
    }

    /// Names the group whose sum does not fit, where that is what was refused.
    pub(crate) fn of_group(self, kind: Kind) -> Error {
        if self.kind() == Some(ErrorKind::CastOutOfRange) {
            return self.with(Detail::GroupOverflow(self.fields.first, kind));
        }
        self
    }

    /// Refuses the sum of this group, which is the first field and does not fit this type.
    pub(crate) fn group_overflow(group: usize, kind: Kind) -> Error {
        let first = group as u64;
        let fields = Fields {
            first,
            ..Fields::default()
        };
        Error::new(ErrorKind::CastOutOfRange as i32, fields).of_group(kind)
    }

    /// Names the run at whose end the total does not fit, where that is what was refused.
    pub(crate) fn of_total(self, kind: Kind) -> Error {
        if self.kind() == Some(ErrorKind::CastOutOfRange) {
            return self.with(Detail::TotalOverflow(self.fields.first, kind));
        }
        self
    }

    /// Names the row with which a sum of decimals leaves 38 digits, where that is what was refused.
    pub(crate) fn of_digits(self) -> Error {
        if self.kind() == Some(ErrorKind::CastOutOfRange) {
            return self.with(Detail::DigitsOverflow(self.fields.first));
        }
        self
    }

    /// Puts a refusal of two types in words about both.
    pub(crate) fn of_pair(self, left: Kind, right: Kind, words: &'static str) -> Error {
        match self.kind() {
            Some(ErrorKind::TypeMismatch | ErrorKind::Unsupported) => {
                let (left, right) = (left.not_nullable(), right.not_nullable());
                self.with(Detail::Pair(left, right, words))
            }
            _ => self,
        }
    }

    /// Names the two numbers of the row, which is the first field, that give none of the type of the answers.
    pub(crate) fn of_pair_overflow(
        self,
        left: Decimal,
        sign: char,
        right: Decimal,
        kind: Kind,
    ) -> Error {
        let (left, right) = (left.into(), right.into());
        self.with(Detail::PairOverflow(left, sign, right, kind.not_nullable()))
    }

    /// Names a column of Arrow, and its format, where that is what is not served.
    pub(crate) fn of_format(self, name: &str, format: &str) -> Error {
        self.with(Detail::Format(Short::of(name), Short::of(format)))
    }

    /// Says what another refusal of the same kind does, with these fields.
    pub(crate) fn in_words_of(self, other: Error) -> Error {
        self.with(other.detail)
    }

    /// Names the row of the value.
    pub(crate) fn at_row(self, at: usize) -> Error {
        let row = Some(at);
        match self.detail {
            Detail::Misfit { what, kind, .. } => self.with(Detail::Misfit { row, what, kind }),
            Detail::Sort { found, asked, .. } => self.with(Detail::Sort { row, found, asked }),
            _ => self,
        }
    }

    /// Puts a refusal of this kind in words about a type, or about a type and another.
    pub(crate) fn about(
        self,
        kind: ErrorKind,
        left: Kind,
        words: &'static str,
        right: Option<Kind>,
    ) -> Error {
        if self.kind() == Some(kind) {
            return self.with(Detail::Words(left, words, right));
        }
        self
    }

    /// Puts a refusal of types that do not match in words that end in a type.
    pub(crate) fn of_other(self, words: &'static str, other: Kind) -> Error {
        if self.kind() == Some(ErrorKind::TypeMismatch) {
            return self.with(Detail::Ends(words, other));
        }
        self
    }

    /// Puts a refusal of types that do not match in words about a comparison with a value of this sort.
    pub(crate) fn not_compared(self, kind: Kind, sort: &'static str) -> Error {
        if self.kind() == Some(ErrorKind::TypeMismatch) {
            return self.with(Detail::NotCompared(kind, sort));
        }
        self
    }

    /// Names the type that has no null.
    pub(crate) fn of_null(self, kind: Kind) -> Error {
        if self.kind() == Some(ErrorKind::NullNotAllowed) {
            return self.with_sort("null", kind);
        }
        self
    }

    /// Writes the sentence that `hivevigil_errors.h` has for the number.
    fn sentence(&self, kind: ErrorKind) -> String {
        let Fields {
            first,
            second,
            third,
        } = self.fields;
        let sentence = match kind {
            ErrorKind::OutOfBounds if first == u64::MAX => {
                "an index that is negative, or past 64 bits, is not among %2 rows"
            }
            _ => kind.sentence(),
        };
        let text = sentence.replace("%1", &first.to_string());
        let text = text.replace("%2", &second.to_string());
        text.replace("%3", &third.to_string())
    }
}

impl fmt::Display for What {
    fn fmt(&self, formatter: &mut fmt::Formatter<'_>) -> fmt::Result {
        match self {
            What::Number(number) => number.fmt(formatter),
            What::Float(number) if number.is_nan() && number.to_bits() << 13 != 0 => {
                formatter.write_str("a NaN with a payload")
            }
            What::Float(number) => write!(formatter, "{number:?}"),
            What::Sort(sort) => formatter.write_str(sort),
        }
    }
}

/// Names what numbers of a type are.
fn sort_of(kind: Kind) -> &'static str {
    match kind.is_decimal() {
        true => "decimal",
        false => "integer",
    }
}

impl fmt::Display for Error {
    fn fmt(&self, formatter: &mut fmt::Formatter<'_>) -> fmt::Result {
        match self.detail {
            Detail::None => match self.kind() {
                Some(kind) => formatter.write_str(&self.sentence(kind)),
                None => write!(formatter, "error {} {}", self.number, self.fields),
            },
            Detail::Misfit { row, what, kind } => match row {
                Some(row) => write!(formatter, "row {row} is {what}, which does not fit {kind}"),
                None => write!(formatter, "{what} does not fit {kind}"),
            },
            Detail::Inexact { row, what, to } => {
                write!(formatter, "row {row} is {what}, which does not fit {to}")
            }
            Detail::Sort { row, found, asked } => match row {
                Some(row) => write!(formatter, "row {row} is {found}, not {asked}"),
                None => write!(formatter, "{found} is not {asked}"),
            },
            Detail::Said(words) => formatter.write_str(words),
            Detail::Words(left, words, Some(right)) => write!(formatter, "{left} {words} {right}"),
            Detail::Words(left, words, None) => write!(formatter, "{left} {words}"),
            Detail::Ends(words, kind) => write!(formatter, "{words} {kind}"),
            Detail::NotCompared(kind, sort) => {
                write!(formatter, "{kind} is not compared with {sort}")
            }
            Detail::Overflow(row, kind) => write!(
                formatter,
                "integer overflow: with row {row} the sum leaves the range of {kind}"
            ),
            Detail::GroupOverflow(group, kind) => write!(
                formatter,
                "{} overflow: the sum of group {group} does not fit {kind}",
                sort_of(kind)
            ),
            Detail::TotalOverflow(run, kind) => write!(
                formatter,
                "integer overflow: the total at the end of run {run} does not fit {kind}"
            ),
            Detail::DigitsOverflow(row) => write!(
                formatter,
                "decimal overflow: with row {row} the sum leaves 38 digits"
            ),
            Detail::Pair(left, right, words) => write!(formatter, "{left} and {right} {words}"),
            Detail::PairOverflow(left, sign, right, kind) => write!(
                formatter,
                "{} overflow: row {} is {left} {sign} {right}, which does not fit {kind}",
                sort_of(kind),
                self.fields.first
            ),
            Detail::Format(name, format) => {
                let is_of_floats = matches!(
                    format.bytes[..usize::from(format.len)],
                    [b'e' | b'f' | b'g']
                );
                let why = match is_of_floats {
                    true => "floats, which are read by their bits",
                    false => "which is not served",
                };
                match name.len {
                    0 => write!(formatter, "the array has the format {format}, {why}"),
                    _ => write!(formatter, "column '{name}' has the format {format}, {why}"),
                }
            }
        }
    }
}

impl fmt::Debug for Error {
    fn fmt(&self, formatter: &mut fmt::Formatter<'_>) -> fmt::Result {
        let mut shown = formatter.debug_struct("Error");
        match self.kind() {
            Some(kind) => shown.field("kind", &kind),
            None => shown.field("number", &self.number),
        };
        shown.field("message", &self.to_string()).finish()
    }
}

impl std::error::Error for Error {}
