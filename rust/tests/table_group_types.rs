//! Groups of columns of floats, of lists and of what has a logical type: floats against loops over the rows, the types
//! of all answers, and what is refused first.
mod table_model;

use hivevigil::{Column, Error, ErrorKind, Fold, Form, Kind, Table, TableError, Value};
use table_model::{in_some_form, Dice};

const FOLDS: [Fold; 7] = [
    Fold::Sum,
    Fold::Rows,
    Fold::Count,
    Fold::Least,
    Fold::Greatest,
    Fold::First,
    Fold::Last,
];

// ---- Floats ----

/// Has the bits of a float, the type of its keys, and the format of Arrow.
const WIDTHS: [(u32, Kind, &str); 3] = [
    (16, Kind::I16, "e"),
    (32, Kind::I32, "f"),
    (64, Kind::I64, "g"),
];

/// Lists floats that each width has, with their bits in 16: those that are finite are multiples of `LEAST`.
const NUMBERS: [(u16, f64); 12] = [
    (0x0000, 0.0),
    (0x8000, -0.0),
    (0x3800, 0.5),
    (0xbe00, -1.5),
    (0x4280, 3.25),
    (0x7bff, 65504.0),
    (0xfbff, -65504.0),
    (0x0001, LEAST),
    (0x7c00, f64::INFINITY),
    (0xfc00, f64::NEG_INFINITY),
    (0x7e00, f64::NAN),
    (0xfe00, -f64::NAN),
];
/// Lists floats that only 64 bits have: sums of these are rounded.
const LARGE: [f64; 3] = [9007199254740992.0, -9007199254740992.0, 1e20];
const LEAST: f64 = 1.0 / 16777216.0;

/// Holds a float as a number, and as its place in the total order.
#[derive(Clone, Copy)]
struct Keyed {
    number: f64,
    key: i64,
}

impl Keyed {
    /// Makes any float of as many bits.
    fn any(dice: &mut Dice, width: u32) -> Keyed {
        let (half, number) = NUMBERS[dice.below(NUMBERS.len())];
        let large = LARGE[dice.below(LARGE.len())];
        let is_large = dice.below(6) == 0 && width == 64;
        let number = if is_large { large } else { number };
        let bits = match width {
            16 => u64::from(half),
            32 => u64::from((number as f32).to_bits()),
            _ => number.to_bits(),
        };
        let sign = 1u64 << (width - 1);
        let key = match bits < sign {
            true => bits as i64,
            false => -1 - (bits - sign) as i64,
        };
        Keyed { number, key }
    }
}

/// Makes rows that often repeat the one before.
fn random_rows(dice: &mut Dice, width: u32, count: usize) -> Vec<Option<Keyed>> {
    let (mut row, mut rows) = (None, Vec::new());
    for _ in 0..count {
        if dice.below(3) > 0 {
            row = (dice.below(4) > 0).then(|| Keyed::any(dice, width));
        }
        rows.push(row);
    }
    rows
}

/// Adds floats exactly, and rounds once; null where there is none.
fn sum_of(rows: &[Keyed]) -> Value {
    let has = |number: f64| rows.iter().any(|row| row.number == number);
    let has_nan = rows.iter().any(|row| row.number.is_nan());
    match (has(f64::INFINITY), has(f64::NEG_INFINITY)) {
        _ if rows.is_empty() => Value::Null,
        _ if has_nan => Value::Float(f64::NAN),
        (true, true) => Value::Float(f64::NAN),
        (true, false) => Value::Float(f64::INFINITY),
        (false, true) => Value::Float(f64::NEG_INFINITY),
        _ if rows.iter().all(|row| row.key == -1) => Value::Float(-0.0),
        _ => {
            let parts = rows.iter().map(|row| (row.number / LEAST) as i128);
            Value::Float(parts.sum::<i128>() as f64 * LEAST)
        }
    }
}

/// Answers what is asked of rows: floats that are picked by their keys.
fn answer(fold: Fold, rows: &[Option<Keyed>]) -> Value {
    let valid: Vec<Keyed> = rows.iter().copied().flatten().collect();
    let numbers = valid.iter().filter(|row| !row.number.is_nan());
    let key = |row: Option<&Keyed>| row.map_or(Value::Null, |row| Value::Signed(row.key));
    match fold {
        Fold::Sum => sum_of(&valid),
        Fold::Rows => Value::Unsigned(rows.len() as u64),
        Fold::Count => Value::Unsigned(valid.len() as u64),
        Fold::Least => key(numbers.min_by_key(|row| row.key)),
        Fold::Greatest => key(numbers.max_by_key(|row| row.key)),
        Fold::First => key(valid.first()),
        Fold::Last => key(valid.last()),
    }
}

/// Cuts rows where neighbouring keys differ.
fn cut<'a>(keys: &[u8], rows: &'a [Option<Keyed>]) -> Vec<&'a [Option<Keyed>]> {
    let (mut groups, mut start) = (Vec::new(), 0);
    for stop in 1..=rows.len() {
        if stop == rows.len() || keys[stop] != keys[start] {
            groups.push(&rows[start..stop]);
            start = stop;
        }
    }
    groups
}

#[test]
fn floats_of_each_width_answer_as_loops_over_their_rows() -> Result<(), TableError> {
    let mut dice = Dice(17);
    for _ in 0..300 {
        let (width, kind, format) = WIDTHS[dice.below(3)];
        let count = [0, 1, 7, 40][dice.below(4)];
        let keys: Vec<u8> = (0..count).map(|row| row as u8 / 3 * 7).collect();
        let rows = random_rows(&mut dice, width, count);
        let stored = rows.iter().map(|row| answer(Fold::First, &[*row]));
        let stored: Vec<Value> = stored.collect();
        let floats = in_some_form(&mut dice, kind.nullable(), &stored)?;
        let table = Table::try_from_iter([("key", Column::new(&keys)?), ("low", floats)])?;
        let table = table.with_logical_type("low", format)?;
        let asked = ["a", "b", "c", "d", "e", "f", "g"].iter().zip(FOLDS);
        let asked = asked.map(|(name, fold)| (*name, "low", fold));
        let found = table.group_by(["key"])?.agg(asked)?;
        for ((_, column), fold) in found.iter().skip(1).zip(FOLDS) {
            let due: Vec<Value> = cut(&keys, &rows)
                .iter()
                .map(|group| answer(fold, group))
                .collect();
            assert_eq!(answers_of(column, fold)?, due, "{fold:?}, {format}");
        }
    }
    Ok(())
}

/// Reads answers: sums as floats, of which each NaN is the same, and the others as they are stored.
fn answers_of(column: &Column, fold: Fold) -> Result<Vec<Value>, Error> {
    if fold != Fold::Sum {
        return column.with_logical_type("")?.rows().collect();
    }
    let same_nan = |value| match value {
        Value::Float(number) if number.is_nan() => Value::Float(f64::NAN),
        other => other,
    };
    column.rows().map(|row| row.map(same_nan)).collect()
}

// ---- Types ----

/// Lists columns of two rows, the format of each, and the type and the format of their sum, if they have one.
type Asked = (Column, &'static str, Option<(Kind, &'static str)>);

fn times() -> Result<Vec<Asked>, Error> {
    let (days, times) = (Column::new(&[3i32, 4])?, Column::new(&[70i64, -2])?);
    Ok(vec![
        (days.clone(), "tdD", None),
        (times.clone(), "tdm", None),
        (days.clone(), "tts", None),
        (times.clone(), "ttn", None),
        (times.clone(), "tsu:UTC", None),
        (times.clone(), "tDm", Some((Kind::I64, "tDm"))),
        (days, "tss:", Some((Kind::I64, ""))), // which is not stored so
        (times, "tiM", Some((Kind::I64, ""))), // which nobody serves
    ])
}

fn others() -> Result<Vec<Asked>, Error> {
    let prices = Column::decimals(&[1050, -3], 5, 2, None)?;
    let sum = Some((Kind::decimal(38, 2), ""));
    Ok(vec![
        (Column::new(&[1u16, 2])?, "", Some((Kind::U64, ""))),
        (Column::new(&[1i8, 2])?, "", Some((Kind::I64, ""))),
        (Column::new(&[1i16, 2])?, "e", Some((Kind::I64, "g"))),
        (Column::new(&[1i32, 2])?, "f", Some((Kind::I64, "g"))),
        (Column::new(&[1i64, 2])?, "g", Some((Kind::I64, "g"))),
        (Column::new(&[1i64, 2])?, "e", Some((Kind::I64, ""))), // whose floats have 16 bits
        (prices.clone(), "", sum),
        (prices, "price", sum),
        (Column::texts(&["a", "b"], None)?, "name", None),
        (Column::bytes(&[b"a", b"b"], None)?, "", None),
        (Column::truths(&[true, false], None)?, "", None),
    ])
}

#[test]
fn answers_have_the_types_of_what_they_mean() -> Result<(), TableError> {
    for (column, format, sum) in times()?.into_iter().chain(others()?) {
        let kind = column.kind();
        let table = Table::try_from_iter([("key", Column::new(&[1u8, 1])?), ("asked", column)])?;
        let table = table.with_logical_type("asked", format)?;
        let groups = table.group_by(["key"])?;
        for fold in FOLDS {
            let due = match fold {
                Fold::Sum => sum,
                Fold::Rows | Fold::Count => Some((Kind::U64, "")),
                _ => Some((kind, format)),
            };
            match (groups.agg([("answer", "asked", fold)]), due) {
                (Ok(found), Some((kind, format))) => {
                    let answer = &found["answer"];
                    assert_eq!(
                        (answer.kind(), answer.form()),
                        (kind.nullable(), Form::Flat)
                    );
                    assert_eq!(answer.logical_type().unwrap_or_default(), format);
                }
                (Err(TableError::Column { name, error }), None) => {
                    assert_eq!(name, "asked");
                    assert_eq!(error.kind(), Some(ErrorKind::Unsupported));
                }
                other => panic!("{kind} under {format:?}, {fold:?}: {other:?}"),
            }
        }
    }
    Ok(())
}

// ---- Lists ----

/// Makes two lists of u8, of which the second is null.
fn lists() -> Result<Column, Error> {
    let mut message = vec![8, 1, 16, 13, 24, 4, 32, 2, 40, 4, 0x32, 1, 1]; // as docs/column.proto has them
    for (key, part) in [
        (138, Column::new(&[7u8, 8])?),
        (146, Column::new(&[0u64, 2])?), // where each begins
        (154, Column::new(&[2u64, 0])?), // how many items it has
    ] {
        let part = part.to_bytes()?;
        message.extend([key, 1, part.len() as u8]);
        message.extend(part);
    }
    Column::from_bytes(&message)
}

#[test]
fn lists_are_counted_and_asked_nothing_else() -> Result<(), TableError> {
    let table = Table::try_from_iter([("key", Column::new(&[1u8, 2])?), ("list", lists()?)])?;
    let groups = table.group_by(["key"])?;
    let found = groups.agg([("rows", "list", Fold::Rows), ("count", "list", Fold::Count)])?;
    assert_eq!(found["rows"].options::<u64>()?, [Some(1), Some(1)]);
    assert_eq!(found["count"].options::<u64>()?, [Some(1), Some(0)]);
    for fold in [
        Fold::Sum,
        Fold::Least,
        Fold::Greatest,
        Fold::First,
        Fold::Last,
    ] {
        match groups.agg([("answer", "list", fold)]) {
            Err(TableError::Column { name, error }) if name == "list" => {
                assert_eq!(error.kind(), Some(ErrorKind::Unsupported));
            }
            other => panic!("{other:?}"),
        }
    }
    Ok(())
}

// ---- Refusals ----

#[test]
fn all_that_is_asked_is_looked_at_before_a_sum_is_refused() -> Result<(), TableError> {
    let table = Table::try_from_iter([
        ("key", Column::new(&[1u8, 2, 2])?),
        ("large", Column::new(&[0, i64::MAX, 1])?),
        ("place", Column::texts(&["a", "b", "c"], None)?),
    ])?;
    let groups = table.group_by(["key"])?;
    let refused = |asked: &[(&'static str, &'static str, Fold)]| {
        groups.agg(asked.iter().copied()).unwrap_err().to_string()
    };
    let (sum, none) = (("a", "large", Fold::Sum), ("b", "depth", Fold::Rows));
    let (text, twice) = (("c", "place", Fold::Sum), ("a", "place", Fold::Count));
    let unknown = "no column has the name \"depth\": the names are [\"key\", \"large\", \"place\"]";
    let unsupported = "column \"place\": utf8 has no sum";
    assert_eq!(
        refused(&[sum, none, twice]),
        "two columns have the name \"a\""
    );
    assert_eq!(refused(&[sum, none, text]), unknown);
    assert_eq!(refused(&[sum, text, none]), unsupported);
    assert_eq!(
        refused(&[twice, ("key", "large", Fold::Sum)]),
        "two columns have the name \"key\""
    );
    assert_eq!(
        refused(&[twice, ("d", "large", Fold::Sum)]),
        "column \"large\": integer overflow: the sum of group 1 does not fit i64"
    );
    Ok(())
}
