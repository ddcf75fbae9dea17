//! Tables as lists of rows, which are made at random, and the order of rows.
#![allow(dead_code)] // each test uses a part
use hivevigil::{Column, Decimal, Error, Kind, Table, TableError, Value};
use std::cmp::Ordering;

pub mod kept;

/// Rolls numbers that look random.
pub struct Dice(pub u64);

impl Dice {
    pub fn below(&mut self, count: usize) -> usize {
        let (product, step) = (6364136223846793005u64, 1442695040888963407);
        self.0 = self.0.wrapping_mul(product).wrapping_add(step);
        (self.0 >> 33) as usize % count
    }
}

/// Holds the columns of a table as lists of rows.
#[derive(Clone, Debug, PartialEq)]
pub struct Model {
    pub names: Vec<String>,
    pub columns: Vec<Vec<Value>>,
}

const KINDS: [Kind; 7] = [
    Kind::I32,
    Kind::U64,
    Kind::I8,
    Kind::BOOL,
    Kind::decimal(6, 2),
    Kind::UTF8,
    Kind::BINARY,
];

/// Makes a table of as many rows and its model: up to five columns of any types in any forms.
pub fn random(dice: &mut Dice, rows: usize) -> Result<(Table, Model), TableError> {
    let (mut columns, mut lists, mut names) = (Vec::new(), Vec::new(), Vec::new());
    for place in 0..1 + dice.below(5) {
        let kind = KINDS[dice.below(KINDS.len())];
        let kind = if dice.below(2) == 0 {
            kind
        } else {
            kind.nullable()
        };
        let list = random_rows(dice, kind, rows);
        let name = format!("{} {place}", ["level", "größe", ""][dice.below(3)]);
        columns.push((name.clone(), in_some_form(dice, kind, &list)?));
        names.push(name);
        lists.push(list);
    }
    let model = Model {
        names,
        columns: lists,
    };
    Ok((Table::try_from_iter(columns)?, model))
}

/// Makes rows that often repeat the one before.
pub fn random_rows(dice: &mut Dice, kind: Kind, rows: usize) -> Vec<Value> {
    let (mut row, mut list) = (random_value(dice, kind), Vec::new());
    for _ in 0..rows {
        if dice.below(3) == 0 {
            row = random_value(dice, kind);
        }
        list.push(row.clone());
    }
    list
}

fn random_value(dice: &mut Dice, kind: Kind) -> Value {
    if kind.is_nullable() && dice.below(4) == 0 {
        return Value::Null;
    }
    let text = ["", "a", "ab", "b", "größe", "zz and more than a view holds"][dice.below(6)];
    match kind.not_nullable() {
        Kind::BOOL => Value::Truth(dice.below(2) == 0),
        Kind::UTF8 => Value::from(text),
        Kind::BINARY => Value::from(text.as_bytes()),
        kind if kind.is_decimal() => Value::Decimal(Decimal::new(dice.below(9) as i128 - 4, 2)),
        kind if kind.is_signed() => Value::Signed(dice.below(9) as i64 - 4),
        _ => Value::Unsigned(dice.below(5) as u64 + [0, u64::MAX - 9][dice.below(2)]),
    }
}

/// Makes a column of rows: flat, in runs, in the middle of longer runs, or a constant where all are equal.
pub fn in_some_form(dice: &mut Dice, kind: Kind, rows: &[Value]) -> Result<Column, Error> {
    if rows.windows(2).all(|pair| pair[0] == pair[1]) && !rows.is_empty() && dice.below(2) == 0 {
        return Column::constant(kind, &rows[0], rows.len());
    }
    match dice.below(3) {
        0 => flat(kind, rows),
        1 => flat(kind, rows)?.encode_rows(),
        _ => {
            let before: Vec<Value> = rows.iter().rev().take(1).cycle().take(2).cloned().collect();
            let longer = flat(kind, &[&before, rows, &before].concat())?.encode_rows()?;
            window_of(&longer, before.len(), rows.len())
        }
    }
}

/// Shows some rows of a run column, with what is before and after them in its runs.
pub fn window_of(runs: &Column, offset: usize, rows: usize) -> Result<Column, Error> {
    Column::from_runs(&runs.ends()?, &runs.values()?, offset, rows)
}

/// Makes a flat column of rows, by the maker of their type.
pub fn flat(kind: Kind, rows: &[Value]) -> Result<Column, Error> {
    let valid: Vec<bool> = rows.iter().map(|row| *row != Value::Null).collect();
    let valid = kind.is_nullable().then_some(&valid[..]);
    match kind.not_nullable() {
        Kind::BOOL => Column::truths(&items(rows, |row| matches!(row, Value::Truth(true))), valid),
        Kind::UTF8 => {
            let texts = items(rows, |row| match row {
                Value::Text(text) => text.as_str(),
                _ => "",
            });
            Column::texts(&texts, valid)
        }
        Kind::BINARY => {
            let bytes: Vec<&[u8]> = items(rows, |row| match row {
                Value::Bytes(bytes) => &bytes[..],
                _ => &[],
            });
            Column::bytes(&bytes, valid)
        }
        decimals if decimals.is_decimal() => {
            Column::decimals(&items(rows, number), kind.precision, kind.scale, valid)
        }
        Kind::U64 => Column::with_validity(&items(rows, |row| number(row) as u64), valid),
        Kind::I8 => Column::with_validity(&items(rows, |row| number(row) as i8), valid),
        Kind::I16 => Column::with_validity(&items(rows, |row| number(row) as i16), valid),
        Kind::I64 => Column::with_validity(&items(rows, |row| number(row) as i64), valid),
        _ => Column::with_validity(&items(rows, |row| number(row) as i32), valid),
    }
}

fn items<'a, T>(rows: &'a [Value], item: impl Fn(&'a Value) -> T) -> Vec<T> {
    rows.iter().map(item).collect()
}

/// Returns the number of a row, without scale; 0 where it has none.
pub fn number(row: &Value) -> i128 {
    match row {
        Value::Unsigned(item) => i128::from(*item),
        Value::Signed(item) => i128::from(*item),
        Value::Truth(item) => i128::from(*item),
        Value::Decimal(item) => item.digits,
        _ => 0,
    }
}

/// Compares two rows that are not null.
pub fn compare(left: &Value, right: &Value) -> Ordering {
    match (left, right) {
        (Value::Text(left), Value::Text(right)) => left.as_bytes().cmp(right.as_bytes()),
        (Value::Bytes(left), Value::Bytes(right)) => left.cmp(right),
        _ => number(left).cmp(&number(right)),
    }
}

/// Reads a table back as lists of rows.
pub fn model_of(table: &Table) -> Result<Model, TableError> {
    let names = table.names().map(str::to_string).collect();
    let mut columns = Vec::new();
    for (_, column) in table {
        columns.push(column.rows().collect::<Result<Vec<Value>, Error>>()?);
    }
    Ok(Model { names, columns })
}

impl Model {
    pub fn rows(&self) -> usize {
        self.columns.first().map_or(0, Vec::len)
    }

    pub fn row(&self, row: usize) -> Vec<Value> {
        self.columns
            .iter()
            .map(|column| column[row].clone())
            .collect()
    }

    /// Takes rows by their numbers, null where there is none.
    pub fn take(&self, rows: &[Option<usize>]) -> Model {
        let take = |column: &Vec<Value>| {
            let row = |row: &Option<usize>| row.map_or(Value::Null, |row| column[row].clone());
            rows.iter().map(row).collect()
        };
        Model {
            names: self.names.clone(),
            columns: self.columns.iter().map(take).collect(),
        }
    }

    /// Numbers the rows for which a condition holds.
    pub fn rows_where(&self, holds: impl Fn(usize) -> bool) -> Vec<Option<usize>> {
        (0..self.rows())
            .filter(|row| holds(*row))
            .map(Some)
            .collect()
    }
}
