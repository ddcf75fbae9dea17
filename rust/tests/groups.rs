//! Values grouped by runs of equal keys, against a loop over the rows.
use hivevigil::{Column, Error, ErrorKind, Fold, Form, Kind, Value};

const FOLDS: [Fold; 7] = [
    Fold::Sum,
    Fold::Rows,
    Fold::Count,
    Fold::Least,
    Fold::Greatest,
    Fold::First,
    Fold::Last,
];

type Row = (Option<i8>, Option<i64>);

fn next(seed: &mut u64) -> u64 {
    *seed = seed
        .wrapping_mul(6364136223846793005)
        .wrapping_add(1442695040888963407);
    *seed >> 33
}

/// Makes rows that often repeat the one before.
fn random_rows(seed: &mut u64) -> Vec<Row> {
    let (mut row, mut rows): (Row, Vec<Row>) = ((None, None), Vec::new());
    for _ in 0..next(seed) % 40 {
        if next(seed) % 3 == 0 {
            row.0 = (next(seed) % 4 > 0).then_some(next(seed) as i8 % 3);
        }
        if next(seed) % 2 == 0 {
            row.1 = (next(seed) % 3 > 0).then_some(next(seed) as i64 % 900 - 450);
        }
        rows.push(row);
    }
    rows
}

/// Answers what is asked of the values in a group.
fn answer(fold: Fold, group: &[Row]) -> Value {
    let values: Vec<i64> = group.iter().filter_map(|row| row.1).collect();
    let number = match fold {
        Fold::Rows => return Value::Unsigned(group.len() as u64),
        Fold::Count => return Value::Unsigned(values.len() as u64),
        Fold::Sum => (!values.is_empty()).then(|| values.iter().sum()),
        Fold::Least => values.iter().copied().min(),
        Fold::Greatest => values.iter().copied().max(),
        Fold::First => values.first().copied(),
        Fold::Last => values.last().copied(),
    };
    number.map_or(Value::Null, Value::Signed)
}

/// Cuts rows where neighbouring keys differ.
fn groups_of(rows: &[Row]) -> Vec<&[Row]> {
    let mut groups = Vec::new();
    let mut start = 0;
    for stop in 1..=rows.len() {
        if stop == rows.len() || rows[stop].0 != rows[start].0 {
            groups.push(&rows[start..stop]);
            start = stop;
        }
    }
    groups
}

fn columns_of(rows: &[Row]) -> Result<(Column, Column), Error> {
    let keys: Vec<i8> = rows.iter().map(|row| row.0.unwrap_or(77)).collect();
    let values: Vec<i64> = rows.iter().map(|row| row.1.unwrap_or(-777)).collect();
    let has_key: Vec<bool> = rows.iter().map(|row| row.0.is_some()).collect();
    let has_value: Vec<bool> = rows.iter().map(|row| row.1.is_some()).collect();
    Ok((
        Column::with_validity(&keys, Some(&has_key))?,
        Column::with_validity(&values, Some(&has_value))?,
    ))
}

fn shown(column: &Column) -> Result<Vec<Value>, Error> {
    column.rows().collect()
}

#[test]
fn each_fold_agrees_with_a_loop() -> Result<(), Error> {
    let mut seed = 5;
    for trial in 0..200 {
        let rows = random_rows(&mut seed);
        let (mut keys, mut values) = columns_of(&rows)?;
        if trial % 2 == 0 {
            keys = keys.encode()?;
        }
        if trial % 3 == 0 {
            values = values.encode()?;
        }
        let groups = groups_of(&rows);
        let due_keys: Vec<Value> = groups
            .iter()
            .map(|group| {
                group[0]
                    .0
                    .map_or(Value::Null, |key| Value::Signed(key.into()))
            })
            .collect();
        for fold in FOLDS {
            let (found_keys, answers) = keys.fold_by(&values, fold)?;
            let due: Vec<Value> = groups.iter().map(|group| answer(fold, group)).collect();
            assert_eq!(
                (shown(&found_keys)?, shown(&answers)?),
                (due_keys.clone(), due)
            );
            let kind = match fold {
                Fold::Rows | Fold::Count => Kind::U64,
                _ => Kind::I64,
            };
            assert_eq!(
                (answers.kind(), answers.form()),
                (kind.nullable(), Form::Flat)
            );
        }
    }
    Ok(())
}

#[test]
fn refusals_have_their_fields() -> Result<(), Error> {
    let (keys, large) = (
        Column::new(&[1u8, 2, 2])?,
        Column::new(&[1u64, u64::MAX, 1])?,
    );
    let refused = keys.sum_by(&large).unwrap_err();
    assert_eq!(
        (refused.kind(), refused.fields.first),
        (Some(ErrorKind::CastOutOfRange), 1)
    );
    assert_eq!(
        refused.to_string(),
        "integer overflow: the sum of group 1 does not fit u64"
    );
    assert_eq!(
        shown(&keys.fold_by(&large, Fold::Last)?.1)?[1],
        Value::Unsigned(1)
    );
    let shorter = keys.slice(0..2)?.sum_by(&large).unwrap_err();
    assert_eq!(
        (shorter.kind(), shorter.fields.second),
        (Some(ErrorKind::ColumnLength), 3)
    );
    let truths = Column::truths(&[true, false, true], None)?;
    let unserved = keys.fold_by(&truths, Fold::Count).unwrap_err();
    assert_eq!(unserved.kind(), Some(ErrorKind::Unsupported));
    assert_eq!(
        shown(&keys.fold_by(&keys, Fold::Rows)?.1)?,
        [1, 2].map(Value::Unsigned)
    );
    Ok(())
}
