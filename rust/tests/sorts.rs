//! Rows reversed, sorted and counted, against the sorts of the standard library.
use hivevigil::{Column, Error, Form, Kind, Value};
use std::collections::BTreeMap;

fn next(seed: &mut u64) -> u64 {
    *seed = seed
        .wrapping_mul(6364136223846793005)
        .wrapping_add(1442695040888963407);
    *seed >> 33
}

/// Makes rows that often repeat the one before.
fn random_rows(seed: &mut u64) -> Vec<Option<i64>> {
    let (mut row, mut rows) = (None, Vec::new());
    for _ in 0..next(seed) % 60 {
        if next(seed) % 3 == 0 {
            row = (next(seed) % 4 > 0).then_some(next(seed) as i64 % 9 - 4);
        }
        rows.push(row);
    }
    rows
}

fn distinct_neighbours(rows: &[Option<i64>]) -> usize {
    let mut runs = rows.to_vec();
    runs.dedup();
    runs.len()
}

fn check(column: &Column, rows: &[Option<i64>]) -> Result<(), Error> {
    let (mut sorted, mut reversed) = (rows.to_vec(), rows.to_vec());
    sorted.sort();
    reversed.reverse();
    for (made, due) in [(column.sorted()?, sorted), (column.reversed()?, reversed)] {
        assert_eq!(made.decode()?.options::<i64>()?, due);
        assert_eq!(
            (made.form(), made.runs()?.count()),
            (Form::Runs, distinct_neighbours(&due))
        );
    }
    let mut counted = BTreeMap::new();
    for row in rows {
        *counted.entry(*row).or_insert(0u64) += 1;
    }
    let (values, counts) = column.value_counts()?;
    assert_eq!(
        values.options::<i64>()?,
        counted.keys().copied().collect::<Vec<_>>()
    );
    assert_eq!(
        counts.numbers::<u64>()?,
        counted.values().copied().collect::<Vec<_>>()
    );
    assert_eq!((values.form(), counts.kind()), (Form::Flat, Kind::U64));
    Ok(())
}

#[test]
fn rows_are_put_in_order_as_the_standard_library_does() -> Result<(), Error> {
    let mut seed = 17;
    for _ in 0..200 {
        let rows = random_rows(&mut seed);
        let flat = Column::try_from(&rows[..])?;
        check(&flat, &rows)?;
        check(&flat.encode()?, &rows)?;
    }
    Ok(())
}

#[test]
fn a_constant_stays_one() -> Result<(), Error> {
    let same = Column::constant(Kind::I64, 9, 1 << 60)?;
    for made in [same.sorted()?, same.reversed()?] {
        assert_eq!((made.form(), made.len()), (Form::Constant, 1 << 60));
    }
    let (values, counts) = same.value_counts()?;
    assert_eq!(
        (values.at(0)?, counts.at(0)?),
        (Value::Signed(9), Value::Unsigned(1 << 60))
    );
    Ok(())
}
