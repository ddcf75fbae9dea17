//! Columns in parts, against a loop over the rows.
use hivevigil::{Column, ErrorKind, Kind, SplitBy};

type Row = Option<i64>;

fn next(seed: &mut u64) -> u64 {
    let (product, step) = (6364136223846793005u64, 1442695040888963407);
    *seed = seed.wrapping_mul(product).wrapping_add(step);
    *seed >> 33
}

/// Makes rows that often repeat the one before.
fn random_rows(seed: &mut u64) -> Vec<Row> {
    let (mut row, mut rows) = (None, Vec::new());
    for _ in 0..next(seed) % 60 {
        if next(seed) % 4 == 0 {
            row = (next(seed) % 5 > 0).then_some(next(seed) as i64 % 9);
        }
        rows.push(row);
    }
    rows
}

fn runs_of(rows: &[Row]) -> usize {
    let changes = rows.windows(2).filter(|pair| pair[0] != pair[1]).count();
    changes + usize::from(!rows.is_empty())
}

/// Compares the parts, one after the other, with the rows, and what each has with its share.
fn check(column: &Column, rows: &[Row], parts: usize, by: SplitBy) {
    let made = column.split(parts, by).unwrap();
    let made: Vec<Vec<Row>> = made.iter().map(|part| part.options().unwrap()).collect();
    assert_eq!((made.len(), made.concat()), (parts, rows.to_vec()));
    for part in &made {
        let (all, has) = match by {
            SplitBy::Rows => (rows.len(), part.len()),
            SplitBy::Runs => (runs_of(rows), runs_of(part)),
        };
        assert!(
            all / parts <= has && has <= all / parts + 1,
            "{has} of {all} in {parts} parts"
        );
    }
}

#[test]
fn parts_have_their_shares() {
    let mut seed = 5;
    for _ in 0..300 {
        let rows = random_rows(&mut seed);
        let flat = Column::try_from(&rows).unwrap();
        let runs = flat.encode().unwrap();
        let (parts, start) = (1 + next(&mut seed) as usize % 9, rows.len() / 3);
        let window = runs.slice(start..).unwrap();
        for by in [SplitBy::Rows, SplitBy::Runs] {
            check(&flat, &rows, parts, by);
            check(&runs, &rows, parts, by);
            check(&window, &rows[start..], parts, by);
        }
    }
}

#[test]
fn constants_and_no_parts() {
    let constant = Column::constant(Kind::U8, 7, usize::MAX / 2).unwrap();
    let parts = constant.split(3, SplitBy::Runs).unwrap();
    let rows: Vec<usize> = parts.iter().map(Column::len).collect();
    assert_eq!(rows.iter().sum::<usize>(), usize::MAX / 2);
    assert!(rows.iter().all(|rows| rows.abs_diff(usize::MAX / 6) <= 1));
    let refused = constant.split(0, SplitBy::Rows).unwrap_err();
    assert_eq!(refused.kind(), Some(ErrorKind::BadNumber));
    assert_eq!(
        refused.to_string(),
        "a column is split into at least one part"
    );
}
