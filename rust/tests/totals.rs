//! Running totals at the ends of runs, against a loop over the rows.
use hivevigil::{Column, Error, ErrorKind, Form, Kind};

fn next(seed: &mut u64) -> u64 {
    *seed = seed
        .wrapping_mul(6364136223846793005)
        .wrapping_add(1442695040888963407);
    *seed >> 33
}

/// Makes rows that often repeat the one before, and, where that is asked, have some as far from 0 as there are.
fn random_rows(seed: &mut u64, has_large: bool) -> Vec<Option<i64>> {
    let (mut row, mut rows) = (None, Vec::new());
    for _ in 0..next(seed) % 40 {
        if next(seed) % 3 == 0 {
            let number = match has_large && next(seed) % 3 == 0 {
                true => [i64::MIN, i64::MAX][next(seed) as usize % 2],
                false => next(seed) as i64 % 900 - 450,
            };
            row = (next(seed) % 3 > 0).then_some(number);
        }
        rows.push(row);
    }
    rows
}

type Totals = (Vec<u64>, Vec<Option<i64>>);

/// Adds row by row. Refuses with the first run at whose end the total is past 64 bits.
fn totals_of(rows: &[Option<i64>]) -> Result<Totals, u64> {
    let (mut ends, mut totals) = (Vec::new(), Vec::new());
    let mut total: Option<i128> = None;
    for (at, row) in rows.iter().enumerate() {
        if let Some(number) = row {
            total = Some(total.unwrap_or(0) + i128::from(*number));
        }
        if rows.get(at + 1) != Some(row) {
            let at_end = total.map(i64::try_from).transpose();
            totals.push(at_end.map_err(|_| ends.len() as u64)?);
            ends.push(at as u64 + 1);
        }
    }
    Ok((ends, totals))
}

#[test]
fn totals_agree_with_a_loop() -> Result<(), Error> {
    let (mut seed, mut refusals) = (9, 0);
    for trial in 0..400 {
        let rows = random_rows(&mut seed, trial % 4 == 0);
        let mut column = Column::try_from(rows.clone())?;
        if trial % 3 > 0 {
            column = column.encode()?;
        }
        match (totals_of(&rows), column.running_totals()) {
            (Ok((due_ends, due)), Ok((ends, totals))) => {
                let ends_in_u64 = ends.cast(Kind::U64)?.numbers::<u64>()?;
                assert_eq!((ends_in_u64, totals.options::<i64>()?), (due_ends, due));
                assert_eq!(
                    (ends.kind(), totals.kind()),
                    (Kind::U8, Kind::I64.nullable())
                );
                assert_eq!((ends.form(), totals.form()), (Form::Flat, Form::Flat));
            }
            (Err(run), Err(refused)) => {
                assert_eq!(refused.kind(), Some(ErrorKind::CastOutOfRange));
                assert_eq!(refused.fields.first, run);
                refusals += 1;
            }
            (due, found) => panic!("{due:?} is due, and found is {found:?}"),
        }
    }
    assert!(refusals > 0);
    Ok(())
}

#[test]
fn refusals_are_in_words() -> Result<(), Error> {
    let refused = Column::new(&[1u64, u64::MAX])?
        .running_totals()
        .unwrap_err();
    assert_eq!(
        refused.to_string(),
        "integer overflow: the total at the end of run 1 does not fit u64"
    );
    let unserved = Column::truths(&[true, false], None)?.running_totals();
    assert_eq!(unserved.unwrap_err().kind(), Some(ErrorKind::Unsupported));
    Ok(())
}
