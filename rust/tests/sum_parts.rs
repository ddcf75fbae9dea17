//! What columns add to a sum, against a loop over their rows.
use hivevigil::{Column, Error, ErrorKind, Kind, SumParts, Value};

fn next(seed: &mut u64) -> u64 {
    *seed = seed
        .wrapping_mul(6364136223846793005)
        .wrapping_add(1442695040888963407);
    *seed >> 33
}

fn random_rows(seed: &mut u64) -> Vec<Option<i64>> {
    let (mut row, mut rows) = (None, Vec::new());
    for _ in 0..next(seed) % 60 {
        if next(seed) % 3 == 0 {
            let far = [i64::MIN, i64::MAX][next(seed) as usize % 2];
            let near = next(seed) as i64 % 9 - 4;
            row = (next(seed) % 4 > 0).then_some(if next(seed) % 2 == 0 { far } else { near });
        }
        rows.push(row);
    }
    rows
}

fn parts_of(rows: &[Option<i64>]) -> SumParts {
    let (mut total, mut least, mut greatest) = (0, 0, 0);
    for row in rows.iter().flatten() {
        total += i128::from(*row);
        least = least.min(total);
        greatest = greatest.max(total);
    }
    SumParts::Signed {
        total,
        least,
        greatest,
    }
}

#[test]
fn columns_add_what_their_rows_do() -> Result<(), Error> {
    let mut seed = 19;
    for _ in 0..300 {
        let rows = random_rows(&mut seed);
        let flat = Column::try_from(&rows[..])?;
        assert_eq!(flat.sum_parts()?, parts_of(&rows));
        let nulls = rows.iter().filter(|row| row.is_none()).count();
        let runs = flat.encode()?;
        assert_eq!((flat.null_count(), runs.null_count()), (nulls, nulls));
        assert_eq!(runs.sum_parts()?, parts_of(&rows));
        let start = next(&mut seed) as usize % (rows.len() + 1);
        assert_eq!(runs.slice(start..)?.sum_parts()?, parts_of(&rows[start..]));
    }
    Ok(())
}

#[test]
fn constants_of_as_many_rows_as_there_can_be() -> Result<(), Error> {
    let rows = usize::MAX;
    let most = Column::constant(Kind::U64, u64::MAX, rows)?;
    let total = u128::from(u64::MAX) * rows as u128;
    assert_eq!(most.sum_parts()?, SumParts::Unsigned { total });
    let least = i128::from(i64::MIN) * rows as i128;
    assert_eq!(
        Column::constant(Kind::I64, i64::MIN, rows)?.sum_parts()?,
        SumParts::Signed {
            total: least,
            least,
            greatest: 0
        }
    );
    let nulls = Column::constant(Kind::I64.nullable(), Value::Null, rows)?;
    let nothing = SumParts::Signed {
        total: 0,
        least: 0,
        greatest: 0,
    };
    assert_eq!(nulls.sum_parts()?, nothing);
    assert_eq!((nulls.null_count(), most.null_count()), (rows, 0));
    Ok(())
}

#[test]
fn booleans_are_not_added() -> Result<(), Error> {
    let truths = Column::try_from([Some(true), None])?;
    let refused = truths.sum_parts().unwrap_err();
    assert_eq!(refused.kind(), Some(ErrorKind::Unsupported));
    assert_eq!(refused.to_string(), truths.sum().unwrap_err().to_string());
    Ok(())
}
