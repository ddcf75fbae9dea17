//! Sums of decimals, what two columns of them give, and rows picked of them, in every form, against integers of 128
//! bits.
use hivevigil::{Column, Decimal, ErrorKind, Kind, Sum, Value};

const LIMIT: i128 = 10i128.pow(38);
const SCALE: i8 = 2;

/// Adds the rows, as long as the sum has 38 digits; else finds the row with which it does not.
fn due(rows: &[Option<i128>]) -> Result<Sum, usize> {
    let mut sum = 0i128;
    for (row, number) in rows.iter().enumerate() {
        let next = sum + number.unwrap_or(0);
        if next.abs() >= LIMIT {
            return Err(row);
        }
        sum = next;
    }
    Ok(Sum {
        total: Value::Decimal(Decimal::new(sum, SCALE)),
        empty: rows.iter().all(Option::is_none),
    })
}

fn check(rows: &[Option<i128>]) {
    let valid: Vec<bool> = rows.iter().map(Option::is_some).collect();
    let digits: Vec<i128> = rows.iter().map(|row| row.unwrap_or(0)).collect();
    let flat = Column::decimals(&digits, 38, SCALE, Some(&valid)).unwrap();
    for column in [flat.encode_rows().unwrap(), flat] {
        match due(rows) {
            Ok(sum) => {
                let found = column.sum().unwrap();
                assert_eq!(found, sum);
                assert_eq!(Decimal::try_from(found.total).unwrap().scale, SCALE);
            }
            Err(row) => {
                let refused = column.sum().unwrap_err();
                assert_eq!(refused.kind(), Some(ErrorKind::CastOutOfRange));
                assert_eq!(refused.fields.first, row as u64);
                let sentence = format!("decimal overflow: with row {row} the sum leaves 38 digits");
                assert_eq!(refused.to_string(), sentence);
            }
        }
    }
}

#[test]
fn sums_are_those_of_integers() {
    check(&[]);
    check(&[None, None]);
    check(&[Some(1050), None, Some(-51), Some(-51), Some(-51)]);
    let tenth = 10i128.pow(37);
    for count in [9, 10, 25] {
        let mut rows = vec![Some(tenth); count];
        rows.insert(4, None);
        check(&rows);
        rows.splice(0..0, [Some(-tenth); 9]); // of 18 rows the product has 39 digits, and no sum on the way has
        check(&rows);
        rows.insert(9, Some(-1));
        check(&rows);
    }
    check(&[Some(LIMIT - 1), Some(1), Some(-7)]);
    check(&[Some(1 - LIMIT), Some(-1)]);
}

#[test]
fn constants_and_slices_are_summed_by_runs() {
    let price = Decimal::new(1050, SCALE);
    let many = Column::constant(Kind::decimal(4, SCALE), price, 1 << 60).unwrap();
    assert_eq!(
        many.sum().unwrap().total,
        Value::Decimal(Decimal::new(1050 << 60, SCALE))
    );
    let part = many.slice(5..9).unwrap();
    assert_eq!(
        part.sum().unwrap().total,
        Value::Decimal(Decimal::new(4200, SCALE))
    );
}

/// Works two columns row by row, or finds the first row that has no answer of this many digits.
fn paired(
    left: &[Option<i128>],
    right: &[Option<i128>],
    give: fn(i128, i128) -> Option<i128>,
    digits: u32,
) -> Result<Vec<Option<i128>>, usize> {
    let limit = 10i128.pow(digits);
    let pairs = left.iter().zip(right).enumerate();
    pairs
        .map(|(row, pair)| match pair {
            (Some(one), Some(other)) => {
                let number = give(*one, *other).filter(|number| number.abs() < limit);
                number.map(Some).ok_or(row)
            }
            _ => Ok(None),
        })
        .collect()
}

fn column_of(rows: &[Option<i128>], precision: u8, scale: i8) -> Column {
    let valid: Vec<bool> = rows.iter().map(Option::is_some).collect();
    let digits: Vec<i128> = rows.iter().map(|row| row.unwrap_or(0)).collect();
    Column::decimals(&digits, precision, scale, Some(&valid)).unwrap()
}

fn check_paired(
    found: Result<Column, hivevigil::Error>,
    due: Result<Vec<Option<i128>>, usize>,
    kind: Kind,
) {
    match due {
        Ok(rows) => {
            let found = found.unwrap();
            assert_eq!(found.kind(), kind.nullable());
            for (row, due) in rows.into_iter().enumerate() {
                let due = due.map_or(Value::Null, |digits| {
                    Value::Decimal(Decimal::new(digits, kind.scale))
                });
                assert_eq!(found.at(row).unwrap(), due);
            }
        }
        Err(row) => {
            let refused = found.unwrap_err();
            assert_eq!(
                (refused.kind(), refused.fields.first),
                (Some(ErrorKind::CastOutOfRange), row as u64)
            );
            let (start, end) = (
                format!("decimal overflow: row {row} is "),
                format!(", which does not fit {kind}"),
            );
            let sentence = refused.to_string();
            assert!(
                sentence.starts_with(&start) && sentence.ends_with(&end),
                "{sentence}"
            );
        }
    }
}

#[test]
fn two_columns_give_what_integers_do() {
    let numbers = [
        0,
        7,
        -7,
        12,
        LIMIT - 1,
        1 - LIMIT,
        10i128.pow(19),
        -10i128.pow(19),
        10i128.pow(37),
    ];
    let mut seed = 17u64;
    let mut next = |most: usize| {
        seed = seed
            .wrapping_mul(6364136223846793005)
            .wrapping_add(1442695040888963407);
        (seed >> 33) as usize % most
    };
    for trial in 0..300 {
        let most = [4, numbers.len()][trial % 2];
        let mut rows = |count: usize| -> Vec<Option<i128>> {
            (0..count)
                .map(|_| (next(4) > 0).then(|| numbers[next(most)]))
                .collect()
        };
        let (left, right) = (rows(1 + trial % 9), rows(1 + trial % 9));
        let (prices, fees) = (column_of(&left, 5, SCALE), column_of(&right, 7, SCALE));
        let factors = column_of(&right, 31, -3);
        for prices in [prices.encode_rows().unwrap(), prices] {
            let due = |give, digits| paired(&left, &right, give, digits);
            check_paired(
                prices.checked_add(&fees),
                due(i128::checked_add, 8),
                Kind::decimal(8, SCALE),
            );
            check_paired(
                prices.checked_sub(&fees),
                due(i128::checked_sub, 8),
                Kind::decimal(8, SCALE),
            );
            check_paired(
                prices.checked_mul(&factors),
                due(i128::checked_mul, 37),
                Kind::decimal(37, SCALE - 3),
            );
        }
    }
}

#[test]
fn rows_are_picked_of_decimals_of_one_type() {
    let left = column_of(&[Some(-500), None, Some(LIMIT - 1), None, Some(7)], 38, 2);
    let right = column_of(&[Some(300), Some(8), Some(-1), None, Some(7)], 38, 2);
    let mask = Column::try_from([Some(true), Some(false), None, Some(true), Some(false)]).unwrap();
    let kind = Kind::decimal(38, 2);
    let first = [Some(-500), Some(8), Some(LIMIT - 1), None, Some(7)];
    let lesser = [Some(-500), None, Some(-1), None, Some(7)];
    let greater = [Some(300), None, Some(LIMIT - 1), None, Some(7)];
    let chosen = [Some(-500), Some(8), None, None, Some(7)];
    for left in [left.encode_rows().unwrap(), left] {
        check_paired(left.coalesce(&right), Ok(first.to_vec()), kind);
        check_paired(left.lesser(&right), Ok(lesser.to_vec()), kind);
        check_paired(left.greater(&right), Ok(greater.to_vec()), kind);
        check_paired(mask.choose(&left, &right), Ok(chosen.to_vec()), kind);
    }
    let refused = right.lesser(&Column::new(&[5i64]).unwrap()).unwrap_err();
    assert_eq!(refused.kind(), Some(ErrorKind::TypeMismatch));
    assert_eq!(
        refused.to_string(),
        "decimal(38, 2) and i64 are not picked from"
    );
}

#[test]
fn columns_that_do_not_go_together_are_refused() {
    let (cents, far) = (column_of(&[Some(5)], 4, 2), column_of(&[Some(5)], 4, 126));
    let refused = cents.checked_mul(&far).unwrap_err();
    assert_eq!(refused.kind(), Some(ErrorKind::TypeMismatch));
    assert_eq!(
        refused.to_string(),
        "decimal(4, 2) and decimal(4, 126) are not multiplied"
    );
    let refused = cents
        .checked_mul(&Column::new(&[4i64]).unwrap())
        .unwrap_err();
    assert_eq!(
        refused.to_string(),
        "decimal(4, 2) and i64 are not multiplied"
    );
    assert_eq!(refused.kind(), Some(ErrorKind::Unsupported));
}
