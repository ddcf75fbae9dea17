//! Casts to decimals and from decimals, in every form, against integers of 128 bits that are cast row by row.
use hivevigil::{Column, Decimal, ErrorKind, Kind, Value};

const GREATEST: i128 = 10i128.pow(38) - 1;

/// Returns a number of one scale at another, `None` where that has none, or one of more than 38 digits.
fn at_scale(mut number: i128, from: i8, to: i8) -> Option<i128> {
    for _place in from..to {
        number = number.checked_mul(10)?;
    }
    for _place in to..from {
        if number % 10 != 0 {
            return None;
        }
        number /= 10;
    }
    (number.abs() <= GREATEST).then_some(number)
}

/// Returns a column of decimals flat and in runs.
fn forms(rows: &[Option<i128>], scale: i8) -> [Column; 2] {
    let valid: Vec<bool> = rows.iter().map(Option::is_some).collect();
    let digits: Vec<i128> = rows.iter().map(|row| row.unwrap_or(0)).collect();
    let flat = Column::decimals(&digits, 38, scale, Some(&valid)).unwrap();
    [flat.encode_rows().unwrap(), flat]
}

/// Checks a cast to a type that has these numbers, without their scale.
fn check(rows: &[Option<i128>], scale: i8, to: Kind, least: i128, greatest: i128) {
    let due: Vec<Option<i128>> = rows
        .iter()
        .map(|row| row.and_then(|number| at_scale(number, scale, to.scale)))
        .collect();
    let fits = |number: i128| least <= number && number <= greatest;
    let wrong = (0..rows.len()).find(|&row| rows[row].is_some() && !due[row].map_or(false, fits));
    for column in forms(rows, scale) {
        let Some(row) = wrong else {
            let made = column.cast(to.nullable()).unwrap();
            assert_eq!(made.kind(), to.nullable());
            for (row, number) in due.iter().enumerate() {
                let wanted = match number {
                    Some(number) => Value::from(Decimal::new(*number, to.scale)),
                    None => Value::Null,
                };
                assert_eq!(made.at(row).unwrap().to_string(), wanted.to_string());
            }
            continue;
        };
        let refused = column.cast(to.nullable()).unwrap_err();
        assert_eq!(refused.kind(), Some(ErrorKind::CastOutOfRange));
        let value = Decimal::new(rows[row].unwrap(), scale);
        let sentence = format!("row {row} is {value}, which does not fit {to}");
        assert_eq!(refused.to_string(), sentence);
    }
}

#[test]
fn decimals_have_other_scales() {
    let rows = [Some(1050), Some(1050), None, Some(-30), Some(0)];
    for scale in -3..6 {
        check(&rows, 2, Kind::decimal(38, scale), -GREATEST, GREATEST);
        check(&rows, 2, Kind::decimal(4, scale), -9999, 9999);
    }
    check(&[], 2, Kind::decimal(4, 1), -9999, 9999);
    check(
        &[Some(GREATEST), None],
        0,
        Kind::decimal(38, 1),
        -GREATEST,
        GREATEST,
    );
    check(
        &[Some(-GREATEST - 1)],
        2,
        Kind::decimal(38, 1),
        -GREATEST,
        GREATEST,
    );
}

#[test]
fn decimals_are_integers() {
    let rows = [Some(700), Some(700), None, Some(-12800), Some(12700)];
    check(&rows, 2, Kind::I8, -128, 127);
    check(&rows, 2, Kind::U8, 0, 255);
    check(
        &[Some(100), None, Some(150)],
        2,
        Kind::I64,
        i64::MIN.into(),
        i64::MAX.into(),
    );
    let greatest = i128::from(u64::MAX);
    check(&[Some(greatest)], 0, Kind::U64, 0, greatest);
    check(&[Some(1), Some(greatest + 1)], 0, Kind::U64, 0, greatest);
    check(&[Some(1), Some(2)], -2, Kind::U8, 0, 255);
    check(&[Some(1), Some(3)], -2, Kind::U8, 0, 255);
}

#[test]
fn integers_are_decimals() {
    let counts = Column::new(&[7i32, 7, -3]).unwrap();
    for column in [counts.encode_rows().unwrap(), counts] {
        let prices = column.cast(Kind::decimal(10, 2)).unwrap();
        assert_eq!(prices.kind(), Kind::decimal(10, 2));
        let shown: Vec<String> = (0..3)
            .map(|row| prices.at(row).unwrap().to_string())
            .collect();
        assert_eq!(shown, ["7.00", "7.00", "-3.00"]);
        let refused = column.cast(Kind::decimal(2, 2)).unwrap_err();
        assert_eq!(
            refused.to_string(),
            "row 0 is 7, which does not fit decimal(2, 2)"
        );
    }
}

#[test]
fn null_needs_a_type_that_has_it() {
    let [runs, flat] = forms(&[Some(100), None], 2);
    for column in [runs, flat] {
        let refused = column.cast(Kind::I64).unwrap_err();
        assert_eq!(refused.kind(), Some(ErrorKind::NullNotAllowed));
    }
    let texts = Column::texts(&["7"], None).unwrap();
    let refused = texts.cast(Kind::decimal(4, 2)).unwrap_err();
    assert_eq!(refused.kind(), Some(ErrorKind::Unsupported));
}
