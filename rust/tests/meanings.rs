//! What rows mean by the logical type of their column: looked up, added, and the least and the greatest of them, in
//! every form, against Rust's own floats; and numbers of all types compared.
use hivevigil::{
    Column, Decimal, Error, ErrorKind, Floats, Form, Kind, Operator, Table, TableError, Value,
};
use std::cmp::Ordering;

fn floats() -> Vec<Option<f64>> {
    let payload = f64::from_bits(0xfff0_0000_0000_beef);
    let numbers = [0.5, -0.0, 0.0, f64::NAN, payload, f64::MAX, -1e100, 1e100];
    let mut rows: Vec<Option<f64>> = numbers.iter().flat_map(|row| [Some(*row); 2]).collect();
    rows.insert(5, None);
    rows
}

fn value_of(row: Option<f64>) -> Value {
    row.map_or(Value::Null, Value::Float)
}

fn forms(column: &Column) -> Result<[Column; 3], Error> {
    let runs = column.encode()?;
    let nested = runs.slice(1..)?.encode_rows()?;
    assert_eq!((runs.form(), nested.form()), (Form::Runs, Form::Runs));
    Ok([column.decode()?, runs, nested])
}

#[test]
fn rows_of_floats_are_floats() -> Result<(), Error> {
    let rows = floats();
    let [flat, runs, later] = forms(Floats::of_options(&rows)?.keys())?;
    for (column, rows) in [(&flat, &rows[..]), (&runs, &rows[..]), (&later, &rows[1..])] {
        for (row, due) in rows.iter().enumerate() {
            assert_eq!(column.at(row)?, value_of(*due));
            let bits = column.get::<f64>(row)?.map(f64::to_bits);
            assert_eq!(bits, due.map(f64::to_bits));
        }
        for run in column.runs()? {
            let run = run?;
            for row in run.rows {
                assert_eq!(run.value, value_of(rows[row]));
            }
        }
    }
    for run in 0..runs.ends()?.len() {
        let found = runs.run(run)?;
        assert_eq!(found.value, value_of(rows[found.rows.start]));
    }
    assert_eq!(
        flat.to_string(),
        "0.5, 0.5, -0.0, -0.0, 0.0, null, 0.0, NaN and 9 more"
    );
    Ok(())
}

#[test]
fn singles_keep_their_nans() -> Result<(), Error> {
    let patterns = [
        0x7fc0_0000u32,
        0xffc0_0000,
        0x7f80_0001,
        0xffff_ffff,
        0x3dcc_cccd,
        1,
        0x8000_0000,
    ];
    let floats = Floats::of(&patterns.map(f32::from_bits))?;
    for (row, bits) in patterns.iter().enumerate() {
        assert_eq!(floats.at(row)?.map(f32::to_bits), Some(*bits));
    }
    assert_eq!(floats.keys().at(4)?, Value::Float(f64::from(0.1f32)));
    let half = Column::new(&[0x3c00i16, 0x7c00])?.with_logical_type("e")?; // the keys of 1.0 and of infinity
    assert_eq!(
        (half.at(0)?, half.greatest()?),
        (Value::Float(1.0), Value::Float(f64::INFINITY))
    );
    Ok(())
}

#[test]
fn sums_are_of_what_rows_mean() -> Result<(), Error> {
    let kept = [0.1, 0.2, 0.3, 1e100, -1e100];
    let sum = Floats::of(&kept)?.keys().sum()?;
    assert_eq!((sum.total, sum.empty), (Value::Float(0.6), false)); // the nearest to the exact sum
    let none = Floats::of_options(&[None::<f64>])?.keys().sum()?;
    assert_eq!((none.total, none.empty), (Value::Float(0.0), true));
    let times = Column::new(&[4i64, 7])?;
    for format in ["tdm", "ttu", "tsu:UTC"] {
        let refused = times.with_logical_type(format)?.sum().unwrap_err();
        assert_eq!(refused.kind(), Some(ErrorKind::Unsupported));
        let words = "dates, times of day and timestamps have no sum, and durations have one";
        assert_eq!(refused.to_string(), words);
    }
    for format in ["tDs", "tiM", "a format of nobody"] {
        assert_eq!(
            times.with_logical_type(format)?.sum()?.total,
            Value::Signed(11)
        );
    }
    Ok(())
}

#[test]
fn the_row_with_which_a_sum_leaves_64_bits_is_the_first() -> Result<(), Error> {
    let mut seed = 7u64;
    let mut next = || {
        seed = seed
            .wrapping_mul(6364136223846793005)
            .wrapping_add(1442695040888963407);
        seed >> 33
    };
    for _ in 0..200 {
        let rows = (0..2 + next() % 30)
            .map(|_| (next() % 4 > 0).then(|| (next() as i64 - (1 << 30)) << (next() % 33)));
        let rows: Vec<Option<i64>> = rows.collect();
        let mut sum = 0i128;
        let past = rows.iter().position(|row| {
            sum += i128::from(row.unwrap_or(0));
            i64::try_from(sum).is_err()
        });
        let column = Column::try_from(&rows)?;
        for column in [column.encode()?, column] {
            match (past, column.sum()) {
                (None, found) => assert_eq!(i128::from(i64::try_from(found?.total)?), sum),
                (Some(row), found) => assert_eq!(found.unwrap_err().fields.first, row as u64),
            }
        }
    }
    Ok(())
}

#[test]
fn extremes_of_floats_are_numbers() -> Result<(), Error> {
    for column in forms(Floats::of_options(&floats())?.keys())? {
        let (least, greatest) = (Value::Float(-1e100), Value::Float(f64::MAX));
        assert_eq!(
            column.least_and_greatest()?,
            (least.clone(), greatest.clone())
        );
        assert_eq!((column.least()?, column.greatest()?), (least, greatest));
    }
    let zeros = Floats::of(&[0.0, -0.0])?;
    assert_eq!(
        zeros.keys().least_and_greatest()?,
        (Value::Float(-0.0), Value::Float(0.0))
    );
    let nan = Floats::of(&[f64::NAN])?;
    assert_eq!(nan.keys().least_and_greatest()?, (Value::Null, Value::Null));
    Ok(())
}

#[test]
fn rows_of_tables_are_what_they_mean() -> Result<(), TableError> {
    let table = Table::try_from_iter([("level", Column::new(&[900i32, 40])?)])?;
    let table = table.with_floats("depth", &Floats::of(&[0.5f32, f32::NAN])?)?;
    assert_eq!(table.row(0)?, [Value::Signed(900), Value::Float(0.5)]);
    let again = Table::from_bytes(&table.to_bytes()?)?;
    assert_eq!(again.row(1)?, [Value::Signed(40), Value::Float(f64::NAN)]);
    Ok(())
}

#[test]
fn a_float_is_of_no_other_type() -> Result<(), Error> {
    let refused = Column::constant(Kind::I64, Value::Float(1.0), 2).err();
    assert_eq!(
        refused.and_then(|error| error.kind()),
        Some(ErrorKind::TypeMismatch)
    );
    let refused = Column::new(&[4i64])?.get::<f64>(0).unwrap_err();
    assert_eq!(refused.to_string(), "row 0 is an integer, not a float");
    Ok(())
}

const OPERATORS: [Operator; 6] = [
    Operator::Equal,
    Operator::NotEqual,
    Operator::Greater,
    Operator::GreaterOrEqual,
    Operator::Less,
    Operator::LessOrEqual,
];

/// Says of each operator whether it holds of two numbers in this order, or of a pair with a NaN.
fn holding(order: Option<Ordering>) -> [bool; 6] {
    let Some(order) = order else {
        return OPERATORS.map(|operator| operator == Operator::NotEqual);
    };
    let (less, greater) = (order.is_lt(), order.is_gt());
    [
        !less && !greater,
        less || greater,
        greater,
        !less,
        less,
        !greater,
    ]
}

#[test]
fn numbers_are_compared_exactly() -> Result<(), Error> {
    let far = 1i64 << 53;
    let cents = |digits: i128, scale: i8| Column::decimals(&[digits], 38, scale, None);
    let under = |format: &str, key: i64| Column::new(&[key])?.with_logical_type(format);
    let (less, equal, greater) = (
        Some(Ordering::Less),
        Some(Ordering::Equal),
        Some(Ordering::Greater),
    );
    let half = Floats::of(&[0.5f32])?;
    let cases: Vec<(Column, Value, Option<Ordering>)> = vec![
        (Column::new(&[far + 1])?, (far as f64).into(), greater),
        (Column::new(&[far])?, (far as f64).into(), equal),
        (
            Column::new(&[u64::MAX])?,
            18446744073709551616.0.into(),
            less,
        ),
        (Column::new(&[u64::MAX])?, (-1i8).into(), greater),
        (Column::new(&[0u8])?, (-0.0).into(), equal),
        (Column::new(&[7i8])?, f64::NAN.into(), None),
        (Column::new(&[i64::MAX])?, f64::INFINITY.into(), less),
        (Column::new(&[7i8])?, Decimal::new(7000, 3).into(), equal),
        (Column::new(&[7i8])?, Decimal::new(7001, 3).into(), less),
        (Column::new(&[7i8])?, Decimal::new(1, -38).into(), less),
        (cents(1, 1)?, 0.1.into(), less), // the double is above a tenth
        (cents(5, 1)?, 0.5.into(), equal),
        (cents(i128::MAX, -128)?, f64::MAX.into(), less),
        (cents(1, 127)?, 5e-324.into(), greater),
        (cents(250, 2)?, Decimal::new(25, 1).into(), equal),
        (cents(250, 2)?, 3u8.into(), less),
        (half.keys().try_clone()?, 0.5.into(), equal),
        (half.keys().try_clone()?, Decimal::new(5, 1).into(), equal),
        (
            half.keys().try_clone()?,
            Decimal::new(50001, 5).into(),
            less,
        ),
        (half.keys().try_clone()?, 0.into(), greater),
        (Floats::of(&[f64::NAN])?.keys().try_clone()?, 0.into(), None),
        (under("tdm", 5)?, 5.5.into(), less), // as they are stored
        (under("tsu:UTC", -1)?, u64::MAX.into(), less),
    ];
    for (column, value, order) in cases {
        let due = holding(order);
        let table = Table::try_from_iter([("x", column.try_clone()?)]).unwrap();
        for (operator, due) in OPERATORS.into_iter().zip(due) {
            for column in [column.encode_rows()?, column.decode()?] {
                let found = column.compare_value(operator, &value)?;
                assert_eq!(
                    found.at(0)?,
                    Value::Truth(due),
                    "{column} {operator:?} {value}"
                );
            }
            let kept = table.filter_by("x", operator, &value).unwrap();
            assert_eq!(kept.rows() == 1, due, "{column} {operator:?} {value}");
        }
    }
    Ok(())
}
