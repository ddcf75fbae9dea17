//! Numbers of every type next to columns: what fits, what is shown, how any number is compared, and what refusals say.
//! Answers were worked out by hand; those of comparisons also row by row.
use hivevigil::{Builder, Column, Decimal, Error, ErrorKind, Kind, Operator, Value};
use std::ops::Bound;

fn rows(column: &Column) -> Result<Vec<Value>, Error> {
    column.rows().collect()
}

fn decimal(digits: i128, scale: i8) -> Value {
    Value::Decimal(Decimal::new(digits, scale))
}

/// The call is refused as this kind, in this sentence.
fn check_refused<T>(call: Result<T, Error>, kind: ErrorKind, sentence: &str) {
    let refused = call.err().expect("refused");
    assert_eq!(
        (refused.kind(), refused.to_string()),
        (Some(kind), sentence.to_string())
    );
}

#[test]
fn columns_of_owned_rows() -> Result<(), Error> {
    assert_eq!(Column::try_from(vec![4i64, 7])?.numbers::<i64>()?, [4, 7]);
    assert_eq!(
        rows(&Column::try_from([Some(true), None])?)?,
        [Value::Truth(true), Value::Null]
    );
    assert_eq!(
        Column::try_from(vec!["a".to_string()])?
            .get::<String>(0)?
            .as_deref(),
        Some("a")
    );
    let places = Column::try_from(vec![usize::MAX, 7])?;
    assert_eq!(
        (places.kind(), places.numbers::<usize>()?),
        (Kind::U64, vec![usize::MAX, 7])
    );
    assert_eq!(
        (places.get::<usize>(1)?, places.get::<u8>(1)?),
        (Some(7), Some(7))
    );
    assert_eq!(
        places
            .compare_value(Operator::Less, 8usize)?
            .get::<bool>(1)?,
        Some(true)
    );
    let steps = Column::try_from([Some(isize::MIN), None])?;
    assert_eq!(
        (steps.kind(), steps.options::<isize>()?),
        (Kind::I64.nullable(), vec![Some(isize::MIN), None])
    );
    assert_eq!(steps.fill(7isize)?.get::<isize>(1)?, Some(7));
    assert_eq!(
        Column::new(&[1i8, 0])?
            .take_from(&places)?
            .numbers::<usize>()?,
        [7, usize::MAX]
    );
    Ok(())
}

#[test]
fn ranges_of_every_kind() -> Result<(), Error> {
    let column = Column::try_from([4i64, 5, 6, 7])?;
    let of = |part: Result<Column, Error>| part.and_then(|part| part.numbers::<i64>());
    assert_eq!(of(column.slice(1..3)), Ok(vec![5, 6]));
    assert_eq!(of(column.slice(1..=3)), Ok(vec![5, 6, 7]));
    assert_eq!(of(column.slice(2..)), Ok(vec![6, 7]));
    assert_eq!(of(column.slice(..1)), Ok(vec![4]));
    assert_eq!(of(column.slice(..=1)), Ok(vec![4, 5]));
    assert_eq!(of(column.slice(..)), Ok(vec![4, 5, 6, 7]));
    assert_eq!(
        of(column.slice((Bound::Excluded(0), Bound::Included(2)))),
        Ok(vec![5, 6])
    );
    check_refused(
        column.slice(1..=4),
        ErrorKind::BadRange,
        "rows 1 to 5 are not among 4 rows",
    );
    let past = "rows 0 to 18446744073709551615 are not among 4 rows";
    check_refused(column.slice(..=usize::MAX), ErrorKind::BadRange, past);
    let past = "rows 18446744073709551615 to 4 are not among 4 rows";
    let range = (Bound::Excluded(usize::MAX), Bound::Unbounded);
    check_refused(column.slice(range), ErrorKind::BadRange, past);
    // also where the range would be that of all rows, were its last row not one too many
    let long = Column::constant(Kind::U8, 7, usize::MAX)?;
    assert_eq!(long.slice(..)?.len(), usize::MAX);
    assert!(long.slice(..=usize::MAX).is_err());
    Ok(())
}

#[test]
fn decimals_are_shown_with_their_scale() -> Result<(), Error> {
    let prices = Column::decimals(&[1050, 50, -300], 10, 2, None)?;
    let shown: Vec<String> = rows(&prices)?.iter().map(Value::to_string).collect();
    assert_eq!(shown, ["10.50", "0.50", "-3.00"]);
    assert_eq!(
        format!("{:>7}|{:+}", prices.at(0)?, prices.at(1)?),
        "  10.50|+0.50"
    );
    assert_eq!(format!("{:?}", prices.at(0)?), "Decimal(10.50)");
    assert_eq!(prices.get::<Decimal>(2)?, Some(Decimal::new(-3, 0)));
    assert_eq!(
        format!("{:#?}", prices.slice(..1)?),
        "1 rows of decimal(10, 2) as Flat\n    0: 10.50"
    );
    assert_eq!(prices.encode_rows()?.run(1)?.value.to_string(), "0.50");
    assert_eq!(
        prices.least_and_greatest()?,
        (decimal(-3, 0), decimal(105, 1))
    );
    for (digits, scale, due) in [
        (12, -2, "1200"),
        (0, -2, "0"),
        (0, 2, "0.00"),
        (-1, 4, "-0.0001"),
        (1050, 6, "0.001050"),
        (i128::MIN, 38, "-1.70141183460469231731687303715884105728"),
        (i128::MAX, 0, "170141183460469231731687303715884105727"),
    ] {
        let column = Column::decimals(&[digits], 38, scale, None)?;
        assert_eq!(column.at(0)?.to_string(), due);
    }
    assert_eq!(Decimal::new(1050, 2), Decimal::new(105, 1));
    assert_ne!(Decimal::new(1050, 2), Decimal::new(1050, 1));
    assert_eq!(Decimal::new(0, 100), Decimal::new(0, -100));
    assert_ne!(Decimal::new(1, 100), Decimal::new(1, -100));
    Ok(())
}

#[test]
fn numbers_go_into_decimals() -> Result<(), Error> {
    let some = Column::decimals(&[1050, 0], 10, 2, Some(&[true, false]))?;
    assert_eq!(some.fill(7)?.at(1)?.to_string(), "7.00");
    assert_eq!(some.fill(Decimal::new(75, 1))?.at(1)?.to_string(), "7.50");
    let sentence = "10.505 does not fit decimal(10, 2)";
    check_refused(
        some.fill(Decimal::new(10505, 3)),
        ErrorKind::CastOutOfRange,
        sentence,
    );
    let narrow = Kind::decimal(4, 2);
    for (digits, fits) in [(9999, true), (-9999, true), (10000, false), (-10000, false)] {
        let column = Column::constant(narrow, Decimal::new(digits, 2), 1);
        assert_eq!(column.is_ok(), fits);
    }
    let sentence = "100.00 does not fit decimal(4, 2)";
    check_refused(
        Column::constant(narrow, Decimal::new(10000, 2), 1),
        ErrorKind::CastOutOfRange,
        sentence,
    );
    let sentence = "100 does not fit decimal(4, 2)";
    check_refused(
        Column::constant(narrow, 100, 1),
        ErrorKind::CastOutOfRange,
        sentence,
    );
    let widest = Column::constant(Kind::decimal(39, 0), Decimal::new(i128::MIN, 0), 1)?;
    assert_eq!(widest.at(0)?, decimal(i128::MIN, 0));
    let mut builder = Builder::new(Kind::decimal(10, 2))?;
    builder.append_value(Decimal::new(105, 1), 2)?;
    builder.append_value(7u8, 1)?;
    assert_eq!(
        (builder.runs(), builder.finish()?.at(2)?.to_string()),
        (2, "7.00".to_string())
    );
    assert_eq!(
        Column::constant(Kind::I8, Decimal::new(70, 1), 2)?.at(1)?,
        Value::Signed(7)
    );
    Ok(())
}

const OPERATORS: [Operator; 6] = [
    Operator::Equal,
    Operator::NotEqual,
    Operator::Greater,
    Operator::GreaterOrEqual,
    Operator::Less,
    Operator::LessOrEqual,
];

fn holds(row: i128, operator: Operator, tenths: i128) -> bool {
    let order = (row * 10).cmp(&tenths);
    match operator {
        Operator::Equal => order.is_eq(),
        Operator::NotEqual => order.is_ne(),
        Operator::Greater => order.is_gt(),
        Operator::GreaterOrEqual => order.is_ge(),
        Operator::Less => order.is_lt(),
        Operator::LessOrEqual => order.is_le(),
    }
}

/// Returns each operator with numbers in and past the type, in steps of a half; the last row is null, and stays so.
fn check_all(column: &Column, items: &[i128]) -> Result<(), Error> {
    for operator in OPERATORS {
        for tenths in (-3000..=3000).step_by(5) {
            let answers = rows(&column.compare_value(operator, Decimal::new(tenths, 1))?)?;
            let due = items
                .iter()
                .map(|row| Value::Truth(holds(*row, operator, tenths)));
            let due: Vec<Value> = due.chain([Value::Null]).collect();
            assert_eq!(answers, due, "{operator:?} {tenths}");
            if tenths % 10 == 0 {
                let whole = i64::try_from(tenths / 10).unwrap();
                assert_eq!(rows(&column.compare_value(operator, whole)?)?, due);
            }
        }
    }
    Ok(())
}

#[test]
fn any_number_is_compared() -> Result<(), Error> {
    let bytes = Column::try_from([Some(-128i8), Some(-1), Some(0), Some(7), Some(127), None])?;
    check_all(&bytes, &[-128, -1, 0, 7, 127])?;
    check_all(&bytes.encode()?, &[-128, -1, 0, 7, 127])?;
    check_all(
        &Column::try_from([Some(0u8), Some(7), Some(255), None])?,
        &[0, 7, 255],
    )?;
    let valid = [true, true, true, false];
    check_all(
        &Column::decimals(&[-500, 0, 1200, 0], 10, 2, Some(&valid))?,
        &[-5, 0, 12],
    )
}

#[test]
fn numbers_past_all_types_are_compared() -> Result<(), Error> {
    let truths = |column: Column| {
        column
            .rows()
            .map(|row| bool::try_from(row?))
            .collect::<Result<Vec<_>, _>>()
    };
    let wide = Column::try_from([0, u64::MAX])?;
    assert_eq!(
        truths(wide.compare_value(Operator::Greater, -1)?)?,
        [true, true]
    );
    assert_eq!(
        truths(wide.compare_value(Operator::Equal, -1)?)?,
        [false, false]
    );
    let low = Column::try_from([i64::MIN, i64::MAX])?;
    assert_eq!(
        truths(low.compare_value(Operator::Less, u64::MAX)?)?,
        [true, true]
    );
    let cents = Column::decimals(&[50, 51, i128::MAX], 38, 2, None)?;
    let between = Decimal::new(505, 3);
    assert_eq!(
        truths(cents.compare_value(Operator::Greater, between)?)?,
        [false, true, true]
    );
    assert_eq!(
        truths(cents.compare_value(Operator::LessOrEqual, between)?)?,
        [true, false, false]
    );
    assert_eq!(
        truths(cents.compare_value(Operator::Equal, between)?)?,
        [false; 3]
    );
    assert_eq!(
        truths(cents.compare_value(Operator::Less, Decimal::new(1, -100))?)?,
        [true; 3]
    );
    assert_eq!(
        truths(cents.compare_value(Operator::Less, Decimal::new(-1, -100))?)?,
        [false; 3]
    );
    Ok(())
}

#[test]
fn sums_past_64_bits_are_refused() -> Result<(), Error> {
    let words = "integer overflow: with row 2 the sum leaves the range of i64";
    let top = Column::try_from([Some(i64::MAX - 1), None, Some(2), Some(-5)])?;
    check_refused(top.sum(), ErrorKind::CastOutOfRange, words);
    check_refused(top.encode()?.sum(), ErrorKind::CastOutOfRange, words);
    let words = "integer overflow: with row 1 the sum leaves the range of u64";
    check_refused(
        Column::try_from([u64::MAX, 1])?.sum(),
        ErrorKind::CastOutOfRange,
        words,
    );
    let row = 1 << 55;
    let refused = Column::constant(Kind::I16, -256, row + 1)?
        .sum()
        .unwrap_err();
    assert_eq!(refused.fields.first, row as u64);
    assert_eq!(
        Column::constant(Kind::I16, -256, row)?.sum()?.total,
        Value::Signed(i64::MIN)
    );
    let most = Column::constant(Kind::U64, u64::MAX, usize::MAX)?
        .sum()
        .unwrap_err();
    assert_eq!(most.fields.first, 1);
    assert_eq!(
        Column::try_from([u64::MAX - 1, 1])?.sum()?.total,
        Value::Unsigned(u64::MAX)
    );
    check_refused(
        Column::try_from(["a"])?.sum(),
        ErrorKind::Unsupported,
        "utf8 has no sum",
    );
    Ok(())
}

#[test]
fn refusals_name_rows_and_values() -> Result<(), Error> {
    use ErrorKind::{CastOutOfRange, NullNotAllowed, TypeMismatch, Unsupported};
    let column = Column::try_from([Some(7i64), Some(300), None])?;
    let texts = Column::try_from(["a", "b"])?;
    check_refused(
        column.get::<i8>(1),
        CastOutOfRange,
        "row 1 is 300, which does not fit i8",
    );
    check_refused(
        column.get::<String>(1),
        TypeMismatch,
        "row 1 is an integer, not a text",
    );
    check_refused(
        texts.get::<i32>(0),
        TypeMismatch,
        "row 0 is a text, not an integer",
    );
    check_refused(
        u8::try_from(Value::Signed(-1)),
        CastOutOfRange,
        "-1 does not fit u8",
    );
    check_refused(
        column.numbers::<i32>(),
        TypeMismatch,
        "i64 rows are not read as i32",
    );
    check_refused(
        texts.numbers::<i32>(),
        Unsupported,
        "utf8 rows are not read as i32",
    );
    let narrow = column.cast(Kind::U8.nullable());
    check_refused(
        narrow,
        CastOutOfRange,
        "row 1 is 300, which does not fit u8",
    );
    check_refused(
        column.encode()?.cast(Kind::U8),
        CastOutOfRange,
        "row 1 is 300, which does not fit u8",
    );
    check_refused(
        column.cast(Kind::I16),
        NullNotAllowed,
        "row 2 is null, which does not fit i16",
    );
    assert_eq!(column.slice(..2)?.cast(Kind::I16)?.kind(), Kind::I16);
    check_refused(
        column.cast(Kind::UTF8),
        Unsupported,
        "i64? is not cast to utf8",
    );
    Ok(())
}

#[test]
fn refusals_name_values_and_types() -> Result<(), Error> {
    use ErrorKind::{CastOutOfRange, NullNotAllowed, OutOfBounds, TypeMismatch};
    let (column, texts) = (
        Column::try_from([Some(7i8), None])?,
        Column::try_from(["a", "b"])?,
    );
    check_refused(column.fill(300), CastOutOfRange, "300 does not fit i8");
    check_refused(
        Column::constant(Kind::U8, -1, 2),
        CastOutOfRange,
        "-1 does not fit u8",
    );
    check_refused(
        column.fill(Decimal::new(5, 1)),
        CastOutOfRange,
        "0.5 does not fit i8",
    );
    check_refused(column.fill("seven"), TypeMismatch, "a text does not fit i8");
    check_refused(texts.fill(7), TypeMismatch, "an integer does not fit utf8");
    check_refused(
        Column::constant(Kind::I64, Value::Null, 2),
        NullNotAllowed,
        "null does not fit i64",
    );
    let less = Operator::Less;
    check_refused(
        column.compare_value(less, "seven"),
        TypeMismatch,
        "i8? is not compared with a text",
    );
    check_refused(
        texts.compare_value(less, 7),
        TypeMismatch,
        "utf8 is not compared with an integer",
    );
    check_refused(
        column.compare(less, &texts),
        TypeMismatch,
        "i8? is not compared with utf8",
    );
    check_refused(
        column.filter(&column),
        TypeMismatch,
        "a mask is of type bool, not i8?",
    );
    check_refused(
        column.take(&texts),
        TypeMismatch,
        "indices are integers, not utf8",
    );
    check_refused(
        texts.take_from(&column),
        TypeMismatch,
        "codes are integers, not utf8",
    );
    let negative = "an index that is negative, or past 64 bits, is not among 2 rows";
    check_refused(
        texts.take(&Column::try_from([-1i8])?),
        OutOfBounds,
        negative,
    );
    let mut builder = Builder::new(Kind::I8)?;
    check_refused(
        builder.append(&column),
        TypeMismatch,
        "i8? does not go into a builder of i8",
    );
    check_refused(
        builder.append_value(Value::Null, 1),
        NullNotAllowed,
        "null does not fit i8",
    );
    check_refused(
        builder.append_value(300, 2),
        CastOutOfRange,
        "300 does not fit i8",
    );
    assert!(builder.is_empty());
    let mut builder = Builder::new(Kind::I8.nullable())?;
    check_refused(
        builder.append_value(300, 2),
        CastOutOfRange,
        "300 does not fit i8",
    );
    Ok(())
}
