//! Rows and values as Rust writes them. Answers were worked out by hand.
use hivevigil::{Column, Error, ErrorKind, Kind, Operator, Value};

fn rows(column: &Column) -> Result<Vec<Value>, Error> {
    column.rows().collect()
}

#[test]
fn columns_of_arrays_and_vectors() -> Result<(), Error> {
    assert_eq!(Column::try_from(&[1u8, 2])?.kind(), Kind::U8);
    assert_eq!(
        rows(&Column::try_from(&vec![Some(-1i16), None])?)?,
        [Value::Signed(-1), Value::Null]
    );
    assert_eq!(
        rows(&Column::try_from(&[None, Some(true)])?)?,
        [Value::Null, Value::Truth(true)]
    );
    let names = vec!["Oslo".to_string(), String::new()];
    assert_eq!(
        rows(&Column::try_from(&names)?)?,
        [Value::from("Oslo"), Value::from("")]
    );
    let names = [None, Some("Oslo".to_string())];
    assert_eq!(
        rows(&Column::try_from(&names)?)?,
        [Value::Null, Value::from("Oslo")]
    );
    let bytes: [&[u8]; 2] = [b"a", b""];
    let bytes = Column::try_from(&bytes)?;
    assert_eq!(bytes.kind(), Kind::BINARY);
    assert_eq!(
        rows(&bytes)?,
        [Value::Bytes(vec![97]), Value::Bytes(vec![])]
    );
    let bytes = Column::try_from(&[Some(vec![0u8, 255]), None])?;
    assert_eq!(bytes.kind(), Kind::BINARY.nullable());
    assert_eq!(rows(&bytes)?, [Value::Bytes(vec![0, 255]), Value::Null]);
    assert_eq!(Column::try_from(&Vec::<Option<bool>>::new())?.len(), 0);
    Ok(())
}

#[test]
fn numbers_go_beside_columns_of_either_sign() -> Result<(), Error> {
    let (signed, unsigned) = (
        Column::try_from(&[-1i32, 4])?,
        Column::try_from(&[1u16, 4])?,
    );
    for column in [&signed, &unsigned] {
        let above = [Value::Truth(false), Value::Truth(true)];
        assert_eq!(rows(&column.compare_value(Operator::Greater, 3)?)?, above);
        assert_eq!(
            rows(&column.compare_value(Operator::Greater, 3u64)?)?,
            above
        );
    }
    let null = signed.compare_value(Operator::Equal, None::<i32>)?;
    assert_eq!(rows(&null)?, [Value::Null, Value::Null]);
    let filled = Column::try_from(&[Some(7u8), None])?.fill(9)?;
    assert_eq!((filled.kind(), filled.get::<u8>(1)?), (Kind::U8, Some(9)));
    let refused = filled.fill(Value::Null).unwrap_err();
    assert_eq!(refused.kind(), Some(ErrorKind::NullFill));
    let texts = Column::try_from(&[Some("a"), None])?.fill("none")?;
    assert_eq!(texts.get::<String>(1)?, Some("none".to_string()));
    Ok(())
}

#[test]
fn rows_of_a_type() -> Result<(), Error> {
    let column = Column::try_from(&[Some(300i64), None, Some(-1)])?;
    assert_eq!(
        (
            column.get::<i64>(0)?,
            column.get::<u16>(0)?,
            column.get::<i64>(1)?
        ),
        (Some(300), Some(300), None)
    );
    for (refused, kind) in [
        (column.get::<u8>(0).err(), ErrorKind::CastOutOfRange),
        (column.get::<u64>(2).err(), ErrorKind::CastOutOfRange),
        (column.get::<bool>(0).err(), ErrorKind::TypeMismatch),
        (column.get::<String>(0).err(), ErrorKind::TypeMismatch),
    ] {
        assert_eq!(refused.and_then(|error| error.kind()), Some(kind));
    }
    assert_eq!(
        column.get::<i64>(3).err().and_then(|error| error.kind()),
        Some(ErrorKind::OutOfBounds)
    );
    assert_eq!(Column::try_from(&[true])?.get::<bool>(0)?, Some(true));
    assert_eq!(
        Column::try_from(&[vec![1u8]])?.get::<Vec<u8>>(0)?,
        Some(vec![1])
    );
    assert_eq!(u64::try_from(Value::Signed(5)), Ok(5));
    assert_eq!(Value::from(None::<bool>), Value::Null);
    Ok(())
}

#[test]
fn columns_show_their_first_runs() -> Result<(), Error> {
    let runs = Column::try_from(&[4i8, 4, 7])?.encode()?;
    assert_eq!(
        format!("{runs:#?}"),
        "3 rows of i8 as Runs\n    0..2: 4\n    2..3: 7"
    );
    let rows: Vec<u8> = (0..10).collect();
    let shown = format!("{:#?}", Column::try_from(&rows)?);
    assert!(shown.starts_with("10 rows of u8 as Flat\n    0: 0\n    1: 1\n"));
    assert!(shown.ends_with("\n    7: 7\n    and 2 more"));
    assert_eq!(
        format!("{:#?}", Column::try_from(&[0u8; 0])?),
        "0 rows of u8 as Flat"
    );
    Ok(())
}
