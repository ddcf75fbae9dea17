//! Encodings of every type, and builders, with answers that were worked out by hand.
use hivevigil::{Builder, Column, Error, ErrorKind, Form, Kind, Value};

/// Where the runs of an encoding end, and what each shows.
fn runs(column: &Column) -> Result<Vec<(usize, Value)>, Error> {
    assert_eq!(column.form(), Form::Runs);
    column
        .runs()?
        .map(|run| run.map(|run| (run.rows.end, run.value)))
        .collect()
}

fn text(item: &str) -> Value {
    Value::Text(item.to_string())
}

#[test]
fn batches_join_across_their_seams() -> Result<(), Error> {
    let mut builder = Builder::new(Kind::I64.nullable())?;
    builder.append(&Column::try_from(&[Some(7i64), Some(7), None, Some(3)])?)?;
    builder.append(
        &Column::try_from(&[Some(9i64), Some(3), Some(4)])?
            .encode()?
            .slice(1..3)?,
    )?;
    builder.append_value(4, 3)?;
    builder.append_value(Value::Null, 0)?;
    builder.append(&Column::constant(Kind::I64.nullable(), Value::Null, 2)?)?;
    assert_eq!(
        (builder.len(), builder.runs(), builder.is_empty()),
        (11, 5, false)
    );
    let due = vec![
        (2, Value::Signed(7)),
        (3, Value::Null),
        (5, Value::Signed(3)),
        (9, Value::Signed(4)),
        (11, Value::Null),
    ];
    assert_eq!(runs(&builder.encoding()?)?, due);
    assert_eq!(format!("{builder:?}"), "Builder { rows: 11, runs: 5 }");
    Ok(())
}

#[test]
fn a_finished_builder_begins_anew() -> Result<(), Error> {
    let mut builder = Builder::new(Kind::I64.nullable())?;
    builder.append(&Column::try_from(&[Some(7i64), Some(7), None])?)?;
    let due = vec![(2, Value::Signed(7)), (3, Value::Null)];
    let encoding = builder.encoding()?;
    let first = builder.finish()?;
    assert_eq!((builder.len(), builder.runs()), (0, 0));
    assert_eq!(first.to_bytes()?, encoding.to_bytes()?);
    builder.append_value(Value::Null, 2)?;
    builder.append_value(4, 1)?;
    let second = vec![(2, Value::Null), (3, Value::Signed(4))];
    assert_eq!(runs(&builder.finish()?)?, second);
    assert_eq!(runs(&first)?, due);
    assert!(builder.finish()?.is_empty() && builder.kind() == Kind::I64.nullable());
    Ok(())
}

#[test]
fn texts_and_truths_are_built() -> Result<(), Error> {
    let mut builder = Builder::new(Kind::UTF8)?;
    builder.append_value("oak", 2)?;
    builder.append(&Column::texts(&["oak", "elm"], None)?)?;
    assert_eq!(
        runs(&builder.encoding()?)?,
        vec![(3, text("oak")), (4, text("elm"))]
    );
    let truths = Column::truths(&[true, true, false], None)?.encode_rows()?;
    assert_eq!(
        runs(&truths)?,
        vec![(2, Value::Truth(true)), (3, Value::Truth(false))]
    );
    Ok(())
}

#[test]
fn refused_batches_change_nothing() -> Result<(), Error> {
    let mut builder = Builder::new(Kind::I32)?;
    builder.append_value(1, 2)?;
    let wide = builder.append(&Column::new(&[1i64])?).unwrap_err();
    assert_eq!(wide.kind(), Some(ErrorKind::TypeMismatch));
    let null = builder.append_value(Value::Null, 1).unwrap_err();
    assert_eq!(null.kind(), Some(ErrorKind::NullNotAllowed));
    let many = builder.append_value(1, usize::MAX).unwrap_err();
    assert_eq!(many.kind(), Some(ErrorKind::WindowOverflow));
    assert_eq!(
        many.to_string(),
        "offset and length, or all rows together, are 2^64 or more"
    );
    assert_eq!((builder.len(), builder.runs()), (2, 1));
    Ok(())
}
