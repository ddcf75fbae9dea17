//! Rows and runs in turn, and columns made of slices. Answers were worked out by hand.
use hivevigil::{Column, Error, ErrorKind, Form, Kind, Run, Value};

/// 1 1 null null 2 3 3 3 null null
fn rows() -> [Option<i32>; 10] {
    [
        Some(1),
        Some(1),
        None,
        None,
        Some(2),
        Some(3),
        Some(3),
        Some(3),
        None,
        None,
    ]
}

fn runs_of(column: &Column) -> Result<Vec<(usize, usize, String)>, Error> {
    let shown = |run: Run| (run.rows.start, run.rows.end, run.value.to_string());
    column.runs()?.map(|run| run.map(shown)).collect()
}

fn run(start: usize, stop: usize, value: &str) -> (usize, usize, String) {
    (start, stop, value.to_string())
}

#[test]
fn runs_are_cut_to_the_window() -> Result<(), Error> {
    let runs = Column::try_from(&rows()[..])?.encode()?;
    let whole = [
        run(0, 2, "1"),
        run(2, 4, "null"),
        run(4, 5, "2"),
        run(5, 8, "3"),
        run(8, 10, "null"),
    ];
    assert_eq!(runs_of(&runs)?, whole);
    let part = runs.slice(3..7)?;
    assert_eq!(
        runs_of(&part)?,
        [run(0, 1, "null"), run(1, 2, "2"), run(2, 4, "3")]
    );
    assert_eq!(part.runs()?.len(), 3);
    assert_eq!(runs_of(&runs.slice(6..7)?)?, [run(0, 1, "3")]);
    assert_eq!(runs_of(&runs.slice(4..4)?)?, []);
    Ok(())
}

#[test]
fn runs_are_found_where_they_are() -> Result<(), Error> {
    let part = Column::try_from(&rows()[..])?.encode()?.slice(3..7)?;
    let found = part.run(part.run_of(2)?)?;
    assert_eq!((found.rows, found.value), (2..4, Value::Signed(3)));
    let beyond = part.run_of(4).unwrap_err();
    assert_eq!(
        (beyond.kind(), beyond.fields.first),
        (Some(ErrorKind::OutOfBounds), 4)
    );
    let flat = Column::new(&[7u8])?.run_of(0).unwrap_err();
    assert_eq!(flat.kind(), Some(ErrorKind::Unsupported));
    assert_eq!(part.options::<i32>()?, [None, Some(2), Some(3), Some(3)]);
    Ok(())
}

#[test]
fn a_constant_is_one_run() -> Result<(), Error> {
    let text = Value::Text("Oslo".to_string());
    let column = Column::constant(Kind::UTF8, &text, 1 << 60)?;
    assert_eq!((column.len(), column.form()), (1 << 60, Form::Constant));
    assert_eq!(runs_of(&column)?, [run(0, 1 << 60, "\"Oslo\"")]);
    assert_eq!(column.at(1 << 59)?, text);
    let null = Column::constant(Kind::I8, &Value::Null, 3).unwrap_err();
    assert_eq!(null.kind(), Some(ErrorKind::NullNotAllowed));
    Ok(())
}

#[test]
fn least_and_greatest_come_together() -> Result<(), Error> {
    let longer = "z".repeat(300);
    let texts = Column::texts(&["b", &longer, "a"], None)?;
    let (least, greatest) = texts.least_and_greatest()?;
    assert_eq!(
        (least, greatest),
        (Value::Text("a".to_string()), Value::Text(longer))
    );
    let none = Column::try_from(&[None::<u8>][..])?.least_and_greatest()?;
    assert_eq!(none, (Value::Null, Value::Null));
    Ok(())
}

#[test]
fn other_forms_have_runs_too() -> Result<(), Error> {
    let flat = Column::new(&[7u8, 7])?;
    assert_eq!(runs_of(&flat)?, [run(0, 1, "7"), run(1, 2, "7")]);
    assert_eq!(flat.form(), Form::Flat);
    let constant = Column::new(&[7u8])?.take(&Column::try_from(&[None::<u8>, None][..])?)?;
    assert_eq!(runs_of(&constant.encode()?)?, [run(0, 2, "null")]);
    Ok(())
}

#[test]
fn runs_go_both_ways() -> Result<(), Error> {
    let runs = Column::try_from(&rows()[..])?.encode()?.slice(3..9)?;
    let shown = |run: Run| (run.rows.start, run.rows.end, run.value.to_string());
    let back: Vec<_> = runs
        .runs()?
        .rev()
        .map(|run| run.map(shown))
        .collect::<Result<_, _>>()?;
    assert_eq!(
        back,
        [
            run(5, 6, "null"),
            run(2, 5, "3"),
            run(1, 2, "2"),
            run(0, 1, "null")
        ]
    );
    assert_eq!(
        runs.runs()?.nth(2).transpose()?.map(shown),
        Some(run(2, 5, "3"))
    );
    let constant = runs.slice(2..4)?;
    assert_eq!(
        constant.runs()?.next_back().transpose()?.map(shown),
        Some(run(0, 2, "3"))
    );
    let mut both = runs.runs()?;
    both.next();
    both.next_back();
    assert_eq!(both.len(), 2);
    Ok(())
}

#[test]
fn rows_go_both_ways() -> Result<(), Error> {
    let column = Column::try_from(&rows()[3..6])?;
    assert_eq!(column.rows().len(), 3);
    let back: Vec<Value> = column.rows().rev().collect::<Result<_, _>>()?;
    assert_eq!(back, [Value::Signed(3), Value::Signed(2), Value::Null]);
    assert_eq!(column.rows().nth(1), Some(Ok(Value::Signed(2))));
    let mut nulls = 0;
    for row in &column {
        nulls += usize::from(row? == Value::Null);
    }
    assert_eq!(nulls, 1);
    Ok(())
}

#[test]
fn columns_of_slices() -> Result<(), Error> {
    assert_eq!(
        Column::try_from(&rows()[..])?.options::<i32>()?,
        rows().to_vec()
    );
    let mut part = [0u8; 2];
    let numbers = Column::new(&[1u8, 2, 3])?;
    numbers.read(1, &mut part)?;
    assert_eq!(part, [2, 3]);
    let past = numbers.read(2, &mut part).unwrap_err();
    assert_eq!(past.to_string(), "rows 2 to 4 are not among 3 rows");
    let texts = Column::try_from(&[Some("a"), None][..])?;
    assert_eq!(texts.kind(), Kind::UTF8.nullable());
    assert_eq!(
        texts.rows().collect::<Result<Vec<_>, _>>()?,
        [Value::Text("a".to_string()), Value::Null]
    );
    let truths = Column::try_from(&[Some(true), None][..])?;
    assert_eq!(
        (truths.kind(), truths.at(1)?),
        (Kind::BOOL.nullable(), Value::Null)
    );
    assert_eq!(Column::try_from(&[true][..])?.at(0)?, Value::Truth(true));
    assert_eq!(Column::try_from(&["b"][..])?.kind(), Kind::UTF8);
    assert_eq!(Column::try_from(&[5u16; 0][..])?.len(), 0);
    Ok(())
}

#[test]
fn shown_in_words() -> Result<(), Error> {
    let column = Column::try_from(&rows()[..])?.encode()?;
    assert_eq!(format!("{column:?}"), "10 rows of i32? as Runs");
    assert_eq!(Kind::decimal(10, 2).to_string(), "decimal(10, 2)");
    let error = column.at(10).unwrap_err();
    assert_eq!(error.kind(), Some(ErrorKind::OutOfBounds));
    assert_eq!(error.to_string(), "row 10 is not among 10 rows");
    let shown = r#"Error { kind: OutOfBounds, message: "row 10 is not among 10 rows" }"#;
    assert_eq!(format!("{error:?}"), shown);
    let unlisted = Error::new(99, error.fields);
    let shown = r#"Error { number: 99, message: "error 99 (10, 10, 0)" }"#;
    assert_eq!(format!("{unlisted:?}"), shown);
    let refused: Box<dyn std::error::Error> = Box::new(column.slice(5..11).unwrap_err());
    assert_eq!(refused.to_string(), "rows 5 to 11 are not among 10 rows");
    assert_eq!(Value::Bytes(vec![255]).to_string(), "b\"\\xff\"");
    Ok(())
}
