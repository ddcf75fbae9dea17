//! Answers that were worked out by hand.
use hivevigil::{Column, Decimal, Error, Fields, Form, Kind, Operator, Sum, Value};

fn refused(number: i32, first: u64, second: u64, third: u64) -> Error {
    let fields = Fields {
        first,
        second,
        third,
    };
    Error::new(number, fields)
}

/// 1 1 null null 2 3 3 3 null null
fn runs() -> Result<Column, Error> {
    let valid = [
        true, true, false, false, true, true, true, true, false, false,
    ];
    Column::with_validity(&[1i32, 1, 0, 0, 2, 3, 3, 3, 0, 0], Some(&valid))?.encode()
}

fn rows(column: &Column) -> Result<Vec<Value>, Error> {
    column.rows().collect()
}

#[test]
fn runs_answer_as_rows() -> Result<(), Error> {
    let runs = runs()?;
    assert_eq!(
        (
            runs.form(),
            runs.len(),
            runs.kind().number,
            runs.kind().nullable
        ),
        (Form::Runs, 10, 6, 1)
    );
    assert_eq!(
        runs.sum()?,
        Sum {
            total: Value::Signed(13),
            empty: false
        }
    );
    assert_eq!(
        (runs.least()?, runs.greatest()?),
        (Value::Signed(1), Value::Signed(3))
    );
    assert_eq!(
        (runs.is_constant()?, runs.is_sorted(false)?),
        (false, false)
    );
    assert_eq!(
        rows(&runs.slice(3..6)?)?,
        [Value::Null, Value::Signed(2), Value::Signed(3)]
    );
    assert_eq!(
        rows(&runs.take(&Column::new(&[9u32, 4])?)?)?,
        [Value::Null, Value::Signed(2)]
    );
    let above = runs.compare_value(Operator::Greater, 1)?.decode()?;
    assert_eq!(runs.filter(&above)?.len(), 4);
    assert_eq!(
        rows(&runs.compare(Operator::Equal, &runs)?)?[1..3],
        [Value::Truth(true), Value::Null]
    );
    assert_eq!(runs.fill(7)?.at(9)?, Value::Signed(7));
    assert_eq!(runs.ends()?.numbers::<u8>()?, [2, 4, 5, 8, 10]);
    assert_eq!(runs.decode()?.validity()?[..3], [true, true, false]);
    assert_eq!(
        rows(&Column::new(&[5i8, 0])?.take_from(&runs)?)?,
        [Value::Signed(3), Value::Signed(1)]
    );
    assert_eq!(
        runs.cast(Kind::I64.nullable())?.kind(),
        Kind::I64.nullable()
    );
    Ok(())
}

/// Returns the sum of each window of a hundred rows, by slices of the column that are made and dropped.
fn sums_of_windows(column: Column) -> Result<Vec<i64>, Error> {
    (0..column.len() - 100)
        .step_by(37)
        .map(|start| i64::try_from(column.slice(start..start + 100)?.try_clone()?.sum()?.total))
        .collect()
}

#[test]
fn threads_share_buffers() -> Result<(), Error> {
    let rows: Vec<i64> = (0..30_000).map(|row| row / 3).collect();
    let runs = Column::new(&rows)?.encode()?;
    let sum = |start: usize| rows[start..start + 100].iter().sum();
    let due: Vec<i64> = (0..rows.len() - 100).step_by(37).map(sum).collect();
    let running = (0..4)
        .map(|_| {
            runs.try_clone()
                .map(|own| std::thread::spawn(move || sums_of_windows(own)))
        })
        .collect::<Result<Vec<_>, Error>>()?;
    drop(runs);
    for thread in running {
        assert_eq!(thread.join().unwrap()?, due);
    }
    Ok(())
}

#[test]
fn parts_of_runs() -> Result<(), Error> {
    let (ends, values) = (Column::new(&[2u16, 3, 5])?, Column::new(&[7i8, 8, 9])?);
    let own = Column::from_runs(&ends, &values, 1, 4)?;
    assert_eq!(rows(&own)?, [7, 8, 9, 9].map(Value::Signed));
    assert_eq!(
        (own.offset(), own.serialize()?),
        (1, vec![0x08, 0x01, 0x10, 0x03, 0x18, 0x01])
    );
    let again = Column::deserialize(own.kind(), 4, &own.serialize()?, &ends, &own.values()?)?;
    assert_eq!(rows(&again)?, rows(&own)?);
    assert_eq!(rows(&own.try_clone()?)?, rows(&own)?);
    assert_eq!(rows(&own.try_compact()?)?, rows(&own)?);
    Ok(())
}

#[test]
fn columns_as_bytes() -> Result<(), Error> {
    let (ends, values) = (Column::new(&[2u16, 3, 5])?, Column::new(&[7i8, 8, 9])?);
    let own = Column::from_runs(&ends, &values, 1, 4)?;
    let message = own.to_bytes()?;
    // version 1, type i8, form runs, four rows; offset 1, ends u16, lengths 2, 1, 2; three values without null
    let due = [
        8, 1, 16, 5, 24, 2, 32, 4, 64, 1, 72, 2, 82, 3, 2, 1, 2, 90, 15, 8, 1, 16, 5, 24, 1, 32, 3,
        40, 1, 58, 3, 7, 8, 9,
    ];
    assert_eq!(message, due);
    let again = Column::from_bytes(&message)?;
    assert_eq!((rows(&again)?, again.offset()), (rows(&own)?, 1));
    assert_eq!(again.to_bytes()?, message);
    assert!(Column::is_message(&message));
    for kept in 0..message.len() {
        assert!(Column::from_bytes(&message[..kept]).is_err());
        assert!(!Column::is_message(&message[..kept]));
    }
    // version 1, texts, flat, two rows without null; lengths 1 and 0, and the bytes
    let texts = Column::texts(&["a", ""], None)?;
    let due = [8, 1, 16, 11, 24, 1, 32, 2, 40, 1, 98, 2, 1, 0, 106, 1, 97];
    assert_eq!(texts.to_bytes()?, due);
    assert_eq!(rows(&Column::from_bytes(&due)?)?, rows(&texts)?);
    Ok(())
}

/// Returns the bytes of lists after this number of clones and slices, each of which has the same elements.
fn bytes_after_clones(own: Column) -> Result<Vec<u8>, Error> {
    for _ in 0..20_000 {
        let clone = own.try_clone()?;
        let slice = clone.slice(0..1)?;
        drop((clone, slice));
    }
    own.to_bytes()
}

#[test]
fn threads_share_elements_of_lists() -> Result<(), Error> {
    let message = lists_message();
    let lists = Column::from_bytes(&message)?;
    let running = (0..4)
        .map(|_| {
            lists
                .try_clone()
                .map(|own| std::thread::spawn(move || bytes_after_clones(own)))
        })
        .collect::<Result<Vec<_>, Error>>()?;
    drop(lists);
    for thread in running {
        assert_eq!(thread.join().unwrap()?, message);
    }
    Ok(())
}

/// Returns two numbers of u64 without null, as a message.
fn two_numbers(numbers: [u64; 2]) -> Vec<u8> {
    let mut message = vec![8, 1, 16, 4, 24, 1, 32, 2, 40, 1, 58, 16];
    message.extend(numbers.iter().flat_map(|number| number.to_le_bytes()));
    message
}

/// [1 2] and null from item 9 on.
fn lists_message() -> Vec<u8> {
    // version 1, lists, form lists, two rows, of which bits say that the first is valid
    let mut message = vec![8, 1, 16, 13, 24, 4, 32, 2, 40, 4, 50, 1, 1];
    // elements 1 and 2 of u8; offsets 0 and 9, sizes 2 and 5
    message.extend([138, 1, 14, 8, 1, 16, 1, 24, 1, 32, 2, 40, 1, 58, 2, 1, 2]);
    message.extend([146, 1, 28].iter().chain(&two_numbers([0, 9])));
    message.extend([154, 1, 28].iter().chain(&two_numbers([2, 5])));
    message
}

#[test]
fn lists_as_bytes() -> Result<(), Error> {
    let mut message = lists_message();
    let lists = Column::from_bytes(&message)?;
    assert!(lists.kind().is_list() && lists.kind().is_nullable());
    assert_eq!((lists.form(), lists.len()), (Form::Lists, 2));
    assert_eq!(lists.to_bytes()?, message);
    assert!(Column::is_message(&message));
    let cut = message.len() - 1;
    let refusal = refused(17, 0, 0, 0);
    assert_eq!(Column::from_bytes(&message[..cut]).err(), Some(refusal));
    // a valid list from 9 on leaves the elements
    message[12] = 3;
    assert!(!Column::is_message(&message));
    assert_eq!(Column::from_bytes(&message).err(), Some(refusal));
    Ok(())
}

#[test]
fn null_lists_as_bytes() -> Result<(), Error> {
    // version 1, lists, form constant, 2^60 rows, null without bytes; elements of i16, whose type has null
    let mut message = [
        &[8, 1, 16, 13, 24, 3, 32][..],
        &[128; 8],
        &[16, 40, 3, 58, 0],
    ]
    .concat();
    message.extend([160, 1, 6, 168, 1, 2]);
    let nulls = Column::from_bytes(&message)?;
    assert!(nulls.kind().is_list() && nulls.kind().is_nullable());
    assert_eq!((nulls.form(), nulls.len()), (Form::Constant, 1 << 60));
    assert_eq!(nulls.to_bytes()?, message);
    let two = nulls.slice(7..9)?;
    assert_eq!((two.form(), two.len()), (Form::Constant, 2));
    assert_eq!(two.decode()?.form(), Form::Lists);
    // lists of lists
    let at = message.len() - 4;
    message[at] = 13;
    assert_eq!(
        Column::from_bytes(&message).err(),
        Some(refused(17, 0, 0, 0))
    );
    Ok(())
}

#[test]
fn other_types() -> Result<(), Error> {
    let long = "a text that is longer than the room that it is given at first, so that it is asked for again";
    let texts = Column::texts(&["one", "", long], Some(&[true, true, true]))?;
    assert_eq!(texts.at(2)?, Value::Text(long.to_string()));
    assert_eq!(
        texts.compare_value(Operator::Equal, "one")?.at(0)?,
        Value::Truth(true)
    );
    assert_eq!(
        Column::bytes(&[b"\xff"], None)?.at(0)?,
        Value::Bytes(vec![0xff])
    );
    assert_eq!(
        Column::truths(&[true, false], Some(&[false, true]))?.at(1)?,
        Value::Truth(false)
    );
    assert_eq!(
        Column::decimals(&[-1, 5], 10, 2, None)?.at(0)?,
        Value::Decimal(Decimal::new(-1, 2))
    );
    assert_eq!(
        Column::new::<u64>(&[])?.sum()?,
        Sum {
            total: Value::Unsigned(0),
            empty: true
        }
    );
    Ok(())
}

#[test]
fn refusals_have_their_fields() -> Result<(), Error> {
    let runs = runs()?;
    assert_eq!(runs.at(10), Err(refused(8, 10, 10, 0)));
    assert_eq!(runs.slice(5..11).err(), Some(refused(9, 5, 11, 10)));
    assert_eq!(
        Column::with_validity(&[1u8, 2], Some(&[true])).err(),
        Some(refused(11, 2, 1, 0))
    );
    let (ends, values) = (Column::new(&[2u16, 2, 5])?, Column::new(&[7i8, 8, 9])?);
    assert_eq!(
        Column::from_runs(&ends, &values, 0, 5).err(),
        Some(refused(4, 1, 0, 0))
    );
    assert_eq!(
        refused(9, 5, 11, 10).to_string(),
        "rows 5 to 11 are not among 10 rows"
    );
    Ok(())
}
