//! Columns as bytes with their logical type. The bytes are put together here, by the fields of docs/BYTES.md.
use hivevigil::{Column, Error, ErrorKind, Kind};

/// Has two days, 19783 and 19784, as i32: version 1, type 7, form 1, two rows without null, their items.
const DAYS: [u8; 20] = [
    8, 1, 16, 7, 24, 1, 32, 2, 40, 1, 58, 8, 0x47, 0x4d, 0, 0, 0x48, 0x4d, 0, 0,
];

/// Returns a length as a varint.
fn length(mut count: usize) -> Vec<u8> {
    let mut bytes = Vec::new();
    while count >= 128 {
        bytes.push((count % 128 + 128) as u8);
        count /= 128;
    }
    bytes.push(count as u8);
    bytes
}

/// Returns version 2, the name of the type in field 22, and the message of the column in field 23.
fn typed(name: &[u8], message: &[u8]) -> Vec<u8> {
    let key = [0x08, 0x02, 0xb2, 0x01];
    let (name_size, size) = (length(name.len()), length(message.len()));
    [&key[..], &name_size, name, &[0xba, 0x01], &size, message].concat()
}

/// Asserts that the bytes are the message of the column with this logical type, or of one without where it is empty.
fn check_typed(message: &[u8], storage: &[u8], name: &str) -> Result<(), Error> {
    let column = Column::from_bytes(message)?;
    let due = (!name.is_empty()).then(|| name.to_string());
    assert_eq!(
        (column.to_bytes()?, column.logical_type()),
        (message.to_vec(), due)
    );
    assert_eq!(column.with_logical_type("")?.to_bytes()?, storage);
    let untyped = Column::from_bytes(storage)?;
    assert_eq!(untyped.logical_type(), None);
    assert_eq!(untyped.with_logical_type(name)?.to_bytes()?, message);
    assert!(Column::is_message(message) && Column::is_message(storage));
    Ok(())
}

fn check_not_typed(message: &[u8]) {
    let refused = Column::from_bytes(message)
        .err()
        .and_then(|error| error.kind());
    assert_eq!(refused, Some(ErrorKind::BadMetadata), "{message:?}");
    assert!(!Column::is_message(message), "{message:?}");
}

#[test]
fn messages_keep_the_logical_type() -> Result<(), Error> {
    let column = Column::new(&[19_783i32, 19_784])?;
    let due = [&[8, 2, 178, 1, 3, b't', b'd', b'D', 186, 1, 20][..], &DAYS].concat();
    let days = column.with_logical_type("tdD")?;
    assert_eq!((days.to_bytes()?, column.to_bytes()?), (due, DAYS.to_vec()));
    assert_eq!(days.with_logical_type("")?.to_bytes()?, DAYS);
    let longer = "z".repeat(200);
    for name in ["tdD", "tss:Z\u{fc}rich", "x", "ts\0:", &longer] {
        check_typed(&typed(name.as_bytes(), &DAYS), &DAYS, name)?;
    }
    check_typed(&DAYS, &DAYS, "")
}

#[test]
fn each_form_is_kept() -> Result<(), Error> {
    let rows = [Some(1i32), Some(1), None, None, Some(2), Some(2)];
    let runs = Column::try_from(&rows)?.encode()?.slice(1..5)?;
    let lists = Column::from_bytes(&[
        8, 1, 16, 13, 24, 3, 32, 2, 40, 3, 58, 0, 160, 1, 6, 168, 1,
        2, // two null lists of i16
    ])?;
    let texts = Column::try_from(["z".repeat(200), "a".to_string()])?;
    for column in [runs, lists, texts, Column::constant(Kind::I64, 7, 1 << 60)?] {
        let storage = column.to_bytes()?;
        let message = typed(b"g", &storage);
        assert_eq!(column.with_logical_type("g")?.to_bytes()?, message);
        check_typed(&message, &storage, "g")?;
        let again = Column::from_bytes(&message)?;
        assert_eq!(
            (again.form(), again.offset()),
            (column.form(), column.offset())
        );
    }
    Ok(())
}

#[test]
fn damaged_messages_are_refused() {
    let whole = typed(b"tdD", &DAYS);
    for message in [&whole[..], &DAYS] {
        for kept in 0..message.len() {
            check_not_typed(&message[..kept]);
        }
        check_not_typed(&[message, &[0]].concat());
    }
    check_not_typed(&typed(b"", &DAYS));
    check_not_typed(&typed(b"td\xff", &DAYS));
    check_not_typed(&typed(b"tdD", &whole)); // a message with a type within another
    check_not_typed(&typed(b"tdD", &[]));
    let (name, message) = (
        &[178, 1, 3, b't', b'd', b'D'][..],
        &[&[186, 1, 20][..], &DAYS].concat()[..],
    );
    for fields in [
        &[&[8, 2][..], message, name][..],
        &[&[8, 2], message],
        &[&[8, 2], name],
        &[&[8, 3], name, message],
        &[name, message],
        // lengths that take a byte more than they have to
        &[&[8, 2, 178, 1, 131, 0, b't', b'd', b'D'], message],
        &[&[8, 2], name, &[186, 1, 148, 0], &DAYS],
    ] {
        check_not_typed(&fields.concat());
    }
}

#[test]
fn changed_bytes_are_another_type_or_column_or_refused() -> Result<(), Error> {
    let whole = typed(b"tdD", &DAYS);
    for place in 0..whole.len() {
        for byte in 0..=255u8 {
            let mut changed = whole.clone();
            changed[place] = byte;
            let (name, storage) = (&changed[5..8], &changed[11..]);
            let is_in_storage = place >= 11 && Column::is_message(storage);
            let is_in_name = (5..8).contains(&place) && byte.is_ascii();
            match std::str::from_utf8(name) {
                Ok(name) if changed == whole || is_in_name || is_in_storage => {
                    check_typed(&changed, storage, name)?
                }
                _ => check_not_typed(&changed),
            }
        }
    }
    Ok(())
}

#[test]
fn seventeen_levels_of_runs_are_refused() -> Result<(), Error> {
    let mut deep = Column::new(&[7u8])?;
    for _ in 0..17 {
        deep = Column::from_runs(&Column::new(&[1u8])?, &deep, 0, 1)?;
    }
    for name in ["g", ""] {
        let refused = deep.with_logical_type(name)?.to_bytes().unwrap_err();
        assert_eq!(refused.kind(), Some(ErrorKind::Unsupported));
    }
    Ok(())
}

#[test]
fn calls_that_give_back_rows_keep_the_logical_type() -> Result<(), Error> {
    let rows = [Some(3i64), Some(3), None, Some(1)];
    let longer = format!("tsu:{}", "x".repeat(100)); // than what is read at once
    for format in ["tsu:UTC", "no format of Arrow", &longer] {
        let column = Column::try_from(&rows)?.with_logical_type(format)?;
        let runs = column.encode()?;
        let mask = Column::try_from([true, false, true, true])?;
        let (counted, counts) = column.value_counts()?;
        for made in [
            column.try_clone()?,
            column.try_compact()?,
            runs.decode()?,
            runs.slice(1..)?,
            runs.take(&Column::new(&[0u8, 2])?)?,
            column.filter(&mask)?,
            runs.fill(7)?,
            runs.values()?,
            runs.sorted()?,
            runs.reversed()?,
            Column::from_runs(&Column::new(&[2u8, 4])?, &column.slice(..2)?, 0, 4)?,
            Column::new(&[1u8, 0])?.take_from(&column)?,
            mask.choose(&column, &runs)?,
            counted,
        ] {
            assert_eq!(made.logical_type().as_deref(), Some(format));
        }
        let sum = column.checked_add(&column)?;
        let others = [
            counts,
            runs.ends()?,
            column.is_null()?,
            sum,
            column.cast(Kind::I32.nullable())?,
        ];
        assert!(others.iter().all(|made| made.logical_type().is_none()));
    }
    Ok(())
}
