//! Bytes and files that are not those of a table, and files that are not written.
mod table_model;

use hivevigil::{Column, Error, Kind, LoadOptions, Table, TableError};
use std::fs;
use table_model::kept::{bytes_of, days, folder, lines, times, written};
use table_model::kept::{Part, DAYS, SHORT, TABLES};

/// Describes the i64 that have these differences, each in as many rows as is said, and are all between 100 and 400.
fn differences(steps: &[i64], stops: &[u64], runs: u64, form: u64) -> Result<Part, Error> {
    let rows = stops.last().copied().unwrap_or(0) as usize;
    let steps = Column::from_runs(&Column::new(stops)?, &Column::new(steps)?, 0, rows)?;
    let bounds = "08 01 10 08 18 01 20 02 28 01 3a 10 6400000000000000 9001000000000000";
    Ok(Part {
        name: "at",
        message: steps.encode_rows()?.to_bytes()?,
        nulls: 0,
        runs,
        bounds: bytes_of(bounds),
        differences: Some(form),
    })
}

fn bytes_over_limit(bytes: &[u8]) -> Option<u64> {
    match Table::from_bytes(bytes) {
        Err(TableError::OverLimit { bytes, .. }) => Some(bytes),
        _ => None,
    }
}

#[test]
fn few_bytes_that_say_many_rows_are_refused() -> Result<(), TableError> {
    let six = differences(&[100, 60], &[1, 6], 6, 1)?;
    let table = Table::from_bytes(&written(2, 6, &[&six]))?;
    assert_eq!(
        table["at"].numbers::<i64>()?,
        [100, 160, 220, 280, 340, 400]
    );
    let many = 1 << 60;
    for (step, form) in [(0, 1), (1, 1), (1, 2), (60, 1), (60, 2)] {
        let part = differences(&[100, step], &[1, many], 2, form)?;
        let bytes = written(2, many, &[&part]);
        match form {
            1 => assert_eq!(bytes_over_limit(&bytes), Some(8 * many)), // flat, by the rows
            _ => assert!(is_damaged(&bytes), "{step}"),                // more than two runs
        }
    }
    let most = (1 << 26) + 1;
    let flat = differences(&[100, 1], &[1, most], most, 1)?;
    assert!(is_damaged(&written(2, most, &[&flat])));
    let runs = differences(&[100, 1], &[1, most], most, 2)?;
    let bytes = written(2, most, &[&runs]);
    assert_eq!(bytes_over_limit(&bytes), Some(16 * most));
    let limit = u64::MAX;
    let refused = Table::from_bytes_with(&bytes, LoadOptions { limit });
    assert!(matches!(refused, Err(TableError::Damaged(None))));
    Ok(())
}

#[test]
fn one_run_of_many_rows_is_kept_as_differences() -> Result<(), TableError> {
    let many = 1 << 60;
    let mut part = differences(&[100, 0], &[1, many], 1, 2)?;
    part.bounds = bytes_of("08 01 10 08 18 01 20 02 28 01 3a 10 6400000000000000 6400000000000000");
    let table = Table::from_bytes(&written(2, many, &[&part]))?;
    assert_eq!(
        (table.rows(), table["at"].runs()?.len()),
        (many as usize, 1)
    );
    assert_eq!(table["at"].get::<i64>(1 << 59)?, Some(100));
    Ok(())
}

#[test]
fn footers_that_say_otherwise_are_refused() -> Result<(), TableError> {
    let bounds = "08 01 10 0b 18 01 20 02 28 01 62 02 02 02 6a 04 61 62 61 62";
    let place = &Part {
        name: "place",
        message: bytes_of("08 01 10 0b 18 03 20 03 28 01 3a 02 61 62"),
        nulls: 0,
        runs: 1,
        bounds: bytes_of(bounds),
        differences: None,
    };
    let at = &differences(&[100, 60], &[1, 6], 6, 1)?;
    assert_eq!(Table::from_bytes(&written(1, 3, &[place]))?.rows(), 3);
    assert_eq!(Table::from_bytes(&written(2, 6, &[at]))?.rows(), 6);
    let one_bound = bytes_of("08 01 10 0b 18 01 20 01 28 01 62 01 02 6a 02 61 62");
    let typed = |message: &[u8]| {
        Column::from_bytes(message)?
            .with_logical_type("x")?
            .to_bytes()
    };
    let [message, typed_bounds, steps] =
        [&place.message, &place.bounds, &at.message].map(|message| typed(message));
    let (message, typed_bounds, steps) = (message?, typed_bounds?, steps?);
    let cases: [(&str, u64, u64, &[&Part]); 18] = [
        (
            "a logical type in a message",
            1,
            3,
            &[&place.with(|part| part.message = message)],
        ),
        (
            "a logical type in bounds",
            1,
            3,
            &[&place.with(|part| part.bounds = typed_bounds)],
        ),
        (
            "a logical type in differences",
            2,
            6,
            &[&at.with(|part| part.message = steps)],
        ),
        ("another number of rows", 1, 4, &[place]),
        ("a name twice", 1, 3, &[place, place]),
        ("nulls", 1, 3, &[&place.with(|part| part.nulls = 1)]),
        ("runs", 1, 3, &[&place.with(|part| part.runs = 2)]),
        (
            "another bound",
            1,
            3,
            &[&place.with(|part| part.bounds[16] = b'c')],
        ),
        (
            "one bound",
            1,
            3,
            &[&place.with(|part| part.bounds = one_bound)],
        ),
        (
            "a field of version 2",
            1,
            3,
            &[&place.with(|part| part.differences = Some(0))],
        ),
        ("a field that is not there", 2, 3, &[place]),
        (
            "no differences",
            2,
            3,
            &[&place.with(|part| part.differences = Some(0))],
        ),
        (
            "differences of texts",
            2,
            3,
            &[&place.with(|part| part.differences = Some(1))],
        ),
        (
            "one of two fields",
            2,
            6,
            &[at, &at.with(|part| part.differences = None)],
        ),
        (
            "another form",
            2,
            6,
            &[&at.with(|part| part.differences = Some(3))],
        ),
        (
            "differences as rows",
            2,
            6,
            &[&at.with(|part| part.differences = Some(0))],
        ),
        ("fewer rows", 2, 5, &[at]),
        ("another version", 3, 3, &[place]),
    ];
    for (what, version, rows, parts) in cases {
        assert!(is_damaged(&written(version, rows, parts)), "{what}");
    }
    Ok(())
}

#[test]
fn only_the_footer_is_read_where_only_it_is_asked() -> Result<(), TableError> {
    let folder = folder("footer");
    let path = folder.join("table.hv");
    let keep = |parts: &[&Part]| fs::write(&path, written(2, 6, parts)).unwrap();
    let at = &differences(&[100, 60], &[1, 6], 6, 1)?;
    let texts = bytes_of("08 01 10 0b 18 01 20 02 28 01 62 02 02 02 6a 04 61 62 61 62");
    let bits = "08 01 10 08 18 01 20 02 28 04 32 01 03 3a 10 6400000000000000 9001000000000000";
    for parts in [
        &[&at.with(|part| part.bounds = texts)][..], // differences of texts
        &[&at.with(|part| part.bounds = bytes_of(bits))], // bounds with a bit for each
        &[at, at],
    ] {
        keep(parts);
        assert!(matches!(Table::footer(&path), Err(TableError::Damaged(_))));
    }
    keep(&[&at.with(|part| part.message.fill(0))]);
    assert_eq!(Table::footer(&path)?.rows, 6);
    let column = Table::load_columns(&path, ["at"]);
    assert!(matches!(column, Err(TableError::Damaged(_))));
    assert_eq!(Table::load_columns(&path, &[] as &[&str])?.rows(), 6);
    fs::remove_dir_all(folder).unwrap();
    Ok(())
}

/// Makes tables of all forms, one of them of version 2.
fn kept() -> Result<Vec<Vec<u8>>, TableError> {
    let lists = bytes_of("08 01 10 0d 18 03 20 03 28 03 3a 00 a0 01 06 a8 01 02"); // three nulls
    let table = days()?.with_column("list", Column::from_bytes(&lists)?)?;
    let table = table.with_column("level", Column::try_from([Some(1i16), None, Some(900)])?)?;
    let table = table.with_column("truth", Column::try_from([true, false, true])?)?;
    let many = times()?.append(&times()?.slice(1..)?)?;
    let many = many.with_column("place", Column::constant(Kind::BINARY, &b"ab"[..], 11)?)?;
    let stored = lines(TABLES)
        .into_iter()
        .map(|(.., bytes)| bytes)
        .filter(|bytes| bytes.len() < 900);
    Ok([table.to_bytes()?, many.to_bytes_with(SHORT)?]
        .into_iter()
        .chain(stored)
        .collect())
}

fn is_damaged(bytes: &[u8]) -> bool {
    matches!(Table::from_bytes(bytes), Err(TableError::Damaged(None)))
}

#[test]
fn each_truncated_or_longer_table_is_refused() -> Result<(), TableError> {
    for bytes in kept()? {
        assert!(Table::from_bytes(&bytes).is_ok());
        for size in 0..bytes.len() {
            assert!(
                is_damaged(&bytes[..size]) && is_damaged(&bytes[size + 1..]),
                "{size}"
            );
            assert!(
                is_damaged(&[&bytes[..size], &bytes[size + 1..]].concat()),
                "without {size}"
            );
        }
        assert!(
            is_damaged(&[&bytes[..], &[0]].concat()) && is_damaged(&[&[0], &bytes[..]].concat())
        );
        assert!(is_damaged(&[&bytes[..], &bytes].concat()));
    }
    Ok(())
}

#[test]
fn each_changed_byte_makes_another_table_or_none() -> Result<(), TableError> {
    for bytes in kept()? {
        let (mut refused, mut others) = (0, 0);
        for place in 0..bytes.len() {
            for change in [1, 2, 128, 255, bytes[place]] {
                let mut changed = bytes.clone();
                changed[place] ^= change;
                if changed == bytes {
                    continue;
                }
                match Table::from_bytes(&changed) {
                    Ok(table) => {
                        assert!(table.iter().all(|(_, column)| column.len() == table.rows()));
                        let again = [table.to_bytes()?, table.to_bytes_with(SHORT)?];
                        assert!(again.contains(&changed), "{place}: {table}");
                        others += 1;
                    }
                    Err(TableError::Damaged(None)) => refused += 1,
                    Err(other) => panic!("{place}: {other}"),
                }
            }
        }
        assert!(refused > others, "{refused} refused, {others} others");
    }
    Ok(())
}

#[test]
fn files_that_are_no_tables_are_refused_by_name() -> Result<(), TableError> {
    let folder = folder("none");
    let path = folder.join("none.hv");
    for bytes in [
        &b""[..],
        b"place,level\n",
        &days()?["day"].to_bytes()?,
        &bytes_of(DAYS)[..100],
    ] {
        fs::write(&path, bytes).unwrap();
        let said = format!("{} is not the file of a table", path.display());
        for refused in [Table::load(&path).map(drop), Table::footer(&path).map(drop)] {
            let refused = refused.unwrap_err();
            assert!(matches!(&refused, TableError::Damaged(Some(named)) if *named == path));
            assert_eq!(refused.to_string(), said);
        }
    }
    let refused = Table::load(folder.join("nowhere.hv")).unwrap_err();
    assert!(
        matches!(&refused, TableError::File { error, .. } if error.kind() == std::io::ErrorKind::NotFound)
    );
    fs::remove_dir_all(folder).unwrap();
    Ok(())
}

#[test]
fn a_refused_save_leaves_the_file_as_it_was() -> Result<(), TableError> {
    let folder = folder("saves");
    let path = folder.join("table.hv");
    days()?.save(&path)?;
    let mut deep = Column::new(&[7u8, 8])?;
    for _ in 0..17 {
        deep = Column::from_runs(&Column::new(&[1u8, 2])?, &deep, 0, 2)?;
    }
    let refused = Table::try_from_iter([("deep", deep)])?
        .save(&path)
        .unwrap_err();
    assert!(matches!(&refused, TableError::Column { name, .. } if name == "deep"));
    assert_eq!(
        (
            fs::read(&path).unwrap(),
            fs::read_dir(&folder).unwrap().count()
        ),
        (bytes_of(DAYS), 1)
    );
    assert!(matches!(
        days()?.save(folder.join("no/table.hv")),
        Err(TableError::File { .. })
    ));
    assert!(matches!(
        Table::load_columns(&path, ["day", "day"]),
        Err(TableError::RepeatedName(_))
    ));
    assert!(matches!(
        Table::load_columns(&path, ["hour"]),
        Err(TableError::NoSuchColumn { .. })
    ));
    times()?.save(&path)?;
    assert!(Table::load(&path)? == times()?);
    fs::remove_dir_all(folder).unwrap();
    Ok(())
}
