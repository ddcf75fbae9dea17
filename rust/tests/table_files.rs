//! Tables as bytes and in files: the tables of docs/BYTES.md byte by byte, and those that Protocol Buffers' own library
//! wrote.
mod table_model;

use hivevigil::{
    Column, Error, Floats, Form, Kind, Operator, Order, SaveOptions, Table, TableError,
    TableFooter, Value,
};
use std::fs;
use table_model::kept::{bytes_of, days, folder, lines, times};
use table_model::kept::{DAYS, DIFFERENCES, SHORT, TABLES, TIMES};
use table_model::{model_of, random, Dice};

#[test]
fn the_tables_of_the_page_are_written_and_read() -> Result<(), TableError> {
    let (days, times) = (days()?, times()?);
    assert_eq!(days.to_bytes()?, bytes_of(DAYS));
    assert_eq!(days.to_bytes_with(SHORT)?, bytes_of(DAYS)); // neither column is shorter so
    assert_eq!(times.to_bytes_with(SHORT)?, bytes_of(TIMES));
    assert_eq!(
        (times.to_bytes_with(SHORT)?.len(), times.to_bytes()?.len()),
        (127, 139)
    );
    let again = Table::from_bytes(&bytes_of(DAYS))?;
    assert!(again == days && again["place"].form() == Form::Constant);
    let again = Table::from_bytes(&bytes_of(TIMES))?;
    assert!(again == times && again["at"].form() == Form::Flat);
    Ok(())
}

#[test]
fn stored_tables_are_read_and_written_again() -> Result<(), TableError> {
    for (rows, names, bytes) in lines(TABLES) {
        let table = Table::from_bytes(&bytes)?;
        assert_eq!(
            (table.rows(), table.names().collect::<Vec<_>>().join(",")),
            (rows, names)
        );
        assert_eq!(table.to_bytes()?, bytes);
    }
    assert_eq!(lines(TABLES).len(), 9);
    Ok(())
}

#[test]
fn stored_tables_of_differences_have_their_rows() -> Result<(), TableError> {
    for (rows, said, bytes) in lines(DIFFERENCES) {
        let table = Table::from_bytes(&bytes)?;
        assert_eq!((table.rows(), table.to_bytes_with(SHORT)?), (rows, bytes));
        let mut due = said.split(", ").map(|column| column.split(' '));
        for (name, column) in &table {
            let mut words = due.next().unwrap();
            assert_eq!(words.next(), Some(name));
            assert_eq!(words.next(), Some(&column.kind().to_string()[..]));
            assert_eq!(
                words.next(),
                Some(if column.form() == Form::Runs {
                    "runs"
                } else {
                    "flat"
                })
            );
            let shown = column.rows().map(|row| row.map(|row| row.to_string()));
            assert_eq!(
                shown.collect::<Result<Vec<_>, Error>>()?,
                words.collect::<Vec<_>>()
            );
        }
        assert!(due.next().is_none() && Table::from_bytes(&table.to_bytes()?)? == table);
    }
    Ok(())
}

#[test]
fn bytes_are_the_table_again() -> Result<(), TableError> {
    let mut dice = Dice(21);
    for _ in 0..300 {
        let rows = [0, 1, 5, 40][dice.below(4)];
        let (table, model) = random(&mut dice, rows)?;
        for options in [SaveOptions::default(), SHORT] {
            let again = Table::from_bytes(&table.to_bytes_with(options)?)?;
            assert!(model_of(&again)? == model && again == table);
            for (name, column) in &again {
                assert_eq!(column.to_bytes()?, table[name].to_bytes()?);
            }
        }
    }
    Ok(())
}

/// Its columns are found in one walk: with one for each, this would take minutes.
#[test]
fn a_table_of_many_columns_is_read() -> Result<(), TableError> {
    let level = Column::constant(Kind::U8, 7, 1)?;
    let columns = (0..20_000).map(|place| (place.to_string(), level.clone()));
    let bytes = Table::try_from_iter(columns)?.to_bytes()?;
    let table = Table::from_bytes(&bytes)?;
    assert!(table.len() == 20_000 && table.to_bytes()? == bytes);
    assert_eq!(table["19999"].get::<u8>(0)?, Some(7));
    Ok(())
}

#[test]
fn files_have_all_columns_or_some() -> Result<(), TableError> {
    let (mut dice, folder) = (Dice(22), folder("some"));
    let path = folder.join("table.hv");
    for _ in 0..60 {
        let rows = dice.below(30);
        let (table, model) = random(&mut dice, rows)?;
        let first = model.names[0].clone();
        let table = table.with_logical_type(&first, "tiM")?;
        table.save_with(&path, [SaveOptions::default(), SHORT][dice.below(2)])?;
        assert!(Table::load(&path)? == table);
        let some: Vec<&String> = model
            .names
            .iter()
            .rev()
            .filter(|_| dice.below(2) == 0)
            .collect();
        let loaded = Table::load_columns(&path, &some)?;
        assert!(loaded == table.select(&some)? && loaded.rows() == rows);
        assert_eq!(fs::read_dir(&folder).unwrap().count(), 1);
        check_footer(&Table::footer(&path)?, &table)?;
    }
    fs::remove_dir_all(folder).unwrap();
    Ok(())
}

/// Holds a footer against the rows of the table.
fn check_footer(footer: &TableFooter, table: &Table) -> Result<(), TableError> {
    let model = model_of(table)?;
    assert_eq!(
        (footer.rows, footer.columns.len()),
        (table.rows(), table.len())
    );
    for ((column, name), rows) in footer.columns.iter().zip(&model.names).zip(&model.columns) {
        let mut runs = rows.clone();
        runs.dedup();
        let valid = rows.iter().filter(|row| **row != Value::Null);
        let least = valid
            .clone()
            .min_by(|left, right| table_model::compare(left, right));
        let greatest = valid
            .clone()
            .max_by(|left, right| table_model::compare(left, right));
        let known = column.rows.as_ref().unwrap();
        assert_eq!((&column.name, known.kind), (name, table[name].kind()));
        assert_eq!(column.logical_type, table.logical_type(name)?);
        assert_eq!(
            (known.nulls, known.runs),
            (rows.len() - valid.count(), runs.len())
        );
        assert_eq!(known.bounds, least.cloned().zip(greatest.cloned()));
        if known.differences.is_none() {
            let untyped = table[name].with_logical_type("")?; // the footer has its logical type
            assert_eq!(column.size, untyped.to_bytes()?.len());
        }
    }
    Ok(())
}

#[test]
fn a_column_is_kept_as_differences_only_where_they_are_shorter() -> Result<(), TableError> {
    let mut sizes = std::collections::BTreeMap::new();
    for rows in 0..30 {
        for irregular in 0..12 {
            let row = |row: usize| {
                if row < irregular {
                    7 * row * row
                } else {
                    60 * row
                }
            };
            let items: Vec<i64> = (0..rows).map(|at| row(at) as i64).collect();
            let before = [&[0], &items[..]].concat();
            let steps: Vec<i64> = items
                .iter()
                .zip(&before)
                .map(|(row, last)| row - last)
                .collect();
            let steps = Column::new(&steps)?.encode_rows()?.to_bytes()?;
            let column = Column::new(&items)?;
            let order = steps.len().cmp(&column.to_bytes()?.len());
            let bytes = Table::try_from_iter([("at", column)])?.to_bytes_with(SHORT)?;
            assert_eq!(
                bytes[12],
                if order.is_lt() { 2 } else { 1 },
                "{rows} {irregular}"
            );
            *sizes.entry(order).or_insert(0) += 1;
        }
    }
    assert_eq!(sizes.len(), 3); // some are shorter, some longer, and some as long
    Ok(())
}

#[test]
fn a_column_comes_back_in_its_form_or_is_kept_as_rows() -> Result<(), TableError> {
    let regular: Vec<Option<i64>> = (0..300).map(|row| Some(60 * row)).collect();
    let mut gaps = regular.clone();
    for row in (7..290).step_by(40) {
        (gaps[row], gaps[row + 1], gaps[row + 2]) = (Some(5), None, Some(5)); // equal on both sides of a null
    }
    let by_bits = Column::try_from(&regular)?; // a bit for each row, and no null
    let all_valid = by_bits.encode_rows()?.decode()?; // which says so once
    assert!(by_bits.to_bytes()?.len() > all_valid.to_bytes()?.len());
    for (column, version) in [
        (by_bits, 1),
        (all_valid, 2),
        (Column::try_from(&regular)?.encode_rows()?, 2),
        (Column::try_from(&gaps)?.encode_rows()?, 2),
        (Column::try_from(&gaps)?, 2),
        (Column::new(&[7i64; 300])?, 2),
        (Column::constant(Kind::I64, 7, 300)?, 1),
    ] {
        let message = column.to_bytes()?;
        let bytes = Table::try_from_iter([("at", column)])?.to_bytes_with(SHORT)?;
        assert_eq!(bytes[12], version);
        assert_eq!(Table::from_bytes(&bytes)?["at"].to_bytes()?, message);
    }
    Ok(())
}

#[test]
fn the_lines_of_the_page_about_tables_run() -> Result<(), TableError> {
    let folder = folder("page");
    let minutes = (0..576).map(|row| row % 288 * 10);
    let levels = minutes
        .clone()
        .map(|minute| (!(600..660).contains(&minute)).then_some(900 + minute / 720));
    let stations = (0..576).map(|row| if row < 288 { "north" } else { "south" });
    let readings = Table::try_from_iter([
        ("station", stations.collect::<Column>().encode_rows()?),
        ("minute", minutes.collect::<Column>()),
        ("level", levels.collect::<Column>().encode_rows()?),
    ])?;
    readings.save(folder.join("readings.hv"))?;

    let table = Table::load(folder.join("readings.hv"))?;
    let high = table.filter_by("level", Operator::GreaterOrEqual, 902)?;
    let high = high.select(["station", "level"])?;
    let order = Order::by("level").descending().nulls_last().then("minute");
    let sorted = table.sort_by(&order)?;
    let totals = sorted
        .sort(["station"])?
        .group_by(["station"])?
        .sum("level")?;
    let shown =
        "  station  utf8  flat  \"north\", \"south\"\n  level    i64?  flat  254232, 254232";
    assert_eq!(
        totals.to_string(),
        format!("Table: 2 rows, 2 columns\n{shown}")
    );
    assert_eq!(
        (high.rows(), high["level"].get::<i32>(0)?),
        (288, Some(902))
    );
    let twice = high.append(&high)?;
    twice.save_with(folder.join("high.hv"), SaveOptions { differences: true })?;
    assert!(Table::load_columns(folder.join("high.hv"), ["level"])? == twice.select(["level"])?);
    fs::remove_dir_all(folder).unwrap();
    Ok(())
}

#[test]
fn footers_say_which_files_to_skip() -> Result<(), TableError> {
    let folder = folder("skip");
    let path = folder.join("table.hv");
    let levels = Column::try_from([Some(5i32), None, Some(9)])?;
    let places = Column::try_from(["bay", "cape", "cape"])?;
    let nulls = Column::constant(Kind::U8.nullable(), Value::Null, 3)?;
    Table::try_from_iter([("level", levels), ("place", places), ("null", nulls)])?.save(&path)?;
    let footer = Table::footer(&path)?;
    let numbers = [
        (Operator::Greater, 9, false),
        (Operator::GreaterOrEqual, 9, true),
        (Operator::Equal, 7, true),
        (Operator::Equal, 10, false),
        (Operator::Less, 5, false),
        (Operator::LessOrEqual, 5, true),
        (Operator::NotEqual, 5, true),
        (Operator::Less, i64::MAX, true),
    ];
    for (operator, value, due) in numbers {
        assert_eq!(
            footer.may_have("level", operator, value)?,
            due,
            "{operator:?} {value}"
        );
        assert!(!footer.may_have("null", operator, value)?);
    }
    assert!(footer.may_have("place", Operator::Equal, "bee")?);
    assert!(!footer.may_have("place", Operator::Less, "bay")?);
    assert!(matches!(
        footer.may_have("where", Operator::Equal, 1),
        Err(TableError::NoSuchColumn { .. })
    ));
    assert!(matches!(
        footer.may_have("level", Operator::Equal, "x"),
        Err(TableError::Column { .. })
    ));
    fs::remove_dir_all(folder).unwrap();
    Ok(())
}

#[test]
fn footers_of_floats_know_where_numbers_may_be() -> Result<(), TableError> {
    let folder = folder("floats");
    let path = folder.join("table.hv");
    let footer_of = |rows: &[f64]| -> Result<TableFooter, TableError> {
        Table::without_columns(0)
            .with_floats("depth", &Floats::of(rows)?)?
            .save(&path)?;
        Table::footer(&path)
    };
    let with_nan = footer_of(&[1.0, 7.0, f64::NAN])?;
    assert!(with_nan.may_have("depth", Operator::Greater, 5.0)?);
    assert!(!with_nan.may_have("depth", Operator::Less, 1.0)?);
    let plain = footer_of(&[-0.0, 7.0])?;
    assert!(
        plain.may_have("depth", Operator::Equal, 0.0)?
            && !plain.may_have("depth", Operator::Greater, 7)?
    );
    let far = footer_of(&[f64::INFINITY, f64::NAN])?;
    assert!(far.may_have("depth", Operator::NotEqual, f64::INFINITY)?);
    let nans = footer_of(&[f64::NAN])?;
    assert!(
        nans.may_have("depth", Operator::NotEqual, 1.0)?
            && !nans.may_have("depth", Operator::Less, 1.0)?
    );
    fs::remove_dir_all(folder).unwrap();
    Ok(())
}

#[test]
fn times_at_regular_steps_are_short_as_differences() -> Result<(), TableError> {
    let times: Vec<i64> = (0..100_000)
        .map(|row| 1_700_000_000 + 60 * row + 3600 * (row / 25_000))
        .collect();
    let nulls = times
        .iter()
        .map(|time| (time % 70_000 > 0).then_some(*time));
    let table = Table::try_from_iter([
        ("at", Column::new(&times)?),
        (
            "far",
            (0..100_000)
                .map(|row: u64| i64::MAX as u64 + 60 * row) // the first row fits i64, as each difference does
                .collect(),
        ),
        (
            "some",
            Column::try_from(nulls.collect::<Vec<_>>())?.encode_rows()?,
        ),
        (
            "small",
            Column::new(
                &times
                    .iter()
                    .map(|time| (time / 3600 % 9) as i8)
                    .collect::<Vec<i8>>(),
            )?,
        ),
        ("place", Column::constant(Kind::UTF8, "ab", 100_000)?),
    ])?;
    let short = table.to_bytes_with(SHORT)?;
    assert!(
        short.len() < 40_000 && table.to_bytes()?.len() > 1_600_000,
        "{}",
        short.len()
    );
    let again = Table::from_bytes(&short)?;
    assert!(again == table && again.to_bytes()? == table.to_bytes()?);
    Ok(())
}
