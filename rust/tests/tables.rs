//! The rows of tables against lists of rows.
mod table_model;

use hivevigil::{Column, Floats, Form, Kind, Operator, Order, Table, TableError, Value};
use std::cmp::Ordering;
use table_model::{compare, flat, in_some_form, model_of, random, window_of, Dice, Model};

const TABLES: u64 = 300;

/// Tries something with random tables and their models, and holds each against the model again afterwards.
fn each_table(
    seed: u64,
    check: impl Fn(&mut Dice, &Table, &Model) -> Result<(), TableError>,
) -> Result<(), TableError> {
    let mut dice = Dice(seed);
    for _ in 0..TABLES {
        let rows = [0, 1, 2, 7, 40, 90][dice.below(6)];
        let (table, model) = random(&mut dice, rows)?;
        check(&mut dice, &table, &model)?;
        assert_eq!(model_of(&table)?, model);
    }
    Ok(())
}

#[test]
fn a_table_has_its_columns_and_rows() -> Result<(), TableError> {
    each_table(1, |_, table, model| {
        assert_eq!(
            (table.rows(), table.len()),
            (model.rows(), model.names.len())
        );
        assert_eq!(table.names().collect::<Vec<_>>(), model.names);
        for (name, column) in table {
            assert!(table.column(name)? == column && &table[name] == column);
            assert_eq!(table.kind(name)?, column.kind());
        }
        for row in 0..model.rows() {
            assert_eq!(table.row(row)?, model.row(row));
        }
        let used: usize = table.iter().map(|(_, column)| column.bytes_used()).sum();
        assert_eq!(
            (table.bytes_used(), table.iter().len()),
            (used, table.len())
        );
        assert_eq!(
            table.iter().rev().map(|(name, _)| name).last(),
            table.names().next()
        );
        Ok(())
    })
}

#[test]
fn slices_have_the_rows_of_the_range() -> Result<(), TableError> {
    each_table(2, |dice, table, model| {
        let stop = dice.below(model.rows() + 1);
        let start = dice.below(stop + 1);
        let due = model.rows_where(|row| (start..stop).contains(&row));
        assert_eq!(model_of(&table.slice(start..stop)?)?, model.take(&due));
        let after = model.rows_where(|row| row >= start);
        assert_eq!(model_of(&table.slice(start..)?)?, model.take(&after));
        Ok(())
    })
}

#[test]
fn takes_have_the_rows_of_the_indices() -> Result<(), TableError> {
    each_table(3, |dice, table, model| {
        let count = if model.rows() == 0 { 0 } else { dice.below(60) };
        let mut indices: Vec<Option<usize>> = Vec::new();
        for _ in 0..count {
            indices.push(Some(dice.below(model.rows())));
        }
        let plain: Vec<u64> = indices.iter().flatten().map(|row| *row as u64).collect();
        assert_eq!(
            model_of(&table.take(&Column::new(&plain)?)?)?,
            model.take(&indices)
        );
        for index in indices.iter_mut().step_by(3) {
            *index = None;
        }
        let in_runs = Column::try_from(&indices)?.encode_rows()?;
        assert_eq!(model_of(&table.take(&in_runs)?)?, model.take(&indices));
        Ok(())
    })
}

#[test]
fn filters_keep_the_rows_where_the_mask_is_true() -> Result<(), TableError> {
    each_table(4, |dice, table, model| {
        let kind = [Kind::BOOL, Kind::BOOL.nullable()][dice.below(2)];
        let mask = table_model::random_rows(dice, kind, model.rows());
        let due = model.rows_where(|row| mask[row] == Value::Truth(true));
        let mask = in_some_form(dice, kind, &mask)?;
        assert_eq!(model_of(&table.filter(&mask)?)?, model.take(&due));
        Ok(())
    })
}

#[test]
fn filters_by_a_value_keep_the_rows_that_meet_it() -> Result<(), TableError> {
    type Holds = fn(Ordering) -> bool;
    const OPERATORS: [(Operator, Holds); 6] = [
        (Operator::Equal, Ordering::is_eq),
        (Operator::NotEqual, Ordering::is_ne),
        (Operator::Greater, Ordering::is_gt),
        (Operator::GreaterOrEqual, Ordering::is_ge),
        (Operator::Less, Ordering::is_lt),
        (Operator::LessOrEqual, Ordering::is_le),
    ];
    each_table(5, |dice, table, model| {
        let place = dice.below(model.names.len());
        let rows = &model.columns[place];
        let Some(value) = rows.iter().find(|row| **row != Value::Null) else {
            return Ok(());
        };
        let (operator, holds) = OPERATORS[dice.below(6)];
        let due =
            model.rows_where(|row| rows[row] != Value::Null && holds(compare(&rows[row], value)));
        let kept = table.filter_by(&model.names[place], operator, value)?;
        assert_eq!(model_of(&kept)?, model.take(&due));
        Ok(())
    })
}

#[test]
fn rows_with_null_in_named_columns_are_dropped() -> Result<(), TableError> {
    each_table(10, |dice, table, model| {
        let mut places: Vec<usize> = (0..model.names.len()).collect();
        places.rotate_left(dice.below(model.names.len()));
        places.truncate(dice.below(3));
        let names: Vec<&String> = places.iter().map(|place| &model.names[*place]).collect();
        if places.is_empty() {
            places.extend(0..model.names.len()); // no name means all columns
        }
        let is_valid = |row: usize| {
            let mut rows = places.iter().map(|place| &model.columns[*place][row]);
            rows.all(|value| *value != Value::Null)
        };
        let due = model.rows_where(is_valid);
        assert_eq!(model_of(&table.drop_null(names)?)?, model.take(&due));
        Ok(())
    })
}

#[test]
fn appended_rows_come_after() -> Result<(), TableError> {
    each_table(6, |dice, table, model| {
        let rows = dice.below(30);
        let (mut columns, mut lists) = (Vec::new(), Vec::new());
        for (name, column) in table {
            let kind = [column.kind().not_nullable(), column.kind().nullable()][dice.below(2)];
            let list = table_model::random_rows(dice, kind, rows);
            columns.push((name, in_some_form(dice, kind, &list)?));
            lists.push(list);
        }
        columns.reverse(); // the order of the columns is that of the first table
        let joined = table.append(&Table::try_from_iter(columns)?)?;
        let due = model
            .columns
            .iter()
            .zip(&lists)
            .map(|(first, next)| [&first[..], next].concat());
        let (names, columns) = (model.names.clone(), due.collect());
        assert_eq!(model_of(&joined)?, Model { names, columns });
        assert_eq!(joined.rows(), model.rows() + rows);
        Ok(())
    })
}

#[test]
fn sorted_rows_are_those_of_a_stable_sort() -> Result<(), TableError> {
    each_table(7, |dice, table, model| {
        let mut places: Vec<usize> = (0..model.names.len()).collect();
        places.rotate_left(dice.below(model.names.len()));
        places.truncate(1 + dice.below(2));
        let flags: Vec<(bool, bool)> = places
            .iter()
            .map(|_| (dice.below(2) == 0, dice.below(2) == 0))
            .collect();
        let mut due: Vec<Option<usize>> = model.rows_where(|_| true);
        due.sort_by(|left, right| {
            let (left, right) = (left.unwrap(), right.unwrap());
            let orders = places.iter().zip(&flags).map(|(place, flags)| {
                let rows = &model.columns[*place];
                in_order(&rows[left], &rows[right], *flags)
            });
            orders.fold(Ordering::Equal, Ordering::then)
        });
        let mut order: Option<Order> = None;
        for (place, (is_descending, has_nulls_last)) in places.iter().zip(&flags) {
            let name = &model.names[*place];
            let mut next = match order {
                None => Order::by(name),
                Some(before) => before.then(name),
            };
            next = if *is_descending {
                next.descending()
            } else {
                next
            };
            order = Some(if *has_nulls_last {
                next.nulls_last()
            } else {
                next
            });
        }
        let sorted = table.sort_by(&order.unwrap())?;
        assert_eq!(model_of(&sorted)?, model.take(&due));
        for (name, column) in table {
            match column.form() {
                Form::Runs => assert_ne!(sorted[name].form(), Form::Constant),
                form => assert_eq!(sorted[name].form(), form), // nothing is put in runs
            }
        }
        Ok(())
    })
}

/// Compares rows by whether they are in descending order, and whether nulls come last.
fn in_order(left: &Value, right: &Value, flags: (bool, bool)) -> Ordering {
    let (left_null, right_null) = (*left == Value::Null, *right == Value::Null);
    let nulls = if flags.1 {
        left_null.cmp(&right_null)
    } else {
        right_null.cmp(&left_null)
    };
    match (left_null || right_null, flags.0) {
        (true, _) => nulls,
        (false, true) => compare(right, left),
        (false, false) => compare(left, right),
    }
}

#[test]
fn sorts_by_names_are_from_the_least_row_with_null_first() -> Result<(), TableError> {
    each_table(8, |_, table, model| {
        let mut due = model.rows_where(|_| true);
        let rows = &model.columns[0];
        due.sort_by(|left, right| {
            in_order(&rows[left.unwrap()], &rows[right.unwrap()], (false, false))
        });
        assert_eq!(model_of(&table.sort([&model.names[0]])?)?, model.take(&due));
        Ok(())
    })
}

#[test]
fn a_table_is_appended_to_itself_and_filtered_by_its_own_column() -> Result<(), TableError> {
    each_table(11, |dice, table, model| {
        let twice = [&model.rows_where(|_| true)[..], &model.rows_where(|_| true)].concat();
        assert_eq!(model_of(&table.append(table)?)?, model.take(&twice));
        let open = table_model::random_rows(dice, Kind::BOOL, model.rows());
        let more = table.with_column("open", in_some_form(dice, Kind::BOOL, &open)?)?;
        let kept = more.filter(&more["open"])?.without(["open"])?;
        let due = model.rows_where(|row| open[row] == Value::Truth(true));
        assert_eq!(model_of(&kept)?, model.take(&due));
        Ok(())
    })
}

#[test]
fn long_stretches_are_taken_by_runs() -> Result<(), TableError> {
    let mut dice = Dice(9);
    let rows = 60_000;
    let stations: Vec<String> = (0..rows)
        .map(|row| format!("station {}", row / 2000 % 7))
        .collect();
    let levels: Vec<Option<i32>> = (0..rows)
        .map(|row| (row % 4000 > 50).then_some(row / 700))
        .collect();
    let longer = [&[Some(-1); 900][..], &levels, &[None; 3]].concat();
    // the first run ends where the window begins
    let in_a_window = window_of(
        &Column::try_from(&longer)?.encode_rows()?,
        900,
        rows as usize,
    )?;
    let table = Table::try_from_iter([
        ("station", Column::try_from(&stations)?.encode_rows()?),
        ("level", in_a_window),
        ("row", Column::new(&(0..rows).collect::<Vec<i32>>())?),
        ("same", Column::constant(Kind::UTF8, "x", rows as usize)?),
    ])?;
    let sorted = table.sort(["station"])?;
    let mut due: Vec<usize> = (0..rows as usize).collect();
    due.sort_by_key(|row| &stations[*row]);
    for _ in 0..2000 {
        let at = dice.below(rows as usize);
        let row = due[at];
        let level = levels[row].map_or(Value::Null, Value::from);
        let found = [
            Value::from(&stations[row][..]),
            level,
            Value::from(row as i32),
            Value::from("x"),
        ];
        assert_eq!(sorted.row(at)?, found);
    }
    assert_eq!(sorted["station"].runs()?.len(), 7);
    assert_eq!(sorted["same"].form(), Form::Constant);
    Ok(())
}

#[test]
fn columns_are_chosen_renamed_and_replaced() -> Result<(), TableError> {
    let table = Table::try_from_iter([
        ("a", Column::new(&[1u8, 2])?),
        ("b", Column::new(&[3u8, 4])?),
        ("c", Column::new(&[5u8, 6])?),
    ])?;
    let names = |table: &Table| table.names().collect::<Vec<_>>().join(",");
    let table = table.with_logical_type("b", "tts")?;
    assert_eq!(names(&table.select(["c", "a"])?), "c,a");
    assert_eq!(names(&table.without(["b"])?), "a,c");
    let swapped = table.rename([("a", "b"), ("b", "a")])?;
    assert_eq!(
        (
            names(&swapped).as_str(),
            swapped.logical_type("a")?.as_deref()
        ),
        ("b,a,c", Some("tts"))
    );
    assert_eq!(
        (swapped["b"].numbers::<u8>()?, swapped["a"].numbers::<u8>()?),
        (vec![1, 2], vec![3, 4])
    );
    let replaced = table.with_column("b", Column::new(&[7i64, 8])?)?;
    assert_eq!(
        (
            names(&replaced).as_str(),
            replaced.logical_type("b")?.as_deref()
        ),
        ("a,b,c", None)
    );
    let more = replaced.with_column("d", Column::new(&[9u8, 9])?)?;
    assert_eq!((names(&more).as_str(), replaced.len()), ("a,b,c,d", 3));
    assert!(table.with_logical_type("b", "")? != table && table.select(["a", "b", "c"])? == table);
    Ok(())
}

#[test]
fn a_table_without_columns_has_rows() -> Result<(), TableError> {
    let table = Table::without_columns(7);
    assert_eq!((table.rows(), table.len(), table.is_empty()), (7, 0, true));
    let mask = flat(
        Kind::BOOL,
        &[true, false, true, true, false, false, false].map(Value::Truth),
    )?;
    assert_eq!(table.filter(&mask)?.rows(), 3);
    assert_eq!(
        (table.slice(2..)?.rows(), table.append(&table)?.rows()),
        (5, 14)
    );
    assert_eq!(table.take(&Column::new(&[6u8, 6])?)?.rows(), 2);
    assert!(table.slice(..8).is_err() && table.with_column("a", Column::new(&[1u8])?).is_err());
    assert_eq!(
        Table::without_columns(0)
            .with_column("a", Column::new(&[1u8])?)?
            .rows(),
        1
    );
    let none = Table::try_from_iter(Vec::<(String, Column)>::new())?;
    assert!(
        none == Table::without_columns(0)
            && none != table
            && table.select(&[] as &[&str])? == table
    );
    Ok(())
}

#[test]
fn logical_types_stay_with_their_columns() -> Result<(), TableError> {
    let times = Column::new(&[30i64, 10, 20])?;
    let table = Table::try_from_iter([("at", times), ("level", Column::new(&[1u8, 1, 2])?)])?;
    let table = table.with_logical_type("at", "tsu:UTC")?;
    let mask = Column::try_from([true, false, true])?;
    for made in [
        table.slice(1..)?,
        table.take(&Column::new(&[0u8, 2])?)?,
        table.filter(&mask)?,
        table.append(&table)?,
        table.sort(["at"])?,
        table.select(["level", "at"])?,
        table.encode_rows()?,
        table.group_by(["level"])?.max("at")?,
        table.group_by(["at"])?.count("level")?,
        table.try_clone()?,
        Table::from_bytes(&table.to_bytes()?)?,
    ] {
        assert_eq!(
            (
                made.logical_type("at")?.as_deref(),
                made["level"].logical_type()
            ),
            (Some("tsu:UTC"), None)
        );
    }
    Ok(())
}

#[test]
fn floats_are_compared_and_sorted_as_floats() -> Result<(), TableError> {
    let depths = [1.5, -0.0, f64::NAN, 0.0, -7.25, f64::INFINITY, 1.5e300];
    let table = Table::try_from_iter([("row", Column::new(&[0u8, 1, 2, 3, 4, 5, 6])?)])?;
    let table = table.with_floats("depth", &Floats::of(&depths)?)?;
    let rows = |table: &Table| table["row"].numbers::<u8>();
    let by = |operator, value: f64| {
        rows(&table.filter_by("depth", operator, value)?).map_err(TableError::from)
    };
    assert_eq!(by(Operator::Equal, 0.0)?, [1, 3]);
    assert_eq!(by(Operator::Greater, 1.5)?, [5, 6]);
    assert_eq!(by(Operator::NotEqual, 1.5)?, [1, 2, 3, 4, 5, 6]);
    assert_eq!(by(Operator::LessOrEqual, f64::NAN)?, []);
    let by = |operator, value: i64| {
        rows(&table.filter_by("depth", operator, value)?).map_err(TableError::from)
    };
    assert_eq!(
        (by(Operator::GreaterOrEqual, 0)?, by(Operator::Less, 1)?),
        (vec![0, 1, 3, 5, 6], vec![1, 3, 4])
    );
    assert_eq!(rows(&table.sort(["depth"])?)?, [4, 1, 3, 0, 6, 5, 2]);
    assert_eq!(table.floats::<f64>("depth")?.at(6)?, Some(1.5e300));
    assert_eq!(table.logical_type("depth")?.as_deref(), Some("g"));
    let again = Table::from_bytes(&table.to_bytes()?)?;
    assert!(again == table && again.floats::<f64>("depth")?.at(4)? == Some(-7.25));
    Ok(())
}

#[test]
fn floats_of_32_bits_are_compared_with_doubles_and_integers() -> Result<(), TableError> {
    let table = Table::without_columns(0)
        .with_floats("low", &Floats::of(&[0.1f32, 16_777_216.0, -3.0])?)?;
    let count =
        |operator, value: f64| Ok::<_, TableError>(table.filter_by("low", operator, value)?.rows());
    assert_eq!(
        (count(Operator::Equal, 0.1)?, count(Operator::Greater, 0.1)?),
        (0, 2)
    ); // 0.1f32 is above 0.1
    assert_eq!(table.filter_by("low", Operator::Equal, 0.1f32)?.rows(), 1);
    assert_eq!(
        table.filter_by("low", Operator::Less, 16_777_217)?.rows(),
        3
    );
    Ok(())
}

#[test]
fn an_integer_between_two_floats_is_decided_exactly() -> Result<(), TableError> {
    use Operator::{Equal, Greater, GreaterOrEqual, Less, LessOrEqual, NotEqual};
    let first = 1i64 << 53; // from here on each second integer is a float
    for row in [first, first + 2, first + 4] {
        let floats = Floats::of(&[row as f64])?;
        let table = Table::without_columns(0).with_floats("far", &floats)?;
        for odd in [first + 1, first + 3] {
            let holds =
                |operator| Ok::<_, TableError>(table.filter_by("far", operator, odd)?.rows() == 1);
            assert_eq!((holds(Less)?, holds(LessOrEqual)?), (row < odd, row < odd));
            assert_eq!(
                (holds(Greater)?, holds(GreaterOrEqual)?),
                (row > odd, row > odd)
            );
            assert_eq!((holds(Equal)?, holds(NotEqual)?), (false, true));
        }
    }
    Ok(())
}

#[test]
fn equal_tables_have_equal_names_types_and_rows() -> Result<(), TableError> {
    each_table(10, |_, table, _| {
        assert!(table.encode_rows()? == *table && table.clone() == *table);
        if table.rows() > 0 {
            assert!(table.slice(1..)? != *table);
        }
        let first = table.names().next().unwrap_or_default();
        assert!(table.rename([(first, "another")])? != *table);
        assert!(table.with_logical_type(first, "tdD")? != *table);
        Ok(())
    })
}

#[test]
fn a_table_is_shown_by_its_columns() -> Result<(), TableError> {
    let levels: Vec<Option<i64>> = (0..40).map(|row| (row != 1).then_some(row / 20)).collect();
    let table = Table::try_from_iter([
        ("level", Column::try_from(&levels)?.encode_rows()?),
        (
            "two\nlines, and quite a long name",
            Column::constant(Kind::UTF8, "north", 40)?,
        ),
    ])?;
    let floats = Floats::of(&[&[0.5, f64::NAN][..], &[2.0; 38]].concat())?;
    let table = table
        .with_floats("depth", &floats)?
        .with_logical_type("level", "tts")?;
    let lines = [
        "Table: 40 rows, 3 columns",
        "  level                     i64? tts  in 4 runs  0, null, 0, 0, 0, ..",
        "  \"two\\nlines, and quite..  utf8      constant   \"north\", \"north\", \"north\", \"north\", \"north\", ..",
        "  depth                     i64 g     in 3 runs  0.5, NaN, 2.0, 2.0, 2.0, ..",
    ];
    assert_eq!(table.to_string(), lines.join("\n"));
    assert_eq!(format!("{table:?}"), lines.join("\n"));
    assert_eq!(
        Table::without_columns(1).to_string(),
        "Table: 1 row, 0 columns"
    );
    let many = (0..22).map(|place| (place.to_string(), Column::constant(Kind::U8, 7, 1)));
    let many: Vec<(String, Column)> = many
        .map(|(name, column)| Ok((name, column?)))
        .collect::<Result<_, TableError>>()?;
    assert!(Table::try_from_iter(many)?
        .to_string()
        .ends_with("\n  and 2 more columns"));
    Ok(())
}

#[test]
fn tables_go_to_other_threads() -> Result<(), TableError> {
    let table = Table::try_from_iter([("level", Column::new(&[4u8; 1000])?.encode()?)])?;
    let parts = [table.slice(..300)?, table.slice(300..)?];
    let threads =
        parts.map(|part| std::thread::spawn(move || part.group_by(["level"])?.sum("level")));
    for thread in threads {
        let refused = thread.join().unwrap().unwrap_err();
        assert!(matches!(refused, TableError::RepeatedName(name) if name == "level"));
    }
    Ok(())
}

#[test]
fn tables_of_lists_go_to_other_threads() -> Result<(), TableError> {
    let mut message = vec![8, 1, 16, 13, 24, 4, 32, 3, 40, 1]; // three lists of u8, as docs/column.proto has them
    for (key, part) in [
        (138, Column::new(&[7u8, 8])?),
        (146, Column::new(&[0u64, 0, 1])?), // where each begins
        (154, Column::new(&[2u64, 1, 1])?), // how many items it has
    ] {
        let part = part.to_bytes()?;
        message.extend([key, 1, part.len() as u8]);
        message.extend(part);
    }
    let table = Table::try_from_iter([
        ("list", Column::from_bytes(&message)?),
        ("row", Column::new(&[0u8, 1, 2])?),
    ])?;
    let work = |table: Table| {
        let due = table.take(&Column::new(&[2u8, 2])?)?;
        for _ in 0..200 {
            let last = table.slice(1..)?.append(&table.try_clone()?)?;
            let last = last.sort(["row"])?.filter_by("row", Operator::Equal, 2)?;
            assert_eq!(last, due);
        }
        Ok(())
    };
    let copies = [0; 4].map(|_| table.clone());
    let threads = copies.map(|copy| std::thread::spawn(move || work(copy)));
    drop(table);
    for thread in threads {
        thread.join().unwrap().map_err(|error: TableError| error)?;
    }
    Ok(())
}
