//! What tables refuse, each as what it is, and what stays as it was.
use hivevigil::{
    Column, Difference, Error, ErrorKind, Floats, Fold, Kind, Operator, Order, Table, TableError,
};

fn readings() -> Result<Table, Error> {
    let table = Table::try_from_iter([
        ("station", Column::try_from(["north", "north", "south"])?),
        ("level", Column::try_from([Some(900i32), None, Some(40)])?),
    ]);
    Ok(table.unwrap())
}

/// Makes a column of lists, all null, of as many rows.
fn lists(rows: u8) -> Result<Column, Error> {
    let message = [
        8, 1, 0x10, 0x0d, 0x18, 3, 0x20, rows, 0x28, 3, 0x3a, 0, 0xa0, 1, 6, 0xa8, 1, 2,
    ];
    Column::from_bytes(&message)
}

/// Returns what is refused of all rows.
fn refused<T>(answer: Result<T, TableError>) -> ErrorKind {
    match answer.map(drop) {
        Err(TableError::Refused(error)) => error.kind().unwrap(),
        other => panic!("{other:?}"),
    }
}

/// Returns what is refused of a column.
fn refused_of<T>(name: &str, answer: Result<T, TableError>) -> ErrorKind {
    match answer.map(drop) {
        Err(TableError::Column { name: found, error }) if found == name => error.kind().unwrap(),
        other => panic!("{other:?}"),
    }
}

fn is_no_such<T>(name: &str, answer: Result<T, TableError>) -> bool {
    let due = ["station", "level"];
    matches!(answer, Err(TableError::NoSuchColumn { name: found, names }) if found == name && names == due)
}

fn is_repeated<T>(name: &str, answer: Result<T, TableError>) -> bool {
    matches!(answer, Err(TableError::RepeatedName(found)) if found == name)
}

#[test]
fn columns_have_other_names_and_one_number_of_rows() -> Result<(), Error> {
    let two = || Column::new(&[1u8, 2]);
    assert!(is_repeated(
        "a",
        Table::try_from_iter([("a", two()?), ("b", two()?), ("a", two()?)])
    ));
    let uneven = Table::try_from_iter([("a", two()?), ("b", Column::new(&[1u8])?)]).unwrap_err();
    assert!(
        matches!(&uneven, TableError::UnevenRows { name, rows: 1, expected: 2 } if name == "b")
    );
    assert_eq!(
        uneven.to_string(),
        "column \"b\" has 1 rows, and the table 2"
    );
    let table = readings()?;
    assert!(matches!(
        table.with_column("level", two()?),
        Err(TableError::UnevenRows {
            rows: 2,
            expected: 3,
            ..
        })
    ));
    assert!(matches!(
        table.with_floats("x", &Floats::of(&[1.0])?),
        Err(TableError::UnevenRows { .. })
    ));
    assert_eq!(table, readings()?);
    Ok(())
}

#[test]
fn names_that_no_column_has_are_refused() -> Result<(), Error> {
    let table = readings()?;
    assert!(is_no_such("depth", table.column("depth").map(drop)));
    assert!(is_no_such("depth", table.kind("depth")));
    assert!(is_no_such("depth", table.logical_type("depth").map(drop)));
    assert!(is_no_such("depth", table.with_logical_type("depth", "tdD")));
    assert!(is_no_such("depth", table.floats::<f64>("depth").map(drop)));
    assert!(is_no_such("depth", table.select(["level", "depth"])));
    assert!(is_no_such("depth", table.without(["depth"])));
    assert!(is_no_such("depth", table.rename([("depth", "level")])));
    assert!(is_no_such(
        "depth",
        table.filter_by("depth", Operator::Equal, 1)
    ));
    assert!(is_no_such("depth", table.drop_null(["level", "depth"])));
    assert!(is_no_such("depth", table.sort(["level", "depth"])));
    assert!(is_no_such("depth", table.group_by(["depth"]).map(drop)));
    let groups = table.group_by(["station"]).unwrap();
    assert!(is_no_such("depth", groups.sum("depth")));
    let said = "no column has the name \"depth\": the names are [\"station\", \"level\"]";
    assert_eq!(table.column("depth").unwrap_err().to_string(), said);
    assert!(table.get("depth").is_none() && table.get("level").is_some());
    assert_eq!(table, readings()?);
    Ok(())
}

#[test]
#[should_panic(expected = "no column has the name \"depth\"")]
fn an_index_panics_where_there_is_no_column() {
    let _ = &readings().unwrap()["depth"];
}

#[test]
fn names_that_come_twice_are_refused() -> Result<(), Error> {
    let table = readings()?;
    assert!(is_repeated("level", table.select(["level", "level"])));
    let names = ["depth", "level", "level"]; // which is refused before a name that no column has
    assert!(is_repeated("level", table.select(names)));
    assert!(is_repeated("level", table.drop_null(names)));
    assert!(is_repeated("level", table.sort(names)));
    assert!(is_repeated("level", table.group_by(names).map(drop)));
    assert!(is_repeated("station", table.rename([("level", "station")])));
    assert!(is_repeated(
        "level",
        table.rename([("level", "a"), ("level", "b")])
    ));
    assert!(is_repeated("level", table.sort(["level", "level"])));
    assert!(is_repeated(
        "level",
        table.group_by(["level", "level"]).map(drop)
    ));
    let groups = table.group_by(["station"]).unwrap();
    assert!(is_repeated("station", groups.count("station")));
    assert!(is_repeated(
        "x",
        groups.agg([("x", "level", Fold::Sum), ("x", "level", Fold::Count)])
    ));
    assert!(groups.agg([("stations", "station", Fold::Count)]).is_ok());
    assert_eq!(table, readings()?);
    Ok(())
}

#[test]
fn masks_indices_and_ranges_are_refused_for_all_rows() -> Result<(), Error> {
    let table = readings()?;
    let numbers = |items: &[i64]| Column::new(items);
    assert_eq!(
        refused(table.filter(&Column::try_from([true, false])?)),
        ErrorKind::MaskLength
    );
    assert_eq!(
        refused(table.filter(&numbers(&[1, 0, 1])?)),
        ErrorKind::TypeMismatch
    );
    assert_eq!(
        refused(table.take(&numbers(&[0, 3])?)),
        ErrorKind::OutOfBounds
    );
    assert_eq!(
        refused(table.take(&numbers(&[-1])?)),
        ErrorKind::OutOfBounds
    );
    assert_eq!(
        refused(table.take(&Column::try_from([true])?)),
        ErrorKind::TypeMismatch
    );
    assert_eq!(refused(table.slice(2..4)), ErrorKind::BadRange);
    #[allow(clippy::reversed_empty_ranges)]
    let reversed = table.slice(2..1);
    assert_eq!(refused(reversed), ErrorKind::BadRange);
    assert_eq!(refused(table.row(3)), ErrorKind::OutOfBounds);
    assert_eq!(
        table.row(3).unwrap_err().to_string(),
        "row 3 is not among 3 rows"
    );
    let none = Table::without_columns(3);
    assert_eq!(
        refused(none.filter(&Column::try_from([true])?)),
        ErrorKind::MaskLength
    );
    assert_eq!(refused(none.take(&numbers(&[3])?)), ErrorKind::OutOfBounds);
    assert_eq!(refused(none.row(3)), ErrorKind::OutOfBounds);
    let all = Table::without_columns(usize::MAX);
    assert_eq!(refused(all.append(&none)), ErrorKind::WindowOverflow);
    assert_eq!(table, readings()?);
    Ok(())
}

#[test]
fn what_a_column_does_not_serve_is_refused_by_its_name() -> Result<(), Error> {
    let table = readings()?.with_column("list", lists(3)?).unwrap();
    assert_eq!(
        refused_of("level", table.filter_by("level", Operator::Less, "x")),
        ErrorKind::TypeMismatch
    );
    assert_eq!(
        refused_of("station", table.filter_by("station", Operator::Less, 0.5)),
        ErrorKind::TypeMismatch
    );
    assert_eq!(
        refused_of("station", table.filter_by("station", Operator::Less, 1)),
        ErrorKind::TypeMismatch
    );
    assert_eq!(
        refused_of("list", table.sort(["list"])),
        ErrorKind::Unsupported
    );
    assert_eq!(
        refused_of("list", table.group_by(["list"]).map(drop)),
        ErrorKind::Unsupported
    );
    let groups = table.group_by(["level"]).unwrap();
    assert_eq!(
        refused_of("list", groups.first("list")),
        ErrorKind::Unsupported
    );
    assert_eq!(
        refused_of("list", groups.max("list")),
        ErrorKind::Unsupported
    );
    assert_eq!(
        refused_of("station", groups.sum("station")),
        ErrorKind::Unsupported
    );
    assert_eq!(
        refused_of("level", table.floats::<f32>("level").map(drop)),
        ErrorKind::TypeMismatch
    );
    let floats = table
        .with_floats("depth", &Floats::of(&[1.0, 2.0, 3.0])?)
        .unwrap();
    assert_eq!(
        refused_of("depth", floats.floats::<f32>("depth").map(drop)),
        ErrorKind::TypeMismatch
    );
    assert_eq!(
        refused_of("depth", floats.filter_by("depth", Operator::Less, true)),
        ErrorKind::TypeMismatch
    );
    let said = "column \"station\": utf8 has no sum";
    assert_eq!(groups.sum("station").unwrap_err().to_string(), said);
    assert_eq!(table.sort(["level"]).unwrap()["list"].len(), 3); // lists are carried along
    assert_eq!(
        table.slice(1..).unwrap().append(&table).unwrap()["list"].len(),
        5
    );
    Ok(())
}

#[test]
fn times_have_no_sum_and_durations_have() {
    let table = readings().unwrap();
    let levels = table["level"].cast(Kind::I64.nullable()).unwrap();
    let table = table.with_column("level", levels).unwrap();
    let times = table.with_logical_type("level", "tsu:UTC").unwrap();
    let said =
        "column \"level\": dates, times of day and timestamps have no sum, and durations have one";
    let refused = times.group_by(["station"]).unwrap().sum("level");
    assert_eq!(refused.unwrap_err().to_string(), said);
    let gaps = table.with_logical_type("level", "tDs").unwrap();
    let sums = gaps.group_by(["station"]).unwrap().sum("level").unwrap();
    assert_eq!(
        sums["level"].options::<i64>().unwrap(),
        [Some(900), Some(40)]
    );
}

#[test]
fn no_keys_are_refused() -> Result<(), Error> {
    let (table, none) = (readings()?, &[] as &[&str]);
    assert!(matches!(table.sort(none), Err(TableError::NoKeys)));
    assert!(matches!(
        table.group_by(none).map(drop),
        Err(TableError::NoKeys)
    ));
    assert!(table.sort_by(&Order::by("level")).is_ok());
    Ok(())
}

#[test]
fn tables_of_other_columns_are_not_appended() -> Result<(), Error> {
    let table = readings()?;
    let difference = |other: &Table| match table.append(other) {
        Err(TableError::OtherColumns(difference)) => difference,
        other => panic!("{other:?}"),
    };
    let only = |name: &str| table.select([name]).unwrap();
    assert_eq!(
        difference(&only("level")),
        Difference::OnlyFirst("station".into())
    );
    let more = table
        .with_column("depth", Column::new(&[1u8, 2, 3])?)
        .unwrap();
    assert_eq!(difference(&more), Difference::OnlyOther("depth".into()));
    let wide = table
        .with_column("level", Column::new(&[1i64, 2, 3])?)
        .unwrap();
    let (first, other) = (Kind::I32.nullable(), Kind::I64);
    assert_eq!(
        difference(&wide),
        Difference::Kinds {
            name: "level".into(),
            first,
            other
        }
    );
    let typed = table.with_logical_type("level", "tts").unwrap();
    let (name, first, other) = ("level".to_string(), None, Some("tts".to_string()));
    assert_eq!(
        difference(&typed),
        Difference::LogicalTypes { name, first, other }
    );
    let said = "the tables have other columns: the logical types of \"level\" are none and tts";
    assert_eq!(table.append(&typed).unwrap_err().to_string(), said);
    assert_eq!(table, readings()?);
    Ok(())
}

#[test]
fn refusals_name_their_source() -> Result<(), Error> {
    use std::error::Error as _;
    let refused = readings()?
        .filter_by("level", Operator::Less, "x")
        .unwrap_err();
    assert_eq!(
        refused.source().unwrap().to_string(),
        "i32? is not compared with a text"
    );
    assert!(TableError::NoKeys.source().is_none());
    let missing = Table::load("/nowhere/at/all.hv").unwrap_err();
    assert!(missing.source().is_some() && missing.to_string().starts_with("/nowhere/at/all.hv: "));
    Ok(())
}
