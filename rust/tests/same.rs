//! Equal columns, copies, and columns made of iterators. Answers were worked out by hand.
use hivevigil::{Column, Error, Form, Kind, Value};

fn column() -> Result<Column, Error> {
    Column::try_from([Some(4i32), Some(4), None, None, Some(9)])
}

#[test]
fn forms_make_no_difference() -> Result<(), Error> {
    let (flat, runs) = (column()?, column()?.encode()?);
    assert_eq!((flat.form(), runs.form()), (Form::Flat, Form::Runs));
    assert!(flat.same_rows(&runs)? && runs.same_rows(&flat)?);
    assert_eq!(runs.slice(1..4)?, flat.slice(1..4)?);
    assert_eq!(runs.slice(2..4)?, Column::try_from([None::<i32>, None])?);
    let constant = Column::constant(Kind::I32.nullable(), 4, 2)?;
    assert_eq!(flat.slice(..2)?, constant);
    Ok(())
}

#[test]
fn rows_types_and_lengths_make_one() -> Result<(), Error> {
    let flat = column()?;
    let others = [
        Column::try_from([Some(4i32), Some(4), None, None, None])?,
        Column::try_from([Some(4i32), Some(4), None, Some(0), Some(9)])?,
        Column::try_from([Some(4i64), Some(4), None, None, Some(9)])?,
        flat.slice(..4)?,
    ];
    for other in others {
        assert!(!flat.same_rows(&other)?, "{other:#?}");
        assert_ne!(other.encode_rows()?, flat);
    }
    let (some, all) = (Column::try_from([Some(1u8)])?, Column::try_from([1u8])?);
    assert_ne!(some, all);
    assert_eq!(Column::try_from(&[] as &[u8])?, all.slice(1..)?);
    Ok(())
}

#[test]
fn rows_of_every_sort_are_compared() -> Result<(), Error> {
    let texts = Column::try_from([Some("ab"), None, Some("")])?;
    assert_eq!(texts.encode_rows()?, texts);
    assert_ne!(texts, Column::try_from([Some("ab"), None, None])?);
    let truths = Column::try_from([true, true, false])?;
    assert_eq!(truths.encode_rows()?, truths);
    assert_ne!(truths, Column::try_from([true, false, false])?);
    let prices = Column::decimals(&[1050, 1050, -1], 9, 2, None)?;
    assert_eq!(prices.encode_rows()?, prices);
    assert_ne!(prices, Column::decimals(&[1050, 1050, -1], 9, 1, None)?);
    Ok(())
}

#[test]
fn a_long_column_is_compared_by_its_runs() -> Result<(), Error> {
    let all = Column::constant(Kind::U8, 7, 1 << 60)?;
    assert_eq!(all, all.clone());
    assert_eq!(all.slice(..1 << 59)?, all.slice(1 << 59..)?);
    Ok(())
}

#[test]
fn copies_and_iterators_make_columns() -> Result<(), Error> {
    let runs = column()?.encode()?;
    let copy = runs.clone();
    drop(runs);
    assert_eq!((copy.form(), copy.len()), (Form::Runs, 5));
    let again: Column = [Some(4i32), Some(4), None, None, Some(9)]
        .into_iter()
        .collect();
    assert_eq!(again, copy);
    assert_eq!(again.kind(), Kind::I32.nullable());
    assert_eq!(std::iter::empty::<u8>().collect::<Column>().len(), 0);
    assert_eq!(
        ["a", "b"].into_iter().collect::<Column>().at(1)?,
        Value::from("b")
    );
    Ok(())
}

#[test]
fn hashes_are_those_of_another_program() -> Result<(), Error> {
    let numbers = Column::try_from([Some(4i64), Some(4), None, Some(-7)])?;
    let texts = Column::try_from(["Oslo", "Oslo", "Bergen"])?;
    for (column, hash) in [
        (numbers, 8325595506498645118),
        (texts, 15208884167202354170),
    ] {
        assert_eq!(column.hash_rows(), Ok(hash));
        assert_eq!(column.encode_rows()?.hash_rows(), Ok(hash));
    }
    Ok(())
}
