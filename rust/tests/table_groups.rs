//! Groups of tables against loops over the rows.
mod table_model;

use hivevigil::{Column, Decimal, ErrorKind, Floats, Fold, Form, Kind, Table, TableError, Value};
use table_model::{compare, model_of, number, random, Dice, Model};

const FOLDS: [Fold; 7] = [
    Fold::Sum,
    Fold::Rows,
    Fold::Count,
    Fold::Least,
    Fold::Greatest,
    Fold::First,
    Fold::Last,
];

/// Cuts rows where one of the keys changes.
fn groups_of(model: &Model, keys: &[usize]) -> Vec<Vec<usize>> {
    let mut groups: Vec<Vec<usize>> = Vec::new();
    for row in 0..model.rows() {
        let is_same = |before: usize| {
            keys.iter()
                .all(|key| model.columns[*key][before] == model.columns[*key][row])
        };
        match groups.last_mut() {
            Some(group) if is_same(group[0]) => group.push(row),
            _ => groups.push(vec![row]),
        }
    }
    groups
}

/// Answers what is asked of rows; `None` for a sum that is refused.
fn answer(fold: Fold, kind: Kind, rows: &[&Value]) -> Option<Value> {
    let valid: Vec<&Value> = rows
        .iter()
        .copied()
        .filter(|row| **row != Value::Null)
        .collect();
    let or_null = |row: Option<&Value>| Some(row.cloned().unwrap_or(Value::Null));
    match fold {
        Fold::Rows => Some(Value::Unsigned(rows.len() as u64)),
        Fold::Count => Some(Value::Unsigned(valid.len() as u64)),
        Fold::First => or_null(valid.first().copied()),
        Fold::Last => or_null(valid.last().copied()),
        Fold::Least => or_null(valid.into_iter().min_by(|left, right| compare(left, right))),
        Fold::Greatest => or_null(valid.into_iter().max_by(|left, right| compare(left, right))),
        Fold::Sum if valid.is_empty() => Some(Value::Null),
        Fold::Sum => {
            let sum: i128 = valid.into_iter().map(number).sum();
            match kind.not_nullable() {
                kind if kind.is_signed() => Some(Value::Signed(sum as i64)),
                kind if kind.is_unsigned() => u64::try_from(sum).ok().map(Value::Unsigned),
                kind => Some(Value::Decimal(Decimal::new(sum, kind.scale))),
            }
        }
    }
}

#[test]
fn groups_answer_as_loops_over_their_rows() -> Result<(), TableError> {
    let mut dice = Dice(31);
    let mut tried = 0;
    for _ in 0..600 {
        let rows = [0, 1, 6, 50][dice.below(4)];
        let (table, model) = random(&mut dice, rows)?;
        let mut keys: Vec<usize> = (0..model.names.len()).collect();
        keys.rotate_left(dice.below(model.names.len()));
        keys.truncate(1 + dice.below(3));
        let (asked, fold) = (dice.below(model.names.len()), FOLDS[dice.below(7)]);
        let kind = table[&model.names[asked]].kind();
        let groups = groups_of(&model, &keys);
        let answers = groups.iter().map(|group| {
            let rows: Vec<&Value> = group
                .iter()
                .map(|row| &model.columns[asked][*row])
                .collect();
            answer(fold, kind, &rows)
        });
        let made = table.group_by(keys.iter().map(|key| &model.names[*key]))?;
        assert_eq!(
            (made.len(), made.is_empty()),
            (groups.len(), groups.is_empty())
        );
        let found = made.agg([("answer", &model.names[asked][..], fold)]);
        let is_summed = kind.is_decimal() || kind.is_signed() || kind.is_unsigned();
        let due = answers
            .collect::<Option<Vec<Value>>>()
            .filter(|_| fold != Fold::Sum || is_summed);
        let Some(due) = due else {
            assert!(
                matches!(found, Err(TableError::Column { name, .. }) if name == model.names[asked])
            );
            continue;
        };
        let found = found?;
        let firsts: Vec<Option<usize>> = groups.iter().map(|group| Some(group[0])).collect();
        let mut expected = model.take(&firsts);
        expected.names = keys
            .iter()
            .map(|key| model.names[*key].clone())
            .chain(["answer".into()])
            .collect();
        expected.columns = keys
            .iter()
            .map(|key| expected.columns[*key].clone())
            .chain([due])
            .collect();
        assert_eq!(model_of(&found)?, expected);
        assert!(found.iter().all(|(_, column)| column.form() == Form::Flat));
        assert_eq!(model_of(&table)?, model);
        tried += 1;
    }
    assert!(tried > 400, "{tried}");
    Ok(())
}

#[test]
fn each_call_is_named_by_its_column() -> Result<(), TableError> {
    let table = Table::try_from_iter([
        ("station", Column::try_from(["n", "n", "s"])?.encode_rows()?),
        ("level", Column::try_from([Some(9i16), Some(4), None])?),
    ])?;
    let groups = table.group_by(["station"])?;
    let rows = |table: &Table, name: &str| table[name].rows().collect::<Result<Vec<Value>, _>>();
    assert_eq!(
        rows(&groups.size()?, "size")?,
        [Value::Unsigned(2), Value::Unsigned(1)]
    );
    let (first, last) = (Value::Signed(9), Value::Signed(4));
    for (found, due) in [
        (groups.sum("level")?, Value::Signed(13)),
        (groups.min("level")?, last.clone()),
        (groups.max("level")?, first.clone()),
        (groups.first("level")?, first),
        (groups.last("level")?, last),
    ] {
        assert_eq!(found.names().collect::<Vec<_>>(), ["station", "level"]);
        assert_eq!(rows(&found, "level")?, [due, Value::Null]);
        assert_eq!(
            rows(&found, "station")?,
            [Value::from("n"), Value::from("s")]
        );
    }
    assert_eq!(
        rows(&groups.count("level")?, "level")?,
        [Value::Unsigned(2), Value::Unsigned(0)]
    );
    Ok(())
}

#[test]
fn sums_of_floats_are_rounded_once_and_nan_is_left_out_of_the_least() -> Result<(), TableError> {
    let keys = Column::new(&[1u8, 1, 1, 2, 2, 3])?;
    let rows = [
        Some(1e100),
        Some(1.0),
        Some(-1e100),
        Some(f64::NAN),
        Some(-0.5),
        None,
    ];
    let table =
        Table::try_from_iter([("key", keys)])?.with_floats("depth", &Floats::of_options(&rows)?)?;
    let groups = table.group_by(["key"])?;
    let floats = |table: Table| {
        table
            .floats::<f64>("depth")?
            .options()
            .map_err(TableError::from)
    };
    let sums = floats(groups.sum("depth")?)?;
    assert_eq!(
        (sums[0], sums[1].unwrap().is_nan(), sums[2]),
        (Some(1.0), true, None)
    );
    assert_eq!(
        floats(groups.min("depth")?)?,
        [Some(-1e100), Some(-0.5), None]
    );
    assert_eq!(
        floats(groups.max("depth")?)?,
        [Some(1e100), Some(-0.5), None]
    );
    assert!(floats(groups.first("depth")?)?[1].unwrap().is_nan());
    assert_eq!(
        groups.count("depth")?["depth"].options::<u64>()?,
        [Some(3), Some(2), Some(0)]
    );
    assert_eq!(groups.count("depth")?.logical_type("depth")?, None);
    Ok(())
}

#[test]
fn infinities_are_among_the_numbers_of_a_group() -> Result<(), TableError> {
    let nan = f32::NAN;
    let rows = [nan, f32::NEG_INFINITY, 1.0, f32::INFINITY, -nan, -nan, nan];
    let table = Table::try_from_iter([("key", Column::new(&[1u8, 1, 1, 1, 1, 2, 2])?)])?;
    let table = table.with_floats("low", &Floats::of(&rows)?)?;
    let groups = table.group_by(["key"])?;
    let floats = |table: Table| {
        table
            .floats::<f32>("low")?
            .options()
            .map_err(TableError::from)
    };
    assert_eq!(floats(groups.min("low")?)?, [Some(f32::NEG_INFINITY), None]);
    assert_eq!(floats(groups.max("low")?)?, [Some(f32::INFINITY), None]);
    assert_eq!(
        groups.sum("low")?["low"].logical_type().as_deref(),
        Some("g")
    );
    Ok(())
}

#[test]
fn sums_that_mean_nothing_or_do_not_fit_are_refused() -> Result<(), TableError> {
    let table = Table::try_from_iter([
        ("key", Column::new(&[1u8, 2, 2])?),
        ("at", Column::new(&[0i64, i64::MAX, 1])?),
    ])?;
    let refused = |table: &Table| match table.group_by(["key"])?.sum("at") {
        Err(TableError::Column { name, error }) => Ok::<_, TableError>((name, error)),
        other => panic!("{other:?}"),
    };
    let (name, error) = refused(&table)?;
    assert_eq!(
        (name.as_str(), error.kind(), error.fields.first),
        ("at", Some(ErrorKind::CastOutOfRange), 1)
    );
    assert_eq!(
        error.to_string(),
        "integer overflow: the sum of group 1 does not fit i64"
    );
    for format in ["tdm", "ttu", "tsu:UTC"] {
        let (_, error) = refused(&table.with_logical_type("at", format)?)?;
        assert_eq!(error.kind(), Some(ErrorKind::Unsupported));
    }
    let large = Column::decimals(&[1, 10i128.pow(38) - 1, 10i128.pow(38) - 1], 38, 0, None)?;
    let (_, error) = refused(&table.with_column("at", large)?)?;
    assert_eq!(
        (error.kind(), error.fields.first),
        (Some(ErrorKind::CastOutOfRange), 1)
    );
    assert_eq!(
        error.to_string(),
        "decimal overflow: the sum of group 1 does not fit decimal(38, 0)"
    );
    let durations = table
        .slice(..2)?
        .with_logical_type("at", "tDu")?
        .group_by(["key"])?
        .sum("at")?;
    assert_eq!(durations["at"].logical_type().as_deref(), Some("tDu"));
    Ok(())
}
