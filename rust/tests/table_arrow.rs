//! Tables in and out of Arrow, against arrays that are made and read by the specification.
mod arrow_model;
mod table_model;

use arrow_model::{rows_of, Array, Cell, Maker, Schema, Type};
use hivevigil::arrow::{ArrowArray, ArrowArrayStream, ArrowError, ArrowSchema, Flaw};
use hivevigil::{Column, Floats, Form, Table, TableError, Value};
use table_model::{random, Dice};

/// Lists types with the logical types that their columns have.
fn kinds() -> Vec<(&'static str, Type, Option<&'static str>)> {
    let number = |format: &str, width| Type::Number(format.to_string(), width);
    let in_runs = |width, inner: Type| Type::Runs(width, Box::new(inner));
    vec![
        ("at", number("tsu:UTC", 8), Some("tsu:UTC")),
        ("day", in_runs(4, number("tdD", 4)), Some("tdD")),
        ("place", Type::Text("u", 4), None),
        ("depth", number("g", 8), Some("g")),
        ("low", in_runs(2, number("f", 4)), Some("f")),
        ("half", number("e", 2), Some("e")),
        ("level", number("l", 8), None),
        (
            "code",
            Type::Coded("c", 1, Box::new(Type::Text("u", 4))),
            None,
        ),
        ("list", Type::List(4, Box::new(number("s", 2))), None),
        ("price", number("d:18,-3,64", 8), None),
    ]
}

/// Reads the rows of each column of a batch by the specification.
fn cells(schema: &ArrowSchema, batch: &ArrowArray) -> Vec<Vec<Cell>> {
    let (schema, batch): (*const _, *const _) = (schema, batch);
    let (schema, batch) = unsafe { (&*(schema as *const Schema), &*(batch as *const Array)) };
    let child = |place: usize| unsafe {
        rows_of(&**schema.children.add(place), &**batch.children.add(place))
    };
    (0..schema.n_children as usize).map(child).collect()
}

#[test]
fn batches_come_in_with_their_logical_types_and_go_out_again() -> Result<(), TableError> {
    let kinds = kinds();
    for seed in 0..40 {
        let mut maker = Maker::new(seed);
        let rows = [0, 1, 9, 70][seed as usize % 4];
        let types: Vec<Type> = kinds.iter().map(|(_, kind, _)| kind.clone()).collect();
        let columns: Vec<Vec<Cell>> = types
            .iter()
            .map(|kind| maker.rows(kind, rows, true))
            .collect();
        let children = kinds
            .iter()
            .map(|(name, kind, _)| maker.schema(kind, name, true))
            .collect();
        let mut schema = maker.schema_of("+s", "", false, children, None);
        let mut batch = maker.batch(&types, &columns, &vec![true; rows]);
        let (schema, batch): (*mut Schema, *mut Array) = (&mut schema, &mut batch);
        let (schema, batch) = unsafe {
            (
                ArrowSchema::from_raw(schema.cast()),
                ArrowArray::from_raw(batch.cast()),
            )
        };
        let table = unsafe { Table::from_arrow(&schema, &batch)? };
        drop((schema, batch));
        assert_eq!(maker.live(), 0);
        assert_eq!(table.rows(), rows);
        for (name, _, format) in &kinds {
            assert_eq!(table.logical_type(name)?.as_deref(), *format, "{name}");
        }
        let (schema, batch) = table.to_arrow()?;
        assert_eq!(cells(&schema, &batch), columns);
        for (place, (name, _, format)) in kinds.iter().enumerate() {
            let child = schema.child(place).unwrap();
            assert_eq!(child.name(), *name);
            assert!(format.is_none() || child.value_format() == *format);
        }
        assert!(unsafe { Table::from_arrow(&schema, &batch)? } == table);
    }
    Ok(())
}

#[test]
fn a_row_that_is_null_in_the_batch_is_null_in_each_column() -> Result<(), TableError> {
    let mut maker = Maker::new(7);
    let kind = Type::Number("l".into(), 8);
    let columns = [vec![Cell::Number(4), Cell::Number(5), Cell::Number(6)]];
    let schema = maker.schema(&kind, "level", true);
    let mut schema = maker.schema_of("+s", "", true, vec![schema], None);
    let mut batch = maker.batch(&[kind], &columns, &[true, false, true]);
    let (from, array): (*mut Schema, *mut Array) = (&mut schema, &mut batch);
    let (schema, batch) = unsafe {
        (
            ArrowSchema::from_raw(from.cast()),
            ArrowArray::from_raw(array.cast()),
        )
    };
    let table = unsafe { Table::from_arrow(&schema, &batch)? };
    assert_eq!(table["level"].options::<i64>()?, [Some(4), None, Some(6)]);
    Ok(())
}

#[test]
fn streams_have_the_rows_of_all_batches() -> Result<(), TableError> {
    let mut dice = Dice(41);
    for _ in 0..100 {
        let rows = [0, 1, 7, 40][dice.below(4)];
        let (table, _) = random(&mut dice, rows)?;
        let floats: Vec<f64> = (0..rows)
            .map(|row| [0.5, -0.0, f64::NAN][row / 3 % 3])
            .collect();
        let table = table.with_floats("depth", &Floats::of(&floats)?)?;
        let again = Table::from_arrow_stream(table.to_arrow_stream(dice.below(9))?)?;
        assert!(again == table);
        for (name, column) in &again {
            let are_flat = [column, &table[name]].map(|column| column.form() == Form::Flat);
            assert!(are_flat[0] == are_flat[1] || rows == 0, "{name}");
        }
    }
    Ok(())
}

#[test]
fn batches_of_a_stream_are_cut_by_their_rows() -> Result<(), TableError> {
    let table = Table::try_from_iter([("level", Column::new(&[900i32, 40, 41])?)])?;
    let mut stream = table.to_arrow_stream(2)?;
    let mut sizes = Vec::new();
    while let Some(batch) = stream.next_array()? {
        sizes.push(batch.len());
    }
    assert_eq!(sizes, [2, 1]);
    assert_eq!(stream.schema()?.child(0).unwrap().name(), "level");
    Ok(())
}

#[test]
fn what_is_no_table_is_refused() -> Result<(), TableError> {
    let flaw = |answer: Result<Table, TableError>| match answer {
        Err(TableError::Arrow(ArrowError::Invalid(flaw))) => flaw,
        other => panic!("{other:?}"),
    };
    let levels = Column::new(&[900i32, 40])?;
    let (schema, array) = levels.to_arrow("level")?;
    assert_eq!(
        flaw(unsafe { Table::from_arrow(&schema, &array) }),
        Flaw::Parts
    );
    let stream = ArrowArrayStream::of_arrays(&levels, &Default::default(), 0)?;
    assert_eq!(flaw(Table::from_arrow_stream(stream)), Flaw::Parts);
    assert_eq!(
        flaw(Table::from_arrow_stream(ArrowArrayStream::empty())),
        Flaw::Released
    );
    let released = ArrowArrayStream::empty().next_array();
    assert!(matches!(released, Err(ArrowError::Invalid(Flaw::Released))));
    let twice = [
        ("a", &levels, Default::default()),
        ("a", &levels, Default::default()),
    ];
    let twice = Table::from_arrow_stream(ArrowArrayStream::of_batches(&twice, 0)?);
    assert!(matches!(twice, Err(TableError::RepeatedName(name)) if name == "a"));
    let none = Table::without_columns(3).to_arrow();
    assert!(matches!(
        none,
        Err(TableError::Arrow(ArrowError::Refused(_)))
    ));
    let table = Table::try_from_iter([("level\0", levels)])?;
    assert!(matches!(
        table.to_arrow_stream(0),
        Err(TableError::Arrow(ArrowError::ZeroByte))
    ));
    let typed = table
        .rename([("level\0", "level")])?
        .with_logical_type("level", "tsu:UTC")?;
    assert!(matches!(
        typed.to_arrow(),
        Err(TableError::Arrow(ArrowError::Refused(_)))
    ));
    assert_eq!(typed.row(1)?, [Value::Signed(40)]);
    Ok(())
}
