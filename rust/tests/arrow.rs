//! Arrow's two interfaces against a model that has them from the specification: every type in and out, what is broken,
//! and each struct released once.
mod arrow_model;

use arrow_model::{rows_of, text, Array, Cell, Maker, Schema, Type};
use hivevigil::arrow::{
    concat, ArrowArray, ArrowError, ArrowForm, ArrowOptions, ArrowSchema, Flaw,
};
use hivevigil::{Column, Decimal, ErrorKind, Form, Kind, Value};
use std::mem::{size_of, transmute};

/// Takes over what the model made.
fn given(mut schema: Schema, mut array: Array) -> (ArrowSchema, ArrowArray) {
    let (from, rows) = (&mut schema as *mut Schema, &mut array as *mut Array);
    let taken = unsafe {
        (
            ArrowSchema::from_raw(from.cast()),
            ArrowArray::from_raw(rows.cast()),
        )
    };
    assert!(schema.release.is_none() && array.release.is_none());
    taken
}

/// Reads what goes out by the model, and then releases it.
fn shown((schema, array): &(ArrowSchema, ArrowArray)) -> Vec<Cell> {
    let schema = schema as *const ArrowSchema;
    let array = array as *const ArrowArray;
    unsafe { rows_of(&*schema.cast(), &*array.cast()) }
}

fn cell_of(value: Value) -> Cell {
    match value {
        Value::Null => Cell::Null,
        Value::Unsigned(number) => Cell::Number(number.into()),
        Value::Signed(number) => Cell::Number(number.into()),
        Value::Truth(truth) => Cell::Truth(truth),
        Value::Text(text) => Cell::Bytes(text.into_bytes()),
        Value::Bytes(bytes) => Cell::Bytes(bytes),
        Value::Float(_) => unreachable!("no column has a logical type"),
        Value::Decimal(decimal) => Cell::Number(decimal.digits),
    }
}

fn cells(column: &Column) -> Vec<Cell> {
    column.rows().map(|row| cell_of(row.unwrap())).collect()
}

fn imported(maker: &mut Maker, kind: &Type, rows: &[Cell]) -> Column {
    let (schema, array) = (maker.schema(kind, "x", true), maker.array(kind, rows));
    let (schema, array) = given(schema, array);
    unsafe { Column::from_arrow(&schema, &array).unwrap() }
}

#[test]
fn every_type_comes_in_and_goes_out() {
    for (place, kind) in Type::all().iter().enumerate() {
        for seed in 0..12 {
            let mut maker = Maker::new(seed * 1000 + place as u64);
            let count = [0, 1, 30, 70][seed as usize % 4];
            let rows = maker.rows(kind, count, seed % 3 > 0);
            let column = imported(&mut maker, kind, &rows);
            assert_eq!((maker.live(), column.len()), (0, count), "{kind:?}");
            if !column.kind().is_list() {
                assert_eq!(cells(&column), rows, "{kind:?}");
            }
            for form in [ArrowForm::AsItLies, ArrowForm::Flat, ArrowForm::Runs] {
                if form == ArrowForm::Runs && column.form() == Form::Lists {
                    continue;
                }
                let options = ArrowOptions {
                    form,
                    ..ArrowOptions::default()
                };
                let out = column.to_arrow_with("name", &options).unwrap();
                assert_eq!(shown(&out), rows, "{kind:?} {form:?}");
                assert_eq!((out.0.name(), out.1.len()), ("name", count));
                let again = unsafe { Column::from_arrow(&out.0, &out.1).unwrap() };
                assert!(again.same_rows(&column).unwrap(), "{kind:?} {form:?}");
            }
        }
    }
}

#[test]
fn the_structs_are_those_of_the_specification() {
    assert_eq!(
        (size_of::<ArrowSchema>(), size_of::<ArrowArray>()),
        (72, 80)
    );
    let (schema, array) = Column::new(&[7i16, 8]).unwrap().to_arrow("level").unwrap();
    // as with FFI_ArrowSchema and FFI_ArrowArray of the crate arrow
    let schema = unsafe { transmute::<ArrowSchema, Schema>(schema) };
    let array = unsafe { transmute::<ArrowArray, Array>(array) };
    assert_eq!(
        (text(schema.format), text(schema.name)),
        ("s".into(), "level".into())
    );
    assert_eq!(rows_of(&schema, &array), [Cell::Number(7), Cell::Number(8)]);
    let back = unsafe {
        let schema = transmute::<Schema, ArrowSchema>(schema);
        (schema, transmute::<Array, ArrowArray>(array))
    };
    assert_eq!(
        (back.0.format(), back.1.len(), back.1.null_count()),
        ("s", 2, Some(0))
    );
}

#[test]
fn what_owns_nothing_is_refused() {
    assert!(ArrowSchema::empty().is_released() && ArrowArray::empty().is_released());
    let invalid = Err(ArrowError::Invalid(Flaw::Released));
    let none = unsafe { Column::from_arrow(&ArrowSchema::empty(), &ArrowArray::empty()) };
    assert_eq!(none.map(|_| ()), invalid);
}

#[test]
fn what_a_struct_holds_moves_with_it() {
    let mut maker = Maker::new(3);
    let kind = Type::Runs(
        4,
        Box::new(Type::Coded("c", 1, Box::new(Type::Text("u", 4)))),
    );
    let rows = maker.rows(&kind, 40, true);
    let (schema, array) = given(maker.schema(&kind, "x", true), maker.array(&kind, &rows));
    assert_eq!(maker.live(), 8);
    assert_eq!((schema.format(), schema.value_format()), ("+r", Some("u")));
    assert_eq!(
        schema
            .child(1)
            .and_then(|child| child.dictionary())
            .map(|one| one.format()),
        Some("u")
    );
    assert_eq!(
        (
            schema.child_count(),
            schema.child(2).is_none(),
            array.child(1).is_some()
        ),
        (2, true, true)
    );
    let mut room = Box::new(ArrowArray::empty());
    unsafe { array.into_raw(&mut *room) };
    let column = std::thread::spawn(move || unsafe { Column::from_arrow(&schema, &room).unwrap() });
    assert_eq!((cells(&column.join().unwrap()), maker.live()), (rows, 0));
}

#[test]
fn children_of_batches_are_null_where_the_batch_is() {
    let mut maker = Maker::new(11);
    let kinds = [
        Type::Number("i".into(), 4),
        Type::Text("u", 4),
        Type::Number("e".into(), 2),
    ];
    let columns: Vec<_> = kinds
        .iter()
        .map(|kind| maker.rows(kind, 25, true))
        .collect();
    let valid: Vec<bool> = (0..25).map(|row| row % 7 != 3).collect();
    let batch = maker.batch(&kinds, &columns, &valid);
    let (schema, batch) = given(maker.batch_schema(&kinds), batch);
    let due = |column: usize| -> Vec<Cell> {
        let rows = columns[column].iter().zip(&valid);
        rows.map(|(row, valid)| if *valid { row.clone() } else { Cell::Null })
            .collect()
    };
    unsafe {
        for child in 0..2 {
            assert_eq!(
                cells(&Column::from_arrow_child(&schema, &batch, child).unwrap()),
                due(child)
            );
        }
        let refused = Column::from_arrow_child(&schema, &batch, 2).unwrap_err();
        assert!(
            matches!(refused, ArrowError::Refused(error) if error.kind() == Some(ErrorKind::Unsupported))
        );
        assert_eq!(
            cells(&Column::from_arrow_child_bits(&schema, &batch, 2).unwrap()),
            due(2)
        );
        for child in [3, usize::MAX] {
            let refused = Column::from_arrow_child(&schema, &batch, child).unwrap_err();
            assert_eq!(refused, ArrowError::Invalid(Flaw::Parts));
        }
    }
    drop((schema, batch));
    assert_eq!(maker.live(), 0);
}

#[test]
fn floats_come_and_go_by_their_bits() {
    for (format, width) in [("e", 2), ("f", 4), ("g", 8)] {
        let mut maker = Maker::new(width as u64);
        let kind = Type::Runs(2, Box::new(Type::Number(format.into(), width)));
        let rows = maker.rows(&kind, 40, true);
        let (schema, array) = given(maker.schema(&kind, "x", true), maker.array(&kind, &rows));
        let refused = unsafe { Column::from_arrow(&schema, &array) }.unwrap_err();
        assert_eq!(
            refused.to_string(),
            format!("the array has the format {format}, floats, which are read by their bits")
        );
        let bits = unsafe { Column::from_arrow_bits(&schema, &array) }.unwrap();
        assert_eq!(
            (cells(&bits), bits.kind().is_unsigned()),
            (rows.clone(), true)
        );
        let options = ArrowOptions {
            bits_of_float: true,
            ..ArrowOptions::default()
        };
        let out = bits.to_arrow_with("", &options).unwrap();
        assert_eq!((out.0.value_format(), shown(&out)), (Some(format), rows));
    }
}

#[test]
fn options_choose_widths_and_formats() {
    let runs = Column::new(&[4i64; 40_000]).unwrap().encode().unwrap();
    let with = |options: ArrowOptions| runs.to_arrow_with("", &options);
    let ends = |bits| {
        with(ArrowOptions {
            end_bits: bits,
            ..ArrowOptions::default()
        })
    };
    for (bits, format) in [(0, "i"), (32, "i"), (64, "l")] {
        assert_eq!(ends(bits).unwrap().0.child(0).unwrap().format(), format);
    }
    let refused = ends(16).unwrap_err();
    assert_eq!(
        refused,
        ArrowError::EndTooLarge {
            end: 40_000,
            greatest: 32_767
        }
    );
    let said = "a run ends before row 40000, past the greatest end of its width, 32767";
    assert_eq!(refused.to_string(), said);
    assert_eq!(number_of(ends(7).unwrap_err()), Some(ErrorKind::BadNumber));
    let format = |format| {
        with(ArrowOptions {
            format: Some(format),
            ..ArrowOptions::default()
        })
    };
    assert_eq!(format("tsu:UTC").unwrap().0.value_format(), Some("tsu:UTC"));
    assert_eq!(
        number_of(format("tdD").unwrap_err()),
        Some(ErrorKind::TypeMismatch)
    );
    assert_eq!(format("ts\0").unwrap_err(), ArrowError::ZeroByte);
    assert_eq!(
        runs.to_arrow("\0").unwrap_err().to_string(),
        "a name or a format of Arrow has no zero byte"
    );
    let texts = Column::try_from(["Oslo", "Bergen"]).unwrap();
    let wide = ArrowOptions {
        offset_bits: 64,
        ..ArrowOptions::default()
    };
    let out = texts.to_arrow_with("", &wide).unwrap();
    assert_eq!((out.0.format(), shown(&out)), ("U", cells(&texts)));
    let fine = Column::decimals(&[125], 40, 2, None)
        .unwrap()
        .to_arrow("")
        .unwrap_err();
    assert_eq!(number_of(fine), Some(ErrorKind::Unsupported));
}

fn number_of(error: ArrowError) -> Option<ErrorKind> {
    match error {
        ArrowError::Refused(error) => error.kind(),
        _ => None,
    }
}

#[test]
fn codes_go_out_over_their_dictionary() {
    let names = Column::try_from(["north", "south"]).unwrap();
    let codes = Column::try_from([Some(0u8), Some(0), None, Some(1)]).unwrap();
    for codes in [codes.encode().unwrap(), codes] {
        let options = ArrowOptions {
            dictionary: Some(&names),
            ..ArrowOptions::default()
        };
        let out = codes.to_arrow_with("station", &options).unwrap();
        let due = ["north", "north", "", "south"].map(|name| match name {
            "" => Cell::Null,
            name => Cell::Bytes(name.into()),
        });
        assert_eq!(shown(&out), due);
    }
    let options = ArrowOptions {
        dictionary: Some(&names),
        ..ArrowOptions::default()
    };
    let refused = Column::new(&[1u8, 2])
        .unwrap()
        .to_arrow_with("", &options)
        .unwrap_err();
    assert_eq!(refused.to_string(), "row 2 is not among 2 rows");
    assert_eq!(
        number_of(names.to_arrow_with("", &options).unwrap_err()),
        Some(ErrorKind::TypeMismatch)
    );
    let own = Column::new(&[1u8, 0]).unwrap();
    let options = ArrowOptions {
        dictionary: Some(&own),
        ..ArrowOptions::default()
    };
    let out = own.to_arrow_with("", &options).unwrap(); // a column that is lent twice
    assert_eq!(shown(&out), [Cell::Number(0), Cell::Number(1)]);
}

#[test]
fn columns_are_joined() {
    let mut maker = Maker::new(5);
    for kind in [
        Type::Truth,
        Type::Text("z", 4),
        Type::List(4, Box::new(Type::Truth)),
    ] {
        let parts: Vec<Vec<Cell>> = (0..4)
            .map(|count| maker.rows(&kind, count * 3, true))
            .collect();
        let columns: Vec<Column> = parts
            .iter()
            .map(|rows| imported(&mut maker, &kind, rows))
            .collect();
        let lent = [
            &columns[0],
            &columns[3],
            &columns[1],
            &columns[2],
            &columns[3],
        ];
        let due = [&parts[0][..], &parts[3], &parts[1], &parts[2], &parts[3]].concat();
        assert_eq!(shown(&concat(&lent).unwrap().to_arrow("").unwrap()), due);
        assert_eq!(shown(&columns[3].to_arrow("").unwrap()), parts[3]);
    }
    let (truths, numbers) = (
        Column::try_from([true]).unwrap(),
        Column::new(&[1u8]).unwrap(),
    );
    assert_eq!(
        concat(&[&truths, &numbers]).unwrap_err().kind(),
        Some(ErrorKind::TypeMismatch)
    );
    assert_eq!(
        concat(&[]).unwrap_err().kind(),
        Some(ErrorKind::Unsupported)
    );
}

#[test]
fn decimals_of_all_widths_are_one_number() {
    for (format, width) in [("d:9,2,32", 4), ("d:18,2,64", 8), ("d:20,2", 16)] {
        let mut maker = Maker::new(1);
        let kind = Type::Number(format.into(), width);
        let column = imported(&mut maker, &kind, &[Cell::Number(-125), Cell::Null]);
        assert_eq!(
            column.get::<Decimal>(0).unwrap(),
            Some(Decimal::new(-125, 2))
        );
        assert_eq!(
            (column.kind().is_nullable(), column.kind().scale),
            (true, 2)
        );
        assert_eq!(
            column.kind(),
            Kind::decimal(column.kind().precision, 2).nullable()
        );
    }
}
