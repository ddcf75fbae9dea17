//! What is broken in an Arrow array is refused with what is broken, and released once.
mod arrow_model;

use arrow_model::{Array, Cell, Maker, Schema, Type};
use hivevigil::arrow::{ArrowArray, ArrowError, ArrowSchema, Flaw};
use hivevigil::{Column, ErrorKind};
use std::ptr;

type Damage = fn(&mut Schema, &mut Array);

fn invalid(flaw: Flaw) -> ArrowError {
    ArrowError::Invalid(flaw)
}

/// Imports an array of these rows in which something was changed.
fn refused(maker: &mut Maker, kind: &Type, rows: &[Cell], damage: Damage) -> ArrowError {
    let (mut schema, mut array) = (maker.schema(kind, "x", true), maker.array(kind, rows));
    damage(&mut schema, &mut array);
    let given = unsafe {
        let (from, rows): (*mut Schema, *mut Array) = (&mut schema, &mut array);
        (
            ArrowSchema::from_raw(from.cast()),
            ArrowArray::from_raw(rows.cast()),
        )
    };
    let answer = unsafe { Column::from_arrow(&given.0, &given.1) };
    drop(given);
    answer.map(|_| ()).unwrap_err()
}

fn numbers() -> (Type, Vec<Cell>) {
    (
        Type::Number("i".into(), 4),
        vec![Cell::Number(4), Cell::Null, Cell::Number(9)],
    )
}

fn in_runs() -> (Type, Vec<Cell>) {
    (
        Type::Runs(4, Box::new(numbers().0)),
        vec![Cell::Number(4), Cell::Number(4), Cell::Null],
    )
}

fn coded() -> (Type, Vec<Cell>) {
    let kind = Type::Coded("c", 1, Box::new(Type::Text("u", 4)));
    (
        kind,
        vec![Cell::Bytes(b"a".to_vec()), Cell::Bytes(b"b".to_vec())],
    )
}

fn viewed() -> (Type, Vec<Cell>) {
    (
        Type::View("vu"),
        vec![Cell::Bytes(b"short".to_vec()), Cell::Bytes(vec![b'x'; 20])],
    )
}

/// Writes over items of a buffer, from a place of what is shown on.
fn put<T>(array: &mut Array, buffer: usize, place: i64, item: T) {
    unsafe {
        let at = (*array.buffers.add(buffer)).cast_mut().cast::<T>();
        at.add((array.offset + place) as usize).write(item)
    }
}

fn child(array: &mut Array, place: usize) -> &mut Array {
    unsafe { &mut **array.children.add(place) }
}

#[test]
fn what_a_flat_array_says_is_tested() {
    let damages: [(Damage, ArrowError); 12] = [
        (|_, array| array.length = -1, invalid(Flaw::Length)),
        (|_, array| array.offset = -5, invalid(Flaw::Length)),
        (|_, array| array.length = i64::MAX, invalid(Flaw::Length)),
        (|_, array| array.n_buffers = 1, invalid(Flaw::Parts)),
        (|_, array| array.n_children = 1, invalid(Flaw::Parts)),
        (|schema, _| schema.n_children = 1, invalid(Flaw::Parts)),
        (|_, array| array.null_count = 3, invalid(Flaw::NullCount)),
        (|_, array| array.null_count = -2, invalid(Flaw::NullCount)),
        (
            |_, array| unsafe { *array.buffers.add(1) = ptr::null() },
            invalid(Flaw::NoPointer),
        ),
        (
            |_, array| array.buffers = ptr::null_mut(),
            invalid(Flaw::NoPointer),
        ),
        (
            |schema, _| schema.format = ptr::null(),
            invalid(Flaw::NoPointer),
        ),
        (
            |schema, _| schema.dictionary = schema,
            invalid(Flaw::Dictionary),
        ),
    ];
    for (damage, due) in damages {
        for seed in 0..5 {
            let mut maker = Maker::new(seed);
            let (kind, rows) = numbers();
            assert_eq!(refused(&mut maker, &kind, &rows, damage), due);
            assert_eq!(maker.live(), 0);
        }
    }
}

#[test]
fn formats_that_are_not_served_are_refused() {
    for format in [
        "e",
        "n",
        "+w:3",
        "+m",
        "tin",
        "d:9,2,256",
        "d:39,2",
        "d:,",
        "w:-1",
        "x",
        "",
        "i2",
        "ts",
        "tsx:",
    ] {
        let mut maker = Maker::new(1);
        let kind = Type::Number(format.into(), 4);
        let answer = refused(&mut maker, &kind, &[Cell::Number(1)], |_, _| ());
        let is_due = matches!(answer, ArrowError::Refused(error) if error.kind() == Some(ErrorKind::Unsupported));
        assert!(is_due, "{format}: {answer:?}");
        assert_eq!(maker.live(), 0);
    }
}

#[test]
fn ends_of_runs_are_tested() {
    let fits = |answer: ArrowError, due: ErrorKind| match answer {
        ArrowError::Refused(error) => error.kind() == Some(due),
        _ => false,
    };
    for seed in 0..5 {
        let mut maker = Maker::new(seed);
        let (kind, rows) = in_runs();
        let mut ask = |damage| refused(&mut maker, &kind, &rows, damage);
        let falls = ask(|_, array| {
            let last = child(array, 0).length - 1;
            put(child(array, 0), 1, last, 0i32)
        });
        assert!(fits(falls, ErrorKind::EndsNotStrict));
        let short = ask(|_, array| array.length += 1000);
        assert!(fits(short, ErrorKind::LastEndBelowWindow));
        assert_eq!(
            ask(|_, array| array.null_count = 1),
            invalid(Flaw::NullInRuns)
        );
        assert_eq!(ask(|_, array| array.n_children = 1), invalid(Flaw::Parts));
        assert_eq!(
            ask(|_, array| child(array, 1).length -= 1),
            invalid(Flaw::Length)
        );
        assert_eq!(
            ask(|_, array| array.children = ptr::null_mut()),
            invalid(Flaw::NoPointer)
        );
        assert_eq!(maker.live(), 0);
    }
}

#[test]
fn texts_views_and_codes_are_tested() {
    for seed in 0..5 {
        let mut maker = Maker::new(seed);
        let (kind, rows) = viewed();
        let long = |_: &mut Schema, array: &mut Array| {
            let start = array.offset + 1;
            array.offset *= 4; // an item of a view is four of four bytes
            put(array, 1, (start * 4 + 2) - array.offset, 9i32); // the buffer of the long view
            array.offset /= 4;
        };
        let answer = refused(&mut maker, &kind, &rows, long);
        assert_eq!(answer, invalid(Flaw::View(1)));
        let said = "the Arrow array is not valid: row 1: a view is not within its buffers";
        assert!(answer.to_string().starts_with(said));
        let (kind, rows) = coded();
        let mut ask = |damage| refused(&mut maker, &kind, &rows, damage);
        match ask(|_, array| put(array, 1, 0, 99i8)) {
            ArrowError::Refused(error) => assert_eq!(error.kind(), Some(ErrorKind::OutOfBounds)),
            other => panic!("{other}"),
        }
        let apart = ask(|schema, _| schema.dictionary = ptr::null_mut());
        assert_eq!(apart, invalid(Flaw::Dictionary));
        let text = Cell::Bytes(vec![0xff]);
        let answer = refused(
            &mut maker,
            &Type::Text("u", 4),
            &[Cell::Bytes(vec![]), text],
            |_, _| (),
        );
        assert_eq!(
            answer.to_string(),
            "the text in row 1 of an array is not UTF-8"
        );
        assert_eq!((answer, maker.live()), (ArrowError::NotUtf8(1), 0));
    }
}
