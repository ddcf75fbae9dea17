//! Streams of arrays in and out: each chunk, failures, and each struct released once.
mod arrow_model;

use arrow_model::{rows_of, Array, Cell, Maker, Schema, Stream, Type};
use hivevigil::arrow::{ArrowArrayStream, ArrowError, ArrowOptions, ArrowReader, Flaw, Reading};
use hivevigil::{Column, ErrorKind, Form};
use std::ffi::{c_char, c_int};
use std::mem::{size_of, MaybeUninit};
use std::ptr;
use std::sync::atomic::{AtomicIsize, Ordering};
use std::sync::Arc;

/// Holds what a stream of the model gives: schemas and chunks that were made before, then a failure where there is one.
struct Source {
    schemas: Vec<Schema>,
    chunks: Vec<Array>,
    fails: Option<c_int>,
    open: Arc<AtomicIsize>,
}

unsafe extern "C" fn get_schema(stream: *mut Stream, out: *mut Schema) -> c_int {
    let source = &mut *(*stream).private_data.cast::<Source>();
    match source.schemas.pop() {
        Some(schema) => out.write(schema),
        None => return 5,
    }
    0
}

unsafe extern "C" fn get_next(stream: *mut Stream, out: *mut Array) -> c_int {
    let source = &mut *(*stream).private_data.cast::<Source>();
    if source.chunks.is_empty() {
        if let Some(number) = source.fails {
            return number;
        }
        (*out).release = None;
        return 0;
    }
    out.write(source.chunks.remove(0));
    0
}

unsafe extern "C" fn get_last_error(_: *mut Stream) -> *const c_char {
    b"the cable is cut\0".as_ptr().cast()
}

unsafe extern "C" fn release(stream: *mut Stream) {
    let source = Box::from_raw((*stream).private_data.cast::<Source>());
    for mut chunk in source.chunks {
        (chunk.release.unwrap())(&mut chunk)
    }
    for mut schema in source.schemas {
        (schema.release.unwrap())(&mut schema)
    }
    source.open.fetch_sub(1, Ordering::SeqCst);
    (*stream).release = None;
}

/// Makes a stream, and the count of those that are not released.
fn stream_of(
    schemas: Vec<Schema>,
    chunks: Vec<Array>,
    fails: Option<c_int>,
) -> (ArrowArrayStream, Arc<AtomicIsize>) {
    let open = Arc::new(AtomicIsize::new(1));
    let source = Box::new(Source {
        schemas,
        chunks,
        fails,
        open: open.clone(),
    });
    let mut stream = Stream {
        get_schema: Some(get_schema),
        get_next: Some(get_next),
        get_last_error: Some(get_last_error),
        release: Some(release),
        private_data: Box::into_raw(source).cast(),
    };
    let from: *mut Stream = &mut stream;
    (unsafe { ArrowArrayStream::from_raw(from.cast()) }, open)
}

fn cells(column: &Column) -> Vec<Cell> {
    let (schema, array) = column.to_arrow("").unwrap();
    let (schema, array): (*const _, *const _) = (&schema, &array);
    unsafe { rows_of(&*(schema as *const Schema), &*(array as *const Array)) }
}

fn kinds() -> [Type; 3] {
    let coded = Type::Coded("c", 1, Box::new(Type::List(4, Box::new(Type::Truth))));
    [
        Type::Runs(4, Box::new(Type::Number("l".into(), 8))),
        Type::Text("u", 4),
        coded,
    ]
}

/// Makes a stream of batches of these many rows each, and their rows column by column.
fn batches(maker: &mut Maker, sizes: &[usize], schemas: usize, fails: Option<c_int>) -> Batches {
    let mut rows: Vec<Vec<Cell>> = vec![Vec::new(); 3];
    let mut chunks = Vec::new();
    for size in sizes {
        let columns: Vec<_> = kinds()
            .iter()
            .map(|kind| maker.rows(kind, *size, true))
            .collect();
        chunks.push(maker.batch(&kinds(), &columns, &vec![true; *size]));
        for (all, column) in rows.iter_mut().zip(columns) {
            all.extend(column);
        }
    }
    let made = (0..schemas).map(|_| maker.batch_schema(&kinds())).collect();
    let (stream, open) = stream_of(made, chunks, fails);
    Batches { stream, open, rows }
}

struct Batches {
    stream: ArrowArrayStream,
    open: Arc<AtomicIsize>,
    rows: Vec<Vec<Cell>>,
}

#[test]
fn chunks_are_read_one_by_one() {
    for seed in 0..20 {
        let mut maker = Maker::new(seed);
        let sizes = [9, 0, 30, 1];
        let made = batches(&mut maker, &sizes, 1, None);
        let mut reader = ArrowReader::open(made.stream).unwrap();
        assert_eq!((reader.width(), reader.schema().format()), (3, "+s"));
        reader.choose(
            1,
            if seed % 2 == 0 {
                Reading::LeftOut
            } else {
                Reading::Rows
            },
        );
        reader.choose(9, Reading::LeftOut);
        let mut found: Vec<Vec<Cell>> = vec![Vec::new(); 3];
        for (size, chunk) in sizes.iter().zip(reader.by_ref()) {
            let chunk = chunk.unwrap();
            assert_eq!(
                (chunk[1].is_none(), chunk[0].as_ref().unwrap().len()),
                (seed % 2 == 0, *size)
            );
            // columns of lists that came from one dictionary go to threads of their own
            let moved = chunk
                .into_iter()
                .map(|column| std::thread::spawn(move || column.as_ref().map(cells)));
            for (all, rows) in found.iter_mut().zip(moved.collect::<Vec<_>>()) {
                all.extend(rows.join().unwrap().unwrap_or_default());
            }
        }
        assert!(reader.next().is_none() && reader.next().is_none());
        assert_eq!((&found[0], &found[2]), (&made.rows[0], &made.rows[2]));
        assert!(seed % 2 == 0 || found[1] == made.rows[1]);
        drop(reader);
        assert_eq!((maker.live(), made.open.load(Ordering::SeqCst)), (0, 0));
    }
}

#[test]
fn all_chunks_are_columns() {
    for (seed, sizes) in [&[][..], &[5], &[9, 0, 30, 1]].iter().enumerate() {
        let mut maker = Maker::new(seed as u64);
        let made = batches(&mut maker, sizes, 2, None);
        let columns = made
            .stream
            .into_columns(&[Reading::Rows, Reading::LeftOut])
            .unwrap();
        assert_eq!(columns.len(), 3);
        assert!(columns[1].is_none());
        for place in [0, 2] {
            assert_eq!(cells(columns[place].as_ref().unwrap()), made.rows[place]);
        }
        assert_eq!((maker.live(), made.open.load(Ordering::SeqCst)), (0, 0));
        assert_eq!(columns[0].as_ref().unwrap().form(), Form::Runs);
    }
}

#[test]
fn a_stream_that_fails_says_so() {
    let failed = |number| ArrowError::StreamFailed {
        number,
        words: "the cable is cut".into(),
    };
    for by_chunks in [true, false] {
        let mut maker = Maker::new(1);
        let made = batches(&mut maker, &[4, 3], 2, Some(11));
        if by_chunks {
            let mut reader = ArrowReader::open(made.stream).unwrap();
            assert!(reader.next().unwrap().is_ok() && reader.next().unwrap().is_ok());
            let error = reader.next().unwrap().unwrap_err();
            assert_eq!(
                error.to_string(),
                "the Arrow stream failed with 11: the cable is cut"
            );
            assert_eq!((error, reader.next().is_none()), (failed(11), true));
        } else {
            assert_eq!(made.stream.into_columns(&[]).unwrap_err(), failed(11));
        }
        assert_eq!((maker.live(), made.open.load(Ordering::SeqCst)), (0, 0));
        let made = batches(&mut maker, &[4], 0, None);
        match by_chunks {
            true => assert_eq!(ArrowReader::open(made.stream).unwrap_err(), failed(5)),
            false => assert_eq!(made.stream.into_columns(&[]).unwrap_err(), failed(5)),
        }
        assert_eq!((maker.live(), made.open.load(Ordering::SeqCst)), (0, 0));
    }
    let released = ArrowError::Invalid(Flaw::Released);
    assert_eq!(
        ArrowReader::open(ArrowArrayStream::empty()).unwrap_err(),
        released
    );
    assert_eq!(
        ArrowArrayStream::empty().into_columns(&[]).unwrap_err(),
        released
    );
}

#[test]
fn a_chunk_that_is_refused_is_gone() {
    let mut maker = Maker::new(7);
    let kind = Type::Number("i".into(), 4);
    let chunks: Vec<Array> = (0..3)
        .map(|number| maker.array(&kind, &[Cell::Number(number)]))
        .collect();
    let (stream, open) = stream_of(vec![maker.schema(&kind, "x", false)], chunks, None);
    let mut reader = ArrowReader::open(stream).unwrap();
    let first = reader.next().unwrap().unwrap();
    assert_eq!(cells(first[0].as_ref().unwrap()), [Cell::Number(0)]);
    drop((reader, first));
    assert_eq!((maker.live(), open.load(Ordering::SeqCst)), (0, 0));
    let mut bad = maker.array(&kind, &[Cell::Number(1)]);
    bad.length = -1;
    let good = maker.array(&kind, &[Cell::Number(2)]);
    let (stream, _) = stream_of(vec![maker.schema(&kind, "x", false)], vec![bad, good], None);
    let mut reader = ArrowReader::open(stream).unwrap();
    assert_eq!(
        reader.next().unwrap().unwrap_err(),
        ArrowError::Invalid(Flaw::Length)
    );
    let last = reader.next().unwrap().unwrap();
    assert_eq!(cells(last[0].as_ref().unwrap()), [Cell::Number(2)]);
    drop(reader);
    assert_eq!(maker.live(), 0);
}

/// Reads a stream by its callbacks, as another library does.
fn read_by_the_model(stream: ArrowArrayStream) -> (Vec<String>, Vec<Vec<Cell>>) {
    assert_eq!(size_of::<ArrowArrayStream>(), size_of::<Stream>());
    let mut stream: Stream = unsafe { std::mem::transmute(stream) };
    let (mut names, mut chunks) = (Vec::new(), Vec::new());
    unsafe {
        let mut schema = MaybeUninit::<Schema>::uninit();
        assert_eq!(
            stream.get_schema.unwrap()(&mut stream, schema.as_mut_ptr()),
            0
        );
        let mut schema = schema.assume_init();
        for child in 0..schema.n_children as usize {
            names.push(arrow_model::text((**schema.children.add(child)).name));
        }
        loop {
            let mut chunk = MaybeUninit::<Array>::uninit();
            assert_eq!(stream.get_next.unwrap()(&mut stream, chunk.as_mut_ptr()), 0);
            let mut chunk = chunk.assume_init();
            let Some(free) = chunk.release else { break };
            let children: Vec<(*mut Schema, *mut Array)> = match schema.n_children {
                0 => vec![(ptr::addr_of_mut!(schema), ptr::addr_of_mut!(chunk))],
                count => (0..count as usize)
                    .map(|at| (*schema.children.add(at), *chunk.children.add(at)))
                    .collect(),
            };
            chunks.push(
                children
                    .iter()
                    .flat_map(|(schema, array)| rows_of(&**schema, &**array))
                    .collect(),
            );
            free(&mut chunk);
        }
        schema.release.unwrap()(&mut schema);
        stream.release.unwrap()(&mut stream);
    }
    (names, chunks)
}

#[test]
fn columns_go_out_as_streams() {
    let numbers: Vec<i64> = (0..50).map(|row| row / 9).collect();
    let words: Vec<String> = numbers
        .iter()
        .map(|number| format!("{number} km"))
        .collect();
    let (levels, words) = (
        Column::new(&numbers).unwrap().encode().unwrap(),
        Column::try_from(&words).unwrap(),
    );
    let options = ArrowOptions::default();
    for chunk_rows in [0, 1, 7, 50, 80] {
        let columns = [
            ("level", &levels, options),
            ("words", &words, options),
            ("again", &levels, options),
        ];
        let (names, chunks) =
            read_by_the_model(ArrowArrayStream::of_batches(&columns, chunk_rows).unwrap());
        let step = if chunk_rows == 0 { 50 } else { chunk_rows };
        assert_eq!(
            (names, chunks.len()),
            (
                vec!["level".into(), "words".into(), "again".into()],
                (49 + step) / step
            )
        );
        for (place, chunk) in chunks.iter().enumerate() {
            let rows = place * step..50.min((place + 1) * step);
            let part = |column: &Column| cells(&column.slice(rows.clone()).unwrap());
            assert_eq!(
                *chunk,
                [part(&levels), part(&words), part(&levels)].concat()
            );
        }
        let (_, chunks) =
            read_by_the_model(ArrowArrayStream::of_arrays(&words, &options, chunk_rows).unwrap());
        assert_eq!(chunks.concat(), cells(&words));
    }
    let coded = ArrowOptions {
        dictionary: Some(&words),
        ..options
    };
    let codes = Column::new(&[49u8, 0, 0, 9]).unwrap();
    let stream = ArrowArrayStream::of_batches(&[("words", &codes, coded)], 3).unwrap();
    assert_eq!(
        read_by_the_model(stream).1.concat(),
        ["5 km", "0 km", "0 km", "1 km"].map(|word| Cell::Bytes(word.into()))
    );
}

#[test]
fn streams_that_cannot_be_made_are_refused() {
    let (two, three) = (
        Column::new(&[1u8, 2]).unwrap(),
        Column::new(&[1u8, 2, 3]).unwrap(),
    );
    let options = ArrowOptions::default();
    let kind_of = |refused: Result<ArrowArrayStream, ArrowError>| match refused.unwrap_err() {
        ArrowError::Refused(error) => error.kind(),
        _ => None,
    };
    let refused = ArrowArrayStream::of_batches(&[("a", &two, options), ("b", &three, options)], 0);
    assert_eq!(kind_of(refused), Some(ErrorKind::ColumnLength));
    assert_eq!(
        kind_of(ArrowArrayStream::of_batches(&[], 0)),
        Some(ErrorKind::Unsupported)
    );
    let dates = ArrowOptions {
        format: Some("tdD"),
        ..options
    };
    assert_eq!(
        kind_of(ArrowArrayStream::of_arrays(&two, &dates, 0)),
        Some(ErrorKind::TypeMismatch)
    );
    let refused = ArrowArrayStream::of_batches(&[("a\0", &two, options)], 0)
        .map(|_| ())
        .unwrap_err();
    assert_eq!(refused, ArrowError::ZeroByte);
}
