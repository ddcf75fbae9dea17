//! Rows read out of arrays, by the specification.
use super::{text, Array, Cell, Schema};

/// Reads the rows that an array shows.
pub fn rows_of(schema: &Schema, array: &Array) -> Vec<Cell> {
    assert!(schema.release.is_some() && array.release.is_some());
    let rows: Vec<Cell> = (0..array.length)
        .map(|row| cell(schema, array, row))
        .collect();
    if text(schema.format) != "+r" {
        let nulls = rows.iter().filter(|row| **row == Cell::Null).count() as i64;
        assert!(array.null_count == -1 || array.null_count == nulls);
        assert!(schema.flags & 2 != 0 || nulls == 0);
    }
    rows
}

fn cell(schema: &Schema, array: &Array, row: i64) -> Cell {
    let (at, format) = ((array.offset + row) as usize, text(schema.format));
    if format == "+r" {
        return in_runs(schema, array, array.offset + row);
    }
    if !buffer(array, 0).is_null() && !bit(array, 0, at) {
        return Cell::Null;
    }
    if let Some(values) = unsafe { schema.dictionary.as_ref() } {
        let code = whole(array, 1, at, width_of(&format), false);
        return cell(values, unsafe { &*array.dictionary }, code as i64);
    }
    let plain = format.split(',').next().unwrap_or("");
    match plain {
        "b" => Cell::Truth(bit(array, 1, at)),
        "u" | "z" => Cell::Bytes(cut(array, at, 4)),
        "U" | "Z" => Cell::Bytes(cut(array, at, 8)),
        "+l" => Cell::List(list(schema, array, at, 4)),
        "+L" => Cell::List(list(schema, array, at, 8)),
        _ => {
            let signed = !["C", "S", "I", "L", "e", "f", "g"].contains(&plain);
            Cell::Number(whole(array, 1, at, width_of(&format), signed))
        }
    }
}

/// Counts the bytes of a number of a format; exports have no narrow decimals.
fn width_of(format: &str) -> usize {
    match format {
        "C" | "c" => 1,
        "S" | "s" | "e" => 2,
        "I" | "i" | "f" | "tdD" | "tts" | "ttm" | "tiM" => 4,
        other if other.starts_with("d:") => 16,
        _ => 8,
    }
}

fn in_runs(schema: &Schema, array: &Array, at: i64) -> Cell {
    let (schemas, arrays) = unsafe {
        (
            *schema.children.add(1),
            [*array.children, *array.children.add(1)],
        )
    };
    let (ends, values) = unsafe { (&*arrays[0], &*arrays[1]) };
    let width = width_of(&text(unsafe { &**schema.children }.format));
    let end = |run: i64| whole(ends, 1, (ends.offset + run) as usize, width, true);
    let run = (0..ends.length)
        .find(|run| end(*run) > i128::from(at))
        .unwrap();
    cell(unsafe { &*schemas }, values, run)
}

fn list(schema: &Schema, array: &Array, at: usize, width: usize) -> Vec<Cell> {
    let (start, stop) = (
        whole(array, 1, at, width, true),
        whole(array, 1, at + 1, width, true),
    );
    let (inner, elements) = unsafe { (&**schema.children, &**array.children) };
    (start..stop)
        .map(|element| cell(inner, elements, element as i64))
        .collect()
}

fn buffer(array: &Array, number: usize) -> *const u8 {
    assert!((number as i64) < array.n_buffers);
    unsafe { (*array.buffers.add(number)).cast() }
}

fn bit(array: &Array, number: usize, at: usize) -> bool {
    unsafe { *buffer(array, number).add(at / 8) >> (at % 8) & 1 == 1 }
}

fn whole(array: &Array, number: usize, at: usize, width: usize, signed: bool) -> i128 {
    let bytes = unsafe { std::slice::from_raw_parts(buffer(array, number).add(at * width), width) };
    let filler = if signed && bytes[width - 1] >= 128 {
        255
    } else {
        0
    };
    let mut all = [filler; 16];
    all[..width].copy_from_slice(bytes);
    i128::from_le_bytes(all)
}

fn cut(array: &Array, at: usize, width: usize) -> Vec<u8> {
    let (start, stop) = (
        whole(array, 1, at, width, true),
        whole(array, 1, at + 1, width, true),
    );
    let size = (stop - start) as usize;
    if size == 0 {
        return Vec::new();
    }
    unsafe { std::slice::from_raw_parts(buffer(array, 2).add(start as usize), size) }.to_vec()
}
