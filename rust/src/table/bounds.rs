//! The least and the greatest row of a column as a message: a flat column, of the type of the column, of no row or two.
use super::message::{put_content, put_number, put_varint};
use crate::{Kind, Value};

/// Writes the message of a flat column that has these rows, none of which is null, as docs/column.proto has it.
pub(super) fn message(kind: Kind, rows: &[&Value]) -> Vec<u8> {
    const VERSION: u64 = 1;
    const FLAT: u64 = 1;
    let mut out = Vec::new();
    put_number(&mut out, 1, VERSION);
    put_number(&mut out, 2, u64::from(kind.number) + 1);
    put_number(&mut out, 3, FLAT);
    put_number(&mut out, 4, rows.len() as u64);
    put_number(&mut out, 5, if kind.is_nullable() { 2 } else { 1 });
    if matches!(kind.not_nullable(), Kind::UTF8 | Kind::BINARY) {
        put_texts(&mut out, rows);
        return out;
    }
    put_content(&mut out, 7, &items(kind, rows));
    if kind.is_decimal() {
        let scale = i64::from(kind.scale);
        put_number(&mut out, 14, kind.precision.into());
        put_number(&mut out, 15, ((scale << 1) ^ (scale >> 63)) as u64);
    }
    out
}

fn put_texts(out: &mut Vec<u8>, rows: &[&Value]) {
    let texts = rows.iter().map(|row| match row {
        Value::Text(text) => text.as_bytes(),
        Value::Bytes(bytes) => bytes,
        _ => &[],
    });
    let (mut lengths, mut bytes) = (Vec::new(), Vec::new());
    for text in texts {
        put_varint(&mut lengths, text.len() as u64);
        bytes.extend_from_slice(text);
    }
    put_content(out, 12, &lengths);
    put_content(out, 13, &bytes);
}

/// Packs numbers in the width of their type, the lowest byte first, and booleans as bits, the lowest first.
fn items(kind: Kind, rows: &[&Value]) -> Vec<u8> {
    let width = match kind.number {
        number if number <= Kind::I64.number => 1 << (number % 4),
        _ => 16,
    };
    let (mut bytes, mut bits) = (Vec::new(), 0u8);
    for (row, value) in rows.iter().enumerate() {
        let number = match value {
            Value::Truth(truth) => {
                bits |= u8::from(*truth) << row;
                continue;
            }
            Value::Decimal(decimal) => decimal.digits,
            Value::Unsigned(item) => i128::from(*item),
            Value::Signed(item) => i128::from(*item),
            _ => 0,
        };
        bytes.extend_from_slice(&number.to_le_bytes()[..width]);
    }
    match kind.number == Kind::BOOL.number && !rows.is_empty() {
        true => vec![bits],
        false => bytes,
    }
}
