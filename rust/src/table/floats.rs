//! Columns of floats in tables: keys in a column of integers, and a logical type that says so.
use crate::{raw, Column, Error, Kind};

/// Lists the formats of Arrow for floats, each with the type of the keys.
const FORMATS: [(&str, Kind); 3] = [("e", Kind::I16), ("f", Kind::I32), ("g", Kind::I64)];

/// Returns whether the rows of a column are floats, by its logical type.
pub(super) fn has_floats(column: &Column) -> bool {
    let (format, kind) = (column.logical_type(), column.kind().not_nullable());
    format.map_or(false, |format| FORMATS.contains(&(format.as_str(), kind)))
}

/// Returns whether a format of Arrow is one of floats.
pub(super) fn is_float(format: &str) -> bool {
    FORMATS.iter().any(|(float, _)| *float == format)
}

/// Returns the bits of floats, of any width, as integers without sign.
pub(super) fn bits(keys: &Column) -> Result<Column, Error> {
    keys.part(|keys, out, fields| unsafe { raw::hv_float_decode(keys, out, fields) })
}

/// Returns the keys of floats, of any width, by their bits.
pub(super) fn keys(bits: &Column) -> Result<Column, Error> {
    bits.part(|bits, out, fields| unsafe { raw::hv_float_encode(bits, 0, out, fields) })
}
