//! The calls of hivevigil_arrow.h, as examples/python/arrow_calls.c names them in the archive.
use super::{ArrowArray, ArrowArrayStream, ArrowSchema};
use crate::raw::Handle;
use crate::{Fields, Session};
use std::ffi::c_char;

/// Passes the options of an export, as the header has them.
#[derive(Clone, Copy)]
#[repr(C)]
pub struct RawOptions {
    pub form: u8,
    pub end_bits: u8,
    pub offset_bits: u8,
    pub bits_of_float: u8,
    pub format: *const c_char,
    pub dictionary: *mut Handle,
}

/// Names a reader that the library owns.
#[repr(C)]
pub struct RawReader {
    hidden: [u8; 0],
}

extern "C" {
    pub fn hv_import_array(
        settings: *const Session,
        schema: *const ArrowSchema,
        array: *const ArrowArray,
        out: *mut Handle,
        error: *mut Fields,
    ) -> i32;
    pub fn hv_import_bits(
        settings: *const Session,
        schema: *const ArrowSchema,
        array: *const ArrowArray,
        out: *mut Handle,
        error: *mut Fields,
    ) -> i32;
    pub fn hv_import_child(
        settings: *const Session,
        schema: *const ArrowSchema,
        batch: *const ArrowArray,
        child: i64,
        out: *mut Handle,
        error: *mut Fields,
    ) -> i32;
    pub fn hv_import_child_bits(
        settings: *const Session,
        schema: *const ArrowSchema,
        batch: *const ArrowArray,
        child: i64,
        out: *mut Handle,
        error: *mut Fields,
    ) -> i32;
    pub fn hv_import_stream(
        settings: *const Session,
        stream: *mut ArrowArrayStream,
        columns: *mut Handle,
        count: usize,
        how: *const u8,
        words: *mut c_char,
        words_len: usize,
        error: *mut Fields,
    ) -> i32;
    pub fn hv_open_stream(
        stream: *mut ArrowArrayStream,
        reader: *mut *mut RawReader,
        error: *mut Fields,
    ) -> i32;
    pub fn hv_stream_schema(reader: *const RawReader) -> *const ArrowSchema;
    pub fn hv_stream_width(reader: *const RawReader) -> usize;
    pub fn hv_stream_choose(reader: *mut RawReader, column: usize, how: u8);
    pub fn hv_stream_next(
        settings: *const Session,
        reader: *mut RawReader,
        columns: *mut Handle,
        count: usize,
        more: *mut u8,
        error: *mut Fields,
    ) -> i32;
    pub fn hv_stream_words(reader: *const RawReader) -> *const c_char;
    pub fn hv_close_stream(reader: *mut RawReader);
    pub fn hv_concat_columns(
        settings: *const Session,
        columns: *mut Handle,
        count: usize,
        out: *mut Handle,
        error: *mut Fields,
    ) -> i32;
    pub fn hv_value_format(schema: *const ArrowSchema) -> *const c_char;
    pub fn hv_export_with(
        settings: *const Session,
        column: *mut Handle,
        name: *const c_char,
        options: *const RawOptions,
        schema: *mut ArrowSchema,
        array: *mut ArrowArray,
        error: *mut Fields,
    ) -> i32;
    pub fn hv_export_stream(
        settings: *const Session,
        columns: *mut Handle,
        names: *const *const c_char,
        count: usize,
        chunk_rows: usize,
        options: *const RawOptions,
        stream: *mut ArrowArrayStream,
        error: *mut Fields,
    ) -> i32;
}
