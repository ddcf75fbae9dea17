//! The exports of hivevigil_exports.h, as Rust declares them.
#![allow(clippy::too_many_arguments, dead_code)]

/// A handle: a column that the library owns, or none.
#[repr(C)]
pub struct Handle {
    pub at: *mut u8,
}

/// The handle of a builder: one that the library owns, or none.
#[repr(C)]
pub struct BuilderHandle {
    pub at: *mut u8,
}

/// Holds a table that the library owns, or none.
#[repr(C)]
pub struct TableHandle {
    pub at: *mut u8,
}

#[repr(C)]
#[derive(Clone, Copy, Debug, Default)]
pub struct RawValue {
    pub as_unsigned: u64,
    pub as_signed: i64,
    pub kind: u8,
    pub truth: u8,
    pub scale: i8,
}

#[repr(C)]
#[derive(Clone, Copy, Debug, Default)]
pub struct RawTotal {
    pub as_unsigned: u64,
    pub as_signed: i64,
    pub kind: u8,
    pub empty: u8,
    pub scale: i8,
}

#[repr(C)]
#[derive(Clone, Copy, Debug, Default)]
pub struct Pair {
    pub low: u64,
    pub high: i64,
}

use crate::{Fields, Kind, Session};

// made by tools/declarations.py from hivevigil.h and hivevigil_tables.h
extern "C" {
    pub fn hv_session_initial(settings: *mut Session);
    pub fn hv_u8(
        items: *const u8,
        len: usize,
        nulls: u8,
        bits: *const u8,
        bits_len: usize,
        first: usize,
        out: *mut Handle,
        error: *mut Fields,
    ) -> i32;
    pub fn hv_u16(
        items: *const u16,
        len: usize,
        nulls: u8,
        bits: *const u8,
        bits_len: usize,
        first: usize,
        out: *mut Handle,
        error: *mut Fields,
    ) -> i32;
    pub fn hv_u32(
        items: *const u32,
        len: usize,
        nulls: u8,
        bits: *const u8,
        bits_len: usize,
        first: usize,
        out: *mut Handle,
        error: *mut Fields,
    ) -> i32;
    pub fn hv_u64(
        items: *const u64,
        len: usize,
        nulls: u8,
        bits: *const u8,
        bits_len: usize,
        first: usize,
        out: *mut Handle,
        error: *mut Fields,
    ) -> i32;
    pub fn hv_i8(
        items: *const i8,
        len: usize,
        nulls: u8,
        bits: *const u8,
        bits_len: usize,
        first: usize,
        out: *mut Handle,
        error: *mut Fields,
    ) -> i32;
    pub fn hv_i16(
        items: *const i16,
        len: usize,
        nulls: u8,
        bits: *const u8,
        bits_len: usize,
        first: usize,
        out: *mut Handle,
        error: *mut Fields,
    ) -> i32;
    pub fn hv_i32(
        items: *const i32,
        len: usize,
        nulls: u8,
        bits: *const u8,
        bits_len: usize,
        first: usize,
        out: *mut Handle,
        error: *mut Fields,
    ) -> i32;
    pub fn hv_i64(
        items: *const i64,
        len: usize,
        nulls: u8,
        bits: *const u8,
        bits_len: usize,
        first: usize,
        out: *mut Handle,
        error: *mut Fields,
    ) -> i32;
    pub fn hv_bools(
        truths: *const u8,
        truths_len: usize,
        start: usize,
        count: usize,
        nulls: u8,
        bits: *const u8,
        bits_len: usize,
        first: usize,
        out: *mut Handle,
        error: *mut Fields,
    ) -> i32;
    pub fn hv_decimals(
        pairs: *const Pair,
        len: usize,
        precision: u8,
        scale: i8,
        nulls: u8,
        bits: *const u8,
        bits_len: usize,
        first: usize,
        out: *mut Handle,
        error: *mut Fields,
    ) -> i32;
    pub fn hv_texts(
        binary: u8,
        offsets: *const i32,
        offsets_len: usize,
        bytes: *const u8,
        bytes_len: usize,
        nulls: u8,
        bits: *const u8,
        bits_len: usize,
        first: usize,
        out: *mut Handle,
        error: *mut Fields,
    ) -> i32;
    pub fn hv_large_texts(
        binary: u8,
        offsets: *const i64,
        offsets_len: usize,
        bytes: *const u8,
        bytes_len: usize,
        nulls: u8,
        bits: *const u8,
        bits_len: usize,
        first: usize,
        out: *mut Handle,
        error: *mut Fields,
    ) -> i32;
    pub fn hv_constant(
        kind: *const Kind,
        value: *const RawValue,
        text: *const u8,
        text_len: usize,
        count: usize,
        out: *mut Handle,
        error: *mut Fields,
    ) -> i32;
    pub fn hv_runs(
        ends: *mut Handle,
        values: *mut Handle,
        offset: usize,
        count: usize,
        out: *mut Handle,
        error: *mut Fields,
    ) -> i32;
    pub fn hv_lists(
        elements: *mut Handle,
        offsets: *const u64,
        offsets_len: usize,
        sizes: *const u64,
        sizes_len: usize,
        nulls: u8,
        bits: *const u8,
        bits_len: usize,
        first: usize,
        out: *mut Handle,
        error: *mut Fields,
    ) -> i32;
    pub fn hv_clone(column: *mut Handle, out: *mut Handle, error: *mut Fields) -> i32;
    pub fn hv_compact(column: *mut Handle, out: *mut Handle, error: *mut Fields) -> i32;
    pub fn hv_encode(
        settings: *const Session,
        column: *mut Handle,
        out: *mut Handle,
        error: *mut Fields,
    ) -> i32;
    pub fn hv_decode(
        settings: *const Session,
        column: *mut Handle,
        out: *mut Handle,
        error: *mut Fields,
    ) -> i32;
    pub fn hv_slice(
        settings: *const Session,
        column: *mut Handle,
        start: usize,
        stop: usize,
        out: *mut Handle,
        error: *mut Fields,
    ) -> i32;
    pub fn hv_cast(
        settings: *const Session,
        column: *mut Handle,
        kind: *const Kind,
        out: *mut Handle,
        error: *mut Fields,
    ) -> i32;
    pub fn hv_take(
        settings: *const Session,
        column: *mut Handle,
        indices: *mut Handle,
        out: *mut Handle,
        error: *mut Fields,
    ) -> i32;
    pub fn hv_filter(
        settings: *const Session,
        column: *mut Handle,
        mask: *mut Handle,
        out: *mut Handle,
        error: *mut Fields,
    ) -> i32;
    pub fn hv_take_from(
        settings: *const Session,
        codes: *mut Handle,
        dictionary: *mut Handle,
        out: *mut Handle,
        error: *mut Fields,
    ) -> i32;
    pub fn hv_compare(
        settings: *const Session,
        column: *mut Handle,
        operator: u8,
        right: *mut Handle,
        out: *mut Handle,
        error: *mut Fields,
    ) -> i32;
    pub fn hv_compare_scalar(
        settings: *const Session,
        column: *mut Handle,
        operator: u8,
        value: *const RawValue,
        text: *const u8,
        text_len: usize,
        out: *mut Handle,
        error: *mut Fields,
    ) -> i32;
    pub fn hv_compare_number(
        column: *mut Handle,
        operator: u8,
        value: *const RawValue,
        out: *mut Handle,
        error: *mut Fields,
    ) -> i32;
    pub fn hv_fill(
        settings: *const Session,
        column: *mut Handle,
        value: *const RawValue,
        text: *const u8,
        text_len: usize,
        out: *mut Handle,
        error: *mut Fields,
    ) -> i32;
    pub fn hv_combine(
        left: *mut Handle,
        operator: u8,
        right: *mut Handle,
        out: *mut Handle,
        error: *mut Fields,
    ) -> i32;
    pub fn hv_not(column: *mut Handle, out: *mut Handle, error: *mut Fields) -> i32;
    pub fn hv_is_null(column: *mut Handle, out: *mut Handle, error: *mut Fields) -> i32;
    pub fn hv_is_valid(column: *mut Handle, out: *mut Handle, error: *mut Fields) -> i32;
    pub fn hv_if_else(
        mask: *mut Handle,
        left: *mut Handle,
        right: *mut Handle,
        out: *mut Handle,
        error: *mut Fields,
    ) -> i32;
    pub fn hv_equals(
        left: *mut Handle,
        right: *mut Handle,
        truth: *mut u8,
        error: *mut Fields,
    ) -> i32;
    pub fn hv_hash(column: *mut Handle, hash: *mut u64, error: *mut Fields) -> i32;
    pub fn hv_fold_by(
        keys: *mut Handle,
        values: *mut Handle,
        fold: u8,
        out_keys: *mut Handle,
        out_answers: *mut Handle,
        error: *mut Fields,
    ) -> i32;
    pub fn hv_running_totals(
        column: *mut Handle,
        out_ends: *mut Handle,
        out_totals: *mut Handle,
        error: *mut Fields,
    ) -> i32;
    pub fn hv_reverse(column: *mut Handle, out: *mut Handle, error: *mut Fields) -> i32;
    pub fn hv_sort(column: *mut Handle, out: *mut Handle, error: *mut Fields) -> i32;
    pub fn hv_value_counts(
        column: *mut Handle,
        out_values: *mut Handle,
        out_counts: *mut Handle,
        error: *mut Fields,
    ) -> i32;
    pub fn hv_sum(
        settings: *const Session,
        column: *mut Handle,
        total: *mut RawTotal,
        error: *mut Fields,
    ) -> i32;
    pub fn hv_sum_parts(
        column: *mut Handle,
        total: *mut Pair,
        least: *mut Pair,
        greatest: *mut Pair,
        error: *mut Fields,
    ) -> i32;
    pub fn hv_is_constant(
        settings: *const Session,
        column: *mut Handle,
        truth: *mut u8,
        error: *mut Fields,
    ) -> i32;
    pub fn hv_is_sorted(
        settings: *const Session,
        column: *mut Handle,
        strict: u8,
        truth: *mut u8,
        error: *mut Fields,
    ) -> i32;
    pub fn hv_extreme(
        settings: *const Session,
        column: *mut Handle,
        greatest: u8,
        value: *mut RawValue,
        text: *mut u8,
        text_len: usize,
        error: *mut Fields,
    ) -> i32;
    pub fn hv_min_max(
        settings: *const Session,
        column: *mut Handle,
        least: *mut RawValue,
        least_text: *mut u8,
        least_text_len: usize,
        greatest: *mut RawValue,
        greatest_text: *mut u8,
        greatest_text_len: usize,
        error: *mut Fields,
    ) -> i32;
    pub fn hv_at(
        column: *mut Handle,
        row: usize,
        value: *mut RawValue,
        text: *mut u8,
        text_len: usize,
        error: *mut Fields,
    ) -> i32;
    pub fn hv_length(column: *mut Handle) -> usize;
    pub fn hv_null_count(column: *mut Handle) -> usize;
    pub fn hv_kind_of(column: *mut Handle) -> Kind;
    pub fn hv_form(column: *mut Handle) -> u8;
    pub fn hv_offset(column: *mut Handle) -> usize;
    pub fn hv_bytes_used(column: *mut Handle) -> usize;
    pub fn hv_decimal_cast(
        column: *mut Handle,
        precision: u8,
        scale: i8,
        out: *mut Handle,
        error: *mut Fields,
    ) -> i32;
    pub fn hv_decimal_to_integers(
        decimals: *mut Handle,
        to: u8,
        out: *mut Handle,
        error: *mut Fields,
    ) -> i32;
    pub fn hv_float_encode(
        bits: *mut Handle,
        is_canonical: u8,
        out: *mut Handle,
        error: *mut Fields,
    ) -> i32;
    pub fn hv_float_decode(floats: *mut Handle, out: *mut Handle, error: *mut Fields) -> i32;
    pub fn hv_float_compare(
        floats: *mut Handle,
        operator: u8,
        constant: u64,
        is_ieee: u8,
        out: *mut Handle,
        error: *mut Fields,
    ) -> i32;
    pub fn hv_float_cast(
        floats: *mut Handle,
        to: u8,
        is_rounded: u8,
        out: *mut Handle,
        error: *mut Fields,
    ) -> i32;
    pub fn hv_float_of_integers(
        integers: *mut Handle,
        to: u8,
        is_rounded: u8,
        out: *mut Handle,
        error: *mut Fields,
    ) -> i32;
    pub fn hv_float_to_integers(
        floats: *mut Handle,
        to: u8,
        out: *mut Handle,
        error: *mut Fields,
    ) -> i32;
    pub fn hv_float_combine(
        left: *mut Handle,
        operator: u8,
        right: *mut Handle,
        out: *mut Handle,
        error: *mut Fields,
    ) -> i32;
    pub fn hv_read_u8(
        column: *mut Handle,
        start: usize,
        items: *mut u8,
        len: usize,
        error: *mut Fields,
    ) -> i32;
    pub fn hv_read_u16(
        column: *mut Handle,
        start: usize,
        items: *mut u16,
        len: usize,
        error: *mut Fields,
    ) -> i32;
    pub fn hv_read_u32(
        column: *mut Handle,
        start: usize,
        items: *mut u32,
        len: usize,
        error: *mut Fields,
    ) -> i32;
    pub fn hv_read_u64(
        column: *mut Handle,
        start: usize,
        items: *mut u64,
        len: usize,
        error: *mut Fields,
    ) -> i32;
    pub fn hv_read_i8(
        column: *mut Handle,
        start: usize,
        items: *mut i8,
        len: usize,
        error: *mut Fields,
    ) -> i32;
    pub fn hv_read_i16(
        column: *mut Handle,
        start: usize,
        items: *mut i16,
        len: usize,
        error: *mut Fields,
    ) -> i32;
    pub fn hv_read_i32(
        column: *mut Handle,
        start: usize,
        items: *mut i32,
        len: usize,
        error: *mut Fields,
    ) -> i32;
    pub fn hv_read_i64(
        column: *mut Handle,
        start: usize,
        items: *mut i64,
        len: usize,
        error: *mut Fields,
    ) -> i32;
    pub fn hv_read_decimals(
        column: *mut Handle,
        start: usize,
        pairs: *mut Pair,
        len: usize,
        error: *mut Fields,
    ) -> i32;
    pub fn hv_read_bools(
        column: *mut Handle,
        words: *mut u64,
        len: usize,
        error: *mut Fields,
    ) -> i32;
    pub fn hv_read_validity(
        column: *mut Handle,
        words: *mut u64,
        len: usize,
        error: *mut Fields,
    ) -> i32;
    pub fn hv_read_bools_from(
        column: *mut Handle,
        start: usize,
        rows: usize,
        words: *mut u64,
        len: usize,
        error: *mut Fields,
    ) -> i32;
    pub fn hv_read_validity_from(
        column: *mut Handle,
        start: usize,
        rows: usize,
        words: *mut u64,
        len: usize,
        error: *mut Fields,
    ) -> i32;
    pub fn hv_read_offsets(
        column: *mut Handle,
        start: usize,
        offsets: *mut i32,
        len: usize,
        error: *mut Fields,
    ) -> i32;
    pub fn hv_read_large_offsets(
        column: *mut Handle,
        start: usize,
        offsets: *mut i64,
        len: usize,
        error: *mut Fields,
    ) -> i32;
    pub fn hv_read_bytes(
        column: *mut Handle,
        start: usize,
        rows: usize,
        bytes: *mut u8,
        len: usize,
        error: *mut Fields,
    ) -> i32;
    pub fn hv_ends(column: *mut Handle, out: *mut Handle, error: *mut Fields) -> i32;
    pub fn hv_values(column: *mut Handle, out: *mut Handle, error: *mut Fields) -> i32;
    pub fn hv_run_count(column: *mut Handle, count: *mut usize, error: *mut Fields) -> i32;
    pub fn hv_run(
        column: *mut Handle,
        run: usize,
        start: *mut usize,
        stop: *mut usize,
        value: *mut RawValue,
        text: *mut u8,
        text_len: usize,
        error: *mut Fields,
    ) -> i32;
    pub fn hv_run_of(column: *mut Handle, row: usize, run: *mut usize, error: *mut Fields) -> i32;
    pub fn hv_read_ends_u64(
        column: *mut Handle,
        first: usize,
        stops: *mut u64,
        len: usize,
        error: *mut Fields,
    ) -> i32;
    pub fn hv_serialize(
        column: *mut Handle,
        bytes: *mut u8,
        bytes_len: usize,
        size: *mut usize,
        error: *mut Fields,
    ) -> i32;
    pub fn hv_deserialize(
        kind: *const Kind,
        count: usize,
        bytes: *const u8,
        bytes_len: usize,
        ends: *mut Handle,
        values: *mut Handle,
        out: *mut Handle,
        error: *mut Fields,
    ) -> i32;
    pub fn hv_list_elements(column: *mut Handle, out: *mut Handle, error: *mut Fields) -> i32;
    pub fn hv_list_offsets(column: *mut Handle, out: *mut Handle, error: *mut Fields) -> i32;
    pub fn hv_list_sizes(column: *mut Handle, out: *mut Handle, error: *mut Fields) -> i32;
    pub fn hv_list_validity(column: *mut Handle, out: *mut Handle, error: *mut Fields) -> i32;
    pub fn hv_encode_rows(column: *mut Handle, out: *mut Handle, error: *mut Fields) -> i32;
    pub fn hv_builder_new(
        kind: *const Kind,
        builder: *mut BuilderHandle,
        error: *mut Fields,
    ) -> i32;
    pub fn hv_append(builder: *mut BuilderHandle, column: *mut Handle, error: *mut Fields) -> i32;
    pub fn hv_append_value(
        builder: *mut BuilderHandle,
        value: *const RawValue,
        text: *const u8,
        text_len: usize,
        count: usize,
        error: *mut Fields,
    ) -> i32;
    pub fn hv_encoding(builder: *mut BuilderHandle, out: *mut Handle, error: *mut Fields) -> i32;
    pub fn hv_finish(builder: *mut BuilderHandle, out: *mut Handle, error: *mut Fields) -> i32;
    pub fn hv_builder_rows(builder: *mut BuilderHandle) -> usize;
    pub fn hv_builder_runs(builder: *mut BuilderHandle) -> usize;
    pub fn hv_builder_free(builder: *mut BuilderHandle);
    pub fn hv_write_size(column: *mut Handle, size: *mut usize, error: *mut Fields) -> i32;
    pub fn hv_write(
        column: *mut Handle,
        bytes: *mut u8,
        bytes_len: usize,
        size: *mut usize,
        error: *mut Fields,
    ) -> i32;
    pub fn hv_read_column(
        bytes: *const u8,
        bytes_len: usize,
        out: *mut Handle,
        error: *mut Fields,
    ) -> i32;
    pub fn hv_is_message(
        bytes: *const u8,
        bytes_len: usize,
        truth: *mut u8,
        error: *mut Fields,
    ) -> i32;
    pub fn hv_with_type(
        column: *mut Handle,
        format: *const u8,
        format_len: usize,
        out: *mut Handle,
        error: *mut Fields,
    ) -> i32;
    pub fn hv_type(
        column: *mut Handle,
        format: *mut u8,
        format_len: usize,
        size: *mut usize,
        error: *mut Fields,
    ) -> i32;
    pub fn hv_free(column: *mut Handle);
    pub fn hv_table_new(count: usize, out: *mut TableHandle, error: *mut Fields) -> i32;
    pub fn hv_table_put(
        table: *mut TableHandle,
        name: *const u8,
        name_len: usize,
        column: *mut Handle,
        error: *mut Fields,
    ) -> i32;
    pub fn hv_table_len(table: *mut TableHandle) -> usize;
    pub fn hv_table_width(table: *mut TableHandle) -> usize;
    pub fn hv_table_name(
        table: *mut TableHandle,
        place: usize,
        name: *mut u8,
        name_len: usize,
        size: *mut usize,
        error: *mut Fields,
    ) -> i32;
    pub fn hv_table_place(
        table: *mut TableHandle,
        name: *const u8,
        name_len: usize,
        place: *mut usize,
        error: *mut Fields,
    ) -> i32;
    pub fn hv_table_column(
        table: *mut TableHandle,
        place: usize,
        out: *mut Handle,
        error: *mut Fields,
    ) -> i32;
    pub fn hv_table_clone(
        table: *mut TableHandle,
        out: *mut TableHandle,
        error: *mut Fields,
    ) -> i32;
    pub fn hv_table_select(
        table: *mut TableHandle,
        names: *mut Handle,
        out: *mut TableHandle,
        error: *mut Fields,
    ) -> i32;
    pub fn hv_table_rename(
        table: *mut TableHandle,
        names: *mut Handle,
        new_names: *mut Handle,
        out: *mut TableHandle,
        error: *mut Fields,
    ) -> i32;
    pub fn hv_table_slice(
        table: *mut TableHandle,
        start: usize,
        stop: usize,
        out: *mut TableHandle,
        error: *mut Fields,
    ) -> i32;
    pub fn hv_table_filter(
        table: *mut TableHandle,
        mask: *mut Handle,
        out: *mut TableHandle,
        error: *mut Fields,
    ) -> i32;
    pub fn hv_table_filter_by(
        table: *mut TableHandle,
        name: *const u8,
        name_len: usize,
        operator: u8,
        value: *const RawValue,
        text: *const u8,
        text_len: usize,
        out: *mut TableHandle,
        error: *mut Fields,
    ) -> i32;
    pub fn hv_table_take(
        table: *mut TableHandle,
        indices: *mut Handle,
        out: *mut TableHandle,
        error: *mut Fields,
    ) -> i32;
    pub fn hv_table_append(
        table: *mut TableHandle,
        other: *mut TableHandle,
        out: *mut TableHandle,
        error: *mut Fields,
    ) -> i32;
    pub fn hv_table_drop_null(
        table: *mut TableHandle,
        names: *mut Handle,
        out: *mut TableHandle,
        error: *mut Fields,
    ) -> i32;
    pub fn hv_table_sort(
        table: *mut TableHandle,
        names: *mut Handle,
        flags: *const u8,
        flags_len: usize,
        out: *mut TableHandle,
        error: *mut Fields,
    ) -> i32;
    pub fn hv_table_group_by(
        table: *mut TableHandle,
        keys: *mut Handle,
        answers: *mut Handle,
        columns: *mut Handle,
        folds: *const u8,
        folds_len: usize,
        out: *mut TableHandle,
        error: *mut Fields,
    ) -> i32;
    pub fn hv_table_free(table: *mut TableHandle);
}
// end of what tools/declarations.py makes
