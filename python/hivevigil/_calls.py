"""What each export of hivevigil_exports.h takes and returns, as ctypes declares it."""
from __future__ import annotations

from ctypes import (
    POINTER, c_char_p, c_int8, c_int16, c_int32, c_int64, c_size_t, c_uint8, c_uint16, c_uint32, c_uint64, c_void_p,
)
from typing import Any

from ._structs import BuilderHandle, Fields, Handle, Kind, Pair, Session, TableHandle, Total, Value

# made by tools/declarations.py from hivevigil.h and hivevigil_tables.h
CALLS: dict[str, tuple[list[Any], Any]] = {
    "hv_session_initial": ([POINTER(Session)], None),
    "hv_u8": ([
        POINTER(c_uint8), c_size_t, c_uint8, c_char_p, c_size_t, c_size_t, POINTER(Handle), POINTER(Fields),
    ], c_int32),
    "hv_u16": ([
        POINTER(c_uint16), c_size_t, c_uint8, c_char_p, c_size_t, c_size_t, POINTER(Handle), POINTER(Fields),
    ], c_int32),
    "hv_u32": ([
        POINTER(c_uint32), c_size_t, c_uint8, c_char_p, c_size_t, c_size_t, POINTER(Handle), POINTER(Fields),
    ], c_int32),
    "hv_u64": ([
        POINTER(c_uint64), c_size_t, c_uint8, c_char_p, c_size_t, c_size_t, POINTER(Handle), POINTER(Fields),
    ], c_int32),
    "hv_i8": ([
        POINTER(c_int8), c_size_t, c_uint8, c_char_p, c_size_t, c_size_t, POINTER(Handle), POINTER(Fields),
    ], c_int32),
    "hv_i16": ([
        POINTER(c_int16), c_size_t, c_uint8, c_char_p, c_size_t, c_size_t, POINTER(Handle), POINTER(Fields),
    ], c_int32),
    "hv_i32": ([
        POINTER(c_int32), c_size_t, c_uint8, c_char_p, c_size_t, c_size_t, POINTER(Handle), POINTER(Fields),
    ], c_int32),
    "hv_i64": ([
        POINTER(c_int64), c_size_t, c_uint8, c_char_p, c_size_t, c_size_t, POINTER(Handle), POINTER(Fields),
    ], c_int32),
    "hv_bools": ([
        c_char_p, c_size_t, c_size_t, c_size_t, c_uint8, c_char_p, c_size_t, c_size_t, POINTER(Handle), POINTER(Fields),
    ], c_int32),
    "hv_decimals": ([
        POINTER(Pair), c_size_t, c_uint8, c_int8, c_uint8, c_char_p, c_size_t, c_size_t, POINTER(Handle),
        POINTER(Fields),
    ], c_int32),
    "hv_texts": ([
        c_uint8, POINTER(c_int32), c_size_t, c_char_p, c_size_t, c_uint8, c_char_p, c_size_t, c_size_t, POINTER(Handle),
        POINTER(Fields),
    ], c_int32),
    "hv_large_texts": ([
        c_uint8, POINTER(c_int64), c_size_t, c_char_p, c_size_t, c_uint8, c_char_p, c_size_t, c_size_t, POINTER(Handle),
        POINTER(Fields),
    ], c_int32),
    "hv_constant": ([
        POINTER(Kind), POINTER(Value), c_char_p, c_size_t, c_size_t, POINTER(Handle), POINTER(Fields),
    ], c_int32),
    "hv_runs": ([POINTER(Handle), POINTER(Handle), c_size_t, c_size_t, POINTER(Handle), POINTER(Fields)], c_int32),
    "hv_lists": ([
        POINTER(Handle), POINTER(c_uint64), c_size_t, POINTER(c_uint64), c_size_t, c_uint8, c_char_p, c_size_t,
        c_size_t, POINTER(Handle), POINTER(Fields),
    ], c_int32),
    "hv_clone": ([POINTER(Handle), POINTER(Handle), POINTER(Fields)], c_int32),
    "hv_compact": ([POINTER(Handle), POINTER(Handle), POINTER(Fields)], c_int32),
    "hv_encode": ([POINTER(Session), POINTER(Handle), POINTER(Handle), POINTER(Fields)], c_int32),
    "hv_decode": ([POINTER(Session), POINTER(Handle), POINTER(Handle), POINTER(Fields)], c_int32),
    "hv_slice": ([POINTER(Session), POINTER(Handle), c_size_t, c_size_t, POINTER(Handle), POINTER(Fields)], c_int32),
    "hv_cast": ([POINTER(Session), POINTER(Handle), POINTER(Kind), POINTER(Handle), POINTER(Fields)], c_int32),
    "hv_take": ([POINTER(Session), POINTER(Handle), POINTER(Handle), POINTER(Handle), POINTER(Fields)], c_int32),
    "hv_filter": ([POINTER(Session), POINTER(Handle), POINTER(Handle), POINTER(Handle), POINTER(Fields)], c_int32),
    "hv_take_from": ([POINTER(Session), POINTER(Handle), POINTER(Handle), POINTER(Handle), POINTER(Fields)], c_int32),
    "hv_compare": ([
        POINTER(Session), POINTER(Handle), c_uint8, POINTER(Handle), POINTER(Handle), POINTER(Fields),
    ], c_int32),
    "hv_compare_scalar": ([
        POINTER(Session), POINTER(Handle), c_uint8, POINTER(Value), c_char_p, c_size_t, POINTER(Handle),
        POINTER(Fields),
    ], c_int32),
    "hv_compare_number": ([POINTER(Handle), c_uint8, POINTER(Value), POINTER(Handle), POINTER(Fields)], c_int32),
    "hv_fill": ([
        POINTER(Session), POINTER(Handle), POINTER(Value), c_char_p, c_size_t, POINTER(Handle), POINTER(Fields),
    ], c_int32),
    "hv_combine": ([POINTER(Handle), c_uint8, POINTER(Handle), POINTER(Handle), POINTER(Fields)], c_int32),
    "hv_not": ([POINTER(Handle), POINTER(Handle), POINTER(Fields)], c_int32),
    "hv_is_null": ([POINTER(Handle), POINTER(Handle), POINTER(Fields)], c_int32),
    "hv_is_valid": ([POINTER(Handle), POINTER(Handle), POINTER(Fields)], c_int32),
    "hv_if_else": ([POINTER(Handle), POINTER(Handle), POINTER(Handle), POINTER(Handle), POINTER(Fields)], c_int32),
    "hv_equals": ([POINTER(Handle), POINTER(Handle), POINTER(c_uint8), POINTER(Fields)], c_int32),
    "hv_hash": ([POINTER(Handle), POINTER(c_uint64), POINTER(Fields)], c_int32),
    "hv_fold_by": ([
        POINTER(Handle), POINTER(Handle), c_uint8, POINTER(Handle), POINTER(Handle), POINTER(Fields),
    ], c_int32),
    "hv_running_totals": ([POINTER(Handle), POINTER(Handle), POINTER(Handle), POINTER(Fields)], c_int32),
    "hv_reverse": ([POINTER(Handle), POINTER(Handle), POINTER(Fields)], c_int32),
    "hv_sort": ([POINTER(Handle), POINTER(Handle), POINTER(Fields)], c_int32),
    "hv_value_counts": ([POINTER(Handle), POINTER(Handle), POINTER(Handle), POINTER(Fields)], c_int32),
    "hv_sum": ([POINTER(Session), POINTER(Handle), POINTER(Total), POINTER(Fields)], c_int32),
    "hv_sum_parts": ([POINTER(Handle), POINTER(Pair), POINTER(Pair), POINTER(Pair), POINTER(Fields)], c_int32),
    "hv_is_constant": ([POINTER(Session), POINTER(Handle), POINTER(c_uint8), POINTER(Fields)], c_int32),
    "hv_is_sorted": ([POINTER(Session), POINTER(Handle), c_uint8, POINTER(c_uint8), POINTER(Fields)], c_int32),
    "hv_extreme": ([
        POINTER(Session), POINTER(Handle), c_uint8, POINTER(Value), c_void_p, c_size_t, POINTER(Fields),
    ], c_int32),
    "hv_min_max": ([
        POINTER(Session), POINTER(Handle), POINTER(Value), c_void_p, c_size_t, POINTER(Value), c_void_p, c_size_t,
        POINTER(Fields),
    ], c_int32),
    "hv_at": ([POINTER(Handle), c_size_t, POINTER(Value), c_void_p, c_size_t, POINTER(Fields)], c_int32),
    "hv_length": ([POINTER(Handle)], c_size_t),
    "hv_null_count": ([POINTER(Handle)], c_size_t),
    "hv_kind_of": ([POINTER(Handle)], Kind),
    "hv_form": ([POINTER(Handle)], c_uint8),
    "hv_offset": ([POINTER(Handle)], c_size_t),
    "hv_bytes_used": ([POINTER(Handle)], c_size_t),
    "hv_decimal_cast": ([POINTER(Handle), c_uint8, c_int8, POINTER(Handle), POINTER(Fields)], c_int32),
    "hv_decimal_to_integers": ([POINTER(Handle), c_uint8, POINTER(Handle), POINTER(Fields)], c_int32),
    "hv_float_encode": ([POINTER(Handle), c_uint8, POINTER(Handle), POINTER(Fields)], c_int32),
    "hv_float_decode": ([POINTER(Handle), POINTER(Handle), POINTER(Fields)], c_int32),
    "hv_float_compare": ([POINTER(Handle), c_uint8, c_uint64, c_uint8, POINTER(Handle), POINTER(Fields)], c_int32),
    "hv_float_cast": ([POINTER(Handle), c_uint8, c_uint8, POINTER(Handle), POINTER(Fields)], c_int32),
    "hv_float_of_integers": ([POINTER(Handle), c_uint8, c_uint8, POINTER(Handle), POINTER(Fields)], c_int32),
    "hv_float_to_integers": ([POINTER(Handle), c_uint8, POINTER(Handle), POINTER(Fields)], c_int32),
    "hv_float_combine": ([POINTER(Handle), c_uint8, POINTER(Handle), POINTER(Handle), POINTER(Fields)], c_int32),
    "hv_read_u8": ([POINTER(Handle), c_size_t, POINTER(c_uint8), c_size_t, POINTER(Fields)], c_int32),
    "hv_read_u16": ([POINTER(Handle), c_size_t, POINTER(c_uint16), c_size_t, POINTER(Fields)], c_int32),
    "hv_read_u32": ([POINTER(Handle), c_size_t, POINTER(c_uint32), c_size_t, POINTER(Fields)], c_int32),
    "hv_read_u64": ([POINTER(Handle), c_size_t, POINTER(c_uint64), c_size_t, POINTER(Fields)], c_int32),
    "hv_read_i8": ([POINTER(Handle), c_size_t, POINTER(c_int8), c_size_t, POINTER(Fields)], c_int32),
    "hv_read_i16": ([POINTER(Handle), c_size_t, POINTER(c_int16), c_size_t, POINTER(Fields)], c_int32),
    "hv_read_i32": ([POINTER(Handle), c_size_t, POINTER(c_int32), c_size_t, POINTER(Fields)], c_int32),
    "hv_read_i64": ([POINTER(Handle), c_size_t, POINTER(c_int64), c_size_t, POINTER(Fields)], c_int32),
    "hv_read_decimals": ([POINTER(Handle), c_size_t, POINTER(Pair), c_size_t, POINTER(Fields)], c_int32),
    "hv_read_bools": ([POINTER(Handle), POINTER(c_uint64), c_size_t, POINTER(Fields)], c_int32),
    "hv_read_validity": ([POINTER(Handle), POINTER(c_uint64), c_size_t, POINTER(Fields)], c_int32),
    "hv_read_bools_from": ([
        POINTER(Handle), c_size_t, c_size_t, POINTER(c_uint64), c_size_t, POINTER(Fields),
    ], c_int32),
    "hv_read_validity_from": ([
        POINTER(Handle), c_size_t, c_size_t, POINTER(c_uint64), c_size_t, POINTER(Fields),
    ], c_int32),
    "hv_read_offsets": ([POINTER(Handle), c_size_t, POINTER(c_int32), c_size_t, POINTER(Fields)], c_int32),
    "hv_read_large_offsets": ([POINTER(Handle), c_size_t, POINTER(c_int64), c_size_t, POINTER(Fields)], c_int32),
    "hv_read_bytes": ([POINTER(Handle), c_size_t, c_size_t, c_char_p, c_size_t, POINTER(Fields)], c_int32),
    "hv_ends": ([POINTER(Handle), POINTER(Handle), POINTER(Fields)], c_int32),
    "hv_values": ([POINTER(Handle), POINTER(Handle), POINTER(Fields)], c_int32),
    "hv_run_count": ([POINTER(Handle), POINTER(c_size_t), POINTER(Fields)], c_int32),
    "hv_run": ([
        POINTER(Handle), c_size_t, POINTER(c_size_t), POINTER(c_size_t), POINTER(Value), c_void_p, c_size_t,
        POINTER(Fields),
    ], c_int32),
    "hv_run_of": ([POINTER(Handle), c_size_t, POINTER(c_size_t), POINTER(Fields)], c_int32),
    "hv_read_ends_u64": ([POINTER(Handle), c_size_t, POINTER(c_uint64), c_size_t, POINTER(Fields)], c_int32),
    "hv_serialize": ([POINTER(Handle), c_char_p, c_size_t, POINTER(c_size_t), POINTER(Fields)], c_int32),
    "hv_deserialize": ([
        POINTER(Kind), c_size_t, c_char_p, c_size_t, POINTER(Handle), POINTER(Handle), POINTER(Handle), POINTER(Fields),
    ], c_int32),
    "hv_list_elements": ([POINTER(Handle), POINTER(Handle), POINTER(Fields)], c_int32),
    "hv_list_offsets": ([POINTER(Handle), POINTER(Handle), POINTER(Fields)], c_int32),
    "hv_list_sizes": ([POINTER(Handle), POINTER(Handle), POINTER(Fields)], c_int32),
    "hv_list_validity": ([POINTER(Handle), POINTER(Handle), POINTER(Fields)], c_int32),
    "hv_encode_rows": ([POINTER(Handle), POINTER(Handle), POINTER(Fields)], c_int32),
    "hv_builder_new": ([POINTER(Kind), POINTER(BuilderHandle), POINTER(Fields)], c_int32),
    "hv_append": ([POINTER(BuilderHandle), POINTER(Handle), POINTER(Fields)], c_int32),
    "hv_append_value": ([
        POINTER(BuilderHandle), POINTER(Value), c_char_p, c_size_t, c_size_t, POINTER(Fields),
    ], c_int32),
    "hv_encoding": ([POINTER(BuilderHandle), POINTER(Handle), POINTER(Fields)], c_int32),
    "hv_finish": ([POINTER(BuilderHandle), POINTER(Handle), POINTER(Fields)], c_int32),
    "hv_builder_rows": ([POINTER(BuilderHandle)], c_size_t),
    "hv_builder_runs": ([POINTER(BuilderHandle)], c_size_t),
    "hv_builder_free": ([POINTER(BuilderHandle)], None),
    "hv_write_size": ([POINTER(Handle), POINTER(c_size_t), POINTER(Fields)], c_int32),
    "hv_write": ([POINTER(Handle), c_char_p, c_size_t, POINTER(c_size_t), POINTER(Fields)], c_int32),
    "hv_read_column": ([c_char_p, c_size_t, POINTER(Handle), POINTER(Fields)], c_int32),
    "hv_is_message": ([c_char_p, c_size_t, POINTER(c_uint8), POINTER(Fields)], c_int32),
    "hv_with_type": ([POINTER(Handle), c_char_p, c_size_t, POINTER(Handle), POINTER(Fields)], c_int32),
    "hv_type": ([POINTER(Handle), POINTER(c_uint8), c_size_t, POINTER(c_size_t), POINTER(Fields)], c_int32),
    "hv_free": ([POINTER(Handle)], None),
    "hv_table_new": ([c_size_t, POINTER(TableHandle), POINTER(Fields)], c_int32),
    "hv_table_put": ([POINTER(TableHandle), c_char_p, c_size_t, POINTER(Handle), POINTER(Fields)], c_int32),
    "hv_table_len": ([POINTER(TableHandle)], c_size_t),
    "hv_table_width": ([POINTER(TableHandle)], c_size_t),
    "hv_table_name": ([
        POINTER(TableHandle), c_size_t, POINTER(c_uint8), c_size_t, POINTER(c_size_t), POINTER(Fields),
    ], c_int32),
    "hv_table_place": ([POINTER(TableHandle), c_char_p, c_size_t, POINTER(c_size_t), POINTER(Fields)], c_int32),
    "hv_table_column": ([POINTER(TableHandle), c_size_t, POINTER(Handle), POINTER(Fields)], c_int32),
    "hv_table_clone": ([POINTER(TableHandle), POINTER(TableHandle), POINTER(Fields)], c_int32),
    "hv_table_select": ([POINTER(TableHandle), POINTER(Handle), POINTER(TableHandle), POINTER(Fields)], c_int32),
    "hv_table_rename": ([
        POINTER(TableHandle), POINTER(Handle), POINTER(Handle), POINTER(TableHandle), POINTER(Fields),
    ], c_int32),
    "hv_table_slice": ([POINTER(TableHandle), c_size_t, c_size_t, POINTER(TableHandle), POINTER(Fields)], c_int32),
    "hv_table_filter": ([POINTER(TableHandle), POINTER(Handle), POINTER(TableHandle), POINTER(Fields)], c_int32),
    "hv_table_filter_by": ([
        POINTER(TableHandle), c_char_p, c_size_t, c_uint8, POINTER(Value), c_char_p, c_size_t, POINTER(TableHandle),
        POINTER(Fields),
    ], c_int32),
    "hv_table_take": ([POINTER(TableHandle), POINTER(Handle), POINTER(TableHandle), POINTER(Fields)], c_int32),
    "hv_table_append": ([POINTER(TableHandle), POINTER(TableHandle), POINTER(TableHandle), POINTER(Fields)], c_int32),
    "hv_table_drop_null": ([POINTER(TableHandle), POINTER(Handle), POINTER(TableHandle), POINTER(Fields)], c_int32),
    "hv_table_sort": ([
        POINTER(TableHandle), POINTER(Handle), c_char_p, c_size_t, POINTER(TableHandle), POINTER(Fields),
    ], c_int32),
    "hv_table_group_by": ([
        POINTER(TableHandle), POINTER(Handle), POINTER(Handle), POINTER(Handle), c_char_p, c_size_t,
        POINTER(TableHandle), POINTER(Fields),
    ], c_int32),
    "hv_table_free": ([POINTER(TableHandle)], None),
}
# end of what tools/declarations.py makes
