"""The shared object: where it is, and how its calls are made.

The header asks for one call at a time on each column and table, also where it only reads, since the handle is written
while a call runs. So a handle is lent only to calls that hold the interpreter's lock (PyDLL), and threads make these one
at a time. A call that may take long, over many rows or runs, is lent clones that no other thread knows, which share the
buffers, and is made without the lock (CDLL). Lists share a count of owners that is not atomic, and keep the lock.
"""
from __future__ import annotations

import ctypes
import os
import sys
from ctypes import POINTER, c_char_p, c_int8, c_int32, c_int64, c_size_t, c_uint8, c_uint64, c_void_p
from pathlib import Path
from typing import Any

from ._arrow_structs import ArrowArray, ArrowArrayStream, ArrowSchema
from ._calls import CALLS
from ._structs import ArrowOptions, BuilderHandle, Fields, Handle, Kind, Pair, Session, TableHandle, Total, Value
from .errors import refusal

__all__ = [
    "ArrowOptions", "BuilderHandle", "Fields", "Handle", "Kind", "NUMBERS", "Pair", "Session", "TableHandle", "Total",
    "Value", "answered", "ask", "calls", "calls_without_lock", "initial_session", "session",
]
VARIABLE = "HIVEVIGIL_SO"
_NAME = "libhivevigil.so"


NUMBERS = {
    "u8": c_uint8, "u16": ctypes.c_uint16, "u32": ctypes.c_uint32, "u64": c_uint64,
    "i8": c_int8, "i16": ctypes.c_int16, "i32": c_int32, "i64": c_int64,
}

# the calls of this package's own part of the shared object, over the headers of Arrow
_HANDLE, _FIELDS, _SESSION = POINTER(Handle), POINTER(Fields), POINTER(Session)
_ARROW_CALLS: dict[str, tuple[list[Any], Any]] = {
    "hv_import_array": ([_SESSION, c_void_p, c_void_p, _HANDLE, _FIELDS], c_int32),
    "hv_import_bits": ([_SESSION, c_void_p, c_void_p, _HANDLE, _FIELDS], c_int32),
    "hv_import_child_bits": ([_SESSION, c_void_p, c_void_p, c_int64, _HANDLE, _FIELDS], c_int32),
    "hv_import_child": ([_SESSION, c_void_p, c_void_p, c_int64, _HANDLE, _FIELDS], c_int32),
    "hv_concat_columns": ([_SESSION, _HANDLE, c_size_t, _HANDLE, _FIELDS], c_int32),
    "hv_export_with": ([
        _SESSION, _HANDLE, c_char_p, POINTER(ArrowOptions), POINTER(ArrowSchema), POINTER(ArrowArray), _FIELDS,
    ], c_int32),
    "hv_export_stream": ([
        _SESSION, _HANDLE, POINTER(c_char_p), c_size_t, c_size_t, POINTER(ArrowOptions), POINTER(ArrowArrayStream),
        _FIELDS,
    ], c_int32),
    "hv_import_stream": ([
        _SESSION, POINTER(ArrowArrayStream), _HANDLE, c_size_t, c_char_p, c_char_p, c_size_t, _FIELDS,
    ], c_int32),
    "hv_capsule_calls": ([c_void_p, c_void_p], None),
    "hv_capsule_room": ([c_size_t], c_void_p),
}


def _declare(library: Any) -> None:
    """Sets what each call takes and returns."""
    for name, (takes, answers) in {**CALLS, **_ARROW_CALLS}.items():
        getattr(library, name).argtypes, getattr(library, name).restype = takes, answers


def _load() -> tuple[Any, Any]:
    """The shared object that the environment names, else the one next to this file, else that of the checkout."""
    named = os.environ.get(VARIABLE)
    here = Path(__file__).resolve()
    places = [Path(named)] if named else [here.parent / _NAME, here.parents[2] / "lib" / _NAME]
    for place in places:
        if place.exists():
            libraries = ctypes.PyDLL(str(place)), ctypes.CDLL(str(place))
            for library in libraries:
                _declare(library)
            return libraries
    looked = ", ".join(map(str, places))
    raise ImportError(f"no {_NAME}: looked for {looked}; `sh examples/build.sh` makes it, {VARIABLE} names another")


if not getattr(sys, "_is_gil_enabled", lambda: True)():
    raise ImportError("calls need the interpreter's lock, which this build of Python is without")
calls, calls_without_lock = _load()


def initial_session() -> Session:
    """The session with every kernel and the thresholds of the crate that is ported."""
    session = Session()
    calls.hv_session_initial(session)
    return session


session = initial_session()


# what calls are called here that have another name
_METHODS = {
    "extreme": "min and max", "compare_scalar": "compare", "compare_number": "compare", "combine": "compare", "if_else": "where", "hash": "hash_rows", "serialize": "record", "deserialize": "from_record",
    "runs": "from_runs", "lists": "from_lists", "clone": "copy", "concat_columns": "concat",
    "export_with": "to_arrow",
    "export_stream": "to_arrow", "encode_rows": "to_runs", "read_bools": "truths", "read_validity": "validity",
    "write_size": "to_bytes", "read_column": "from_bytes", "with_type": "storage", "type": "logical_type",
}


# the calls whose time grows with rows or runs, each by the name that both libraries have
_LONG = frozenset("hv_" + name for name in (
    "u8", "u16", "u32", "u64", "i8", "i16", "i32", "i64", "bools", "decimals", "texts", "large_texts",
    "runs", "compact", "encode", "encode_rows", "decode", "cast", "take", "filter", "take_from", "compare",
    "compare_scalar", "compare_number", "combine", "not", "is_null", "is_valid", "if_else", "equals", "hash", "fill", "float_cast", "float_of_integers", "float_to_integers", "float_combine", "running_totals", "sum", "is_constant", "is_sorted", "extreme", "min_max",
    "read_u8", "read_u16", "read_u32", "read_u64", "read_i8", "read_i16", "read_i32", "read_i64", "read_decimals",
    "read_bools_from", "read_validity_from", "read_large_offsets", "read_bytes", "read_ends_u64",
    "write_size", "write", "read_column", "is_message",
    "table_filter", "table_take", "table_append", "table_drop_null", "table_sort", "table_group_by",
))
_MANY = 16384  # rows, runs, items or bytes: from here on a call takes longer than the clones that it is lent
_LIST = 12  # the number of the type of lists
_CONSTANT, _RUNS = 1, 3  # the numbers of these forms


def ask(call: Any, *arguments: Any) -> None:
    """Calls, and raises the refusal if there is one."""
    number, fields = answered(call, *arguments)
    if number:
        columns = [argument for argument in arguments if _lends(argument, Handle)]
        name = call.__name__[len("hv_") :]
        refused = refusal(number, fields.first, fields.second, fields.third)
        raise refused.about(_METHODS.get(name, name), *(column for column in columns if not column.freed))


def answered(call: Any, *arguments: Any) -> tuple[int, Fields]:
    """Calls, and returns the number of the refusal, 0 where there is none, and its fields."""
    fields = Fields()
    return _answer(call, arguments, fields), fields


def _lends(argument: Any, kind: Any) -> bool:
    """Whether an argument has a handle of this kind, which it lends."""
    return isinstance(getattr(argument, "_handle", None), kind)


def _answer(call: Any, arguments: tuple[Any, ...], fields: Fields) -> int:
    """The number that a call answers, which is made without the interpreter's lock where it may take long."""
    name = call.__name__
    if name not in _LONG or max(_size(argument, name == "hv_decode") for argument in arguments) < _MANY:
        return int(call(*arguments, fields))
    lent = [_handle_like(argument) for argument in arguments]
    clones = [(owner, clone) for owner, clone in zip(arguments, lent) if clone is not owner]
    try:
        if not all(_is_cloned(owner, clone) for owner, clone in clones):
            return int(call(*arguments, fields))
        return int(getattr(calls_without_lock, name)(*lent, fields))
    finally:
        for _, clone in clones:
            (calls.hv_free if isinstance(clone, Handle) else calls.hv_table_free)(clone)


def _handle_like(argument: Any) -> Any:
    """An empty handle of the kind that an argument lends, or the argument where it lends none."""
    return type(argument._handle)() if _lends(argument, (Handle, TableHandle)) else argument


def _size(argument: Any, is_written_out: bool) -> int:
    """How much there is of an argument: items of a buffer, rows of a flat column, runs of others unless all rows are
    written out, and of a table that of its greatest column. After a short call a thread would wait for the lock longer
    than it worked."""
    if _lends(argument, TableHandle):
        rows = int(calls.hv_table_len(argument))
        return rows if rows < _MANY else max((_size(each, False) for each in argument.columns.values()), default=0)
    if not _lends(argument, Handle):
        return len(argument) if isinstance(argument, (ctypes.Array, bytes)) else 0
    rows = int(calls.hv_length(argument))
    if rows < _MANY or is_written_out:
        return rows
    form, runs = calls.hv_form(argument), c_size_t(1)
    if form == _RUNS:
        calls.hv_run_count(argument, runs, Fields())
    return runs.value if form in (_CONSTANT, _RUNS) else rows


def _is_cloned(owner: Any, clone: Any) -> bool:
    """Whether the clone is another owner of what a column or a table has, which threads may use at once."""
    if isinstance(clone, Handle):
        return not _has_lists(owner) and not calls.hv_clone(owner, clone, Fields())
    return not any(map(_has_lists, owner.columns.values())) and not calls.hv_table_clone(owner, clone, Fields())


def _has_lists(column: Any) -> bool:
    return bool(calls.hv_kind_of(column).number == _LIST)
