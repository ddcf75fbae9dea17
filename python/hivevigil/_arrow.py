"""Columns in and out of Arrow's C data interface, as PyCapsules and as the two structs.

A capsule owns its struct, and what the struct holds until a consumer moves it; the destructors are C's, so that a
capsule may be dropped while an exception is on its way.
"""
from __future__ import annotations

import ctypes
import re
from collections.abc import Iterator, Mapping
from ctypes import byref, c_char_p, c_void_p, py_object
from typing import TYPE_CHECKING, Any, NamedTuple, Optional

from . import _float_columns, _floats
from ._arrow_structs import ArrowArray, ArrowArrayStream, ArrowSchema
from ._library import ArrowOptions, Fields, Handle, ask, calls, calls_without_lock, session
from ._values import checked_text
from .errors import ArrowStreamFailed, HivevigilError, TypeMismatch, Unsupported, in_words, refusal
from .logical import LogicalType, format_in_words

if TYPE_CHECKING:
    from .column import Column

_AS_IT_IS, _AS_RUNS, _AS_FLAT = range(3)
_READ, _READ_BITS = 0, 2
_RUNS, _BATCH = b"+r", b"+s"
_DEPTH = 65  # of runs and dictionaries, as hivevigil_arrow.h has it
_IN_A_LIST = " within a list"
# formats that are not served, and what a sentence calls what is in them
_NOT_SERVED = {
    r"n": "rows of the type null", r"\+s": "structs", r"\+m": "maps", r"\+w.*": "lists of one size",
    r"\+v.*": "views of lists", r"\+u.*": "unions", r"d:.*,256": "decimals of 256 bits", r"tiD": "intervals of days and milliseconds",
    r"tin": "intervals of months, days and nanoseconds", rf"\+[lL]{_IN_A_LIST}": "lists of lists",
    rf"[efg]{_IN_A_LIST}": "lists of floats",
}
_WORDS = 512  # bytes of what a stream says of its failure


def _declared(name: str, answers: Any, *takes: Any) -> Any:
    call = getattr(ctypes.pythonapi, name)
    call.restype, call.argtypes = answers, takes
    return call


_new_capsule = _declared("PyCapsule_New", py_object, c_void_p, c_char_p, c_void_p)
_pointer_of = _declared("PyCapsule_GetPointer", c_void_p, py_object, c_char_p)
_is_capsule = _declared("PyCapsule_IsValid", ctypes.c_int, py_object, c_char_p)

_NAMES = {ArrowSchema: b"arrow_schema", ArrowArray: b"arrow_array", ArrowArrayStream: b"arrow_array_stream"}
_DROPS = {
    kind: ctypes.cast(getattr(calls, "hv_drop_" + name.decode()), c_void_p) for kind, name in _NAMES.items()
}
calls.hv_capsule_calls(
    *(ctypes.cast(getattr(ctypes.pythonapi, name), c_void_p) for name in ("PyCapsule_IsValid", "PyCapsule_GetPointer"))
)


def _new(kind: Any) -> tuple[Any, Any]:
    """A capsule of a struct that is all zero, and the struct."""
    room = calls.hv_capsule_room(ctypes.sizeof(kind))
    if not room:
        raise MemoryError
    return _new_capsule(room, _NAMES[kind], _DROPS[kind]), kind.from_address(room)


def _held(capsule: Any, kind: Any) -> Any:
    """The struct that a capsule holds, which the capsule releases."""
    name = _NAMES[kind]
    if not _is_capsule(capsule, name):
        raise ValueError(f"a capsule of the name {name.decode()} is expected here")
    part = kind.from_address(_pointer_of(capsule, name))
    if not part.release:
        raise ValueError(f"the {name.decode()} of the capsule was released")
    return part


# ---- Out ----


class Exported:
    """An ArrowSchema and an ArrowArray that are ours to release unless they were moved."""

    def __init__(self) -> None:
        self.schema, self.array = ArrowSchema(), ArrowArray()

    def release(self) -> None:
        for part in (self.array, self.schema):
            if part.release:
                part.release(part)

    def __del__(self) -> None:
        self.release()

    def __enter__(self) -> tuple[ArrowSchema, ArrowArray]:
        return self.schema, self.array

    def __exit__(self, *_: object) -> None:
        self.release()


def _text(value: Any, what: str) -> bytes:
    if not isinstance(value, str):
        raise TypeError(f"{what} is a text, not {in_words(value)}")
    return checked_text(value)


def export(column: Column, name: str, format: Optional[str], dictionary: Optional[Column]) -> Exported:
    options = ArrowOptions()
    values = column._there() if dictionary is None else column._beside(dictionary)
    lent = _lent(values)
    if format is None and lent is not values:
        options.bits_of_float = 1
    elif format is None and isinstance(values._logical, LogicalType):
        format = values._logical.format
    options.format = None if format is None else _text(format, "a format")
    if dictionary is not None:
        options.dictionary = lent._as_parameter_
    out, exported = lent if dictionary is None else column, Exported()
    try:
        ask(calls.hv_export_with, session, out, _text(name, "a name"), options, exported.schema, exported.array)
    except TypeMismatch as refused:
        no_codes, no_format = f"codes are integers, not of {column.type}", f"{column.type} has no format {format!r}"
        raise refused.saying(f"to_arrow: {no_format if dictionary is None else no_codes}") from None
    return exported


def _lent(column: Column) -> Column:
    """What goes out: the column itself, of floats their bits."""
    return _float_columns.bits(column) if _floats.is_float(column._logical) else column


def _options(column: Column, requested: Any) -> Iterator[Any]:
    """What is tried in turn: the form and format that a consumer asks for, only the form, the column as it is. A column
    with a logical type goes out in the format of the type, and a consumer casts what it wants otherwise."""
    own = _own_format(column, None if column._logical is None else column._logical.format)
    if requested is not None:
        yield from _asked_options(_held(requested, ArrowSchema), own)
    yield ArrowOptions(**own)


def _own_format(column: Column, format: Optional[str]) -> dict[str, Any]:
    """The options that give a column its format, none where it has none: floats go out as such by their bits."""
    if _floats.is_float(column._logical):
        return {"bits_of_float": 1}
    return {} if format is None else {"format": _text(format, "a format")}


def _asked_options(schema: Any, own: dict[str, Any]) -> list[ArrowOptions]:
    """The form and format of a schema that is asked for, then only the form; in a format of its own that a column has
    only this one."""
    is_runs = schema.format == _RUNS and schema.n_children == 2
    values = schema.children[1].contents if is_runs else schema
    form = _AS_RUNS if is_runs else _AS_FLAT
    asked = [] if own else [ArrowOptions(form=form, format=values.format)]
    return [*asked, ArrowOptions(form=form, **own)]


def array_capsules(column: Column, requested: Any) -> tuple[Any, Any]:
    schema_capsule, schema = _new(ArrowSchema)
    array_capsule, items = _new(ArrowArray)
    lent = _lent(column)
    for options in _options(column, requested):
        try:
            ask(calls.hv_export_with, session, lent, b"", options, schema, items)
            return schema_capsule, array_capsule
        except TypeMismatch:
            continue
    raise TypeMismatch()


def schema_capsule(column: Column) -> Any:
    return array_capsules(column, None)[0]


def stream_capsule(column: Column, requested: Any) -> Any:
    """A stream of arrays with one chunk: all rows."""
    capsule, stream = _new(ArrowArrayStream)
    lent = _lent(column)
    for options in _options(column, requested):
        try:
            ask(calls.hv_export_stream, session, lent, None, 1, 0, options, stream)
            return capsule
        except TypeMismatch:
            continue
    raise TypeMismatch()


# ---- Tables out ----


def struct_schema_capsule(columns: Mapping[str, Column]) -> Any:
    """The schema of a batch that has these columns."""
    capsule, schema = _new(ArrowSchema)
    none_of_each = {name: column.slice(0, 0) for name, column in columns.items()}
    stream_capsule = struct_stream_capsule(none_of_each, None)
    stream = _held(stream_capsule, ArrowArrayStream)
    failed = stream.get_schema(byref(stream), byref(schema))
    if failed:
        raise MemoryError
    return capsule


def struct_stream_capsule(columns: Mapping[str, Column], requested: Any) -> Any:
    """A stream of one batch of columns by name, each in its format where it has one."""
    if not columns:
        raise Unsupported().saying("a table without columns does not go out to Arrow")
    asked = _children_of(requested, len(columns))
    count = len(columns)
    handles, names, options = (Handle * count)(), (c_char_p * count)(), (ArrowOptions * count)()
    lent = [_lent(column._there()) for column in columns.values()]
    for place, (name, column) in enumerate(columns.items()):
        handles[place], names[place] = lent[place]._handle, _name(name)
        options[place] = _settled(name, column, asked[place])
    capsule, stream = _new(ArrowArrayStream)
    ask(calls.hv_export_stream, session, handles, names, count, 0, options, stream)
    return capsule


def _name(name: str) -> bytes:
    if "\0" in name:
        raise ValueError(f"a name of Arrow has no zero byte, and {in_words(name)} has")
    return checked_text(name)


def _children_of(requested: Any, count: int) -> list[Any]:
    """The schemas that a consumer asks the columns to have, None of each where it asks for another number of them."""
    if requested is None:
        return [None] * count
    schema = _held(requested, ArrowSchema)
    is_batch = schema.format == _BATCH and schema.n_children == count
    return [schema.children[place].contents if is_batch else None for place in range(count)]


def _settled(name: str, column: Column, asked: Any) -> ArrowOptions:
    """How a column goes out: as it is asked for where that can be, else in its logical type."""
    logical = column.logical_type
    format = None if logical is None else logical.format
    own = _own_format(column, format)
    none = _lent(column.slice(0, 0))
    for options in [*([] if asked is None else _asked_options(asked, own)), ArrowOptions(**own)]:
        with Exported() as (schema, items):
            try:
                ask(calls.hv_export_with, session, none, b"", options, schema, items)
                return options
            except TypeMismatch:
                continue
    said = f"rows of {column.type} are not of the logical type {format_in_words(format or '')}"
    raise TypeMismatch().saying(f"column {in_words(name)}: {said}")


# ---- In ----


class Imported(NamedTuple):
    """Columns that came in: with names and formats of a batch, or one without of an array."""

    names: Optional[list[str]]
    columns: list[Column]
    formats: list[str]

    def logical_types(self) -> dict[str, str]:
        """The formats by name that say what integers are: dates, times and so on, and floats."""
        formats = zip(self.names or [], self.formats)
        return {name: format for name, format in formats if format[:1] in ("t", "e", "f", "g")}


def import_columns(source: Any, kind: type[Column]) -> dict[str, Column]:
    """The columns of an object that hands out capsules: of a batch or a table by name, of an array one without name."""
    found = imported(source, kind)
    return dict(zip([""] if found.names is None else found.names, found.columns))


def imported(source: Any, kind: type[Column]) -> Imported:
    """What an object that hands out capsules has."""
    if isinstance(source, type):
        raise TypeError(f"from_arrow takes an array, a batch or a table of an Arrow library, not {in_words(source)}")
    if hasattr(source, "__arrow_c_array__"):
        return _of_array(source.__arrow_c_array__(), kind)
    if hasattr(source, "__arrow_c_stream__"):
        return _of_stream(source.__arrow_c_stream__(), kind)
    raise TypeError(f"from_arrow takes an array, a batch or a table of an Arrow library, not {in_words(source)}")


def logical_of(schema: Any, child: Optional[int] = None) -> Optional[LogicalType]:
    """What the integers of an array mean, or of a child of a batch, below runs and dictionaries; None of others, and
    of a schema that the import refuses."""
    part = ArrowSchema.from_address(schema) if isinstance(schema, int) else schema
    if child is not None:
        if not part.children or not 0 <= child < part.n_children:
            return None
        part = part.children[child].contents
    for _ in range(_DEPTH):
        if part.dictionary:
            part = part.dictionary.contents
        elif part.format == _RUNS and part.n_children == 2 and part.children:
            part = part.children[1].contents
        else:
            break
    return LogicalType.of_format((part.format or b"").decode(errors="replace"))


def _names_of(schema: Any) -> Optional[list[str]]:
    """The names of a batch's children; None of an array."""
    if schema.format != _BATCH:
        return None
    names = [(schema.children[child].contents.name or b"").decode() for child in range(schema.n_children)]
    if len(set(names)) < len(names):
        raise ValueError(f"two columns have one name: {', '.join(names)}")
    return names


def _formats_of(schema: Any) -> list[str]:
    """The formats of a batch's children, below runs and dictionaries; of an array its own."""
    if schema.format != _BATCH:
        return [_format_below(schema)]
    return [_format_below(schema.children[child].contents) for child in range(schema.n_children)]


def _format_below(schema: Any) -> str:
    while True:
        if schema.dictionary:
            schema = schema.dictionary.contents
        elif schema.format == _RUNS and schema.n_children == 2:
            schema = schema.children[1].contents
        else:
            return (schema.format or b"").decode(errors="replace")


def _of_array(capsules: Any, kind: type[Column]) -> Imported:
    schema, items = _held(capsules[0], ArrowSchema), _held(capsules[1], ArrowArray)
    names = _names_of(schema)
    formats = _formats_of(schema)
    try:
        if names is None:
            return Imported(None, [of_structs(kind, byref(schema), byref(items), logical_of(schema))], formats)
        columns = [
            of_structs(kind, byref(schema), byref(items), logical_of(schema, child), child)
            for child in range(len(names))
        ]
        return Imported(names, columns, formats)
    except (TypeMismatch, Unsupported) as refused:
        raise _in_words(refused, _not_served(schema, names)) from None


def of_structs(
    kind: type[Column], schema: Any, items: Any, logical: Optional[LogicalType], child: Optional[int] = None
) -> Column:
    """A copy of an array, or of a child of a batch, with what its integers mean. Floats come in by their bits."""
    is_float = _floats.is_float(logical)
    if child is None:
        call = calls.hv_import_bits if is_float else calls.hv_import_array
        return _meaning(kind._made(call, session, schema, items), logical)
    call = calls.hv_import_child_bits if is_float else calls.hv_import_child
    return _meaning(kind._made(call, session, schema, items, child), logical)


def _meaning(column: Column, logical: Optional[LogicalType]) -> Column:
    """What came in, with what it means."""
    if logical is not None and _floats.is_float(logical):
        return _float_columns.of_bits(column, logical)
    return column._meaning(logical)


def _in_words(refused: HivevigilError, not_served: str) -> HivevigilError:
    """The refusal of what came in: a text, or a type, of which `not_served` says which."""
    if isinstance(refused, TypeMismatch):
        return refused.saying(f"from_arrow: the text in row {refused.fields[0]} of an array is not UTF-8")
    return refused.saying(f"from_arrow: {not_served}") if isinstance(refused, Unsupported) else refused


def _not_served(schema: Any, names: Optional[list[str]]) -> str:
    """What is not served, and of which column."""
    columns = {"": schema} if names is None else {
        name: schema.children[child].contents for child, name in enumerate(names)
    }
    for name, column in columns.items():
        for what in filter(None, map(_unserved, _formats(column))):
            return f"{what} are not served" if names is None else f"column {name!r} has {what}, which are not served"
    return "a type of Arrow is not served"


def _unserved(format: str) -> Optional[str]:
    """What a sentence calls what has this format, where it is not served."""
    return next((what for known, what in _NOT_SERVED.items() if re.fullmatch(known, format, re.DOTALL)), None)


def _formats(schema: Any, is_within_list: bool = False) -> Iterator[str]:
    """The formats of a schema and of what is in it; lists and floats in lists are marked, since they are not
    served."""
    format = (schema.format or b"").decode(errors="replace")
    is_list = format in ("+l", "+L")
    is_odd = is_list or format in ("e", "f", "g")
    yield format + _IN_A_LIST if is_odd and is_within_list else format
    for child in range(schema.n_children):
        yield from _formats(schema.children[child].contents, is_list)
    if schema.dictionary:
        yield from _formats(schema.dictionary.contents)


def _of_stream(capsule: Any, kind: type[Column]) -> Imported:
    """A column for each, of all chunks. The interpreter's lock is released meanwhile: a stream may wait for a thread
    that needs it, and no existing column is touched."""
    stream = _held(capsule, ArrowArrayStream)
    names, formats, not_served = _described(stream)
    count = 1 if names is None else len(names)
    handles, words, fields = (Handle * max(1, count))(), ctypes.create_string_buffer(_WORDS), Fields()
    logical = [LogicalType.of_format(format) for format in formats]
    how = bytes(_READ_BITS if _floats.is_float(sort) else _READ for sort in logical)
    number = calls_without_lock.hv_import_stream(session, byref(stream), handles, count, how, words, _WORDS, fields)
    if number == ArrowStreamFailed.number:
        raise ArrowStreamFailed(fields.first, words=words.value.decode(errors="replace"))
    if number:
        raise _in_words(refusal(number, fields.first, fields.second, fields.third), not_served)
    made = [kind._owning(Handle(handle.at)) for handle in handles[:count]]
    return Imported(names, [_meaning(column, sort) for column, sort in zip(made, logical)], formats)


def _described(stream: Any) -> tuple[Optional[list[str]], list[str], str]:
    """The names and formats of a stream's columns, and which format is not served, where one is not."""
    with Exported() as (schema, _):
        failed = stream.get_schema(byref(stream), byref(schema))
        if failed:
            words = stream.get_last_error(byref(stream)) or b""
            raise ArrowStreamFailed(failed, words=words.decode(errors="replace"))
        names = _names_of(schema)
        return names, _formats_of(schema), _not_served(schema, names)
