"""Rows of columns in any form as lists, arrays and bitmaps: each call reads a window of many rows."""
from __future__ import annotations

import array
import ctypes
from collections.abc import Iterator
from typing import TYPE_CHECKING, Any, Optional

from . import _floats, _times
from ._library import NUMBERS, Pair, ask, calls
from ._types import LETTERS, TYPES, WIDTHS
from ._values import Scalar, decimal_of
from .errors import ColumnLength, Unsupported
from .logical import LogicalType, meaning_of

if TYPE_CHECKING:
    from .column import Column

BLOCK = 65536  # rows
_FORMAT = 32  # bytes of a format that are read at once
_LETTERS = bytes.maketrans(b"01", b"\0\1")
_OTHER = bytes.maketrans(b"\0\1", b"\1\0")


def flags_of(bits: bytes, rows: int) -> bytes:
    """The first bits of a bitmap, a byte of 0 or 1 for each."""
    if rows == 0:
        return b""
    number = int.from_bytes(bits[: (rows + 7) // 8], "little") & ((1 << rows) - 1)
    return f"{number:0{rows}b}".encode().translate(_LETTERS)[::-1]


def bitmap(column: Column, read: Any, start: int, stop: int) -> bytes:
    """Rows as bits, the first in the lowest bit of the first byte."""
    rows = stop - start
    words = (ctypes.c_uint64 * max(1, (rows + 63) // 64))()
    ask(read, column, start, rows, words, (rows + 63) // 64)
    return bytes(words)[: (rows + 7) // 8]


def validity(column: Column, start: int, stop: int) -> bytes:
    """A bit for each of these rows, 1 where it is not null."""
    return bitmap(column, calls.hv_read_validity_from, start, stop)


def truths(column: Column, start: int, stop: int) -> bytes:
    """The booleans of rows as bits."""
    return bitmap(column, calls.hv_read_bools_from, start, stop)


def numbers(column: Column, start: int, stop: int) -> array.array[int]:
    """The numbers of rows; a null row may have any number."""
    name, rows = TYPES[column._kind.number], stop - start
    items = array.array(LETTERS[name], bytes(WIDTHS[name] * rows))
    passed = (NUMBERS[name] * rows).from_buffer(items) if rows else (NUMBERS[name] * 1)()
    ask(getattr(calls, "hv_read_" + name), column, start, passed, rows)
    return items


def floats(column: Column, start: int, stop: int) -> list[Any]:
    """The floats of rows; a null row may have any."""
    logical: Any = column._logical
    words = column._made(calls.hv_float_decode, column.slice(start, stop))
    return _floats.values_of_bits(logical.unit, numbers(words, 0, stop - start))


def meaning(column: Column) -> Optional[LogicalType]:
    """What the format of the column's handle says, None where it has none; a format that is not one of its rows is of
    the sort 'other'."""
    format, size = (ctypes.c_uint8 * _FORMAT)(), ctypes.c_size_t()
    try:
        ask(calls.hv_type, column, format, len(format), size)
    except ColumnLength as longer:
        format = (ctypes.c_uint8 * longer.fields[0])()
        ask(calls.hv_type, column, format, len(format), size)
    return meaning_of(bytes(format)[: size.value].decode(), TYPES[column._kind.number])


def decimals(column: Column, start: int, stop: int) -> bytes:
    """The decimals of rows, 16 bytes each."""
    rows = stop - start
    pairs = (Pair * max(1, rows))()
    ask(calls.hv_read_decimals, column, start, pairs, rows)
    return bytes(pairs)[: 16 * rows]


def texts(column: Column, start: int, stop: int) -> tuple[array.array[int], bytes]:
    """The offsets and the bytes of rows of texts or bytes."""
    rows = stop - start
    offsets = array.array("q", bytes(8 * (rows + 1)))
    passed = (ctypes.c_int64 * (rows + 1)).from_buffer(offsets)
    ask(calls.hv_read_large_offsets, column, start, passed, rows + 1)
    data = ctypes.create_string_buffer(max(1, offsets[rows]))
    ask(calls.hv_read_bytes, column, start, rows, data, offsets[rows])
    return offsets, data.raw[: offsets[rows]]


def _split(offsets: array.array[int], data: bytes, is_text: bool) -> list[Any]:
    bounds = zip(offsets, offsets[1:])
    if not is_text:
        return [data[start:stop] for start, stop in bounds]
    if data.isascii():
        whole = data.decode()
        return [whole[start:stop] for start, stop in bounds]
    return [data[start:stop].decode() for start, stop in bounds]


def window(column: Column, start: int, stop: int) -> list[Scalar]:
    """The rows from `start` to `stop` - 1."""
    is_float = _floats.is_float(column._logical)
    stored = floats(column, start, stop) if is_float else _stored(column, start, stop)
    if column.nullable:
        flags = flags_of(validity(column, start, stop), stop - start)
        stored = stored if 0 not in flags else [item if flag else None for item, flag in zip(stored, flags)]
    return stored if is_float else _times.values_of(column._logical, stored)


def _stored(column: Column, start: int, stop: int) -> list[Any]:
    kind = column._kind
    name = TYPES[kind.number]
    if name in LETTERS:
        return numbers(column, start, stop).tolist()
    if name == "bool":
        return list(map(bool, flags_of(truths(column, start, stop), stop - start)))
    if name == "decimal":
        data = memoryview(decimals(column, start, stop))
        wide = (int.from_bytes(data[at : at + 16], "little", signed=True) for at in range(0, len(data), 16))
        return [decimal_of(number, kind.scale) for number in wide]
    if name == "list":
        raise Unsupported().about("to_list", column)
    return _split(*texts(column, start, stop), name == "utf8")


def blocks(column: Column) -> Iterator[list[Scalar]]:
    """The rows, a list for each block, one block at a time."""
    length = column._length
    for start in range(0, length, BLOCK):
        yield window(column, start, min(start + BLOCK, length))


def null_flags(column: Column) -> bytes:
    """Row by row 1 where it is null, else 0."""
    rows = len(column)
    if not column.nullable:
        return bytes(rows)
    return flags_of(validity(column, 0, rows), rows).translate(_OTHER)
