"""Columns of lists: made of elements, offsets and sizes, and read row by row."""
from __future__ import annotations

import array
import ctypes
from typing import TYPE_CHECKING, Any, Optional

from . import _reading
from ._library import calls
from ._making import flags_of, listed, numbers, validity_of
from .errors import ColumnLength, OutOfBounds

if TYPE_CHECKING:
    from .column import Column


def is_list(column: Column) -> bool:
    return column.type.startswith("list")


def made(elements: Column, offsets: Any, sizes: Any, valid: Optional[Any]) -> Column:
    """Lists: row i is the sizes[i] elements from offsets[i] on, null where its flag is false."""
    if elements._logical is not None:
        raise TypeError(f"from_lists: lists of {elements._logical} are not served; elements.storage() are integers")
    starts = numbers(listed(offsets, "offsets"), "u64", "offset")
    counts = numbers(listed(sizes, "sizes"), "u64", "size")
    passed = [(ctypes.c_uint64 * max(1, len(items)))(*items) for items in (starts, counts)]
    nulls = validity_of(flags_of(valid), len(starts))
    try:
        return elements._made(calls.hv_lists, elements, passed[0], len(starts), passed[1], len(counts), *nulls)
    except OutOfBounds as refused:
        row, there = refused.fields[:2]
        wanted = f"elements {starts[row]} to {starts[row] + counts[row] - 1}"
        raise refused.saying(f"from_lists: row {row} is {wanted}, and there are {there} elements") from None
    except ColumnLength as refused:
        raise refused.saying(f"from_lists: there are {len(starts)} offsets and {len(counts)} sizes") from None


def _numbers(column: Column, call: Any) -> array.array[int]:
    part = column._made(call, column)
    return _reading.numbers(part, 0, part._length)


def flags(column: Column) -> bytes:
    """A byte of 0 or 1 for each row: whether it is valid."""
    lists = column.decode()
    part = lists._made(calls.hv_list_validity, lists)
    return _reading.flags_of(_reading.truths(part, 0, part._length), part._length)


def rows(column: Column) -> list[Optional[list[Any]]]:
    """The rows of a column of lists in any form, each a list of its own."""
    lists = column.decode()
    elements = lists._made(calls.hv_list_elements, lists).to_list()
    spans = zip(_numbers(lists, calls.hv_list_offsets), _numbers(lists, calls.hv_list_sizes))
    return [elements[start : start + size] if flag else None for (start, size), flag in zip(spans, flags(lists))]


def row(column: Column, number: int) -> Optional[list[Any]]:
    return rows(column.slice(number, number + 1))[0]
