"""What is made of the rows of a column by its runs: which are null, which are among some values, how often each comes.

Each run is looked at once, so that time goes by runs; of a flat column its rows are encoded first.
"""
from __future__ import annotations

import ctypes
from typing import TYPE_CHECKING, Any

from . import _decimals, _floats, _lists, _runs, _times
from ._indexing import mask_of
from ._library import Handle, Kind, ask, calls
from ._making import listed
from ._types import WHOLE_NUMBERS, text_of
from ._values import is_missing, whole
from .errors import MaskLength, TypeMismatch, Unsupported

if TYPE_CHECKING:
    from .column import Column


def is_valid(column: Column) -> Column:
    """Whether each row is not null."""
    if _lists.is_list(column):
        return column._made(calls.hv_list_validity, column if column.form == "lists" else column.decode())
    return column._made(calls.hv_is_valid, column)


def chosen(column: Column, mask: Any, other: Any) -> Column:
    """The row where the mask is true, and else that of another column, or one value; decimals at one scale."""
    flags = mask_of(column, mask)
    if flags._length != column._length:
        raise MaskLength(flags._length, column._length)
    beside = other if isinstance(other, type(column)) else constant_of(column, other)
    column, beside = _decimals.together(column, beside, "where")
    left, right = (each._logical or each.type.rstrip("?") for each in (column, beside))
    if left != right:
        raise TypeMismatch().saying(f"where: {left} and {right} are two types; rows of one type are chosen from")
    kind = column._kind
    kind.nullable = kind.nullable or beside._kind.nullable
    if left in (*WHOLE_NUMBERS, "bool") or _decimals.is_decimal(column):
        known = flags.fill(False) if flags.nullable else flags
        picked = column._made(calls.hv_if_else, known, *_apart(known, column, beside))
        return picked if kind.nullable else picked.cast(text_of(kind))
    type_of_both = named(column, kind)
    sides = [each if bytes(each._kind) == bytes(kind) else each.cast(type_of_both) for each in (beside, column)]
    return _joined(type_of_both, ((sides[value is True], start, stop) for start, stop, value in flags.runs()))


def _apart(*columns: Column) -> list[Column]:
    """The columns after the first, which one call is lent: each is another object than those before it."""
    found: list[Column] = []
    for place, column in enumerate(columns):
        found.append(column.copy() if any(column is before for before in columns[:place]) else column)
    return found[1:]


def _joined(type: str, parts: Any) -> Column:
    """Stretches of rows of columns of this type, one after the other."""
    from .builder import Builder

    builder = Builder(type)
    for column, start, stop in parts:
        builder.append(column.slice(start, stop))
    return builder.finish()


def constant_of(column: Column, value: Any) -> Column:
    """A value in each row of a column, of its type, which has null only where the value is null."""
    kind = column._kind
    kind.nullable = is_missing(value)
    return column.constant(value, column._length, named(column, kind))


def named(column: Column, kind: Kind) -> str:
    """The name of a type of integers, or of what those of a column mean."""
    return text_of(kind) if column._logical is None else f"{column._logical}{'?' * kind.nullable}"


def is_among(column: Column, values: Any) -> Column:
    """Whether each row is one of some values. A null row is where one of these is null."""
    given, nothing = listed(values, "values"), column[:0]
    for value in given:
        nothing.eq(value)  # refused of a value of another sort
    logical = column._logical
    if logical is not None and not _floats.is_float(logical):  # equal times have several values, with other hashes
        given = [None if is_missing(value) else _times.exact(logical, value) for value in given]
        column = column.storage()
    wanted = {bytes(value) if isinstance(value, (bytearray, memoryview)) else value for value in given}
    has_null = None in wanted
    runs = list(column.runs())
    flags = column.of([has_null if run.value is None else run.value in wanted for run in runs], "bool")
    return column.from_runs([run.stop for run in runs], flags).to_runs()


def counted(column: Column) -> tuple[Column, Column]:
    """Each value that a row has, null too, in the order of their first rows, and how many rows have it. The call answers
    in the order of values; which comes first is then read from the runs, no further than until each value has come."""
    stored = column if column._logical is None else column.storage()
    values, numbers = column._owning(Handle()), column._owning(Handle())
    ask(calls.hv_value_counts, stored, values._handle, numbers._handle)
    counts = dict(zip(values.to_list(), numbers.to_list()))
    found = _first_ones(stored, len(counts)) if len(counts) > 1 else list(counts)
    return column.of(found, column.type)._meaning(column._logical), column.of([counts[value] for value in found], "u64")


def _first_ones(column: Column, count: int) -> list[Any]:
    """The values that rows have, this many, in the order of their first rows: those of runs, a block at a time."""
    runs = column if column.form == "runs" else column.to_runs()
    shown = _runs.span(runs)
    found: dict[Any, None] = {}
    for value in runs.values().slice(shown.start, shown.stop):
        found[value] = None
        if len(found) == count:
            break
    return list(found)


def shifted(column: Column, rows: Any) -> Column:
    """Each row as the one that is this number of rows before it, null where there is none."""
    by, length, kind = whole(rows, "the number of rows"), column._length, column._kind
    kind.nullable = True
    type, past = named(column, kind), min(abs(by), length)
    if _lists.is_list(column):
        raise Unsupported().about("shift", column)
    shown = column.slice(0, length - past) if by > 0 else column.slice(past, length)
    nulls = column.constant(None, past, type)
    parts = [nulls, shown.cast(type)] if by > 0 else [shown.cast(type), nulls]
    return _joined(type, ((part, 0, part._length) for part in parts))


def is_same(column: Column, other: Column) -> bool:
    """Whether type and rows are the same, whatever the forms, by the runs of both."""
    if any(getattr(column, name) != getattr(other, name) for name in ("type", "logical_type", "_length")):
        return False
    if _lists.is_list(column):
        return column.to_list() == other.to_list()
    answer = ctypes.c_uint8()
    ask(calls.hv_equals, column, column._beside(other), answer)
    return bool(answer.value)


def truths_of(column: Column, call: str) -> Column:
    """The column, of which rows are asked whether they are true."""
    if column.type.rstrip("?") != "bool":
        raise Unsupported().about(call, column)
    return column
