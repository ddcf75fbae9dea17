"""Casts, and the row at which one is refused."""
from __future__ import annotations

from typing import TYPE_CHECKING, Any, Optional

from . import _decimals, _float_columns, _floats, _runs, _value_casts
from ._library import Kind, calls, session
from ._types import TYPES, WHOLE_NUMBERS, range_of, text_of
from .errors import CastOutOfRange, NullNotAllowed, TypeMismatch, Unsupported
from .logical import LogicalType

if TYPE_CHECKING:
    from .column import Column


def converted(column: Column, kind: Kind, call: Optional[str] = None) -> Column:
    """The rows as the same values of a type: also integers and decimals of any scale as one another, texts as integers
    and integers as texts, and booleans as integers. A refusal names the call."""
    call = call or f"cast to {text_of(kind)}"
    if _decimals.is_scaled(column._kind, kind):
        column = _decimals.rescaled(column, kind, call)
    elif _value_casts.is_served(column._kind, kind):
        column = _value_casts.converted(column, kind, call)
    return cast(column, kind, call)


def cast(column: Column, kind: Kind, call: Optional[str] = None) -> Column:
    """The rows as values of a type. A refusal names the call, and the first row that is not a value of the type."""
    name = call or f"cast to {text_of(kind)}"
    try:
        return column._made(calls.hv_cast, session, column, kind)
    except Unsupported as refused:
        raise refused.about(name, column) from None
    except (CastOutOfRange, NullNotAllowed) as refused:
        raise refused.saying(f"{name}: {_misfit(column, kind)}") from None


def recounted(
    column: Column, kind: Kind, logical: Optional[LogicalType], call: str, rounded: bool = False
) -> Column:
    """The rows as values of a logical type, or as the integers of one. Integers mean what the type says; times are
    counted anew, exactly, once for each run, and are refused at the first row that has no such count. Only floats are
    rounded."""
    before = column._logical
    if _floats.is_float(before) or _floats.is_float(logical):
        return _float_columns.converted(column, kind, logical, call, rounded)
    if rounded:
        raise TypeError(f"{call}: only floats are rounded")
    if before is not None and TYPES[kind.number] not in WHOLE_NUMBERS:
        how = "Column.of([str(row) for row in column]) has their texts, and column.storage() their integers"
        raise Unsupported().saying(f"{call}: {before} is not cast to {TYPES[kind.number]}: {how}")
    if before is None or logical is None or (before.sort, before.unit) == (logical.sort, logical.unit):
        if before is not None and logical is not None:
            _checked_kinds(before, logical, call)
        return cast(column.storage(), kind, call)._meaning(logical)
    _checked_kinds(before, logical, call)
    return cast(_counted(column, before, logical, call), kind, call)._meaning(logical)


_KINDS = {"date": "instant", "timestamp": "instant", "time": "time", "duration": "duration"}


def _checked_kinds(before: LogicalType, after: LogicalType, call: str) -> None:
    if _KINDS[before.sort] != _KINDS[after.sort] or bool(before.zone) != bool(after.zone):
        raise TypeMismatch().saying(
            f"{call}: {before} is not counted as {after}; column.storage() has the integers, which may mean it"
        )


def _counted(column: Column, before: LogicalType, after: LogicalType, call: str) -> Column:
    """The integers of the same times in another unit, in the same form."""
    stored = column.storage()
    if stored.form == "runs":
        shown = _runs.visible(stored)
        starts, values = [0, *shown.stops], shown.values.to_list()
    else:
        values = stored.to_list() if stored.form == "flat" else stored.slice(0, min(1, stored._length)).to_list()
        starts = list(range(len(values)))
    counts: list[Optional[int]] = []
    for start, value in zip(starts, values):
        number: Any = value
        count, rest = (None, 0) if number is None else divmod(number * before.nanoseconds, after.nanoseconds)
        if rest or count is not None and count not in range_of(after.storage):
            raise CastOutOfRange().saying(f"{call}: row {start} is {number} of {before}, which {after} does not count")
        counts.append(count)
    made = column.of(counts, after.storage)
    if stored.form == "runs":
        return column.from_runs(column.of(shown.stops, "u64"), made)
    return made if stored.form == "flat" else _repeated(made, stored._length)


def _repeated(made: Column, rows: int) -> Column:
    """The one row of a column as often, or none."""
    return made.constant(made[0], rows, made.type) if len(made) else made


def _misfit(column: Column, kind: Kind) -> str:
    """The first row that is not a value of a type, in words."""
    name = TYPES[kind.number]
    fits = range_of(name) if name in WHOLE_NUMBERS else None
    for start, _, value in column.runs():
        if value is None and not kind.nullable:
            return f"row {start} is null, and {name} has no null; {name + '?'!r} has"
        if value is not None and fits and value not in fits:
            return f"row {start} is {value!r}, which does not fit {name}"
    return f"a row does not fit {text_of(kind)}"
