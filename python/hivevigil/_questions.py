"""What is asked of all rows at once: sums, the least and the greatest, and whether some row has a value."""
from __future__ import annotations

import ctypes
from decimal import Decimal
from typing import TYPE_CHECKING, Any

from . import _comparing, _floats, _runs, _times
from ._library import Total, Value, ask, calls, session
from ._making import is_array
from ._types import GREATEST_PRECISION, TYPES, WHOLE_NUMBERS, range_of
from ._values import Scalar, is_missing, is_truth, number_in, shown
from .errors import CastOutOfRange, ColumnLength, Unsupported, in_words
from .logical import LogicalType

if TYPE_CHECKING:
    from .column import Column

_CLASSES: dict[str, Any] = {
    **dict.fromkeys(WHOLE_NUMBERS, int), "bool": bool, "decimal": (int, Decimal), "utf8": str, "binary": bytes,
}


def total(column: Column) -> Any:
    """The sum of the rows that are not null; an OverflowError where it leaves 64 bits, or of decimals 38 digits, on the way
    from row to row."""
    found = Total()
    try:
        ask(calls.hv_sum, session, column, found)
    except Unsupported:
        refuse_other_sums(column, "sum")
        raise
    except CastOutOfRange as left:
        row = left.fields[0]
        said = f"it leaves {GREATEST_PRECISION} digits at row {row}, which is {column[row]}"
        raise OverflowError(f"sum: {said}: the rows before it make {total(column.slice(0, row))}") from None
    number = number_in(found, found.scale)
    if number is None:
        raise leaving(column, "sum")
    return _meant(column, number)


def refuse_other_sums(column: Column, call: str) -> None:
    """Refuses rows of integers that mean something else than durations."""
    logical = column._there()._logical
    if _floats.is_float(logical):
        raise Unsupported().saying(f"{call} does not serve columns of type {logical}")
    if logical is not None and logical.sort != "duration":
        hint = f"column.storage().{call}() is that of their integers"
        raise TypeError(f"{call}: rows of type {logical} have no sum; {hint}")


def sum_type(column: Column) -> str:
    """The type of the sums of integers of a type."""
    return "u64" if TYPES[column._kind.number][0] == "u" else "i64"


def leaving(column: Column, call: str) -> OverflowError:
    """What says with which row the sum leaves 64 bits."""
    name, stored = sum_type(column), column.storage()
    row, value, before = _overflow(stored, range_of(name))
    return OverflowError(f"{call}: it leaves {name} at row {row}, which is {value}: the rows before it make {before}")


def _overflow(column: Column, fits: range) -> tuple[int, int, int]:
    """The first row whose value takes the sum out of this range, the value, and the sum of the rows before it."""
    before = 0
    for start, stop, value in column.runs():
        number: Any = value or 0
        if before + (stop - start) * number not in fits:
            room = fits[-1] - before if number > 0 else before - fits[0]
            rows = room // abs(number)  # of this run still fit
            return start + rows, number, before + rows * number
        before += (stop - start) * number
    raise OverflowError("sum: it is past 64 bits")


def truth(column: Column, call: Any, *arguments: Any) -> bool:
    """What a question is answered that is true or false."""
    answer = ctypes.c_uint8()
    ask(call, session, column, *arguments, answer)
    return bool(answer.value)


def row_hash(column: Column) -> int:
    """The hash of the rows."""
    answer = ctypes.c_uint64()
    ask(calls.hv_hash, column._there(), answer)
    return answer.value


def value_of(column: Column, call: Any, *arguments: Any) -> Scalar:
    """A value, asked for again with more room where its text has none."""
    room = 64
    while True:
        value, text = Value(), ctypes.create_string_buffer(room)
        try:
            ask(call, *arguments, value, text, room)
            return _meant(column, shown(value, column._kind, text))
        except ColumnLength as short:
            room = short.fields[0]


def least_and_greatest(column: Column) -> tuple[Scalar, Scalar]:
    room = 64
    while True:
        least, greatest = Value(), Value()
        low, high = ctypes.create_string_buffer(room), ctypes.create_string_buffer(room)
        try:
            ask(calls.hv_min_max, session, column, least, low, room, greatest, high, room)
            found = shown(least, column._kind, low), shown(greatest, column._kind, high)
            return _meant(column, found[0]), _meant(column, found[1])
        except ColumnLength as short:
            room = short.fields[0]


def _meant(column: Column, answer: Scalar) -> Scalar:
    """The value of what C answered of a column: of integers that are times the time, while floats are answered as such."""
    value: Scalar = answer if isinstance(answer, float) else _times.value_of(column._logical, answer)
    return value


def has(column: Column, value: Any) -> bool:
    """Whether a row equals a value, as `value in column.to_list()` says it; of runs each value is looked at once."""
    if is_missing(value):
        return column.null_count > 0
    if is_array(value) and getattr(value, "ndim", 1) > 0:
        raise TypeError(f"a row is one value, not {in_words(value)}")
    if column.form == "constant":
        return has(column.values(), value)
    if column.form == "runs":
        shown = _runs.span(column)
        return has(column.values().slice(shown.start, shown.stop), value)
    if _floats.is_float(column._logical):
        return _comparing.is_number(value) and _is_true_anywhere(column.eq(value))
    if column._logical is not None:
        return _has_time(column, column._logical, value)
    name = TYPES[column._kind.number]
    if isinstance(value, _CLASSES.get(name, ())) and is_truth(value) == (name == "bool"):
        try:
            return _is_true_anywhere(column.eq(value))
        except ValueError:  # a text that is not UTF-8
            return False
    return value in _runs.rows(column)


def _has_time(column: Column, logical: LogicalType, value: Any) -> bool:
    """Whether a row is a time, which a value of another sort is not."""
    try:
        count = _times.exact(logical, value)
    except TypeError:
        return False
    return has(column.storage(), count)


def _is_true_anywhere(mask: Column) -> bool:
    bits = int.from_bytes(mask.truths(), "little")
    return bits != 0 and (not mask.nullable or bits & int.from_bytes(mask.validity(), "little") != 0)
