"""Comparisons with one value or a column, by name and by Python's operators, which make masks.

A number that the column's type does not have still has a place among its rows: 300 is above every i8, and 0.505 lies
between two decimals of scale 2. The library compares rows with such numbers exactly.
"""
from __future__ import annotations

import operator
from decimal import Decimal
from numbers import Real
from typing import TYPE_CHECKING, Any, Optional

from . import _decimals, _float_columns, _floats, _numbers, _times
from ._library import calls, session
from ._making import is_array
from ._types import TYPES, WHOLE_NUMBERS
from ._values import is_missing, is_truth, is_whole, operator_of, passed
from .errors import CastOutOfRange, ColumnLength, TypeMismatch, in_words
from .logical import LogicalType

if TYPE_CHECKING:
    from .column import Column


class Comparisons:
    """What a column answers to comparisons of its rows."""

    __slots__ = ()

    def compare(self, operator: str, right: Any) -> Column:
        """Row by row whether `row operator right`, for a column of the same type or one value, with one of == != > >=
        < <=; null where either is null. Numbers are compared exactly, also with one that the type does not have. Of a
        column in runs the answer is in runs."""
        column: Any = self
        return (with_column if isinstance(right, Comparisons) else with_value)(column, operator, right)

    def eq(self, right: Any) -> Column:
        return self.compare("==", right)

    def ne(self, right: Any) -> Column:
        return self.compare("!=", right)

    def gt(self, right: Any) -> Column:
        return self.compare(">", right)

    def ge(self, right: Any) -> Column:
        return self.compare(">=", right)

    def lt(self, right: Any) -> Column:
        return self.compare("<", right)

    def le(self, right: Any) -> Column:
        return self.compare("<=", right)

    def __eq__(self, other: object) -> Column:  # type: ignore[override]
        """A mask, as `eq` makes it; `Column.equals` says whether two columns have the same rows."""
        return self.compare("==", other)

    def __ne__(self, other: object) -> Column:  # type: ignore[override]
        return self.compare("!=", other)

    __hash__ = object.__hash__

    def __lt__(self, other: Any) -> Column:
        return self.compare("<", other)

    def __le__(self, other: Any) -> Column:
        return self.compare("<=", other)

    def __gt__(self, other: Any) -> Column:
        return self.compare(">", other)

    def __ge__(self, other: Any) -> Column:
        return self.compare(">=", other)


def with_value(column: Column, sign: str, value: Any) -> Column:
    """Row by row whether `row sign value`; null where the row or the value is null."""
    operator_of(sign)
    if _has_rows(value):
        made = f"Column.of(..) makes one of {in_words(value)}"
        raise TypeError(f"a column is compared with a column or one value: {made}")
    if is_number(value) and is_whole(value):
        value = operator.index(value)  # those of NumPy have no absolute of their least one
    logical = column._logical
    if logical is not None and not is_missing(value):
        if not _floats.is_float(logical):
            return with_value(column.storage(), sign, _times.exact(logical, value))
        if not is_number(value):
            raise TypeError(f"a value of type {logical} is a number, not {in_words(value)}")
    name = TYPES[column._kind.number]
    if is_number(value) and (logical is not None or name in (*WHOLE_NUMBERS, "decimal")):
        decided, number = _numbers.decided(column, sign, value)
        asked = column if logical else column.storage()  # not by a format that Python does not read
        return column._made(calls.hv_compare_number, asked, operator_of(decided), number)
    parts = passed(column._kind, value)
    if column.form == "runs" and name != "list":
        return column._made(calls.hv_combine, column, operator_of(sign), _constant(column, parts, is_missing(value)))
    return column._made(calls.hv_compare_scalar, session, column, operator_of(sign), *parts)


def _constant(column: Column, parts: Any, is_null: bool) -> Column:
    """A value in each row of a column, of its type: one run."""
    kind = column._kind
    kind.nullable = is_null
    return column._made(calls.hv_constant, kind, *parts, column._length)


def _has_rows(value: Any) -> bool:
    return isinstance(value, (list, tuple, range)) or is_array(value) and getattr(value, "ndim", 1) > 0


def are_compared(left: Optional[LogicalType], right: Optional[LogicalType]) -> bool:
    """Whether the integers of both count one unit, of timestamps with a zone on both sides or on neither."""
    if left is None or right is None:
        return left is right
    return (left.sort, left.unit, bool(left.zone)) == (right.sort, right.unit, bool(right.zone))


def is_number(value: Any) -> bool:
    """Whether a value has a place among numbers: an integer, a Decimal, a Fraction, a float. A duration of NumPy, which
    is among its integers, has none."""
    is_duration = type(value).__name__ == "timedelta64"
    return (is_whole(value) or isinstance(value, (Decimal, Real))) and not is_truth(value) and not is_duration


def with_column(column: Column, sign: str, right: Column) -> Column:
    """Row by row whether `row sign other`, for the rows of a column of the same type, or of decimals of another scale: by
    the runs of both, unless both are flat."""
    if _floats.is_float(column._logical) and _floats.is_float(right._logical):
        return _float_columns.with_column(column, sign, right)
    number = operator_of(sign)
    if _decimals.is_decimal(column) and _decimals.is_decimal(right):
        if column._length != right._length:
            raise ColumnLength(column._length, right._length)
        try:
            column, right = _decimals.at_one_scale([column, right], "compare")
        except CastOutOfRange:
            return _decimals.compared(column, sign, right)
    beside = column._beside(right)
    if not are_compared(column._logical, right._logical):
        left, other = (each._logical or each.type.rstrip("?") for each in (column, right))
        hint = "rows of one type are compared"
        if column._logical and right._logical and not any(map(_floats.is_float, (column._logical, right._logical))):
            hint = f"column.cast('{other}') counts the same times in it, exactly"
        raise TypeMismatch().saying(f"compare: {left} and {other} are two types; {hint}")
    try:
        if column.form == right.form == "flat":
            return column._made(calls.hv_compare, session, column, number, beside)
        return column._made(calls.hv_combine, column, number, beside)
    except TypeMismatch as refused:
        left, other = (each.type.rstrip("?") for each in (column, right))
        raise refused.saying(f"compare: {left} and {other} are two types; rows of one type are compared") from None
