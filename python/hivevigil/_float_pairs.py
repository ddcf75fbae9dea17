"""Columns of floats worked place by place: + - * /, as IEEE 754 says, at the cost of the runs of both.

Both are floats of one type for the library: those of fewer bits become those of more, which is exact, and integers
become float64, exactly or refused. It has no work on floats of 16 bits: they are worked as float32 and rounded once
more, which gives what IEEE 754 says of 16 bits, since float32 has more than twice their digits.
"""
from __future__ import annotations

from typing import TYPE_CHECKING, Any

from . import _floats
from ._float_columns import converted
from ._library import calls
from ._types import WHOLE_NUMBERS
from .logical import LogicalType, sort_of_class, storage_of

if TYPE_CHECKING:
    from .column import Column

NUMBERS = {"+": 6, "-": 7, "*": 8, "/": 14}  # in hivevigil.h
WIDE = LogicalType("float", "64")
_SINGLE = LogicalType("float", "32")


def are_numbers(*columns: Any) -> bool:
    """Whether each column is one of floats, or of integers that mean nothing else."""
    return all(_is_float(column) or _is_whole(column) for column in columns)


def as_floats(column: Any, sign: str, value: Any) -> Any:
    """The column next to which a value is worked: of integers next to a float, and of a division, float64."""
    is_float = sort_of_class(type(value)) == "float"
    if sign in NUMBERS and _is_whole(column) and (is_float or sign == "/"):
        return _in_type(column, WIDE, sign)
    return column


def worked(left: Any, sign: str, right: Any) -> Column:
    """What the sign gives of the two floats at each place, of the type that has more bits."""
    bits = max(_bits_of(each) for each in (left, right))
    if bits > 16:
        return _combined(left, sign, right, LogicalType("float", str(bits)))
    narrow = _combined(left, sign, right, _SINGLE)
    return converted(narrow, storage_of(left._logical, narrow.nullable), left._logical, sign, rounded=True)


def _combined(left: Any, sign: str, right: Any, logical: LogicalType) -> Column:
    left, right = _in_type(left, logical, sign), _in_type(right, logical, sign)
    made: Column = left._made(calls.hv_float_combine, left, NUMBERS[sign], left._beside(right))
    return made._meaning(logical)


def _in_type(column: Any, logical: LogicalType, sign: str) -> Any:
    if column._logical == logical:
        return column
    return converted(column, storage_of(logical, column.nullable), logical, sign)


def _bits_of(column: Any) -> int:
    """How many bits the floats have; integers count as floats of 64."""
    return int(column._logical.unit if _is_float(column) else WIDE.unit)


def _is_float(column: Any) -> bool:
    return _floats.is_float(column._logical)


def _is_whole(column: Any) -> bool:
    return column._logical is None and column.type.rstrip("?") in WHOLE_NUMBERS
