"""Columns of decimals: the same numbers at other scales, and two of them worked row by row."""
from __future__ import annotations

import operator
from collections.abc import Sequence
from decimal import Decimal
from typing import TYPE_CHECKING, Any, Callable, Optional

from . import _runs
from ._library import Kind, calls
from ._types import GREATEST_PRECISION, SCALES, TYPES, WHOLE_NUMBERS, text_of
from ._values import is_missing, is_whole, unscaled
from .errors import CastOutOfRange, ColumnLength

if TYPE_CHECKING:
    from .column import Column


def is_decimal(column: Column) -> bool:
    return TYPES[column._kind.number] == "decimal"


def are_decimals(*columns: Column) -> bool:
    return all(map(is_decimal, columns))


def is_scaled(before: Kind, after: Kind) -> bool:
    """Whether rows of a type are cast to another as numbers at two scales: integers have no digits after the point."""
    names = TYPES[before.number], TYPES[after.number]
    if names == ("decimal", "decimal"):
        return (before.precision, before.scale) != (after.precision, after.scale)
    return "decimal" in names and all(name in (*WHOLE_NUMBERS, "decimal") for name in names)


def rescaled(column: Column, kind: Kind, call: str) -> Column:
    """The same integers or decimals as the decimals or the integers of a type, in the form of the column; refused at
    the first row that the type does not have. Each run is cast once."""
    try:
        return _runs.in_form(column, lambda rows: _cast(rows, kind))
    except CastOutOfRange as refused:
        row, is_between = refused.fields[:2]
        name = text_of(Kind(kind.number, False, kind.precision, kind.scale))
        why = f"lies between two numbers of {name}" if is_between else f"does not fit {name}"
        raise refused.saying(f"{call}: row {row} is {column[row]}, which {why}") from None


def _cast(column: Column, kind: Kind) -> Column:
    if TYPES[kind.number] == "decimal":
        return column._made(calls.hv_decimal_cast, column, kind.precision, kind.scale)
    return column._made(calls.hv_decimal_to_integers, column, kind.number)


def common_kind(kinds: Sequence[Kind]) -> Kind:
    """The decimals that have the digits of each type before the point, and after it, as far as a type has as many."""
    scale = max(kind.scale for kind in kinds)
    before = max(kind.precision - kind.scale for kind in kinds)
    precision = min(max(1, before + scale), GREATEST_PRECISION)
    return Kind(TYPES.index("decimal"), any(kind.nullable for kind in kinds), precision, scale)


def at_one_scale(columns: list[Column], call: str) -> list[Column]:
    """The same columns of decimals, those of different scales as decimals of one type."""
    if len({(column._kind.precision, column._kind.scale) for column in columns}) <= 1:
        return columns
    kind = common_kind([column._kind for column in columns])
    return [rescaled(column, kind, call) if is_scaled(column._kind, kind) else column for column in columns]


def together(left: Column, right: Column, call: str) -> tuple[Column, Column]:
    """Two columns that are worked row by row, those of decimals at one scale: the greater of both, in the digits that
    the rows of both need there, of 38 at most. OverflowError names the first row of one that has more."""
    if not are_decimals(left, right) or left._kind.scale == right._kind.scale and call in "+-":
        return left, right
    if left._length != right._length:
        raise ColumnLength(left._length, right._length)
    left, right = at_one_scale([left, right], call)
    return left, right


_SIGNS: dict[str, Callable[[Any, Any], bool]] = {
    "==": operator.eq, "!=": operator.ne, ">": operator.gt, ">=": operator.ge, "<": operator.lt, "<=": operator.le,
}


def compared(column: Column, sign: str, right: Column) -> Column:
    """Row by row whether `row sign other`, for decimals of which some have no place at the scale of the others: by the
    runs that both columns share."""
    stops: list[int] = []
    truths: list[Optional[bool]] = []
    lefts, rights = iter(column.runs()), iter(right.runs())
    left, other = next(lefts, None), next(rights, None)
    while left is not None and other is not None:
        is_null = left.value is None or other.value is None
        stops.append(min(left.stop, other.stop))
        truths.append(None if is_null else _SIGNS[sign](left.value, other.value))
        left, other = (next(lefts, None) if left.stop == stops[-1] else left,
                       next(rights, None) if other.stop == stops[-1] else other)
    is_nullable = column._kind.nullable or right._kind.nullable
    mask = column.from_runs(column.of(stops, "u64"), column.of(truths, "bool?" if is_nullable else "bool"))
    return mask.to_runs()


def beside(column: Column, sign: str, value: Any) -> Column:
    """A Decimal or an integer in each row of a column: of a product at its own scale, else at that of the column, or
    where it has no place there at the least one where it has. In as few digits as it has."""
    scale = _scale_of(value) if sign == "*" else _scale_from(column._kind.scale, value)
    number = 0 if is_missing(value) else unscaled(value, GREATEST_PRECISION, scale)
    nullable = "?" if is_missing(value) else ""
    return column.constant(value, column._length, f"decimal({len(str(abs(number)))}, {scale}){nullable}")


def answers(left: Column, sign: str, right: Column) -> str:
    """The type of sums, differences or products of decimals, without null."""
    one, other = left._kind, right._kind
    digits = one.precision + other.precision if sign == "*" else max(one.precision, other.precision)
    scale = one.scale + other.scale if sign == "*" else one.scale
    return f"decimal({min(digits + 1, GREATEST_PRECISION)}, {scale})"


def _scale_of(value: Any) -> int:
    """How many places a Decimal has. It may be negative; one that is not a number has none."""
    exponent = value.as_tuple().exponent if isinstance(value, Decimal) else 0
    return -exponent if isinstance(exponent, int) else 0


def _scale_from(least: int, value: Any) -> int:
    """The least scale from `least` on at which a Decimal or an integer has a place: zeros at its end need none. `least`
    where no column has that scale."""
    if is_missing(value) or not (isinstance(value, Decimal) or is_whole(value)) or not value:
        return least
    exact = value if isinstance(value, Decimal) else Decimal(operator.index(value))
    digits = "".join(map(str, exact.as_tuple().digits))
    needed = max(least, _scale_of(exact) - len(digits) + len(digits.rstrip("0")))
    return needed if needed in SCALES else least

