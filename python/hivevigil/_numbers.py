"""Numbers of any type, with which rows are compared, as C takes them: decimals of 128 bits, and doubles."""
from __future__ import annotations

import math
from decimal import Decimal
from fractions import Fraction
from typing import TYPE_CHECKING, Any, Optional

from . import _floats
from ._library import Value
from ._values import double_passed, scaled_passed
from .logical import LogicalType

if TYPE_CHECKING:
    from .column import Column

_WIDE = LogicalType("float", "64")
_FAR = 400  # decimal digits before or after the point, past all rows


def decided(column: Column, sign: str, value: Any) -> tuple[str, Value]:
    """The comparison with a number that C takes which answers as that with a number of any type. One that it does not take
    may lie between two that rows may be: no row equals it, and a row is below it exactly where it is at most the lower
    of both."""
    taken = _passed(value)
    if taken is not None:
        return sign, taken
    lower, is_same = _lower_one(column, _exact(value))
    if is_same:
        return sign, lower
    if sign in ("==", "!="):
        return sign, double_passed(math.nan)
    return ("<=" if sign in ("<", "<=") else ">"), lower


def _passed(value: Any) -> Optional[Value]:
    """A number as C takes it; None of one that it does not take."""
    taken = None
    if isinstance(value, int):
        taken = scaled_passed(value, 0)
    elif isinstance(value, Decimal):
        sign, digits, exponent = value.as_tuple()
        if value.is_nan():
            return double_passed(math.nan)
        if isinstance(exponent, int):
            taken = scaled_passed(int(Decimal((sign, digits, 0))), -exponent)
    if taken is not None:
        return taken
    near = _floats.nearest(_WIDE, value)
    return double_passed(near) if near != near or near == value else None


def _lower_one(column: Column, number: Fraction) -> tuple[Value, bool]:
    """The greatest number that C takes, that is not above this one, and that a row may be, and whether it is this one."""
    if _floats.is_float(column._logical):
        near = _floats.nearest(_WIDE, number)
        return double_passed(near if near <= number else math.nextafter(near, -math.inf)), False
    scale = column._kind.scale
    places = number * Fraction(10) ** scale
    lower = scaled_passed(math.floor(places), scale)
    if lower is None:  # past all rows
        return double_passed(math.inf if number > 0 else -math.inf), False
    return lower, places.denominator == 1


def _exact(value: Any) -> Fraction:
    """The number that a value is; one far past all rows, or far nearer to 0 than any, is another such."""
    if isinstance(value, Decimal) and abs(value.adjusted()) > _FAR:
        power = Fraction(10) ** (_FAR if value.adjusted() > 0 else -_FAR)
        return power if value > 0 else -power
    return Fraction(*map(int, value.as_integer_ratio()))
