"""Values of floats: their bits, their keys, and the ones next to other numbers.

A column of floats of 16, 32 or 64 bits stores each by its key, an integer of that width: the place of the float in the
total order of IEEE 754, counted from 0.0. The library makes keys of bits and bits of keys; this module has single values.
"""
from __future__ import annotations

import math
import struct
from collections.abc import Iterable, Sequence
from fractions import Fraction
from numbers import Integral
from typing import Any, Optional

from ._values import is_missing, is_whole
from .errors import in_words
from .logical import LogicalType, sort_of_class

_FLOATS = {"16": "e", "32": "f", "64": "d"}  # letters of struct
WORDS = {"16": "H", "32": "I", "64": "Q"}  # of unsigned integers with the same bits
INFINITIES = {"16": 0x7C00, "32": 0x7F80_0000, "64": 0x7FF0_0000_0000_0000}


def is_float(logical: Optional[LogicalType]) -> bool:
    """Whether a column of this type is one of floats."""
    return logical is not None and logical.sort == "float"


def inferred(kinds: set[type]) -> Optional[LogicalType]:
    """The type of values of these classes: floats, and integers next to them; None where another class is among them. It
    has the most bits of NumPy's narrow floats where all are such, else 64."""
    floats = {kind for kind in kinds if sort_of_class(kind) == "float"}
    others = kinds - floats
    if not floats or any(kind is bool or not issubclass(kind, Integral) for kind in others):
        return None
    widths = {kind.__name__.removeprefix("float") for kind in floats}
    narrow = widths <= {"16", "32"} and not others
    return LogicalType("float", max(widths) if narrow else "64")


# ---- In ----


def bits_of(logical: LogicalType, value: Any) -> int:
    """The bits of a number, which the type has exactly; nothing is rounded."""
    (bits,) = _words(logical, [value])
    return bits


def _words(logical: LogicalType, values: Sequence[Any]) -> tuple[int, ...]:
    """The bits of numbers; what is refused is the first of them."""
    for value in values:
        if not (sort_of_class(type(value)) == "float" or is_whole(value)):
            raise TypeError(f"a value of type {logical} is a number, not {in_words(value)}")
    letter, word = _FLOATS[logical.unit], WORDS[logical.unit]
    try:
        data = struct.pack(f"={len(values)}{letter}", *values)
    except (OverflowError, struct.error):
        if len(values) > 1:
            raise OverflowError("a number is past what the type has") from None
        raise OverflowError(f"{in_words(values[0])} does not fit {logical}") from None
    for value, stored in zip(values, struct.unpack(f"={len(values)}{letter}", data)):
        if stored != value and value == value:
            raise ValueError(f"{in_words(value)} is between two floats of {logical}, and nothing is rounded")
    return struct.unpack(f"={len(values)}{word}", data)


def key_of_bits(unit: str, bits: int) -> int:
    """The place of a float in the total order."""
    sign = 1 << (int(unit) - 1)
    return bits if bits < sign else sign - 1 - bits


def bits_of_key(unit: str, key: int) -> int:
    """The float in that place."""
    sign = 1 << (int(unit) - 1)
    return key if key >= 0 else sign - 1 - key


def stored(logical: LogicalType, value: Any) -> int:
    """What a column stores of a number."""
    return key_of_bits(logical.unit, bits_of(logical, value))


def stored_rows(logical: LogicalType, rows: Sequence[Any]) -> list[Optional[int]]:
    """What a column stores of rows, None of each null."""
    given = [0 if is_missing(row) else row for row in rows]
    try:
        words = _words(logical, given)
    except (OverflowError, TypeError, ValueError):
        for number, row in enumerate(given):
            try:
                bits_of(logical, row)
            except (OverflowError, TypeError, ValueError) as error:
                raise type(error)(f"row {number}: {error}") from None
        raise
    return [None if is_missing(row) else key_of_bits(logical.unit, bits) for row, bits in zip(rows, words)]


# ---- Out ----


def values_of_bits(unit: str, words: Any) -> list[float]:
    """The floats with these bits, which lie in a buffer."""
    data = bytes(words)
    return list(struct.unpack(f"={8 * len(data) // int(unit)}{_FLOATS[unit]}", data))


def value_of_bits(unit: str, bits: int) -> float:
    return values_of_bits(unit, struct.pack(f"={WORDS[unit]}", bits))[0]


def shown(logical: LogicalType, key: int) -> float:
    """The float of a key."""
    return value_of_bits(logical.unit, bits_of_key(logical.unit, key))


# ---- Near numbers ----


def nearest(logical: LogicalType, number: Any) -> float:
    """The float of the type next to a number, below or above it; an infinity past the finite ones."""
    try:
        wide = float(number)
        letter = _FLOATS[logical.unit]
        (near,) = struct.unpack(f"={letter}", struct.pack(f"={letter}", wide))
    except OverflowError:
        return float("inf") if number > 0 else float("-inf")
    return float(near)


def rounded(logical: LogicalType, number: Fraction) -> float:
    """The float of the type nearest to a number, at a tie the even one, an infinity past the finite ones."""
    near = float(number)
    if near != number and struct.unpack("=Q", struct.pack("=d", near))[0] % 2 == 0:
        # the odd float on the other side of the number, so that a type of fewer bits rounds it once
        odd = math.nextafter(near, math.inf if number > near else -math.inf)
        near = near if logical.unit == "64" else odd
    return nearest(logical, near)


def whole_of(value: float) -> Optional[int]:
    """The integer that a float is; None of another float."""
    return int(value) if value == value and abs(value) != float("inf") and value == int(value) else None


def is_exact(logical: LogicalType, value: Any) -> bool:
    """Whether a number is a float of this type; a NaN is."""
    try:
        return value != value or bits_of(logical, value) >= 0
    except (OverflowError, ValueError):
        return False


def any_nan(values: Iterable[float]) -> bool:
    return any(value != value for value in values)
