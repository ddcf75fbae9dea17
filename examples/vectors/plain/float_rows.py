"""What calls answer of columns of floats, which are integers, the keys of floats; by include/hivevigil.h."""

from __future__ import annotations

from dataclasses import replace
from fractions import Fraction
from typing import Any

from . import floats
from .columns import Column, Pairs, Refused, Runs, Type, Unmodelled, in_runs
from .rows import HOLDS, one_length, same_types


def is_float(column: Column) -> bool:
    """Whether these are integers that may be keys of floats."""
    return column.type.name in floats.FORMATS


def float_column(name: str, pairs: Pairs, nullable: bool) -> Runs:
    """Floats by their bits."""
    keys = [(count, None if bits is None else floats.key_of(bits, name)) for count, bits in pairs]
    return in_runs(Type(floats.KEYS[name], nullable), keys)


def float_bits(column: Column) -> tuple[str, Pairs]:
    """The format of a column of floats, and the bits of its rows."""
    if not is_float(column):
        raise Refused(12)
    name = floats.FORMATS[column.type.name]
    return name, [(count, None if key is None else floats.bits_of(key, name)) for count, key in column.rows()]


def float_compared(name: str, bits: int, column: Column, is_total: bool) -> Runs:
    """Whether the operator holds of each float and a constant, of these bits in the format of the column."""
    found, pairs = float_bits(column)
    if bits >> floats.BITS[found]:
        raise Refused(14)
    key = (lambda each: floats.key_of(each, found)) if is_total else (lambda each: floats.number_of(each, found))
    answer = lambda each: None if each is None else HOLDS[name](key(each), key(bits))
    return in_runs(Type("bool", column.type.nullable), [(count, answer(each)) for count, each in pairs])


def integers_of_floats(type_: Type, column: Column) -> Runs:
    """The integers that floats are."""
    name, pairs = float_bits(column)
    found = []
    for count, bits in pairs:
        number = None if bits is None else floats.number_of(bits, name)
        if number is not None:
            if number - number != 0 or number != int(number) or not type_.has(int(number)):
                raise Refused(14)
            number = int(number)
        found.append((count, number))
    return in_runs(replace(type_, nullable=column.type.nullable), found)


def floats_of_integers(name: str, column: Column, is_rounded: bool) -> Runs:
    """The floats that integers are, or the nearest."""
    if not column.type.is_integer():
        raise Refused(12)
    found = []
    for count, value in column.rows():
        bits = None if value is None else floats.nearest(Fraction(value), name)
        if bits is not None and not is_rounded:
            number = floats.number_of(bits, name)
            if number - number != 0 or int(number) != value:
                raise Refused(14)
        found.append((count, bits))
    return float_column(name, found, column.type.nullable)


def rounded_floats(name: str, column: Column) -> Runs:
    """The nearest floats of another format; a payload of NaN is not modelled."""
    found, pairs = float_bits(column)
    each = [(count, None if bits is None else floats.rounded(bits, found, name)) for count, bits in pairs]
    return float_column(name, each, column.type.nullable)


def float_sum(column: Column) -> int:
    """The bits of the exact sum of floats of any format, rounded once to one of 64 bits."""
    name, pairs = float_bits(column)
    each = [(count, floats.number_of(bits, name), bits) for count, bits in pairs if bits is not None]
    wild = {number for _, number, _ in each if number - number != 0}
    if wild:
        return floats.pack(sum(wild), "f64")
    if each and all(number == 0 and bits for _, number, bits in each):
        return 1 << 63
    return floats.nearest(sum((count * Fraction(number) for count, number, _ in each), Fraction(0)), "f64")


def float_numeric(left: Column, name: str, right: Column) -> Runs:
    """Refuses two columns of floats; what two floats give is not modelled."""
    if not (is_float(left) and same_types(left, right)):
        raise Refused(12)
    if left.type.name == "i16":
        raise Refused(13)
    one_length(left, right)
    raise Unmodelled("rows")
