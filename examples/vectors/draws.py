"""Types and rows by chance."""

from __future__ import annotations

import random
from typing import Callable, Sequence

from words import INTEGERS, Kind, Row, Type
from writer import Writer

MOST_DIGITS = 38
# The first number of 39 digits, which no decimal has.
TOO_MANY = 10**MOST_DIGITS
TEXTS = ["", "a", "b", "ab", "Z", "a b", "é", "€uro", "a long text of more than twelve bytes"]
TEXTS += ["a long text of more than twelve bytez", 'q"\\', "line\nfeed", "\U0001F41D"]
BYTES = [b"", b"\0", b"\xff", b"ab", b"abc", bytes(range(20)), bytes(range(19)) + b"\x00", b"\xff\x00"]
PRECISIONS = [1, 2, 3, 5, 9, 10, 17, 18, 19, 20, 36, 37, 38, 38, 38]
SCALES = [0, 0, 1, 2, 2, 3, 6, 10, -1, -2, -5]
# The kinds of which picks and masks choose rows.
PICKED = [*INTEGERS, *["bool"] * 4]

Draw = Callable[[], Row]


def integer(r: random.Random, kind: str) -> int:
    """Returns an integer of the type: mostly a small one, now and then one near the ends."""
    low, high = INTEGERS[kind]
    drawn = r.random()
    if drawn < 0.75:
        return max(low, min(high, r.choice([0, 1, 2, 3, 5, 7, -1, -2])))
    if drawn < 0.9:
        return r.choice([low, high, high // 2, low // 2, high - 1, low + 1])
    near = [r.randint(low, high), r.randint(max(low, -100), min(high, 100))]
    return r.choice([*near, max(low, min(high, r.randint(-(2**33), 2**33)))])


def few_decimal(r: random.Random, precision: int) -> int:
    """Returns a decimal of a few, or of all digits."""
    most = 10 ** min(precision, MOST_DIGITS - 1) - 1
    if most < 10:
        return r.randint(-9, 9)
    return r.choice([0, 1, -1, 10, r.randint(-most, most), most, -most])


def decimal(r: random.Random, digits: int) -> int:
    """Returns a decimal of up to this number of digits; of more than 38 now and then one that no precision has."""
    drawn = r.random()
    if drawn < 0.3 or digits == 0:
        if digits > 3:
            return r.choice([0, 1, -1, 2, 5, -7, 10, 100, -1000])
        return r.choice([0, 0, 1, -1]) if digits else 0
    if drawn < 0.5 and digits <= MOST_DIGITS:
        return r.choice([1, -1]) * (10**digits - r.choice([1, 1, 2, 10 ** (digits - 1)]))
    if digits > MOST_DIGITS and drawn < 0.8:
        return r.choice([TOO_MANY, -TOO_MANY, 2**127 - 1, -(2**127), TOO_MANY + 1, TOO_MANY - 1])
    count = r.randint(1, min(digits, MOST_DIGITS))
    return r.choice([1, -1]) * r.randint(10 ** (count - 1), 10**count - 1)


def row(writer: Writer, type: Type) -> Row:
    """Returns a row of the type that is not null."""
    r = writer.random
    if type.is_integer:
        return integer(r, type.kind)
    if type.is_boolean:
        return r.random() < 0.5
    if type.is_decimal:
        precision = type.kind[0]
        return decimal(r, min(precision, MOST_DIGITS)) if writer.decimals else few_decimal(r, precision)
    return r.choice(TEXTS if type.kind == "utf8" else BYTES)


def precision_and_scale(writer: Writer) -> tuple[int, int]:
    """Returns a precision and a scale."""
    return writer.random.choice(PRECISIONS), writer.random.choice(SCALES)


def any_kind(r: random.Random) -> Kind:
    """Returns a type's name, or a precision and a scale."""
    drawn = r.random()
    if drawn < 0.5:
        return r.choice(list(INTEGERS))
    if drawn < 0.7:
        return "bool"
    if drawn < 0.8:
        return r.choice([3, 10, 38]), r.choice([0, 2, -1])
    return "utf8" if drawn < 0.92 else "binary"


def type_of(writer: Writer, kinds: Sequence[Kind] = ()) -> Type:
    """Returns a type of one of these kinds, or of any where none are named."""
    r = writer.random
    return Type(r.choice(kinds) if kinds else any_kind(r), r.random() < 0.6)


def picked_type(writer: Writer) -> Type:
    """Returns a type of which picks and masks choose rows."""
    if writer.decimals and writer.happens(0.3):
        return Type(precision_and_scale(writer), writer.happens(0.6))
    return type_of(writer, PICKED)


def rows_of(writer: Writer, type: Type, count: int, draw: Draw) -> list[Row]:
    """Returns rows with stretches of equal ones."""
    r = writer.random
    rows: list[Row] = []
    has_null = type.nullable and r.random() < 0.75
    only_null = type.nullable and r.random() < 0.05
    pool = [draw() for _ in range(r.randint(1, 4))]
    stretch = r.choice([1, 1, 2, 3, 8, 40])
    while len(rows) < count:
        if only_null or has_null and r.random() < 0.3:
            next_row = None
        else:
            next_row = r.choice(pool) if r.random() < 0.7 else draw()
        rows += [next_row] * r.randint(1, stretch)
    return rows[:count]
