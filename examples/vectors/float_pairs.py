"""Lines of `float_numeric`: two columns of floats, near ties, subnormals, infinities and zeros."""

from __future__ import annotations

import random
from fractions import Fraction
from functools import partial

import floats
from columns import column
from draws import Draw, rows_of
from float_columns import bits, say_floats
from floats import BY_KEY_KIND, F16, F32, F64, OPERATIONS, Format
from words import Row, Type
from writer import (
    OTHER_TYPE, UNSUPPORTED, Column, Outcome, Writer, all_constant, lengths_differ, look_at,
)

WORKED = {format.key_kind: format for format in (F32, F64)}


def bits_of(format: Format, rows: list[Row]) -> list[int | None]:
    """Returns the bits of rows of keys."""
    return [None if key is None else format.bits_of_key(key) for key in rows]


def key_drawn(writer: Writer, format: Format) -> int:
    """Returns the key of a float by chance."""
    usual = writer.happens(0.5)
    return format.key(bits(writer.random, format, usual))


def drawer(writer: Writer, format: Format) -> Draw:
    """Returns what draws keys of floats."""
    return partial(key_drawn, writer, format)


def next_to(r: random.Random, format: Format, near: int) -> int:
    """Returns the bits of a positive float that are these, or next to these."""
    return max(0, min(format.infinity - 1, near + r.choice([-1, 0, 0, 0, 1])))


def step_at(format: Format, size: int) -> Fraction:
    """Returns how far the next float above a positive one is; of the greatest one, its size."""
    number = format.number(size)
    return (format.number(size + 1) if size + 1 < format.infinity else 2 * number) - number


def partner(r: random.Random, format: Format, left: int) -> int:
    """Returns the bits of a float that with this one comes near a tie, a subnormal, an infinity or zero."""
    sign, infinity, size = format.sign, format.infinity, left % format.sign
    if size == 0 or size >= infinity:
        return r.choice([0, sign, infinity, infinity + sign, left, format.nearest(1)])
    return partner_size(r, format, size) + r.choice([0, sign])


def partner_size(r: random.Random, format: Format, size: int) -> int:
    """Returns the bits of the partner of a positive float, without its sign."""
    number, drawn, top = format.number(size), r.random(), format.infinity - 1
    subnormals = 1 << format.fraction
    if drawn < 0.3:
        share = Fraction(r.choice([1, 1, 1, 3, 5]), r.choice([1, 2, 2, 2, 4]))
        return next_to(r, format, format.nearest(step_at(format, size) * share))
    if drawn < 0.5:
        halves = [Fraction(1, 2), 1, Fraction(3, 2), Fraction(5, 2), 3]
        lowest = r.choice([*halves, subnormals // 2, subnormals - 1, subnormals])
        return format.nearest(format.number(1) * lowest / number)
    if drawn < 0.65:
        near = min(top, format.nearest(format.number(top) / number))
        return max(0, min(top, near + r.choice([-1, 0, 0, 1])))
    if drawn < 0.8:
        return max(0, size + r.choice([-2, -1, 0, 0, 1, 2]))
    if drawn < 0.9:
        return min(top, format.nearest(number / r.choice([2, 3, 5, 7, 10])))
    return r.choice([0, 1, subnormals - 1, subnormals, top, format.infinity])


def show_floats(format: Format, writer: Writer, name: str, type: Type, rows: list[Row], form: str) -> None:
    """Writes lines that look at a column, often at its floats."""
    if not writer.happens(0.55):
        return look_at(writer, name, type, rows, form)
    writer.say(f"{name} floats", floats.words(format, bits_of(format, rows)))
    if writer.happens(0.3):
        writer.say(f"{name} type", str(type))


def float_numeric(writer: Writer, left: Column, operation: str, right: Column, show=show_floats) -> None:
    """Writes a line of `float_numeric`."""
    outcome = worked(left, operation, right)
    work = f"float_numeric {left.name} {operation} {right.name}"
    type = Type(left.type.kind, left.type.nullable or right.type.nullable)
    look = partial(show, WORKED[left.type.kind]) if left.type.kind in WORKED else look_at
    writer.answer(work, (left, right), outcome, type, all_constant(left, right), look)


def worked(left: Column, operation: str, right: Column) -> Outcome:
    """Returns the keys of what two columns of floats give; those of 16 bits are not worked with."""
    if left.type.kind not in BY_KEY_KIND or left.type.kind != right.type.kind:
        return OTHER_TYPE
    if left.type.kind == F16.key_kind:
        return UNSUPPORTED
    format = WORKED[left.type.kind]

    def one(x: int | None, y: int | None) -> int | None:
        if x is None or y is None:
            return None
        return format.key(floats.arithmetic(format, operation, format.bits_of_key(x), format.bits_of_key(y)))

    return lengths_differ(left, right) or [one(x, y) for x, y in zip(left.rows, right.rows)]


def float_column(writer: Writer, format: Format, nullable: bool, length: int, rows: list[Row] | None = None) -> Column:
    """Writes lines that make a column of floats in some form, of these keys where they are given."""
    type, draw = Type(format.key_kind, nullable), drawer(writer, format)
    if not (writer.happens(0.35) and length):
        return column(writer, type, length, rows, draw)
    rows = rows_of(writer, type, length, draw) if rows is None else rows
    name = writer.fresh()
    say_floats(writer, name, format, nullable, bits_of(format, rows))
    return Column(name, type, rows, "runs")


def partners(writer: Writer, format: Format, rows: list[Row]) -> list[Row]:
    """Returns keys of floats that with these come near ties, or are the last one again."""
    found: list[Row] = []
    for key in rows:
        if found and writer.happens(0.4):
            found.append(found[-1])
        elif key is None:
            found.append(format.key(bits(writer.random, format, True)))
        else:
            found.append(format.key(partner(writer.random, format, format.bits_of_key(key))))
    return found


def floats_case(writer: Writer) -> None:
    """Writes lines that work with two columns of floats, of which the second may be made for the first."""
    r = writer.random
    format = r.choice([F32, F64])
    length = writer.length()
    if writer.happens(0.5) and length:
        left = float_column(writer, format, writer.happens(0.5), length)
        rows = partners(writer, format, left.rows)
        nullable = writer.happens(0.5)
        if nullable and writer.happens(0.6):
            rows[r.randrange(length)] = None
        right = float_column(writer, format, nullable, length, rows)
    else:
        left = float_column(writer, format, writer.happens(0.5), length)
        right = float_column(writer, format, writer.happens(0.5), writer.other_length(length))
    if writer.happens(0.3):
        left, right = right, left
    for operation in r.sample(OPERATIONS, 2):
        float_numeric(writer, left, operation, right)
