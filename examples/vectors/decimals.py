"""Lines of decimals: arithmetic of two columns, casts, exact sums, and picks of decimals."""

from __future__ import annotations

from fractions import Fraction
from functools import partial
from typing import Callable

from columns import column
from draws import MOST_DIGITS, PRECISIONS, SCALES, TOO_MANY, decimal, precision_and_scale, rows_of, type_of
from pairs import ARITHMETIC, PICKS, choose, pick
from words import INTEGERS, Row, Type
from writer import (
    OTHER_TYPE, UNSUPPORTED, Column, Outcome, Refusal, Writer, all_constant, lengths_differ, overflow,
)

Has = Callable[[int], bool]
# Decimals have 1 to 38 digits.
NO_SUCH_TYPE = Refusal("23")


def has_digits(precision: int, number: int) -> bool:
    """Says whether a precision has the number."""
    return abs(number) < 10 ** min(precision, MOST_DIGITS)


def has_integer(kind: str, number: int) -> bool:
    """Says whether a type of integers has the number."""
    low, high = INTEGERS[kind]
    return low <= number <= high


def answer_kind(operation: str, left: tuple[int, int], right: tuple[int, int]) -> tuple[int, int] | None:
    """Returns the precision and scale of the answers, or None where the two scales are refused."""
    (precision, scale), (other_precision, other_scale) = left, right
    if operation == "*":
        most, whole = precision + other_precision + 1, scale + other_scale
        return (min(most, MOST_DIGITS), whole) if -128 <= whole <= 127 else None
    return (min(max(precision, other_precision) + 1, MOST_DIGITS), scale) if scale == other_scale else None


def rescaled(rows: list[Row], scale: int, to: int, has: Has) -> Outcome:
    """Returns the same decimals at another scale, or the refusal of the first that is not there."""
    made: list[Row] = []
    for index, row in enumerate(rows):
        number = None if row is None else Fraction(row) * Fraction(10) ** (to - scale)
        if number is not None and number.denominator != 1:
            return Refusal(f"14 {index} inexact", early=False)
        if number is not None and not has(int(number)):
            return overflow(index)
        made.append(None if number is None else int(number))
    return made


def exact_sum(runs: list[tuple[Row, int]]) -> str:
    """Returns the answer of `sum_decimals` of values with their numbers of rows."""
    total, found, row = 0, False, 0
    for value, count in runs:
        if value is not None and count:
            found = True
            if abs(total + value * count) >= TOO_MANY:
                room = TOO_MANY - 1 - total if value > 0 else TOO_MANY - 1 + total
                return f"refused 14 {row + room // abs(value)}"
            total += value * count
        row += count
    return str(total) if found else "0 empty"


def numeric_outcome(left: Column, operation: str, right: Column) -> tuple[Type, Outcome]:
    """Returns the type and the rows of what two columns of decimals give."""
    if not (left.type.is_decimal and right.type.is_decimal):
        return left.type, UNSUPPORTED
    kind = answer_kind(operation, left.type.kind, right.type.kind)
    if kind is None:
        return left.type, OTHER_TYPE
    type = Type(kind, left.type.nullable or right.type.nullable)
    refusal = lengths_differ(left, right)
    if refusal:
        return type, refusal
    pairs = zip(left.rows, right.rows)
    rows = [None if x is None or y is None else ARITHMETIC[operation](x, y) for x, y in pairs]
    return type, rescaled(rows, 0, 0, partial(has_digits, kind[0]))


def decimal_numeric(writer: Writer, left: Column, operation: str, right: Column) -> None:
    """Writes a line of `decimal_numeric`."""
    type, outcome = numeric_outcome(left, operation, right)
    work = f"decimal_numeric {left.name} {operation} {right.name}"
    writer.answer(work, (left, right), outcome, type, all_constant(left, right))


def rescale(writer: Writer, asked: Column, precision: int, scale: int) -> None:
    """Writes a line of `rescale`."""
    outcome: Outcome = UNSUPPORTED
    if not 1 <= precision <= MOST_DIGITS:
        outcome = NO_SUCH_TYPE
    elif asked.type.is_decimal:
        outcome = rescaled(asked.rows, asked.type.kind[1], scale, partial(has_digits, precision))
    work = f"rescale decimal({precision},{scale}) {asked.name}"
    writer.answer(work, (asked,), outcome, Type((precision, scale), asked.type.nullable))


def decimals_of(writer: Writer, asked: Column, precision: int, scale: int) -> None:
    """Writes a line of `decimals_of`."""
    outcome: Outcome = UNSUPPORTED
    if not 1 <= precision <= MOST_DIGITS:
        outcome = NO_SUCH_TYPE
    elif asked.type.is_integer:
        outcome = rescaled(asked.rows, 0, scale, partial(has_digits, precision))
    work = f"decimals_of decimal({precision},{scale}) {asked.name}"
    writer.answer(work, (asked,), outcome, Type((precision, scale), asked.type.nullable))


def integers_of(writer: Writer, asked: Column, kind: str) -> None:
    """Writes a line of `integers_of`."""
    outcome: Outcome = UNSUPPORTED
    if asked.type.is_decimal:
        outcome = rescaled(asked.rows, asked.type.kind[1], 0, partial(has_integer, kind))
    writer.answer(f"integers_of {kind} {asked.name}", (asked,), outcome, Type(kind, asked.type.nullable))


def sum_decimals(writer: Writer, asked: Column) -> None:
    """Writes a line of `sum_decimals`."""
    line = f"{asked.name} sum_decimals"
    if not asked.type.is_decimal:
        refuse = writer.happens(0.12)
        writer.say(f"refuse {line}" if refuse else line, "refused 13 none" if refuse else "refused 13")
        return
    found = exact_sum([(row, 1) for row in asked.rows])
    refuse = asked.form == "flat" and asked.rows and writer.happens(0.15)
    writer.say(f"refuse {line}" if refuse else line, f"{found} memory" if refuse else found)


def column_of(
    writer: Writer, kind: tuple[int, int], length: int, digits: int | None, rows: list[Row] | None = None
) -> Column:
    """Writes lines that make a column of decimals of up to this number of digits, or of those of its precision."""
    digits = min(kind[0], MOST_DIGITS) if digits is None else digits
    type = Type(kind, writer.happens(0.5))
    return column(writer, type, length, rows, partial(decimal, writer.random, digits))


def scale_within(scale: int) -> int:
    """Returns the nearest scale that there is."""
    return max(-128, min(127, scale))


def numeric_case(writer: Writer) -> None:
    """Writes lines that work with two columns of decimals."""
    r = writer.random
    operation = r.choice(list(ARITHMETIC))
    left_precision, right_precision, scale = r.choice(PRECISIONS), r.choice(PRECISIONS), r.choice(SCALES)
    other = scale
    if operation == "*" and not r.random() < 0.2:
        other = r.choice([r.choice(SCALES), 127 - scale, 128 - scale if scale > 0 else -128 - scale, -120])
    other = scale_within(other)
    if operation != "*" and r.random() < 0.06:
        other = r.choice(SCALES)
    length, drawn = writer.length(), r.random()
    # Rows have as many digits as their type, so few that no answer has too many, or more.
    if operation == "*":
        room = min(left_precision + right_precision + 1, MOST_DIGITS) // 2
    else:
        room = min(max(left_precision, right_precision) + 1, MOST_DIGITS) - 1

    def digits(precision: int) -> int | None:
        return None if drawn < 0.35 else min(precision, room) if drawn < 0.9 else MOST_DIGITS

    left = column_of(writer, (left_precision, scale), length, digits(left_precision))
    other_length = writer.other_length(length)
    right = column_of(writer, (right_precision, other), other_length, digits(right_precision))
    others = [found for found in ARITHMETIC if found != operation]
    for found in [operation, *r.sample(others, 1)]:
        decimal_numeric(writer, left, found, right)


def rescaled_rows(writer: Writer, kind: tuple[int, int], length: int, more: int, precision: int) -> Column:
    """Writes lines that make a column with zeros to drop, or with room for zeros to add."""
    r, most = writer.random, min(kind[0], MOST_DIGITS)
    unit = 10 ** min(-more, MOST_DIGITS) if more < 0 else 1
    digits = max(0, min(most + more, precision)) if more < 0 else max(0, min(most, precision - more))
    nullable = writer.happens(0.5)
    drawn = rows_of(writer, Type(kind, nullable), length, partial(decimal, r, digits))
    rows = [None if row is None else row * unit if abs(row * unit) < 2**127 else 0 for row in drawn]
    for _ in range(r.choice([0, 0, 1, 2])):
        if length:
            # A row that may not fit.
            row = decimal(r, MOST_DIGITS) if r.random() < 0.6 else r.choice([1, 5, 10, 10**37])
            rows[r.randrange(length)] = row
    return column(writer, Type(kind, nullable or None in rows), length, rows, partial(decimal, r, most))


def rescale_case(writer: Writer) -> None:
    """Writes lines that give decimals another precision and scale."""
    r = writer.random
    precision, scale = precision_and_scale(writer)
    more = r.choice([0, 0, 1, 1, 2, 3, 6, -1, -1, -2, -3, -6, 37, 38, 39, -37, -38, -39, 120])
    to = scale_within(scale + more)
    other = r.choice([r.choice(PRECISIONS), min(MOST_DIGITS, max(1, precision + more)), 38, 38, precision])
    asked = rescaled_rows(writer, (precision, scale), writer.length(), more, other)
    rescale(writer, asked, other, to)
    if writer.happens(0.4):
        precisions = r.choice([38, 40, 255])
        rescale(writer, asked, precisions, r.choice([to, scale, scale + 1 if scale < 127 else scale]))


def few_digits_case(writer: Writer) -> None:
    """Writes lines that give decimals of few digits another precision and scale."""
    r = writer.random
    precision, scale = precision_and_scale(writer)
    length = writer.length()
    asked = column_of(writer, (precision, scale), length, r.choice([1, 2, 5, 10]))
    for _ in range(2):
        other = r.choice(PRECISIONS)
        rescale(writer, asked, other, scale_within(scale + r.choice([0, 1, 2, 5, -1, -2, 30])))


def decimals_of_case(writer: Writer) -> None:
    """Writes lines that make decimals of integers."""
    r = writer.random
    type = type_of(writer, list(INTEGERS))
    asked = column(writer, type, writer.length())
    for _ in range(2):
        precision = r.choice([1, 3, 5, 10, 19, 20, 38, 38, 100])
        decimals_of(writer, asked, precision, r.choice([0, 0, 1, 2, 5, 18, 19, -1, -2, -19, 127, -128]))


def whole_rows(writer: Writer, kind: str, scale: int, length: int, nullable: bool) -> list[Row]:
    """Returns decimals that are integers of a type, or nearly."""
    r, (low, high) = writer.random, INTEGERS[kind]
    rows: list[Row] = []
    near = range(r.randint(1, 4))
    pool = [r.choice([low, high, 0, 1, r.randint(low, high), r.randint(max(low, -9), 9)]) for _ in near]
    while len(rows) < length:
        row = None if nullable and r.random() < 0.25 else r.choice(pool)
        if row is not None:
            row = row * 10**scale if scale > 0 else row // 10**-scale
            row = 0 if abs(row) >= 2**127 else row
        rows += [row] * r.choice([1, 1, 2, 3])
    rows = rows[:length]
    if length and r.random() < 0.5:
        place, unit = r.randrange(length), 10 ** max(scale, 0)
        row = r.choice([(high + 1) * unit, (low - 1) * unit, 1, 5, 10, 15, -10])
        rows[place] = 7 if abs(row) >= 2**127 else row
    return rows


def integers_of_case(writer: Writer) -> None:
    """Writes lines that make integers of decimals."""
    r = writer.random
    kind = r.choice(list(INTEGERS))
    scale = r.choice([0, 0, 1, 2, 3, -1, -2, 10, -20, 38, 39])
    length, nullable = writer.length(), writer.happens(0.5)
    rows = whole_rows(writer, kind, scale, length, nullable)
    precision = r.choice([20, 38, 5])
    type = Type((precision, scale), nullable or None in rows)
    asked = column(writer, type, length, rows, partial(decimal, r, min(precision, MOST_DIGITS)))
    for found in (kind, r.choice(list(INTEGERS))):
        integers_of(writer, asked, found)


def sum_case(writer: Writer) -> None:
    """Writes a line that asks for the exact sum, which may be near 38 digits on the way."""
    r, drawn = writer.random, writer.random.random()
    precision, scale = precision_and_scale(writer)
    length = writer.length()
    if drawn < 0.6:
        digits = None if drawn < 0.4 else 39 if r.random() < 0.2 else 38
        return sum_decimals(writer, column_of(writer, (precision, scale), length, digits))
    rows: list[Row] = []
    nullable, size = writer.happens(0.5), 10 ** r.choice([36, 37, 37])
    while len(rows) < length:
        row = r.choice([size, size, size, -size, 3 * size, -3 * size, TOO_MANY - 1, 1 - TOO_MANY, 1, -1, 0])
        rows += [None if nullable and r.random() < 0.15 else row] * r.choice([1, 2, 3, 5, 9])
    type, draw = Type((precision, scale), nullable), partial(decimal, r, min(precision, MOST_DIGITS))
    sum_decimals(writer, column(writer, type, length, rows[:length], draw))


def pick_case(writer: Writer) -> None:
    """Writes lines that pick rows of two columns of decimals."""
    r = writer.random
    precision, scale = precision_and_scale(writer)
    length, same = writer.length(), r.random() < 0.9
    left = column_of(writer, (precision, scale), length, r.choice([None, None, 1, 2]))
    other = precision if same else r.choice(PRECISIONS)
    other_scale = scale if same or r.random() < 0.5 else r.choice(SCALES)
    other_length = writer.other_length(length)
    right = column_of(writer, (other, other_scale), other_length, r.choice([None, None, 1, 2]))
    for operation in r.sample(PICKS, 2):
        pick(writer, left, operation, right)
    if writer.happens(0.6):
        type = type_of(writer, ["bool"])
        mask = column(writer, type, writer.other_length(length))
        choose(writer, mask, left, right)
