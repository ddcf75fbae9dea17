"""Lines of one column: tests of its rows, its hash, its rows in another order, and how many there are of each."""

from __future__ import annotations

from columns import column
from draws import type_of
from siphash import hash_of
from words import Row, Type, order
from writer import UNSUPPORTED, Column, Writer, look_at

HASH_OF_LISTS = "refused 13"


def test(writer: Writer, operation: str, asked: Column) -> None:
    """Writes a line of `not`, `is_null` or `is_valid`."""
    if operation == "not":
        type, rows = asked.type, [None if row is None else not row for row in asked.rows]
    else:
        type, rows = Type("bool", False), [(row is None) == (operation == "is_null") for row in asked.rows]
    is_refused = asked.type.is_list or (operation == "not" and not asked.type.is_boolean)
    outcome = UNSUPPORTED if is_refused else rows
    writer.answer(f"{operation} {asked.name}", (asked,), outcome, type, asked.is_constant)


def hashed(writer: Writer, asked: Column) -> None:
    """Writes a line of `hash`."""
    is_refused = asked.type.is_list
    writer.say(f"{asked.name} hash", HASH_OF_LISTS if is_refused else str(hash_of(asked.type, asked.rows)))


def reorder(writer: Writer, operation: str, asked: Column) -> None:
    """Writes a line of `sort` or `reverse`."""
    rows = asked.rows[::-1] if operation == "reverse" else sorted(asked.rows, key=order)
    outcome = UNSUPPORTED if asked.type.is_list else rows
    show = look_at_form if asked.form == "constant" else look_at
    writer.answer(f"{operation} {asked.name}", (asked,), outcome, asked.type, asked.is_constant, show)


def look_at_form(writer: Writer, name: str, type: Type, rows: list[Row], form: str) -> None:
    """Writes a line that asks for the form of a column, or for the rows where there are none."""
    writer.say(f"{name} form" if rows else f"{name} rows", form if rows else "-")


def counted(rows: list[Row]) -> list[tuple[Row, int]]:
    """Returns the distinct rows in order, and how many rows are equal to each."""
    counts: dict[tuple[str, Row], int] = {}
    for row in rows:
        counts[type(row).__name__, row] = counts.get((type(row).__name__, row), 0) + 1
    pairs = [(row, count) for (_, row), count in counts.items()]
    return sorted(pairs, key=lambda pair: order(pair[0]))


def count(writer: Writer, operation: str, asked: Column) -> None:
    """Writes a line of `distinct` or `counts`."""
    is_distinct, pairs = operation == "distinct", [] if asked.type.is_list else counted(asked.rows)
    outcome = UNSUPPORTED if asked.type.is_list else [row if is_distinct else number for row, number in pairs]
    type = asked.type if is_distinct else Type("u64", False)
    writer.answer_flat(f"{operation} {asked.name}", (asked,), outcome, type)


def single_case(writer: Writer) -> None:
    """Writes lines that test rows, and now and then one that hashes them."""
    length, _ = writer.lengths()
    type = type_of(writer, ["bool"]) if writer.happens(0.5) else type_of(writer)
    asked = column(writer, type, length)
    for operation in writer.random.sample(["not", "is_null", "is_valid"], 2):
        test(writer, operation, asked)
    if writer.happens(0.5):
        hashed(writer, asked)


def order_case(writer: Writer) -> None:
    """Writes lines that sort, reverse and count rows."""
    length, _ = writer.lengths()
    r = writer.random
    asked = column(writer, type_of(writer), length)
    for operation in r.sample(["sort", "reverse"], r.randint(1, 2)):
        reorder(writer, operation, asked)
    for operation in r.sample(["distinct", "counts"], r.randint(1, 2)):
        count(writer, operation, asked)
