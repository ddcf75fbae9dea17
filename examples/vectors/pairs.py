"""Lines that make a column from two others, row by row: arithmetic, booleans, comparisons and picks; and equality."""

from __future__ import annotations

import operator

import orders
from columns import column
from draws import picked_type, row, type_of
from words import COMPARISONS, INTEGERS, Row, Type, order
from writer import (
    OTHER_TYPE, UNSUPPORTED, Column, Outcome, Refusal, Writer, all_constant, lengths_differ, overflow,
)

ARITHMETIC = {"+": operator.add, "-": operator.sub, "*": operator.mul}
PICKS = ("coalesce", "lesser", "greater")


def sums(left: list[Row], operation: str, right: list[Row], kind: str) -> Outcome:
    """Returns the sums, differences or products of integers, or the refusal of the first that is not of the type."""
    low, high = INTEGERS[kind]
    rows: list[Row] = []
    for index, (x, y) in enumerate(zip(left, right)):
        made = None if x is None or y is None else ARITHMETIC[operation](x, y)
        if made is not None and not low <= made <= high:
            return overflow(index)
        rows.append(made)
    return rows


def numeric(writer: Writer, left: Column, operation: str, right: Column) -> None:
    """Writes a line of `numeric`."""
    if not (left.type.is_integer and right.type.is_integer):
        outcome: Outcome = UNSUPPORTED
    elif left.type.kind != right.type.kind:
        outcome = OTHER_TYPE
    else:
        outcome = lengths_differ(left, right) or sums(left.rows, operation, right.rows, left.type.kind)
    type = Type(left.type.kind, left.type.nullable or right.type.nullable)
    work = f"{left.name} {operation} {right.name}"
    writer.answer(work, (left, right), outcome, type, all_constant(left, right))


def truth(x: bool | None, operation: str, y: bool | None) -> bool | None:
    """Returns what two booleans give, where null is unknown."""
    decides = operation == "or"
    if x is decides or y is decides:
        return decides
    return None if x is None or y is None else not decides


def boolean(writer: Writer, left: Column, operation: str, right: Column) -> None:
    """Writes a line of `and` or `or`."""
    refusal = lengths_differ(left, right) if left.type.is_boolean and right.type.is_boolean else UNSUPPORTED
    outcome = refusal or [truth(x, operation, y) for x, y in zip(left.rows, right.rows)]
    type = Type("bool", left.type.nullable or right.type.nullable)
    work = f"{left.name} {operation} {right.name}"
    writer.answer(work, (left, right), outcome, type, all_constant(left, right))


def compare(writer: Writer, left: Column, operation: str, right: Column) -> None:
    """Writes a line that compares rows of one type."""
    if left.type.is_list:
        refusal: Refusal | None = UNSUPPORTED
    else:
        refusal = OTHER_TYPE if left.type.kind != right.type.kind else lengths_differ(left, right)
    holds, pairs = COMPARISONS[operation], zip(left.rows, right.rows)
    outcome = refusal or [None if x is None or y is None else holds(order(x), order(y)) for x, y in pairs]
    type = Type("bool", left.type.nullable or right.type.nullable)
    work = f"{left.name} {operation} {right.name}"
    writer.answer(work, (left, right), outcome, type, all_constant(left, right))


def pick_refusal(left: Column, right: Column) -> Refusal | None:
    """Returns why no rows are picked from two columns: only whole items of one type are."""
    if not (left.type.is_stored_whole and right.type.is_stored_whole):
        return UNSUPPORTED
    return OTHER_TYPE if left.type.kind != right.type.kind else lengths_differ(left, right)


def picked(x: Row, operation: str, y: Row) -> Row:
    """Returns the first row that is not null, or the lesser or greater of two that are not."""
    if operation == "coalesce":
        return y if x is None else x
    if x is None or y is None:
        return None
    return min(x, y) if operation == "lesser" else max(x, y)


def pick(writer: Writer, left: Column, operation: str, right: Column) -> None:
    """Writes a line of `coalesce`, `lesser` or `greater`."""
    outcome = pick_refusal(left, right) or [picked(x, operation, y) for x, y in zip(left.rows, right.rows)]
    nullables = (left.type.nullable, right.type.nullable)
    nullable = all(nullables) if operation == "coalesce" else any(nullables)
    work = f"{left.name} {operation} {right.name}"
    writer.answer(work, (left, right), outcome, Type(left.type.kind, nullable), all_constant(left, right))


def choose(writer: Writer, mask: Column, left: Column, right: Column) -> None:
    """Writes a line of `if_else`."""
    refusal = (pick_refusal(left, right) or lengths_differ(mask, left)) if mask.type.is_boolean else UNSUPPORTED
    triples = zip(mask.rows, left.rows, right.rows)
    outcome = refusal or [None if bit is None else x if bit else y for bit, x, y in triples]
    columns = (mask, left, right)
    work = f"if_else {mask.name} {left.name} {right.name}"
    writer.answer(work, columns, outcome, Type(left.type.kind, True), all_constant(*columns))


def equals(writer: Writer, left: Column, right: Column) -> None:
    """Writes a line of `equals`."""
    same_type = left.type.kind == right.type.kind
    if same_type and left.type.is_list:
        found = "refused 13"
    else:
        found = str(same_type and left.rows == right.rows).lower()
    walks = same_type and len(left.rows) == len(right.rows) and left.rows
    if writer.happens(0.1) and walks and left.form == "flat" and not left.type.is_list:
        writer.say(f"refuse {left.name} equals {right.name}", f"{found} memory")
    else:
        writer.say(f"{left.name} equals {right.name}", found)


def alike_columns(writer: Writer, type: Type, length: int, other: int) -> tuple[Column, Column]:
    """Writes lines that make two columns of one type; null may be in either."""
    left = column(writer, type, length)
    return left, column(writer, Type(type.kind, writer.happens(0.6)), other)


def numeric_case(writer: Writer) -> None:
    """Writes lines that add, subtract or multiply two columns of integers."""
    length, other = writer.lengths()
    left, right = alike_columns(writer, type_of(writer, list(INTEGERS)), length, other)
    for operation in writer.random.sample(list(ARITHMETIC), 2):
        numeric(writer, left, operation, right)


def boolean_case(writer: Writer) -> None:
    """Writes lines of `and` and `or` of two columns of booleans."""
    length, other = writer.lengths()
    left = column(writer, type_of(writer, ["bool"]), length)
    right = column(writer, type_of(writer, ["bool"]), other)
    for operation in ("and", "or"):
        boolean(writer, left, operation, right)


def compare_case(writer: Writer) -> None:
    """Writes lines that compare two columns of one type."""
    length, other = writer.lengths()
    left, right = alike_columns(writer, type_of(writer), length, other)
    for operation in writer.random.sample(["eq", "ne", "lt", "le", "gt", "ge"], 3):
        compare(writer, left, operation, right)


def pick_case(writer: Writer) -> None:
    """Writes lines that pick rows of two columns of one type."""
    length, other = writer.lengths()
    left, right = alike_columns(writer, picked_type(writer), length, other)
    for operation in writer.random.sample(PICKS, 2):
        pick(writer, left, operation, right)


def choose_case(writer: Writer) -> None:
    """Writes a line that chooses rows of two columns by a mask."""
    length, other = writer.lengths()
    type = picked_type(writer)
    mask = column(writer, type_of(writer, ["bool"]), length)
    choose(writer, mask, *alike_columns(writer, type, length, other))


def equal_case(writer: Writer) -> None:
    """Writes lines that ask whether two columns are equal, and for their hashes."""
    length, _ = writer.lengths()
    type = type_of(writer)
    left = column(writer, type, length)
    rows = list(left.rows)
    if rows and writer.happens(0.4):
        rows[writer.random.randrange(len(rows))] = row(writer, type)
    if writer.happens(0.1):
        rows = rows[:-1]
    nullable = None in rows or writer.happens(0.5)
    right = column(writer, Type(type.kind, nullable), len(rows), rows)
    equals(writer, left, right)
    orders.hashed(writer, left)
    orders.hashed(writer, right)
