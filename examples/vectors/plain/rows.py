"""What calls answer of rows: each takes columns and makes one, or refuses, by include/hivevigil.h."""

from __future__ import annotations

import operator
from dataclasses import replace
from fractions import Fraction
from itertools import accumulate
from typing import Any

from .columns import Column, Flat, Known, Lists, Pairs, Refused, Runs, Type, Unmodelled
from .columns import expanded, flat_of, how_of, in_runs, joined, least_unsigned, together, total

HOLDS = {name: getattr(operator, name) for name in ("eq", "ne", "gt", "ge", "lt", "le")}
ARITHMETIC = {"+": operator.add, "-": operator.sub, "*": operator.mul}
PICKS = ("coalesce", "lesser", "greater")
PICKED = ("decimal", "bool")


def kept(column: Column, pairs: Pairs, type_: Type | None = None) -> Known:
    """A column of these rows, whose form is not known."""
    return Known(type_ or column.type, tuple(joined(pairs)))


def order(value: Any) -> tuple[Any, ...]:
    """null first, then by value; texts and bytes by their bytes."""
    if value is None:
        return (0,)
    return (1, value.encode() if isinstance(value, str) else value)


def decoded(column: Column) -> Known:
    """The rows written out, where these are not too many."""
    return kept(column, [(1, value) for value in expanded(column.rows())])


def same_types(left: Column, right: Column) -> bool:
    """Whether the types differ in nothing but null."""
    return left.type.bare() == right.type.bare()


def one_length(left: Column, right: Column) -> None:
    """Refuses columns of two lengths."""
    if left.length() != right.length():
        raise Refused(11, left.length(), right.length())


def sliced(column: Column, start: int, stop: int) -> Column:
    """The rows from start to stop - 1."""
    if start > stop or stop > column.length():
        raise Refused(9, start, stop, column.length())
    if isinstance(column, Flat):
        return sliced_flat(column, start, stop)
    if isinstance(column, Lists) and isinstance(column.offsets, Flat) and isinstance(column.sizes, Flat):
        parts = [replace(part, stored=part.stored[start:stop]) for part in (column.offsets, column.sizes)]
        if column.how == "runs":
            raise Unmodelled("a validity in runs")
        how = how_of(column.valid[start:stop]) if column.how == "bits" else column.how
        return Lists(column.elements, *parts, how, column.valid[start:stop] if how == "bits" else ())
    return kept(column, window(column.rows(), start, stop))


def sliced_flat(column: Flat, start: int, stop: int) -> Flat:
    """The rows of a flat column; no rows are never called all null."""
    valid = column.valid[start:stop]
    how = how_of(valid) if column.how == "bits" else column.how
    how = "valid" if how == "invalid" and start == stop else how
    return Flat(column.type, how, column.stored[start:stop], valid if how == "bits" else ())


def window(pairs: Pairs, start: int, stop: int) -> Pairs:
    """The rows from start to stop - 1 of runs."""
    found, at = [], 0
    for count, value in pairs:
        low, high = max(at, start), min(at + count, stop)
        if low < high:
            found.append((high - low, value))
        at += count
    return found


def filtered(column: Column, mask: Column) -> Known:
    """The rows at which a mask is true."""
    if mask.type.name != "bool":
        raise Refused(12)
    if mask.length() != column.length():
        raise Refused(10, mask.length(), column.length())
    return kept(column, [(count, row) for count, (row, is_kept) in together(column.rows(), mask.rows()) if is_kept])


def row_at(pairs: Pairs, row: int) -> Any:
    """The row of this number."""
    for count, value in pairs:
        if row < count:
            return value
        row -= count
    return None


def at(column: Column, row: int) -> Any:
    """The row of this number, if there is one, of any type but lists."""
    if column.type.name == "list":
        raise Refused(13)
    return shown_at(column, row)


def shown_at(column: Column, row: int) -> Any:
    """The row of this number, if there is one."""
    if not 0 <= row < column.length():
        raise Refused(8, row, column.length())
    return row_at(column.rows(), row)


def taken(column: Column, indices: Column) -> Known:
    """Rows at the indices; nulls make the type one with null."""
    if not indices.type.is_integer():
        raise Refused(12)
    for _, index in indices.rows():
        if index is not None and not 0 <= index < column.length():
            raise Refused(8, index, column.length())
    rows = column.rows()
    found = [(count, None if index is None else row_at(rows, index)) for count, index in indices.rows()]
    return kept(column, found, replace(column.type, nullable=column.type.nullable or indices.type.nullable))


def compared(left: Column, name: str, right: Column) -> Runs:
    """Whether the operator holds of the two rows at each place, in runs."""
    if "list" in (left.type.name, right.type.name):
        raise Refused(13)
    if not same_types(left, right):
        raise Refused(12)
    one_length(left, right)
    nulls = left.type.nullable or right.type.nullable
    holds = lambda a, b: None if a is None or b is None else HOLDS[name](order(a), order(b))
    return in_runs(Type("bool", nulls), [(count, holds(*both)) for count, both in together(left.rows(), right.rows())])


def filled(column: Column, scalar_type: Type, value: Any) -> Known:
    """A value in place of each null."""
    if column.type.name == "list":
        raise Refused(13)
    if column.type.bare() != scalar_type.bare():
        raise Refused(12)
    if value is None:
        raise Refused(16)
    pairs = [(count, value if row is None else row) for count, row in column.rows()]
    return kept(column, pairs, column.type.bare())


def is_constant(column: Column) -> bool:
    """Whether all rows are equal."""
    if column.type.name == "list":
        raise Refused(13)
    return len(joined(column.rows())) < 2


def encoded(column: Column) -> Known:
    """The same integers in runs."""
    if not column.type.is_integer():
        raise Refused(20)
    return kept(column, column.rows())


def cast(column: Column, type_: Type) -> Known:
    """Each row as the same value of another type of its kind."""
    if "decimal" in (column.type.name, type_.name) and column.type.bare() != type_.bare():
        raise Unmodelled("rows")
    if not (column.type.is_integer() and type_.is_integer()) and column.type.bare() != type_.bare():
        raise Refused(13)
    if type_.name == "list":
        raise Unmodelled("rows")
    for _, row in column.rows():
        if row is None and not type_.nullable:
            raise Refused(15)
        if row is not None and type_.is_integer() and not type_.has(row):
            raise Refused(14)
    return kept(column, column.rows(), type_)


def summed(column: Column) -> str:
    """The sum of the rows that are not null, one after the other."""
    if not column.type.is_integer():
        raise Refused(13)
    whole, so_far, some = Type("i64" if column.type.name[0] == "i" else "u64"), 0, False
    for count, value in column.rows():
        if value is not None:
            some, so_far = True, so_far + count * value
            if not whole.has(so_far):
                return "overflow"
    return str(so_far) if some else "0 empty"


def extremes(column: Column) -> list[Any]:
    """The least and the greatest row that is not null."""
    if column.type.name == "list":
        raise Refused(13)
    values = sorted((value for _, value in column.rows() if value is not None), key=order)
    return [values[0], values[-1]] if values else []


def backwards(column: Column) -> Runs:
    """The rows in reverse order."""
    if column.type.name == "list":
        raise Refused(13)
    return in_runs(column.type, reversed(column.rows()))


def changed(column: Column, how: str) -> Runs:
    """The other boolean of each row, or whether each row is null, or is not."""
    if column.type.name == "list" or how == "not" and column.type.name != "bool":
        raise Refused(13)
    work = {
        "not": lambda row: None if row is None else not row,
        "is_null": lambda row: row is None,
        "is_valid": lambda row: row is not None,
    }
    nullable = column.type.nullable and how == "not"
    return in_runs(Type("bool", nullable), [(count, work[how](row)) for count, row in column.rows()])


def is_sorted(column: Column, strict: bool) -> bool:
    """Whether no row is above the next, or each is below it."""
    if column.type.name == "list":
        raise Refused(13)
    pairs = column.rows() if not strict else joined(column.rows())
    keys = [order(value) for _, value in pairs]
    if strict and any(count > 1 for count, _ in pairs):
        return False
    return all(a < b if strict else a <= b for a, b in zip(keys, keys[1:]))


def equal(left: Column, right: Column) -> bool:
    """Whether two columns have the same rows."""
    if left.type.name == right.type.name == "list" and same_types(left, right):
        raise Refused(13)
    return same_types(left, right) and joined(left.rows()) == joined(right.rows())


def overflowing(pairs: Pairs, type_: Type) -> None:
    """Refuses the first row that the type does not have."""
    at_row = 0
    for count, value in pairs:
        if value is not None and not type_.has(value):
            raise Refused(14, at_row)
        at_row += count


def numeric(left: Column, name: str, right: Column) -> Runs:
    """The sum, difference or product of the two rows at each place."""
    if not (left.type.is_integer() and right.type.is_integer()):
        raise Refused(13)
    if not same_types(left, right):
        raise Refused(12)
    one_length(left, right)
    both = together(left.rows(), right.rows())
    work = ARITHMETIC[name]
    pairs = [(count, None if None in pair else work(*pair)) for count, pair in both]
    overflowing(pairs, left.type)
    return in_runs(replace(left.type, nullable=left.type.nullable or right.type.nullable), pairs)


def connected(left: Column, name: str, right: Column) -> Runs:
    """Two booleans at each place, where null is unknown."""
    if left.type.name != "bool" or right.type.name != "bool":
        raise Refused(13)
    one_length(left, right)
    decides = name == "or"
    work = lambda a, b: decides if decides in (a, b) else None if None in (a, b) else not decides
    pairs = [(count, work(*pair)) for count, pair in together(left.rows(), right.rows())]
    return in_runs(Type("bool", left.type.nullable or right.type.nullable), pairs)


def is_picked(column: Column) -> bool:
    """Whether rows of this type may be picked."""
    return column.type.is_integer() or column.type.name in PICKED


def picked(left: Column, name: str, right: Column) -> Runs:
    """One of the two rows at each place."""
    if not (is_picked(left) and is_picked(right)):
        raise Refused(13)
    if not same_types(left, right):
        raise Refused(12)
    one_length(left, right)

    def pick(a, b):
        if a is None or name == "coalesce":
            return b if a is None else a if name == "coalesce" else None
        return None if b is None else min(a, b) if name == "lesser" else max(a, b)

    pairs = [(count, pick(*pair)) for count, pair in together(left.rows(), right.rows())]
    if name != "coalesce":
        pairs = [(count, None if None in pair else pick(*pair)) for count, pair in together(left.rows(), right.rows())]
        nulls = left.type.nullable or right.type.nullable
    else:
        nulls = left.type.nullable and right.type.nullable
    return in_runs(replace(left.type, nullable=nulls), pairs)


def if_else(mask: Column, left: Column, right: Column) -> Runs:
    """The left row where the mask is true, the right one where it is false."""
    if mask.type.name != "bool" or not (is_picked(left) and is_picked(right)):
        raise Refused(13)
    if not same_types(left, right):
        raise Refused(12)
    one_length(left, right)
    one_length(mask, left)
    parts = together(mask.rows(), left.rows(), right.rows())
    pairs = [(count, None if m is None else a if m else b) for count, (m, a, b) in parts]
    return in_runs(replace(left.type, nullable=True), pairs)


def groups(keys: Column, values: Column) -> list[tuple[Any, Pairs]]:
    """The rows of each run of equal keys, as runs."""
    found = []
    for count, (key, value) in together(keys.rows(), values.rows()):
        if not found or found[-1][0] != key:
            found.append((key, []))
        found[-1][1].append((count, value))
    return found


def folded(fold: str, values: Column, keys: Column) -> Flat:
    """What is answered of the values in each group."""
    if keys.type.name == "list" or not values.type.is_integer():
        raise Refused(13)
    one_length(keys, values)
    whole = Type("i64" if values.type.name[0] == "i" else "u64", True)
    found, answers = groups(keys, values), []
    if fold == "keys":
        return flat_of(keys.type, [key for key, _ in found])
    if fold == "ends":
        ends = accumulate(total(pairs) for _, pairs in found)
        return flat_of(Type(least_unsigned(keys.length())), ends)
    for number, (_, pairs) in enumerate(found):
        some = [(count, value) for count, value in pairs if value is not None]
        if fold in ("rows", "count"):
            answer = total(pairs if fold == "rows" else some)
        elif not some:
            answer = None
        elif fold == "sum":
            answer = sum(count * value for count, value in some)
            if not whole.has(answer):
                raise Refused(14, number)
        else:
            each = [value for _, value in some]
            answer = {"least": min(each), "greatest": max(each), "first": each[0], "last": each[-1]}[fold]
        answers.append(answer)
    types = {"sum": whole, "rows": Type("u64", True), "count": Type("u64", True)}
    return flat_of(types.get(fold, replace(values.type, nullable=True)), answers)


def totals(column: Column) -> Flat:
    """The total at the end of each run of equal rows."""
    if not column.type.is_integer():
        raise Refused(13)
    whole, so_far, found = Type("i64" if column.type.name[0] == "i" else "u64", True), None, []
    for number, (count, value) in enumerate(joined(column.rows())):
        if value is not None:
            so_far = (so_far or 0) + count * value
            if not whole.has(so_far):
                raise Refused(14, number)
        found.append(so_far)
    return flat_of(whole, found)


def sorted_rows(column: Column) -> Runs:
    """The rows in order."""
    if column.type.name == "list":
        raise Refused(13)
    return in_runs(column.type, sorted(column.rows(), key=lambda pair: order(pair[1])))


def value_counts(column: Column) -> tuple[Flat, Flat]:
    """The distinct rows in order, and how many rows are equal to each."""
    pairs = joined(sorted_rows(column).rows())
    return flat_of(column.type, [value for _, value in pairs]), flat_of(Type("u64"), [count for count, _ in pairs])


def decimal_numeric(left: Column, name: str, right: Column) -> Runs:
    """The exact sum, difference or product of the two decimals at each place."""
    if left.type.name != "decimal" or right.type.name != "decimal":
        raise Refused(13)
    if name != "*" and left.type.scale != right.type.scale:
        raise Refused(12)
    if name == "*" and not -128 <= left.type.scale + right.type.scale <= 127:
        raise Refused(12)
    one_length(left, right)
    a, b = left.type, right.type
    precision = min(38, a.precision + b.precision + 1 if name == "*" else max(a.precision, b.precision) + 1)
    type_ = Type("decimal", a.nullable or b.nullable, precision, a.scale + b.scale if name == "*" else a.scale)
    both, at_row, found = together(left.rows(), right.rows()), 0, []
    for count, pair in both:
        value = None if None in pair else ARITHMETIC[name](*pair)
        if value is not None and abs(value) >= 10**precision:
            raise Refused(14, at_row)
        found.append((count, value))
        at_row += count
    return in_runs(type_, found)


def decimals_of(type_: Type, column: Column) -> Runs:
    """Integers as decimals."""
    if not column.type.is_integer():
        raise Refused(13)
    found, at_row = [], 0
    for count, value in column.rows():
        exact = None if value is None else Fraction(value) * Fraction(10) ** type_.scale
        if exact is not None and exact.denominator != 1:
            raise Refused(14, at_row, "inexact")
        if exact is not None and abs(exact) >= 10**type_.precision:
            raise Refused(14, at_row)
        found.append((count, None if exact is None else int(exact)))
        at_row += count
    return in_runs(replace(type_, nullable=column.type.nullable), found)
