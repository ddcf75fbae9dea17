"""Two tables that are sorted by a column, joined where its rows are equal, at the cost of the runs of both.

The rows of the answer are pieces of either table: stretches of rows, each row of which comes several times, or which
come several times as a whole. A piece of a run is one run of the answer, however many rows it has there.
"""
from __future__ import annotations

import array
from bisect import bisect_right
from collections.abc import Iterator, Sequence
from itertools import chain, repeat
from typing import TYPE_CHECKING, Any, NamedTuple, Optional

from . import _runs
from ._lists import is_list
from ._rows import named
from ._table_making import about, checked_name
from ._types import WHOLE_NUMBERS
from ._values import MOST_ROWS
from .column import Column
from .errors import TypeMismatch, Unsupported, in_words

if TYPE_CHECKING:
    from .table import Table

HOW = ("inner", "left")
_NUMBERS = {*WHOLE_NUMBERS, "decimal"}
_OFTEN = 4  # times that a row comes on average: a flat column of which rows come more often comes in runs


class Piece(NamedTuple):
    """Rows `start` to `stop` - 1, each of them `each` times, and all of that `times` times. Rows that are null where
    `start` is None."""

    start: Optional[int]
    stop: int
    each: int
    times: int

    @property
    def rows(self) -> int:
        return (self.stop - (self.start or 0)) * self.each * self.times


def joined(left: Table, right: Table, on: str, how: Any) -> tuple[dict[str, Column], int]:
    """The columns of the answer, and how many rows it has."""
    if how not in HOW:
        raise ValueError(f"join: rows are kept as {' or '.join(map(repr, HOW))} says it, not {in_words(how)}")
    keys = _key(left, on, "first"), _key(right, on, "other")
    _refuse_other_types(on, *keys)
    others = [name for name in right if checked_name(name) != on]
    for name in others:
        if name in left:
            raise ValueError(f"join: both tables have a column {in_words(name)}: rename or drop it in one of them")
    pieces = list(_pieces(_stretches(keys[0]), _stretches(keys[1]), how == "left"))
    rows = sum(mine.rows for mine, _ in pieces)
    if rows > MOST_ROWS:
        raise OverflowError(f"join: the answer has {rows} rows, and a column has less than 2**64")
    mine, theirs = [each[0] for each in pieces], [each[1] for each in pieces]
    found = {name: _taken(left._column(name), mine, rows, False) for name in left}
    for name in others:
        with about(name):
            found[name] = _taken(right._column(name), theirs, rows, how == "left")
    return found, rows


def _key(table: Table, name: str, which: str) -> Column:
    """The column that has the keys of a table, which is sorted by it."""
    column = table._column(name)
    with about(name):
        if is_list(column):
            raise Unsupported().saying("join: lists have no order")
        if not column.is_sorted():
            hint = f"table.sort({name!r}) sorts it"
            raise ValueError(f"join: the rows of the {which} table are not in its order; {hint}")
    return column


def _refuse_other_types(name: str, left: Column, right: Column) -> None:
    one, other = (str(each._logical or each.type.rstrip("?")) for each in (left, right))
    if one != other:
        key, to = in_words(name), one + "?" * right.nullable
        hint = f": other.with_column({key}, other[{key}].cast({to!r}))" if _is_cast(left, right) else ""
        raise TypeMismatch().saying(f"join: the keys are {one} and {other}; rows of one type are joined{hint}")


def _is_cast(left: Column, right: Column) -> bool:
    """Whether both are numbers, or times of one sort with or without a zone, so that a cast may have all rows."""
    one, other = left._logical, right._logical
    if one is None or other is None:
        return one is other and {each.type.rstrip("?").partition("(")[0] for each in (left, right)} <= _NUMBERS
    return one.sort == other.sort and bool(one.zone) == bool(other.zone)


# ---- Which rows meet ----


def _stretches(column: Column) -> list[tuple[Any, int, int]]:
    """The value of each run of a column, and its rows. Values have the order of the column."""
    return [(value, start, stop) for start, stop, value in column.storage().to_runs().runs()]


def _pieces(
    left: Sequence[tuple[Any, int, int]], right: Sequence[tuple[Any, int, int]], keeps_all: bool
) -> Iterator[tuple[Piece, Piece]]:
    """The rows of the answer, of both sides: each left row with each right one that has an equal key, in the order of
    the left rows and then of the right ones. Null equals nothing."""
    place = 0
    for value, start, stop in left:
        while value is not None and place < len(right) and (right[place][0] is None or right[place][0] < value):
            place += 1
        if value is not None and place < len(right) and right[place][0] == value:
            first, last = right[place][1:]
            yield Piece(start, stop, last - first, 1), Piece(first, last, 1, stop - start)
        elif keeps_all:
            yield Piece(start, stop, 1, 1), Piece(None, stop - start, 1, 1)


# ---- The rows of a column ----


def _taken(column: Column, pieces: Sequence[Piece], rows: int, has_null: bool) -> Column:
    """The rows of a column in pieces; its type has null where the pieces may."""
    return _taken_from(column, pieces, rows, has_null)._meaning(column.logical_type)


def _taken_from(column: Column, pieces: Sequence[Piece], rows: int, has_null: bool) -> Column:
    """The same, which may be without a logical type that rows are not read as."""
    kind = column._kind
    kind.nullable = kind.nullable or has_null
    if is_list(column):
        if column.form == "runs":
            column = column.decode()
        return column.take(_row_numbers(column, pieces))
    if column.form == "constant" and not any(piece.start is None for piece in pieces):
        value = column.at(0) if column._length else None
        return column.constant(value, rows, named(column, kind)) if rows else column.slice(0, 0).cast(named(column, kind))
    if column.form == "flat" and rows < _OFTEN * column._length:
        found = column.take(_row_numbers(column, pieces))
    else:
        found = _taken_runs(column if column.form == "runs" else column.to_runs(), pieces)
    return found if found.nullable == bool(kind.nullable) else found.cast(named(column, kind))


def _row_numbers(column: Column, pieces: Sequence[Piece]) -> Column:
    """The numbers of the rows of all pieces, null where they are null."""
    numbers: Iterator[Optional[int]] = chain.from_iterable(map(_numbers_of, pieces))
    if any(piece.start is None for piece in pieces):
        return column.of(list(numbers), "u64?")
    return column.of(array.array("Q", (number for number in numbers if number is not None)))


def _numbers_of(piece: Piece) -> Iterator[Optional[int]]:
    if piece.start is None:
        return repeat(None, piece.stop)
    numbers = range(piece.start, piece.stop)
    if piece.each == 1:
        return chain.from_iterable(repeat(numbers, piece.times))
    return chain.from_iterable(repeat(number, piece.each) for number in numbers)


def _taken_runs(column: Column, pieces: Sequence[Piece]) -> Column:
    """The same of a column in runs, by its runs."""
    shown = _runs.visible(column)
    chosen: list[Optional[int]] = []
    ends, rows = array.array("Q"), 0
    for piece in pieces:
        for run, count in _runs_of(piece, shown.stops):
            rows += count
            chosen.append(run)
            ends.append(rows)
    numbers = column.of(chosen, "u64?" if None in chosen else "u64")
    return column.from_runs(ends, shown.values.take(numbers)).to_runs()


def _runs_of(piece: Piece, stops: Sequence[int]) -> Iterator[tuple[Optional[int], int]]:
    """The runs of a piece, and how many rows of the answer each has; None for nulls."""
    if piece.start is None:
        return iter([(None, piece.stop)])
    found, start, run = [], piece.start, bisect_right(stops, piece.start)
    while start < piece.stop:
        stop = min(stops[run], piece.stop)
        found.append((run, (stop - start) * piece.each))
        start, run = stop, run + 1
    if len(found) == 1:
        return iter([(found[0][0], found[0][1] * piece.times)])
    return chain.from_iterable(repeat(found, piece.times))
