"""The runs that a column shows, and its rows by these runs."""
from __future__ import annotations

import ctypes
import sys
from collections.abc import Callable, Iterator
from itertools import chain, repeat
from typing import TYPE_CHECKING, Any, NamedTuple, Optional

from . import _lists, _reading
from ._library import ask, calls
from ._values import Scalar, size_of
from .errors import in_words

if TYPE_CHECKING:
    from .column import Column


class Run(NamedTuple):
    """Rows `start` to `stop` - 1 of a column, which all have this value."""

    start: int
    stop: int
    value: Scalar


class Visible(NamedTuple):
    """What a run column shows: how many runs, where the first of them end, counted from its first row, their values."""

    runs: int
    stops: list[int]
    values: Column


def _run_of(column: Column, row: int) -> int:
    """The stored run of a row."""
    run = ctypes.c_size_t()
    ask(calls.hv_run_of, column, row, run)
    return run.value


def run_at(column: Column, number: int) -> Run:
    """A run of a run column, by its number among those that the column shows, from the end where it is negative."""
    shown = span(column)
    at = shown[number]
    before = int(at > shown.start)  # how many of the two bounds are the end of a run
    stops = (ctypes.c_uint64 * 2)()
    ask(calls.hv_read_ends_u64, column, at - before, stops, 1 + before)
    start = stops[0] if before else 0
    return Run(start, stops[before], column._at(start))


def span(column: Column) -> range:
    """Which of its stored runs a run column shows."""
    rows = column._length
    return range(_run_of(column, 0), _run_of(column, rows - 1) + 1) if rows else range(0)


def visible(column: Column, most: Optional[int] = None) -> Visible:
    """The visible runs of a run column, or as many of the first."""
    shown = span(column)
    some = shown if most is None else shown[:most]
    stops = (ctypes.c_uint64 * max(1, len(some)))()
    ask(calls.hv_read_ends_u64, column, some.start, stops, len(some))
    return Visible(len(shown), stops[: len(some)], column.values().slice(some.start, some.stop))


def in_form(column: Column, make: Callable[[Column], Column]) -> Column:
    """What is made of the rows of a column, which is in runs, in the form of the column."""
    rows = column._length
    if column.form == "constant" and rows:
        one = make(column.slice(0, 1)).storage()
        return column.constant(one[0], rows, one.type)
    made = make(column).storage()
    return made if column.form == "runs" else made.decode()


def lengths(stops: list[int]) -> list[int]:
    return [stop - start for start, stop in zip(chain((0,), stops), stops)]


def rows(column: Column) -> Iterator[Any]:
    """Row by row; of runs each value is read once, but each row of lists is a list of its own."""
    if _lists.is_list(column):
        return iter(_lists.rows(column))
    if column.form == "runs":
        shown = visible(column)
        return chain.from_iterable(map(_repeated, _flat_rows(shown.values), lengths(shown.stops)))
    if column.form == "constant":
        return _repeated(column[0], column._length) if column._length else iter(())
    return _flat_rows(column)


def _flat_rows(column: Column) -> Iterator[Scalar]:
    """Row by row; of a column that is not flat a block at a time is written out."""
    return chain.from_iterable(_reading.blocks(column))


def _repeated(value: Scalar, count: int) -> Iterator[Scalar]:
    return repeat(value, min(count, sys.maxsize))  # repeat counts no further, and nobody reads as far


def stored_runs(column: Column, most: Optional[int] = None) -> Iterator[Run]:
    """The runs of a run column, or of a constant, or as many of the first."""
    if column.form == "constant":
        return iter([Run(0, column._length, column[0])] if column._length else [])
    shown = visible(column, most)
    return map(Run, chain((0,), shown.stops), shown.stops, _flat_rows(shown.values))


def split(column: Column, parts: int, by: str) -> list[Column]:
    """The column in windows of as many rows or runs each, give or take one."""
    count, rows = size_of(parts, "the number of parts"), column._length
    if count == 0:
        raise ValueError("a column is split into at least one part")
    if by not in ("rows", "runs"):
        raise ValueError(f"a column is split by 'rows' or by 'runs', not by {in_words(by)}")
    if by == "rows" or column.form == "constant":
        bounds = [rows * part // count for part in range(count + 1)]
    else:
        stops = [0, *visible(column if column.form == "runs" else column.to_runs()).stops]
        bounds = [stops[(len(stops) - 1) * part // count] for part in range(count + 1)]
    return [column.slice(start, stop) for start, stop in zip(bounds, bounds[1:])]
