"""Columns of integers as differences, in files of tables: of each row that is not null to the one before it that is not,
and of the first one to 0. Times at regular steps are one run of these. docs/BYTES.md says when a file has them."""
from __future__ import annotations

import array
import ctypes
from collections.abc import Iterable
from itertools import chain, compress, islice, repeat
from operator import ne, sub
from typing import TYPE_CHECKING, Any, Optional, Union

from . import _reading, _runs
from ._library import Kind, ask, calls
from ._making import numbers_of, validity_of
from ._protobuf import Damaged
from ._types import LETTERS, TYPES, WHOLE_NUMBERS, range_of

if TYPE_CHECKING:
    from .column import Column

FORMS = ("", "flat", "runs")  # of columns that are kept so, as docs/table.proto numbers them
MOST = 2**26  # rows that are written out, or runs, in any file, since a few bytes may say that there are many

_OTHER = bytes.maketrans(b"\0\1", b"\1\0")

Written = tuple[int, bytes]  # the number of the column's form, and the message of its differences


def written(column: Column) -> Optional[Written]:
    """A column as differences. None where they are not shorter, are past 64 bits, or would not give back the same
    message."""
    if column.form not in FORMS or TYPES[column._kind.number] not in WHOLE_NUMBERS:
        return None
    stored, size = column.storage(), ctypes.c_size_t()
    steps = _steps(stored)
    message = b"" if steps is None else steps.to_bytes()
    ask(calls.hv_write_size, stored, size)
    if steps is None or len(message) >= size.value:
        return None
    form = FORMS.index(column.form)
    try:
        again = totals(steps, column._kind, form)
    except Damaged:  # more than MOST
        return None
    return (form, message) if again.to_bytes() == stored.to_bytes() else None


def _steps(column: Column) -> Optional[Column]:
    """The differences of a column in runs; None where one does not fit 64 bits."""
    shown = _runs.visible(column.to_runs())
    nulls = _reading.null_flags(shown.values)
    numbers: Any = _reading.numbers(shown.values, 0, shown.runs)
    valid = list(compress(numbers, nulls.translate(_OTHER))) if 1 in nulls else numbers
    try:
        differences = array.array("q", chain(valid[:1], map(sub, islice(valid, 1, None), valid)))
    except OverflowError:
        return None
    if shown.runs == column._length and 1 not in nulls:
        return _of_items(column, differences, b"", bool(column._kind.nullable)).to_runs()
    return _spread(column, shown.stops, nulls, differences)


def _spread(column: Column, stops: list[int], nulls: bytes, differences: Iterable[int]) -> Column:
    """The differences of the runs of a column row by row: of each run its own, and then as many zeros as it has more
    rows; a run of nulls stays one."""
    given = iter(differences)
    firsts = [stop if null else start + 1 for start, stop, null in zip(chain((0,), stops), stops, nulls)]
    is_there = list(chain.from_iterable(zip(repeat(True), map(ne, firsts, stops))))

    def by_two(items: Iterable[int], others: Iterable[int]) -> Iterable[int]:
        return compress(chain.from_iterable(zip(items, others)), is_there)

    ends = array.array("Q", by_two(firsts, stops))
    items = array.array("q", by_two((0 if null else next(given) for null in nulls), repeat(0)))
    valid = bytes(by_two(nulls, repeat(0))).translate(_OTHER)
    return column.from_runs(ends, _of_items(column, items, valid, bool(column._kind.nullable))).to_runs()


def _of_items(column: Column, items: array.array[int], valid: Union[bytes, bytearray], nullable: bool) -> Column:
    """The flat column of these numbers, of a type with null or without; null where a byte of `valid` is 0."""
    return column._made(*numbers_of(items, validity_of(valid if 0 in valid else None, len(items), nullable)))


class _Totals:
    """Rows of a type, which are added in stretches: the running totals of differences."""

    def __init__(self, name: str, by_runs: bool, most: int) -> None:
        self._letter, self._fits, self._by_runs, self._most = LETTERS[name], range_of(name), by_runs, most
        self.items: array.array[int] = array.array(self._letter)
        self.ends: array.array[int] = array.array("Q")  # of runs, where rows are not written out
        self.valid = bytearray()
        self._total, self._rows, self._is_after_value = 0, 0, False

    def add(self, step: int, rows: int) -> None:
        """Rows of which each is the one before and this difference. Damaged where one does not fit the type."""
        last = self._total + step * rows  # rows between are between
        if last not in self._fits:
            raise Damaged
        if step:
            self._put(range(self._total + step, last + (1 if step > 0 else -1), step), rows)
        elif self._by_runs and self._is_after_value:
            self.ends[-1] += rows
        else:
            self._put_same(last, rows, True)
        self._total, self._rows, self._is_after_value = last, self._rows + rows, True

    def add_nulls(self, rows: int) -> None:
        self._put_same(0, rows, False)
        self._rows, self._is_after_value = self._rows + rows, False

    def _put_same(self, number: int, rows: int, is_valid: bool) -> None:
        """Rows of one number, which are one run."""
        count = self._room(1 if self._by_runs else rows)
        self.items += array.array(self._letter, [number]) * count
        self.valid += bytes([is_valid]) * count
        if self._by_runs:
            self.ends.append(self._rows + rows)

    def _put(self, numbers: range, rows: int) -> None:
        """Rows of which each is another."""
        self.valid += b"\1" * self._room(rows)
        self.items.extend(numbers)
        if self._by_runs:
            self.ends.extend(range(self._rows + 1, self._rows + rows + 1))

    def _room(self, rows: int) -> int:
        """A number of items that are added, where there are not too many."""
        if len(self.items) + rows > self._most:
            raise Damaged
        return rows


def totals(steps: Column, kind: Kind, form: int, most: int = MOST) -> Column:
    """The column of a type, in a form by its number, that has these differences, which are i64 in runs. Damaged where
    there is none, or it has more than this many rows or runs."""
    made = _Totals(TYPES[kind.number], FORMS[form] == "runs", min(most, MOST))
    shown = _runs.visible(steps)
    numbers, nulls = _reading.numbers(shown.values, 0, shown.runs), _reading.null_flags(shown.values)
    for step, rows, null in zip(numbers, _runs.lengths(shown.stops), nulls):
        if null:
            made.add_nulls(rows)
        else:
            made.add(step, rows)
    values = _of_items(steps, made.items, made.valid, bool(kind.nullable))
    return steps.from_runs(made.ends, values).to_runs() if FORMS[form] == "runs" else values


def read(steps: Column, message: bytes, kind: Kind, form: int, most: int) -> Column:
    """The column that has these differences, of which a message is read. Damaged where none has them, where it has more
    rows or runs than its footer says, or where they are not in as few runs as possible."""
    is_ours = steps.form == "runs" and steps.type == ("i64?" if kind.nullable else "i64")
    if not is_ours or TYPES[kind.number] not in WHOLE_NUMBERS or steps.to_runs().to_bytes() != message:
        raise Damaged
    return totals(steps, kind, form, most)
