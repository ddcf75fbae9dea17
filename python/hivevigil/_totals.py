"""The running totals of a column of integers or durations: at the ends of its runs, and of each row."""
from __future__ import annotations

import array
import sys
from collections.abc import Iterable
from itertools import accumulate, chain, repeat
from typing import TYPE_CHECKING, Any

from . import _questions, _reading, _runs
from ._library import Handle, ask, calls
from ._making import numbers_of, validity_of
from ._types import LETTERS, TYPES, WHOLE_NUMBERS
from .errors import CastOutOfRange, Unsupported

if TYPE_CHECKING:
    from .column import Column

_VALID = bytes.maketrans(b"\0\1", b"\1\0")  # of flags of nulls


def at_ends(column: Column) -> tuple[Column, Column]:
    """Where each run of equal neighbouring rows ends, and the sum of all rows before that end."""
    try:
        return _at_ends(column, "running_totals")
    except CastOutOfRange as large:
        name = _questions.sum_type(column)
        raise large.saying(
            f"running_totals: the total at the end of run {large.fields[0]} does not fit {name}"
        ) from None


def _at_ends(column: Column, call: str) -> tuple[Column, Column]:
    _questions.refuse_other_sums(column, call)
    if TYPES[column._kind.number] not in WHOLE_NUMBERS:
        raise Unsupported().about(call, column)
    ends, totals = column._owning(Handle()), column._owning(Handle())
    ask(calls.hv_running_totals, column, ends._handle, totals._handle)
    return ends, totals._meaning(column._logical)


def of_rows(column: Column) -> Column:
    """The sum of the rows up to each row, and with it. In runs where at most half of the rows differ from the one
    before, else flat: a row is written where it is not null and not 0, and else once for each run."""
    try:
        _at_ends(column, "cumsum")  # refuses what has no totals; those of rows lie between these
    except CastOutOfRange:
        raise _questions.leaving(column, "cumsum") from None
    shown = _runs.visible(column.storage().to_runs())
    rows, steps = _runs.lengths(shown.stops), _numbers(shown.values)
    differ = [count if step else 1 for count, step in zip(rows, steps)]
    in_runs = 2 * sum(differ) <= column._length
    counts = differ if in_runs else rows
    _ask_for(8 * sum(counts))
    totals = array.array(LETTERS[_questions.sum_type(column)], accumulate(_spread(steps, counts)))
    nulls = _reading.null_flags(shown.values)
    valid = bytes(_spread(nulls.translate(_VALID), counts)) if 1 in nulls else None
    made = column._made(*numbers_of(totals, validity_of(valid, len(totals), bool(column._kind.nullable))))
    if in_runs:
        made = column.from_runs(_ends(shown.stops, rows, steps), made).to_runs()
    return made._meaning(column._logical)


def _ask_for(size: int) -> None:
    """MemoryError where this many bytes are refused, before they are filled number by number."""
    bytearray(min(size, sys.maxsize))


def _numbers(values: Column) -> array.array[int]:
    """The numbers of a column, 0 where it is null."""
    present = values.fill(0) if values.nullable else values
    return _reading.numbers(present, 0, present._length)


def _spread(items: Iterable[int], counts: Iterable[int]) -> Iterable[int]:
    """Each item as many times as it has rows."""
    return chain.from_iterable(map(repeat, items, counts))


def _ends(stops: Iterable[int], rows: Iterable[int], steps: Iterable[int]) -> array.array[int]:
    """Where the rows of the answer end that are not those before them: each row of a run, or the last one of zeros."""
    parts = (range(stop - count + 1, stop + 1) if step else (stop,) for stop, count, step in zip(stops, rows, steps))
    return array.array("Q", chain.from_iterable(parts))
