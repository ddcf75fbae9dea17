"""What column[..] takes between its brackets, and which masks and indices filter and take accept."""
from __future__ import annotations

import array
import functools
from collections.abc import Callable
from typing import TYPE_CHECKING, Any, Optional

from . import _lists, _runs
from ._making import is_array, listed
from ._types import SIGNED, WHOLE_NUMBERS
from ._values import is_truth, row_of, whole
from .errors import OutOfBounds, TypeMismatch

if TYPE_CHECKING:
    from .column import Column


def selected(column: Column, key: Any) -> Any:
    """The row at an integer; else the column of a slice, of a mask's rows, or of the rows at indices."""
    if _is_row(key):
        return column._at(row_of(key, column._length))
    return chosen_by(column, key)(column)


def _is_row(key: Any) -> bool:
    return hasattr(key, "__index__") and not is_truth(key) and getattr(key, "ndim", 0) == 0


def chosen_by(column: Column, key: Any) -> Callable[[Any], Any]:
    """What a slice, a mask or indices over a column choose of each column that has as many rows, and but for a slice at
    steps of each table. They are read and tested once."""
    if isinstance(key, slice):
        return _cut(column, key)
    if is_truth(key):
        raise TypeError("a mask has a flag for each row; rows are compared by column.eq(..), column.lt(..) and so on")
    if key is None or key is Ellipsis or isinstance(key, (str, bytes, tuple, float)):
        raise TypeError(f"a column is indexed by an integer, a slice, a mask or a list of rows, not {key!r}")
    chosen = _column_of(column, key)
    if chosen is not None:
        return _filter(chosen) if chosen.type.rstrip("?") == "bool" else _take(indices_of(column, chosen))
    rows = listed(key, "rows")
    if rows and all(row is None for row in rows):
        raise TypeError("None alone is neither a mask nor a list of rows: write column.filter(..) or column.take(..)")
    return _filter(mask_of(column, rows)) if any(map(is_truth, rows)) else _take(indices_of(column, rows))


def _filter(mask: Column) -> Callable[[Any], Any]:
    return lambda rows: rows.filter(mask)


def _take(indices: Column) -> Callable[[Any], Any]:
    return lambda rows: rows.take(indices)


def _cut(column: Column, key: slice) -> Callable[[Any], Any]:
    start, stop, step = key.indices(column._length)
    if step == 1:
        return lambda each: each.slice(start, max(start, stop))
    if step == -1:
        return lambda each: _turned(each.slice(stop + 1, max(start, stop) + 1))
    rows = range(start, stop, step)
    if not rows:
        return lambda each: each.slice(0, 0)
    indices = functools.lru_cache(maxsize=1)(lambda: column.of(array.array("Q", rows)))  # where a column asks

    def choose(each: Column) -> Column:
        found = _at_steps(each, rows if step > 0 else rows[::-1])
        if found is None:
            return each.take(indices())
        return found if step > 0 else found.reverse()

    return choose


def _at_steps(column: Column, rows: range) -> Optional[Column]:
    """Rows at equal steps, in ascending order, by the runs of a column; None of one that is not in runs, or shows more
    runs there than rows are chosen."""
    part, count = column.slice(rows[0], rows[-1] + 1), (rows[-1] - rows[0]) // rows.step + 1
    if part.form == "constant":
        return part.slice(0, count)
    if part.form != "runs" or _lists.is_list(part) or len(_runs.span(part)) > count:
        return None
    shown = _runs.visible(part)
    ends = [-(-stop // rows.step) for stop in shown.stops]
    kept = [run for run, (before, end) in enumerate(zip([0, *ends], ends)) if before < end]
    values = shown.values.take(column.of(array.array("Q", kept)))
    return column.from_runs(array.array("Q", map(ends.__getitem__, kept)), values).to_runs()


def _turned(column: Column) -> Column:
    """The last row first: by runs where the column is in runs or a constant, else in the form that it has."""
    if column.form in ("runs", "constant") and column.type.rstrip("?") != "list":
        return column.reverse()
    return column.take(column.of(array.array("Q", range(column._length - 1, -1, -1))))


def mask_of(column: Column, mask: Any) -> Column:
    """A column of booleans in any form, of a list, or of an array of another library."""
    chosen = _column_of(column, mask)
    if chosen is None:
        return column.of(listed(mask, "a mask's flags"), "bool")
    if chosen.type.rstrip("?") != "bool":
        raise TypeMismatch().saying(f"filter: a mask is of booleans, not of {chosen.type}")
    return chosen


def indices_of(column: Column, indices: Any) -> Column:
    """A column of integers in any form. In a list or an array negative ones count from the end, as Python's do."""
    chosen = _column_of(column, indices)
    if chosen is None:
        return column.of(_rows(listed(indices, "indices"), column._length), "u64")
    if chosen.type.rstrip("?") not in WHOLE_NUMBERS or chosen._logical is not None:
        raise TypeMismatch().saying(f"take: indices are integers, not of {chosen._logical or chosen.type}")
    return chosen


def _column_of(column: Column, key: Any) -> Optional[Column]:
    """A column itself, or that of an array, in which negative indices count from the end. None for another iterable,
    and for an array of objects, whose rows say what it is."""
    if isinstance(key, type(column)):
        return key
    if not is_array(key) or _has_objects(key):
        return None
    chosen = column._of_array(key)
    if chosen._logical is not None:
        return chosen
    least = chosen.min() if chosen.type.rstrip("?") in SIGNED else None
    if isinstance(least, int) and least < 0:
        return column.of(_rows(chosen.to_list(), column._length), "u64")
    return chosen


def _has_objects(key: Any) -> bool:
    """Whether an array of NumPy or pandas has objects of Python."""
    return getattr(getattr(key, "dtype", None), "kind", None) == "O" and getattr(key, "ndim", 1) == 1


def _rows(rows: list[Any], length: int) -> list[Optional[int]]:
    """Indices from the start; at None, which is null, the row is null."""
    numbers = [None if row is None else whole(row, "an index") for row in rows]
    for number in numbers:
        if number is not None and not -length <= number < length:
            raise OutOfBounds(number, length)
    return [number + length if number is not None and number < 0 else number for number in numbers]
