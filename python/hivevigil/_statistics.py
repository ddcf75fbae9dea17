"""Means, variances, quantiles, and the greatest and the least rows, of a column by its runs. What is computed of numbers
is computed exactly and rounded once, to a float of 64 bits; only the mean of floats is their rounded sum by their
number."""
from __future__ import annotations

import array
import heapq
import math
from collections.abc import Sequence
from fractions import Fraction
from typing import TYPE_CHECKING, Any, Optional, Union

from . import _floats, _questions, _runs
from ._lists import is_list
from ._types import TYPES, WHOLE_NUMBERS
from ._values import Scalar, is_missing, is_truth, size_of
from .errors import Unsupported, in_words

if TYPE_CHECKING:
    from .column import Column

_INTERPOLATIONS = ("linear", "lower", "higher", "nearest", "midpoint")


# ---- Means and variances ----


def mean(column: Column) -> Optional[float]:
    """The mean of the rows that are not null; None where there is none."""
    if TYPES[column._there()._kind.number] != "decimal":
        refuse_other_than_numbers(column, "mean")
    count = column._length - column.null_count
    if not count:
        return None
    try:
        total = _questions.total(column)
    except OverflowError:  # past 64 bits, or 38 digits, on the way
        total = sum(Fraction(number) * rows for number, rows in weighed(column))
    return total / count if isinstance(total, float) else float(Fraction(total) / count)


def variance(column: Column, ddof: Any) -> Optional[float]:
    """The sum of squared distances from the mean by the number of rows less `ddof`; None where that is not above 0."""
    refuse_other_than_numbers(column, "var")
    less, runs = size_of(ddof, "ddof"), weighed(column)
    count = sum(rows for _, rows in runs)
    if count <= less:
        return None
    if not all(map(math.isfinite, {number for number, _ in runs})):
        return math.nan
    numbers, parts = whole([number for number, _ in runs])
    weights = [rows for _, rows in runs]
    total = sum(map(int.__mul__, numbers, weights))
    squares = sum(number * number * rows for number, rows in zip(numbers, weights))
    try:
        return (count * squares - total * total) / (count * (count - less) * parts * parts)
    except OverflowError:  # past the finite floats
        return math.inf


def refuse_of_numpy(call: str, *given: Any) -> None:
    """Refuses what a function of NumPy of this name passes, unless it is None."""
    if any(each is not None for each in given):
        raise TypeError(f"{call}: a column has no other axis, dtype or out: numpy.{call}(column.to_numpy(), ..) has")


def refuse_other_than_numbers(column: Column, call: str) -> None:
    """Refuses columns of which nothing is computed but integers and floats."""
    logical = column._there()._logical
    if logical is not None and not _floats.is_float(logical):
        hint = f"column.storage().{call}() is that of their integers"
        raise TypeError(f"{call}: rows of type {logical} have none; {hint}")
    if TYPES[column._kind.number] not in WHOLE_NUMBERS:
        raise Unsupported().about(call, column)


def weighed(column: Column) -> list[tuple[Any, int]]:
    """The number of each run that is not null, and how many rows it has."""
    shown = _runs.visible(column.to_runs())
    pairs = zip(shown.values.to_list(), _runs.lengths(shown.stops))
    return [(number, rows) for number, rows in pairs if number is not None]


def whole(numbers: Sequence[Any]) -> tuple[list[int], int]:
    """Integers, and the number by which they are divided to be these numbers."""
    ratios = [number.as_integer_ratio() for number in numbers]
    parts = max((below for _, below in ratios), default=1)  # of floats each is a power of 2
    return [above * (parts // below) for above, below in ratios], parts


# ---- Quantiles ----


def quantile(column: Column, q: Any, interpolation: Any) -> Any:
    """The row, or what lies between two rows, below which a part `q` of the rows is. One for each of a list."""
    if interpolation not in _INTERPOLATIONS:
        known = ", ".join(_INTERPOLATIONS)
        raise ValueError(f"quantile: an interpolation is one of {known}, not {in_words(interpolation)}")
    if interpolation in ("linear", "midpoint") and not _has_numbers(column):
        name = column._logical or column.type.rstrip("?")
        raise TypeError(f"quantile: nothing lies between rows of {name}; interpolation='lower' answers a row")
    if is_list(column):
        raise Unsupported().saying("quantile: lists have no order")
    q = q.tolist() if hasattr(q, "tolist") else q  # of NumPy and pandas
    asked = list(q) if isinstance(q, (list, tuple)) else [q]
    for part in asked:
        _refuse_part(part)
    in_order = _numbers_only(column).sort()
    found = [_at_part(in_order, part, interpolation) for part in asked]
    return found if isinstance(q, (list, tuple)) else found[0]


def _has_numbers(column: Column) -> bool:
    """Whether a column is one of integers or floats."""
    logical = column._there()._logical
    return TYPES[column._kind.number] in WHOLE_NUMBERS and (logical is None or _floats.is_float(logical))


def _refuse_part(part: Any) -> None:
    try:
        is_part = not is_missing(part) and not is_truth(part) and 0 <= part <= 1
    except TypeError:
        is_part = False
    if not is_part:
        raise ValueError(f"quantile: a part of the rows is a number from 0 to 1, not {in_words(part)}")


def _numbers_only(column: Column) -> Column:
    """The rows that are neither null nor NaN."""
    if _floats.is_float(column._logical):
        return column.filter(column.le(math.inf))
    return column.drop_null() if column.nullable else column


def _at_part(in_order: Column, part: Any, interpolation: str) -> Any:
    """What is asked of rows in order, None where there is none."""
    last = in_order._length - 1
    if last < 0:
        return None
    # as NumPy computes the place of a float
    place = Fraction(float(part) * last) if isinstance(part, float) else Fraction(part) * last
    low = min(place.numerator // place.denominator, last)
    rest = place - low
    if rest == 0 or interpolation == "lower":
        return _number(in_order.at(low), interpolation)
    if interpolation in ("higher", "nearest"):
        is_up = interpolation == "higher" or rest > Fraction(1, 2) or rest == Fraction(1, 2) and low % 2 == 1
        return in_order.at(low + is_up)
    return _between(in_order.at(low), in_order.at(low + 1), Fraction(1, 2) if interpolation == "midpoint" else rest)


def _number(row: Any, interpolation: str) -> Any:
    return float(row) if interpolation in ("linear", "midpoint") else row


def _between(low: Union[int, float], high: Union[int, float], rest: Fraction) -> float:
    """What lies at a part of the way from one number to another."""
    if math.isinf(low) or math.isinf(high):
        return float(low if low == high else low + (high - low) * float(rest))
    start = Fraction(low)
    return float(start + (Fraction(high) - start) * rest)


# ---- The greatest and the least rows ----


def extremes(column: Column, count: Any, greatest: bool) -> Column:
    """As many of the greatest or the least rows, in order from there, neither null nor NaN, in runs."""
    call, wanted = "nlargest" if greatest else "nsmallest", size_of(count, "the number of rows")
    if is_list(column):
        raise Unsupported().saying(f"{call}: lists have no order")
    shown = _runs.visible(_numbers_only(column).to_runs())
    values: Any = shown.values.storage().to_list()
    lengths = _runs.lengths(shown.stops)
    pick = heapq.nlargest if greatest else heapq.nsmallest
    chosen = pick(min(wanted, len(values)), range(len(values)), key=values.__getitem__)
    ends, rows = array.array("Q"), 0
    for run in chosen:
        if rows < wanted:
            rows = min(wanted, rows + lengths[run])
            ends.append(rows)
    picked = column.of(array.array("Q", chosen[: len(ends)]))
    return column.from_runs(ends, shown.values.take(picked)).to_runs()


def root(number: Optional[float]) -> Optional[float]:
    return None if number is None else math.sqrt(number)


def median(column: Column) -> Scalar:
    """The quantile of one half."""
    found: Scalar = quantile(column, Fraction(1, 2), "linear")
    return found
