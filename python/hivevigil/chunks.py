"""What is known of one part of a column, as a value that is joined with that of the part after it.

    from hivevigil import Column
    from hivevigil.chunks import Partial, joined

    parts = [Partial.of(Column.of(rows)) for rows in batches]     # anywhere: a thread, a process, another machine
    whole = joined(parts)                                         # or functools.reduce(join, parts), a tree of joins
    whole.rows, whole.null_count, whole.sum(), whole.least, whole.greatest, whole.is_sorted

Joining is associative: however the rows are cut, and in whichever order neighbours are joined, the answers are those of
the whole column. `Partial.empty(type)` joined with a part is that part. A Partial is small, and pickles.
"""
from __future__ import annotations

import functools
import math
import operator
from collections.abc import Iterable
from dataclasses import dataclass, field, replace
from datetime import datetime, timezone
from fractions import Fraction
from itertools import accumulate
from typing import Any, NamedTuple, Optional

from . import _floats, _runs, _statistics, _times
from ._common_types import NOTHING, Sources, common, merged, widened
from ._library import Pair, ask, calls
from ._types import GREATEST_PRECISION, WHOLE_NUMBERS, range_of, text_of
from ._values import Scalar, decimal_of, unscaled
from .column import Column
from .errors import Unsupported, in_words
from .logical import LogicalType, asked_type

__all__ = ["FloatSums", "Partial", "Stretch", "Sums", "join", "joined"]


_WIDE = LogicalType("float", "64")
_DECIMALS = range(-(10**GREATEST_PRECISION) + 1, 10**GREATEST_PRECISION)  # sums of decimals, in units of their least place


class Stretch(NamedTuple):
    """Equal rows next to one another: their value, and how many they are."""

    value: Scalar
    rows: int


class Sums(NamedTuple):
    """What a part adds to a sum: its total, and the least and the greatest sum on the way from row to row, among which
    is the 0 before its first row. They are integers of any size, so no part leaves a range by itself."""

    total: int = 0
    least: int = 0
    greatest: int = 0

    def then(self, after: Sums) -> Sums:
        """The three numbers of the rows of both, one after the other."""
        return Sums(
            self.total + after.total,
            min(self.least, self.total + after.least),
            max(self.greatest, self.total + after.greatest),
        )


class FloatSums(NamedTuple):
    """What a part of floats adds to a sum, before it is rounded: the exact sum of those that are finite, and by IEEE 754
    that of all others, in which each that is finite counts as a zero: -0.0 only where all rows are."""

    finite: Fraction = Fraction(0)
    others: float = -0.0

    @classmethod
    def of(cls, column: Column) -> FloatSums:
        """That of the rows of a column that are not null."""
        runs = _statistics.weighed(column)
        finite = [(number, rows) for number, rows in runs if math.isfinite(number)]
        numbers, parts = _statistics.whole([number for number, _ in finite])
        total = sum(map(operator.mul, numbers, (rows for _, rows in finite)))
        others = (0.0 if number and math.isfinite(number) else number for number, _ in runs)
        return cls(Fraction(total, parts), functools.reduce(operator.add, others, -0.0))

    @classmethod
    def of_whole(cls, total: int, count: int) -> FloatSums:
        """That of this many integers, by their sum."""
        return cls(Fraction(total), 0.0) if count else cls()

    def then(self, after: FloatSums) -> FloatSums:
        """That of the rows of both."""
        return FloatSums(self.finite + after.finite, self.others + after.others)

    def rounded(self) -> float:
        """The nearest float of 64 bits, an infinity past the finite ones."""
        if self.others != 0 or not self.finite:
            return self.others
        try:
            return float(self.finite)
        except OverflowError:
            return math.inf if self.finite > 0 else -math.inf


@dataclass(frozen=True)
class Partial:
    """What is known of a part of a column.

    `type` is the column's, with its '?'. `runs` counts the stretches of equal rows, as few as there can be. `sums` is
    None unless the rows are integers, decimals (in units of their least place) or durations, `float_sums` unless they
    are floats. `least` and `greatest` leave
    nulls out, and NaN, and are None where there is nothing else; null is below all else in `is_sorted` (no row above the
    next) and `is_strictly_sorted` (each row below the next). `first` and `last` are the outermost runs, None of no rows.
    Floats are equal, and in order, as in runs: 0.0 is above -0.0, and a NaN equals itself. `sources` are
    the types of the parts that were joined, and where a refusal says that they are from; they are not compared.
    """

    type: str
    rows: int
    null_count: int
    runs: int
    sums: Optional[Sums]
    least: Scalar
    greatest: Scalar
    is_sorted: bool
    is_strictly_sorted: bool
    first: Optional[Stretch]
    last: Optional[Stretch]
    float_sums: Optional[FloatSums] = None
    sources: Sources = field(default=(), compare=False, repr=False)

    @classmethod
    def empty(cls, type: Any) -> Partial:
        """What is known of no rows of a type; joined with a part it is that part."""
        kind, logical = asked_type(type)
        name = text_of(kind) if logical is None else f"{logical}{'?' * kind.nullable}"
        sums = Sums() if _is_summed(name) else None
        floats = FloatSums() if _floats.is_float(logical) else None
        return cls(name, 0, 0, 0, sums, None, None, True, True, None, None, floats)

    @classmethod
    def of(cls, column: Column) -> Partial:
        """What is known of a column of any type but lists. The cost is that of encoding it, then of its runs."""
        if not isinstance(column, Column):
            raise TypeError(f"Partial.of takes a Column, not {in_words(column)}")
        if column.type.startswith("list"):
            raise Unsupported().about("Partial.of", column)
        logical = column._logical
        name = column.type if logical is None else f"{logical}{'?' * column.nullable}"
        if not column._length:
            return cls.empty(name)
        runs = column.to_runs()
        count = runs.run_count()
        first, last = _runs.run_at(runs, 0), _runs.run_at(runs, -1)
        least, greatest = runs.min_max()
        sums = _sums_of(runs.storage()) if _is_summed(name) else None
        return cls(
            name, last.stop, runs.null_count, count, sums, least, greatest,
            runs.is_sorted(), runs.is_sorted(strict=True),
            Stretch(first.value, first.stop), Stretch(last.value, last.stop - last.start),
            FloatSums.of(runs) if _floats.is_float(logical) else None,
        )

    @property
    def is_constant(self) -> bool:
        """Whether all rows are equal, null equal to null."""
        return self.runs <= 1

    @property
    def count(self) -> int:
        """How many rows are not null."""
        return self.rows - self.null_count

    def sum(self) -> Any:
        """The sum of the rows that are not null, a duration of durations; of floats exact and rounded once. OverflowError
        where it leaves 64 bits on the way from row to row, as that of the whole column is; which row it is, no part
        knows."""
        if self.float_sums is not None:
            return self.float_sums.rounded() if self.count else 0.0
        if self.sums is None:
            raise Unsupported().saying(f"sum does not serve parts of type {self.type}")
        kind, logical = asked_type(self.type)
        is_decimal = self.type.startswith("decimal")
        name = f"{GREATEST_PRECISION} digits" if is_decimal else "u64" if self.type.startswith("u") else "i64"
        fits = _DECIMALS if is_decimal else range_of(name)
        if self.sums.least not in fits or self.sums.greatest not in fits:
            past = self.sums.least if self.sums.least not in fits else self.sums.greatest
            where = decimal_of(past, kind.scale) if is_decimal else in_words(past)
            raise OverflowError(f"sum: it leaves {name} on the way from row to row, where it is {where}")
        total = self.sums.total
        return decimal_of(total, kind.scale) if is_decimal else _times.value_of(logical, total)

    def join(self, after: Partial) -> Partial:
        """What is known of the rows of this part and of those of the part after it."""
        if not isinstance(after, Partial):
            raise TypeError(f"a Partial is joined with a Partial, not with {in_words(after)}")
        sources = merged(self._sources(), after._sources())
        name = common(sources, "join").replace(NOTHING, "utf8")
        return replace(_widened(self, name)._then(_widened(after, name), name), sources=sources)

    def _sources(self) -> Sources:
        """The types of the parts; texts of which each is null say nothing of one."""
        says_nothing = self.type == "utf8?" and not self.count
        return self.sources or ((f"{NOTHING}?" if says_nothing else self.type, ""),)

    def _then(self, after: Partial, name: str) -> Partial:
        """What is known of the rows of both, which are of this type."""
        if self.first is None or self.last is None:
            return replace(after, type=name)
        if after.first is None or after.last is None:
            return replace(self, type=name)
        return Partial(
            name, self.rows + after.rows, self.null_count + after.null_count,
            self.runs + after.runs - _is_same(self.last.value, after.first.value),
            _joined_sums(self.sums, after.sums),
            _chosen(min, self.least, after.least), _chosen(max, self.greatest, after.greatest),
            self.is_sorted and after.is_sorted and not _is_below(after.first.value, self.last.value),
            self.is_strictly_sorted and after.is_strictly_sorted and _is_below(self.last.value, after.first.value),
            _grown(self.first, after.first, self.runs), _grown(after.last, self.last, after.runs),
            _joined_sums(self.float_sums, after.float_sums),
        )

    def of_part(self, part: str) -> Partial:
        """The same, of rows that are from a part of this name."""
        return replace(self, sources=tuple((type, part) for type, _ in self._sources()))


def join(left: Partial, right: Partial) -> Partial:
    """What is known of two parts, one after the other: for the reduce of any engine, which has to keep their order."""
    return left.join(right)


def joined(parts: Iterable[Partial]) -> Partial:
    """What is known of parts in their order, of which there is at least one."""
    given = list(parts)
    if not given:
        raise ValueError("joined takes at least one part, whose type is that of the answer: Partial.empty(type) is one")
    return functools.reduce(join, given)


def _is_summed(name: str) -> bool:
    """Whether rows of a type are added: integers, decimals, and durations."""
    return name.rstrip("?") in WHOLE_NUMBERS or name.startswith(("decimal", "duration"))


def _sums_of(runs: Column) -> Sums:
    """The three numbers of runs of integers: each is high * 2^64 + low, of unsigned ones with the bits of high; and of
    decimals, in units of their least place."""
    if runs.type.startswith("decimal"):
        scale, parts = runs._kind.scale, runs.runs()
        steps = ((stop - start) * unscaled(value or 0, GREATEST_PRECISION, scale) for start, stop, value in parts)
        ends = list(accumulate(steps, initial=0))
        return Sums(ends[-1], min(ends), max(ends))
    pairs = Pair(), Pair(), Pair()
    ask(calls.hv_sum_parts, runs, *pairs)
    turns = 2**64 if runs.type.startswith("u") else 0
    return Sums(*((pair.high % turns if turns else pair.high) * 2**64 + pair.low for pair in pairs))


def _widened(part: Partial, type: str) -> Partial:
    """What is known of the same rows as those of a type that has them."""
    before, name = part.type.rstrip("?"), type.rstrip("?")
    if name in (before, NOTHING):
        return part
    first, last = part.first, part.last
    rows = [part.least, part.greatest, first and first.value, last and last.value]
    call = ": ".join(["join", *(place for _, place in part.sources[:1] if place)])
    least, greatest, *ends = widened(Column.of(rows, part.type), name, call).to_list()
    empty = Partial.empty(name)
    return replace(
        part, type=name + "?" * part.type.endswith("?"), least=least, greatest=greatest,
        sums=_widened_sums(part, empty),
        first=first and Stretch(ends[0], first.rows), last=last and Stretch(ends[1], last.rows),
        float_sums=None if empty.float_sums is None else _float_sums_of(part),
    )


def _widened_sums(part: Partial, empty: Partial) -> Optional[Sums]:
    """The sums of a part in the least places, or the unit, of another type; None where that has none."""
    if empty.sums is None or part.sums is None:
        return empty.sums
    (kind, logical), (other, meant) = asked_type(part.type), asked_type(empty.type)
    ratio: int = logical.nanoseconds // meant.nanoseconds if logical and meant else 10 ** (other.scale - kind.scale)
    return Sums(*(number * ratio for number in part.sums))


def _float_sums_of(part: Partial) -> FloatSums:
    if part.float_sums is not None:
        return part.float_sums
    return FloatSums.of_whole(part.sums.total if part.sums else 0, part.count)


def _chosen(choose: Any, left: Any, right: Any) -> Any:
    """The lesser or the greater of two values, of which None is neither."""
    if left is None or right is None:
        return right if left is None else left
    return choose(left, right, key=_place)


def _joined_sums(left: Any, right: Any) -> Any:
    """The sums of both parts, which are of one type; None where it has none."""
    return None if left is None or right is None else left.then(right)


def _place(row: Any) -> Any:
    """A row as it is compared with others: a float by its place in the total order, a time of a zone in UTC, since
    Python compares those of one zone by their clocks, and these are put back."""
    if isinstance(row, float):
        return _floats.key_of_bits("64", _floats.bits_of(_WIDE, row))
    return row.astimezone(timezone.utc) if isinstance(row, datetime) and row.tzinfo is not None else row


def _is_same(left: Any, right: Any) -> bool:
    """Whether two rows are in one run, null with null."""
    return bool(_place(left) == _place(right))


def _is_below(left: Any, right: Any) -> bool:
    """Whether a row is below another, null below all else."""
    return right is not None and (left is None or bool(_place(left) < _place(right)))


def _grown(outer: Stretch, inner: Stretch, runs: int) -> Stretch:
    """An outermost run, which goes on into the other part where it is all of its own and the values are equal."""
    if runs == 1 and _is_same(outer.value, inner.value):
        return Stretch(outer.value, outer.rows + inner.rows)
    return outer
