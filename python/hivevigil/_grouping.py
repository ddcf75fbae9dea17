"""What is asked of groups of rows, neighbours that are equal in the columns of all keys: by one call of the library,
and means by the sums and the numbers of values that it answers.
"""
from __future__ import annotations

from collections.abc import Callable, Iterator, Sequence
from decimal import Decimal
from fractions import Fraction
from itertools import accumulate, count
from typing import TYPE_CHECKING, Any, NamedTuple, Optional

from . import _floats, _questions, _statistics
from ._handles import Held, refuse, texts_of
from ._library import Fields, answered, calls
from ._lists import is_list
from ._types import GREATEST_PRECISION, TYPES
from .errors import CastOutOfRange, NoName, Unsupported, in_words

if TYPE_CHECKING:
    from .column import Column

FOLDS = {"sum": 0, "size": 1, "count": 2, "min": 3, "max": 4, "first": 5, "last": 6}  # as hivevigil.h numbers them
_INTEGERS = f"decimal({GREATEST_PRECISION // 2 + 1}, 0)?"  # has those of 64 bits
# refusals of hivevigil_tables.h
_KEY_OF_LISTS, _UNKNOWN_COLUMN, _UNSUPPORTED_ANSWER, _ANSWER_TWICE, _SUM_OVERFLOW = 212, 213, 214, 215, 216


class Asked(NamedTuple):
    """What is asked of the rows of each group in the column of a name: one of FOLDS, or 'mean'. `name` is that of the
    answers."""

    name: str
    column: str
    fold: str


class Grouping(NamedTuple):
    """The rows of a table by runs of neighbours that are equal in the columns of these names. `about` says in a refusal
    which column it is about."""

    table: Held
    keys: Sequence[str]
    about: Callable[[str], Any]

    def answers(self, asked: Sequence[Asked]) -> Held:
        """A row for each group: its keys under their names, and what is asked of it, all flat."""
        has_means = any(each.fold == "mean" for each in asked)
        found = self._with_means(asked) if has_means else self._folded(asked)
        for name in self.keys:
            if found.column(name).form != "flat":
                found.put(name, found.column(name).decode())
        return found

    def _folded(self, asked: Sequence[Asked]) -> Held:
        """The same of what the library answers."""
        found = Held()
        names, columns = texts_of(each.name for each in asked), texts_of(each.column for each in asked)
        folds = bytes(FOLDS[each.fold] for each in asked)
        question = self.table, texts_of(self.keys), names, columns, folds, len(folds)
        number, fields = answered(calls.hv_table_group_by, *question, found._handle)
        if number:
            self._refuse(asked, number, fields)
        return found

    def _refuse(self, asked: Sequence[Asked], number: int, fields: Fields) -> None:
        """Raises what the library refused."""
        if number == _KEY_OF_LISTS:
            with self.about(self.keys[fields.first]):
                raise Unsupported().saying("group_by: lists cannot be keys")
        if number == _ANSWER_TWICE:
            name = asked[fields.second].name
            raise ValueError(f"two columns have the name {in_words(name)}: it is that of the keys")
        if number == _UNKNOWN_COLUMN:
            raise NoName(asked[fields.first].column, self.table.names)
        if number in (_UNSUPPORTED_ANSWER, _SUM_OVERFLOW):
            _, name, fold = asked[fields.first]
            values = self.table.column(name)
            with self.about(name):
                raise _unserved(values, fold) if number == _UNSUPPORTED_ANSWER else _large(values, fields.second)
        refuse(number, fields)

    # ---- Means ----

    def _with_means(self, asked: Sequence[Asked]) -> Held:
        """The answers where means are among them, of which each takes two: it is asked of a column by itself, and both
        that column and the numbers of values have a name that no other has."""
        table, folds, means = self.table.made(calls.hv_table_clone), [], []
        free = _other_names({*table.names, *(each.name for each in asked)})
        for each in asked:
            if each.fold != "mean":
                folds.append(each)
                continue
            with self.about(each.column):
                mean = _Mean.of(self.table.column(each.column), each.name, next(free))
            source = next(free)
            table.put(source, mean.values)
            folds += [Asked(mean.name, source, mean.fold), Asked(mean.counts, source, "count")]
            means.append(mean)
        found = self._replace(table=table)._folded(folds)
        for mean in means:
            found.put(mean.name, mean.answers(found.column(mean.name), found.column(mean.counts)))
        return found.made_by_names(calls.hv_table_select, [*self.keys, *(each.name for each in asked)])


class _Mean(NamedTuple):
    """A mean that is asked: of numbers, by their sums where each fits, and else by the numbers of rows; and the names
    of its answers and of the numbers of values."""

    values: Column
    fold: str
    name: str
    counts: str

    @classmethod
    def of(cls, values: Column, name: str, counts: str) -> _Mean:
        if not _is_decimal(values):
            _statistics.refuse_other_than_numbers(values, "mean")
            if not _sums_fit(values):
                values = values.cast(_INTEGERS)
        return cls(values, "sum" if _sums_fit(values) else "size", name, counts)

    def answers(self, found: Column, counts: Column) -> Column:
        """The mean of each group, by what the fold answered."""
        rows: list[Any] = found.to_list()
        if self.fold == "sum":
            numbers: list[Any] = counts.to_list()
            return found.of(list(map(_quotient, rows, numbers)), "float64?")
        stops = list(accumulate(rows))
        parts = (self.values.slice(start, stop) for start, stop in zip([0, *stops], stops))
        return found.of(list(map(_statistics.mean, parts)), "float64?")


def _sums_fit(values: Column) -> bool:
    """Whether the sum of any of the rows fits 64 bits, or of decimals 38 digits; floats always have one."""
    if _floats.is_float(values._logical):
        return True
    limit = Fraction(10) ** (GREATEST_PRECISION - values._kind.scale) if _is_decimal(values) else 2**63
    ends: Any = values.min_max()
    return all(abs(Fraction(end or 0)) * values._length < limit for end in ends)


def _quotient(total: Any, rows: int) -> Optional[float]:
    """The quotient, rounded once."""
    if isinstance(total, Decimal):
        above, below = total.as_integer_ratio()
        return above / (below * rows)
    return None if total is None else total / rows


def _other_names(names: set[str]) -> Iterator[str]:
    """Names that are none of these."""
    return (name for name in map(str, count()) if name not in names)


# ---- Refusals ----


def _unserved(values: Column, fold: str) -> Exception:
    """What says that a column has no such answer."""
    if fold != "sum" or is_list(values):
        return Unsupported().about(fold, values)
    if values._logical is not None:
        return TypeError(f"sum: rows of type {values._logical} have no sum; values.storage() are their integers")
    name = values.type.rstrip("?")
    return Unsupported().saying(f"sum: rows of type {name} have no sum; ask min, max, first, last, count or size")


def _large(values: Column, group: int) -> CastOutOfRange:
    """What says which group has a sum that is too large."""
    is_decimal = _is_decimal(values)
    name = f"decimal({GREATEST_PRECISION}, {values._kind.scale})" if is_decimal else _questions.sum_type(values)
    refused = CastOutOfRange(group)
    refused.saying(f"sum: group {group} does not fit {name}")
    return refused


def _is_decimal(values: Column) -> bool:
    return TYPES[values._there()._kind.number] == "decimal"
