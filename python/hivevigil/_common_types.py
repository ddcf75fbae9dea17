"""The type that has the rows of several columns, and each column widened to it: the one rule of all calls that join
rows, which are append, concat, parts, the groups of parts, and chunks.

No row changes its value. Integers get the fewest bits that have those of both types; next to decimals they are decimals
of at least 20 digits before the point, and so are those of u64 next to a type with negative numbers. Decimals get the
digits of both, of 38 at most, and floats the wider type of both. Integers, but not u64, are float64 next to floats, where
each is at most 2**53 from 0. Dates, times, timestamps of one zone, and durations get the finer unit. Texts of which each
is null say nothing of a type, as a column of a CSV file without a field does, and go with any. All else is refused.

In whichever order types are joined, the answer is the same.
"""
from __future__ import annotations

from collections.abc import Sequence
from typing import TYPE_CHECKING, Optional

from . import _casting, _decimals
from ._types import WHOLE_NUMBERS, WIDTHS, kind_of, range_of, text_of
from .errors import CastOutOfRange, TypeMismatch, in_words
from .logical import LogicalType, asked_type

if TYPE_CHECKING:
    from .column import Column

Sources = tuple[tuple[str, str], ...]  # types, and the first part that has each of them, by what a refusal calls it
NOTHING = "null"  # the type of rows that say nothing of one
_ALL_INTEGERS = "decimal(20, 0)"  # has those of 64 bits, with a sign and without
_FLOAT, _MOST_OF_FLOATS = "float64", 2**53  # a float of 64 bits has each integer up to this


def written_type(column: Column) -> str:
    """The type of a column as text, by what its rows mean, and a '?' where they may be null."""
    logical = column.logical_type
    if logical is None:
        return str(column.type)
    name = f"{column.type.rstrip('?')} {logical}" if logical.sort == "other" else str(logical)
    return name + "?" * column.nullable


def name_of(column: Column) -> str:
    """The same, as the column is joined with others: null texts say nothing of a type."""
    says_nothing = column.type == "utf8?" and column.null_count == column._length
    return f"{NOTHING}?" if says_nothing and column.logical_type is None else written_type(column)


def common(sources: Sources, call: str) -> str:
    """The type that has the rows of these types, of which there is at least one. TypeMismatch where there is none, which
    says of which parts they are."""
    names = [type.rstrip("?") for type, _ in sources]
    found = names[0]
    for place, name in enumerate(names):
        wider = _wider(found, name)
        if wider is None:
            first = next((before for before in range(place) if _wider(names[before], name) is None), 0)
            raise _refused(call, *((names[at], sources[at][1]) for at in (first, place)))
        found = wider
    return found + "?" * any(type.endswith("?") for type, _ in sources)


def merged(left: Sources, right: Sources) -> Sources:
    """The types of both, each with the first part that has it."""
    return tuple({**dict(left), **{type: part for type, part in right if type not in dict(left)}}.items())


def _refused(call: str, *two: tuple[str, str]) -> TypeMismatch:
    one, other = (f"{name} ({part})" if part else name for name, part in two)
    sorts = {_sort_of(name) for name, _ in two}
    hint = "cast one to the other"
    if sorts == {"float", "decimal"}:
        hint = "column.cast('float64', rounded=True) makes floats of decimals"
    elif sorts == {"float", "whole"}:
        hint = f"column.cast('{_FLOAT}') makes floats of integers, exactly"
    refused = TypeMismatch()
    refused.saying(f"{call}: {one} and {other} are two types, and none has the rows of both: {hint}")
    return refused


def _wider(left: str, right: str) -> Optional[str]:
    """The type that has the rows of two types without a '?', None where there is none."""
    if left == right or NOTHING in (left, right):
        return right if left == NOTHING else left
    sorts = {_sort_of(left), _sort_of(right)}
    if sorts == {"whole"}:
        return _whole(left, right)
    if sorts <= {"whole", "decimal"}:
        kinds = [kind_of(_ALL_INTEGERS if name in WHOLE_NUMBERS else name) for name in (left, right)]
        return text_of(_decimals.common_kind(kinds))
    if sorts == {"whole", "float"}:
        return None if "u64" in (left, right) else _FLOAT
    one, other = _logical(left), _logical(right)
    if one is None or other is None or (one.sort, one.zone) != (other.sort, other.zone):
        return None
    if one.sort == "float":
        return str(max(one, other, key=lambda each: int(each.unit)))
    return str(min(one, other, key=lambda each: each.nanoseconds))


def _sort_of(name: str) -> str:
    """What is widened within one rule."""
    if name in WHOLE_NUMBERS:
        return "whole"
    logical = _logical(name)
    return name.partition("(")[0] if logical is None else logical.sort


def _logical(name: str) -> Optional[LogicalType]:
    try:
        return asked_type(name)[1]
    except TypeError:  # one that only bytes keep, and lists
        return None


def _whole(left: str, right: str) -> str:
    """The integers that have those of both types; decimals where there are none."""
    ranges = range_of(left), range_of(right)
    least, greatest = min(each[0] for each in ranges), max(each[-1] for each in ranges)
    fitting = [name for name in WHOLE_NUMBERS if least in range_of(name) and greatest in range_of(name)]
    return min(fitting, key=WIDTHS.__getitem__, default=_ALL_INTEGERS)


def widened(column: Column, type: str, call: str) -> Column:
    """A column as one of a type that `common` gave for it, in its form; refused with the first row that it does not
    have. It has null where the column has."""
    before, name = written_type(column).rstrip("?"), type.rstrip("?")
    if name in (before, NOTHING):
        return column
    if column.null_count == column._length:
        return column.constant(None, column._length, f"{name}?") if column._length else column.of([], type)
    kind, logical = asked_type(name)
    kind.nullable = column._kind.nullable
    if before in WHOLE_NUMBERS and logical is not None:
        _refuse_past_floats(column, call)
    if logical is not None:
        return _casting.recounted(column, kind, logical, call)
    return _casting.converted(column, kind, call)


def _refuse_past_floats(column: Column, call: str) -> None:
    for number in column.min_max():
        if isinstance(number, int) and abs(number) > _MOST_OF_FLOATS:
            said = f"{call}: {in_words(number)} is past 2**53, up to which {_FLOAT} has each integer"
            raise CastOutOfRange().saying(f"{said}: column.cast('{_FLOAT}', rounded=True) makes floats of others")


def together(columns: Sequence[Column], call: str, parts: Sequence[str] = ()) -> list[Column]:
    """Columns of one type, to which each of these is widened; `parts` say in a refusal where each is from."""
    names = [name_of(column) for column in columns]
    if len({name.rstrip("?") for name in names}) <= 1:
        return list(columns)
    type = common(tuple(zip(names, parts or [""] * len(names))), call)
    places = [f"{call}: {part}" for part in parts] if parts else [call] * len(columns)
    return [widened(column, type, place) for column, place in zip(columns, places)]
