"""Casts of texts to integers, and of integers to texts, and of booleans to integers: once for each run."""
from __future__ import annotations

import re
from typing import TYPE_CHECKING, Any

from . import _runs
from ._library import Kind
from ._types import TYPES, WHOLE_NUMBERS, range_of
from .errors import CastOutOfRange, in_words

if TYPE_CHECKING:
    from .column import Column

_WHOLE = re.compile(r"0|-?[1-9]\d{0,19}", re.ASCII)


def is_served(before: Kind, after: Kind) -> bool:
    """Whether values of one type are written anew as those of the other."""
    names = TYPES[before.number], TYPES[after.number]
    if names[1] == "utf8":
        return names[0] in WHOLE_NUMBERS
    return names[0] in ("utf8", "bool") and names[1] in WHOLE_NUMBERS


def converted(column: Column, kind: Kind, call: str) -> Column:
    """Texts as the integers that they are the digits of, integers as their digits, true as 1 and false as 0, in the form
    of the column; refused at the first row that is none of the type."""
    return _runs.in_form(column, lambda rows: _of_runs(rows, TYPES[kind.number], call))


def _of_runs(column: Column, name: str, call: str) -> Column:
    shown = _runs.visible(column if column.form == "runs" else column.to_runs())
    values = []
    for start, value in zip([0, *shown.stops], shown.values.to_list()):
        made = None if value is None else _value(value, name)
        if made is None and value is not None:
            raise CastOutOfRange().saying(f"{call}: row {start} is {in_words(value)}, which is not written as {name} is")
        values.append(made)
    nullable = "?" if column._kind.nullable else ""
    return column.from_runs(column.of(shown.stops, "u64"), column.of(values, name + nullable))


def _value(value: Any, name: str) -> Any:
    """A value as one of a type, None where it is none."""
    if name == "utf8":
        return str(value)
    if isinstance(value, str) and not _WHOLE.fullmatch(value):
        return None
    number = int(value)
    return number if number in range_of(name) else None
