"""What `sort` takes, of a column and of a table by some of its columns: for each key whether it is in descending order,
and where its nulls come."""
from __future__ import annotations

from typing import TYPE_CHECKING, Any

from ._handles import Held, texts_of
from ._library import calls
from ._lists import is_list
from ._values import is_truth
from .errors import Unsupported, in_words

if TYPE_CHECKING:
    from .column import Column

_NULLS = ("first", "last")
_DESCENDING, _NULLS_LAST = 1, 2  # as the header numbers them
TWICE = "sort: column {} is named twice"


def names_of(by: Any) -> list[Any]:
    """The names of keys: one, or several."""
    if not isinstance(by, (str, list, tuple)):
        raise TypeError(f"sort: rows are sorted by a name or a list of names, not by {in_words(by)}")
    return [by] if isinstance(by, str) else list(by)


def flags_of(descending: Any, nulls: Any, keys: int) -> bytes:
    """The flags of each key."""
    turned, places = _flags(descending, keys), _places(nulls, keys)
    return bytes(_DESCENDING * turn + _NULLS_LAST * (place == "last") for turn, place in zip(turned, places))


def _flags(descending: Any, keys: int) -> list[bool]:
    """Whether each key is in descending order: one flag for all, or one for each."""
    if is_truth(descending):
        return [bool(descending)] * keys
    if not isinstance(descending, (list, tuple)) or not all(map(is_truth, descending)):
        raise TypeError(f"sort: descending is True, False or a list of these, not {in_words(descending)}")
    if len(descending) != keys:
        raise ValueError(f"sort: the number of flags in descending is {len(descending)}, and that of columns {keys}")
    return list(map(bool, descending))


def _places(nulls: Any, keys: int) -> list[str]:
    """Where the nulls of each key come: one place for all, or one for each."""
    places = list(nulls) if isinstance(nulls, (list, tuple)) else [nulls] * keys
    for place in places:
        if place not in _NULLS:
            raise ValueError(f"sort: nulls come 'first' or 'last', not {in_words(place)}")
    if len(places) != keys:
        raise ValueError(f"sort: the number of places of nulls is {len(places)}, and that of columns {keys}")
    return places


def sorted_rows(column: Column, descending: Any, nulls: Any) -> Column:
    """The rows of a column in order, in runs. Where nulls come at the end at which hv_sort does not put them, the column
    is that of a table."""
    flags = flags_of(descending, nulls, 1)
    if is_list(column):
        raise Unsupported().saying("sort: lists have no order")
    if flags[0] in (0, _DESCENDING | _NULLS_LAST):
        ordered = column._made(calls.hv_sort, column)
        return ordered.reverse() if flags[0] else ordered
    runs = column if column.form == "constant" else column.to_runs()
    found = Held.of({"": runs}).made(calls.hv_table_sort, texts_of([""]), flags, len(flags)).column("")
    return found.to_runs() if found.form == "flat" else found.copy()
