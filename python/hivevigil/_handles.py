"""Tables that the library holds: how their handles are made, lent and freed, and what their refusals are in Python.

A table that is held is not changed once it is made, so several tables of Python may have one. Its columns are made when
they are first asked for.
"""
from __future__ import annotations

import ctypes
from collections.abc import Iterable, Mapping, Sequence
from typing import TYPE_CHECKING, Any, Optional

from ._library import Fields, TableHandle, answered, calls
from .errors import ColumnLength, NoName, Unsupported, in_words, refusal

if TYPE_CHECKING:
    from .column import Column

# the numbers that only calls on tables answer
_UNKNOWN_NAME, _NAME_TWICE, _ROW_COUNT, _OTHER_TYPE = 201, 202, 206, 209
_NEW_NAME_TWICE, _NO_KEYS, _KEY_OF_LISTS = 210, 211, 212
_ROOM = 64  # bytes for a name, which is read again where it has more
_TWICE = "two columns have the name {}"


class Held:
    """A table that the library holds, or an empty handle, which a call fills. It is freed when nothing refers to it."""

    __slots__ = ("_handle", "_as_parameter_", "_names", "_found")
    _handle: TableHandle
    _as_parameter_: Any  # what ctypes passes for a table, which it keeps alive during the call
    _names: Optional[tuple[str, ...]]
    _found: dict[str, Column]  # the columns that were asked for

    def __init__(self) -> None:
        self._handle = TableHandle()
        self._as_parameter_ = ctypes.pointer(self._handle)
        self._names, self._found = None, {}

    def __del__(self, free: Any = calls.hv_table_free) -> None:  # kept here: modules are emptied before the last tables
        if hasattr(self, "_handle"):
            free(self._handle)

    # ---- Making ----

    @classmethod
    def of(cls, columns: Mapping[str, Column], rows: Optional[int] = None) -> Held:
        """The table of these columns, each of this number of rows, or of that of the first."""
        made = cls()
        refuse(*answered(calls.hv_table_new, rows or 0, made._handle))
        beside = "the table" if rows is not None else f"column {in_words(next(iter(columns), ''))}"
        for name, column in columns.items():
            if rows == 0 and column._length:  # a table without rows and columns takes one of any rows
                raise _uneven(name, column._length, beside, 0)
            made.put(name, column, beside)
        return made

    def put(self, name: str, column: Column, beside: str = "the table") -> None:
        """Puts a copy of a column into a table that nobody else has. A refusal says what it is next to."""
        data = name.encode()
        number, fields = answered(calls.hv_table_put, self, data, len(data), column)
        if number == _ROW_COUNT:
            raise _uneven(name, fields.second, beside, fields.third)
        refuse(number, fields)
        self._names, self._found = None, {}

    def made(
        self, call: Any, *arguments: Any, names: Sequence[str] = (), twice: str = _TWICE,
        changed: Mapping[str, str] = {},
    ) -> Held:
        """The table that a call makes of this one. A refusal says which of the `names` that are passed it is about: by
        `twice` the one that is there again, by `changed` the new one that two columns would have."""
        found = Held()
        number, fields = answered(call, self, *arguments, found._handle)
        if number == _UNKNOWN_NAME:
            raise NoName(names[fields.first], self.names)
        if number == _NAME_TWICE:
            raise ValueError(twice.format(in_words(names[fields.second])))
        if number == _NEW_NAME_TWICE:
            name = self.names[fields.second]
            raise ValueError(_TWICE.format(in_words(changed.get(name, name))))
        if number == _NO_KEYS:
            raise ValueError("sort: at least one column says the order")
        if number == _KEY_OF_LISTS:
            raise Unsupported().saying(f"column {in_words(names[fields.first])}: sort: lists have no order")
        refuse(number, fields)
        return found

    def made_by_names(self, call: Any, names: Sequence[Any], *arguments: Any, **said: Any) -> Held:
        """The same of a call that is lent names of columns before its other arguments."""
        for name in names:
            if not is_utf8(checked(name)):
                raise NoName(name, self.names)
        return self.made(call, texts_of(names), *arguments, names=names, **said)

    def then(self, after: Held) -> Optional[Held]:
        """The rows of both tables, which have the same names. None where the library does not join them: where a column
        is of two types, or has lists."""
        found, other = Held(), self.made(calls.hv_table_clone) if after is self else after
        number, fields = answered(calls.hv_table_append, self, other, found._handle)
        if number in (_OTHER_TYPE, Unsupported.number):
            return None
        refuse(number, fields)
        return found

    # ---- Looking ----

    @property
    def rows(self) -> int:
        """How many rows each column has."""
        return int(calls.hv_table_len(self))

    @property
    def names(self) -> tuple[str, ...]:
        """The names of the columns, in their order."""
        if self._names is None:
            self._names = tuple(map(self._name, range(calls.hv_table_width(self))))
        return self._names

    def _name(self, place: int) -> str:
        size = ctypes.c_size_t()
        room = (ctypes.c_uint8 * _ROOM)()
        number, fields = answered(calls.hv_table_name, self, place, room, len(room), size)
        if number == ColumnLength.number:
            room = (ctypes.c_uint8 * fields.first)()
            number, fields = answered(calls.hv_table_name, self, place, room, len(room), size)
        refuse(number, fields)
        return bytes(room[: size.value]).decode()

    def place(self, name: str) -> int:
        """The place of the column of a name. NoName where there is none."""
        data, place = name.encode("utf-8", "surrogatepass"), ctypes.c_size_t()
        if answered(calls.hv_table_place, self, data, len(data), place)[0]:
            raise NoName(name, self.names)
        return place.value

    def column(self, name: str) -> Column:
        """The column of a name, the same one each time, which nobody frees."""
        return self._found[name] if name in self._found else self._column(self.place(name), name)

    @property
    def columns(self) -> dict[str, Column]:
        """The columns by name, each as `column` has it."""
        for place, name in enumerate(self.names):
            if name not in self._found:
                self._column(place, name)
        return {name: self._found[name] for name in self.names}

    def _column(self, place: int, name: str) -> Column:
        from .column import Column

        self._found[name] = Column._made(calls.hv_table_column, self, place)
        return self._found[name]


def joined(tables: Sequence[Held]) -> Optional[Held]:
    """The rows of tables of the same names, one table after the other, which are joined in pairs, so that each row is
    joined a few times. None where the library does not join them."""
    if len(tables) == 1:
        return tables[0]
    left, right = joined(tables[: len(tables) // 2]), joined(tables[len(tables) // 2 :])
    return None if left is None or right is None else left.then(right)


def checked(name: Any) -> str:
    """A name of a column: a text."""
    if not isinstance(name, str):
        raise TypeError(f"a column of a table is named by a text, not by {in_words(name)}")
    return name


def texts_of(names: Iterable[str]) -> Column:
    """Names of columns as a call is lent them."""
    from .column import Column

    return Column.of(list(names), "utf8")


def is_utf8(text: str) -> bool:
    """Whether a text has no half of a surrogate pair."""
    return text.isascii() or text.encode("utf-8", "replace").decode() == text


def _uneven(name: str, rows: int, beside: str, wanted: int) -> ColumnLength:
    refused = ColumnLength(wanted, rows)
    refused.saying(f"column {in_words(name)} has {rows} rows, and {beside} {wanted}")
    return refused


def refuse(number: int, fields: Fields) -> None:
    """Raises the refusal of a number that calls on columns answer too, if it is one."""
    if number:
        raise refusal(number, fields.first, fields.second, fields.third)
