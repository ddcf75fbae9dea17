"""Tables as files: a message for each column, then a footer that says where each lies and what its rows are within.
docs/table.proto is the schema."""
from __future__ import annotations

import io
import os
from collections.abc import Iterator, Mapping
from dataclasses import dataclass, field
from decimal import Decimal
from typing import Any, BinaryIO, Optional

from . import _differences, _files, _float_columns, _floats
from ._making import decimals_of, flat_of, validity_of, view_of
from ._protobuf import Damaged, Fields, number_field, sized_field, sized_head
from ._table_making import about, refuse_twice
from ._types import TYPES, WHOLE_NUMBERS, WIDTHS
from ._values import MOST_ROWS, Scalar, size_of
from .column import Column
from .errors import BadMetadata, NoName, OverLimit, in_words
from .logical import meaning_of

# by the version: 2 where a column is kept as differences, which earlier readers refuse
_HEADS = {version: sized_field(1, b"hivevigil") + number_field(2, version) for version in (1, 2)}
_HEAD_SIZE = len(_HEADS[1])
_COLUMN, _FOOTER, _FOOTER_SIZE = 3, 4, bytes([5 * 8 + 1])
_TAIL = len(_FOOTER_SIZE) + 8  # bytes at the end, which say how many the footer has
LIMIT = 2**30  # bytes that columns kept as differences may take in memory, where a caller gives no other number
_END = 8  # bytes of the end of a run while the runs are made


@dataclass(frozen=True, eq=False)
class ColumnFooter:
    """What the footer of a file says of a column: `nbytes` is the size of its message, which has differences where
    `form` says in which form the column comes back. Lists have neither nulls, nor runs, nor bounds in it."""

    name: str
    logical_type: Optional[str]
    nbytes: int
    null_count: Optional[int] = None
    runs: Optional[int] = None
    # the least and the greatest row that are not null; no row where all are null
    bounds: Optional[Column] = field(default=None, repr=False)
    # 'flat' or 'runs' of a column that is kept as differences
    form: Optional[str] = None

    @property
    def type(self) -> Optional[str]:
        """The type of the column, None where it has lists."""
        return None if self.bounds is None else self.bounds.type

    @property
    def least(self) -> Scalar:
        """The least row that is not null, None where there is none."""
        return self._bound(0)

    @property
    def greatest(self) -> Scalar:
        """The greatest row that is not null, None where there is none."""
        return self._bound(1)

    def kept_items(self, rows: int) -> int:
        """How many rows are written out of a column that is kept as differences, or runs; 0 of another column."""
        return {"flat": rows, "runs": self.runs or 0}[self.form] if self.form else 0

    def kept_bytes(self, rows: int) -> int:
        """How many bytes these take in memory: each as wide as its type, and 8 for the end of a run."""
        if self.bounds is None or not self.form:
            return 0
        each = WIDTHS[TYPES[self.bounds._kind.number]] + (_END if self.form == "runs" else 0)
        return self.kept_items(rows) * each

    def may_have(self, operator: str, value: Any) -> bool:
        """Whether `row operator value` may be true of a row, as Column.compare has it: where not, the column need not
        be read."""
        if self.bounds is None:
            return True
        bounds = self.bounds
        if operator != "!=" and _floats.is_float(bounds._logical):  # NaN is unequal to all
            bounds = _float_columns.number_bounds(bounds)
        found = bounds.compare(operator, value)
        if operator == "==" and len(bounds):
            return bool(bounds.le(value)[0] and bounds.ge(value)[1])
        return True in found

    def _bound(self, place: int) -> Scalar:
        return None if self.bounds is None or not len(self.bounds) else self.bounds[place]


@dataclass(frozen=True, eq=False)
class TableFooter:
    """What the footer of a file says: how many rows the table has, and of each column where its rows are within."""

    rows: int
    columns: dict[str, ColumnFooter]

    def may_have(self, name: str, operator: str, value: Any) -> bool:
        """Whether `row operator value` may be true of a row of the column of a name: else the file can be skipped."""
        if name not in self.columns:
            raise NoName(name, self.columns)
        with about(name):
            return self.columns[name].may_have(operator, value)


# ---- What is written


def parts(columns: Mapping[str, Column], rows: int, differences: bool = False) -> Iterator[bytes]:
    """The bytes of a table, a column at a time: in version 2 where some are kept as differences, as they may be."""
    kept = _kept_as_differences(columns) if differences else {}
    yield _HEADS[2 if kept else 1]
    footer = number_field(1, rows)
    for name, column in columns.items():
        with about(name):
            form, message = kept[name] if name in kept else (0, column.storage().to_bytes())
            known = _column_footer(name, column, len(message), form if kept else None)
            footer += sized_field(2, known)
        yield sized_field(_COLUMN, message)
    yield sized_field(_FOOTER, footer) + _FOOTER_SIZE + len(footer).to_bytes(8, "little")


def _kept_as_differences(columns: Mapping[str, Column]) -> dict[str, _differences.Written]:
    """The columns that are shorter as differences."""
    found = {}
    for name, column in columns.items():
        with about(name):
            kept = _differences.written(column)
        if kept is not None:
            found[name] = kept
    return found


def _column_footer(name: str, column: Column, size: int, form: Optional[int]) -> bytes:
    """What a footer says of a column; `form` only in version 2."""
    logical = column.logical_type
    format = b"" if logical is None else logical.format.encode()
    footer = sized_field(1, name.encode()) + sized_field(2, format) + number_field(3, size)
    if column.type.startswith("list"):
        return footer
    runs = column.storage().to_runs()
    least, greatest = runs.min_max()
    bounds = _bounds(column, [] if least is None else [least, greatest])
    footer += number_field(4, runs.null_count) + number_field(5, runs.run_count())
    return footer + sized_field(6, bounds.to_bytes()) + (b"" if form is None else number_field(7, form))


def _bounds(column: Column, rows: list[Any]) -> Column:
    """The flat column of these rows, of a column's type."""
    kind = column._kind
    if TYPES[kind.number] != "decimal":
        return Column._made(*flat_of(rows, kind))
    numbers = b"".join(_stored(row).to_bytes(16, "little", signed=True) for row in rows)
    return Column._made(*decimals_of(numbers, kind, validity_of(None, len(rows), bool(kind.nullable))))


def _stored(row: Decimal) -> int:
    """A decimal that was read from a column, in units of its least place, which its precision need not fit."""
    sign, digits, _ = row.as_tuple()
    return int("".join(map(str, digits))) * (-1 if sign else 1)


# ---- What is read


@dataclass(frozen=True, eq=False)
class _Entry:
    """A column of a file: what its footer says, the bytes of this, where its field begins, and the number of the form
    of one that is kept as differences, else 0."""

    footer: ColumnFooter
    data: bytes
    start: int
    form: int = 0

    @property
    def head(self) -> bytes:
        return sized_head(_COLUMN, self.footer.nbytes)


class TableFile:
    """An open file of a table, of which only the footer is read at first. Damaged where it is not one."""

    def __init__(self, file: BinaryIO) -> None:
        self._file, self.size = file, file.seek(0, os.SEEK_END)
        self._version = self._version_of_head()
        footer, end = self._footer()
        fields = Fields(footer)
        self.rows = fields.number(1)
        self.entries: dict[str, _Entry] = {}
        start = _HEAD_SIZE
        while not fields.is_at_end:
            entry = _entry(fields.content(2), start, self._version)
            if entry.footer.name in self.entries:
                raise Damaged
            self.entries[entry.footer.name] = entry
            start += len(entry.head) + entry.footer.nbytes
        if start != end or self._version != (2 if any(entry.form for entry in self.entries.values()) else 1):
            raise Damaged

    def _version_of_head(self) -> int:
        if self.size >= _HEAD_SIZE + _TAIL:
            found = self._read(0, _HEAD_SIZE)
            for version, head in _HEADS.items():
                if found == head:
                    return version
        raise Damaged

    def _read(self, start: int, count: int) -> bytes:
        self._file.seek(start)
        data = self._file.read(count)
        if len(data) != count:
            raise Damaged
        return data

    def _footer(self) -> tuple[bytes, int]:
        """The bytes of the footer, and where its field begins."""
        tail = self._read(self.size - _TAIL, _TAIL)
        size = int.from_bytes(tail[len(_FOOTER_SIZE) :], "little")
        head = sized_head(_FOOTER, size)
        start = self.size - _TAIL - size - len(head)
        if not tail.startswith(_FOOTER_SIZE) or start < _HEAD_SIZE or self._read(start, len(head)) != head:
            raise Damaged
        return self._read(start + len(head), size), start

    @property
    def footer(self) -> TableFooter:
        return TableFooter(self.rows, {name: entry.footer for name, entry in self.entries.items()})

    def column(self, name: str) -> Column:
        """A column, which is held against what the footer says of it."""
        entry = self.entries[name]
        data = self._read(entry.start, len(entry.head) + entry.footer.nbytes)
        if not data.startswith(entry.head):
            raise Damaged
        column = _meant(_column_of_entry(entry, data[len(entry.head) :], self.rows), entry.footer.logical_type or "")
        form = entry.form if self._version == 2 else None
        known = _column_footer(name, column, entry.footer.nbytes, form)
        if column._length != self.rows or known != entry.data:
            raise Damaged
        return column


def _entry(data: bytes, start: int, version: int) -> _Entry:
    fields = Fields(data)
    name, logical_type, size = fields.text(1), fields.text(2), fields.number(3)
    if fields.is_at_end:
        return _Entry(ColumnFooter(name, logical_type or None, size), data, start)
    nulls, runs, message = fields.number(4), fields.number(5), fields.content(6)
    form = fields.number(7) if version == 2 else 0
    bounds = _column_of(message)
    if not fields.is_at_end or form >= len(_differences.FORMS) or not _is_of_bounds(message):
        raise Damaged
    if form and TYPES[bounds._kind.number] not in WHOLE_NUMBERS:
        raise Damaged
    known = nulls, runs, _meant(bounds, logical_type), _differences.FORMS[form] or None
    return _Entry(ColumnFooter(name, logical_type or None, size, *known), data, start, form)


def _is_of_bounds(message: bytes) -> bool:
    """Whether a message is that of a flat column of no row or two, which says of all its rows that they are valid."""
    fields = Fields(message)
    _, _, form, rows, validity = (fields.number(field) for field in range(1, 6))
    return form == 1 and rows in (0, 2) and validity in (1, 2)  # as docs/column.proto numbers them


def _column_of_entry(entry: _Entry, message: bytes, rows: int) -> Column:
    """The column of an entry by its message, in a table of this many rows."""
    bounds = entry.footer.bounds
    if not entry.form or bounds is None:
        return _column_of(message)
    return _differences.read(_column_of(message), message, bounds._kind, entry.form, entry.footer.kept_items(rows))


def _column_of(message: bytes) -> Column:
    """The column of a message without a type, which a table has in its footer."""
    try:
        column = Column.from_bytes(message)
    except BadMetadata:
        raise Damaged from None
    if column.logical_type is not None:
        raise Damaged
    return column


def _meant(column: Column, format: str) -> Column:
    return column._meaning(meaning_of(format, TYPES[column._kind.number]))


# ---- Files and bytes


Contents = tuple[dict[str, Column], int]  # the columns, the rows


def _chosen(file: TableFile, names: Optional[Any], limit: int) -> Contents:
    """The columns of these names, or all, where those that are kept as differences take no more bytes than the limit."""
    chosen = list(file.entries) if names is None else list(names)
    for name in chosen:
        if name not in file.entries:
            raise NoName(name, file.entries)
    refuse_twice(chosen)
    size = sum(file.entries[name].footer.kept_bytes(file.rows) for name in chosen)
    if size > limit:
        raise OverLimit(min(size, MOST_ROWS), limit)
    return {name: file.column(name) for name in chosen}, file.rows


def read_bytes(data: Any, limit: int) -> Contents:
    most = size_of(limit, "the limit")
    try:
        return _chosen(TableFile(io.BytesIO(view_of(data))), None, most)
    except Damaged:
        raise BadMetadata().saying("Table.from_bytes: the bytes are not what Table.to_bytes writes") from None


def load(path: Any, names: Optional[Any], limit: int) -> Contents:
    if isinstance(names, str):
        raise TypeError(f"columns are named by a list, not by {in_words(names)}")
    name, most = _files.name_of(path), size_of(limit, "the limit")
    with open(name, "rb") as file:
        with _refused(name, file) as source:
            return _chosen(TableFile(source), names, most)


def read_footer(path: Any) -> TableFooter:
    name = _files.name_of(path)
    with open(name, "rb") as file:
        with _refused(name, file) as source:
            return TableFile(source).footer


class _refused:
    """A file that is read within; one that is damaged is refused by its name. What cannot be read from any place, as a
    pipe, is read at once."""

    def __init__(self, name: str, file: BinaryIO) -> None:
        self._name = name
        self._file = file if file.seekable() else io.BytesIO(file.read())

    def __enter__(self) -> BinaryIO:
        return self._file

    def __exit__(self, kind: Any, error: Any, _: Any) -> None:
        if kind is OverLimit:
            raise error.saying(f"load: {self._name}: {error}; Table.load(path, limit={error.fields[0]}) reads it")
        if kind is Damaged:
            size = self._file.seek(0, os.SEEK_END)
            self._file.seek(0)
            is_column = _files.kind_of_bytes(self._file.read(_HEAD_SIZE + _TAIL)) == "column"
            hint = ": Column.load reads the file of a column" if is_column else ""
            said = f"load: {self._name}, of {size:,} bytes, is not a file that Table.save wrote{hint}"
            raise BadMetadata().saying(said) from None
