"""Rows that come batch by batch, encoded."""
from __future__ import annotations

import sys
from typing import Any, Optional

from . import _casting, _times
from ._library import BuilderHandle, ask, calls
from ._types import text_of
from ._values import passed, size_of
from .column import Column
from .errors import NullNotAllowed, TypeMismatch
from .logical import LogicalType, asked_type


class Builder:
    """The encoding of rows that come batch by batch, of any one type but lists: an end and a value for each run, and
    nothing for a row. Where a call is refused, the builder has the rows that it had.

        builder = Builder("i64?")
        for batch in batches:
            builder.append(batch)           # a column in any form, or what Column.of takes
        builder.append_value(None, 1000)
        runs = builder.finish()             # as few runs as there can be; the builder has no rows after
    """

    __slots__ = ("_handle", "_kind", "_logical")

    def __init__(self, type: Any) -> None:
        self._kind, self._logical = asked_type(type)
        self._handle = BuilderHandle()
        ask(calls.hv_builder_new, self._kind, self._handle)

    def append(self, batch: Any) -> None:
        """Adds the rows of a batch, a column of the builder's type or what Column.of takes."""
        column = batch if isinstance(batch, Column) else self._column_of(batch)
        if column._logical != self._logical:
            words = (self._logical or self.type, column._logical or column.type)
            raise TypeMismatch().saying(f"append: {words[0]} (builder) and {words[1]} are two types")
        try:
            ask(calls.hv_append, self._handle, column)
        except TypeMismatch as refused:
            refused.call = "append"
            refused.columns = (f"{self.type} (builder)", f"{column.type} ({column.form})")
            raise

    def _column_of(self, batch: Any) -> Column:
        if self._logical is None:
            column = Column.of(batch, self.type)
            return column if column.type == self.type else _casting.cast(column, self._kind, "append")
        column = Column.of(batch, f"{self._logical}?")
        return _casting.cast(column.storage(), self._kind, "append")._meaning(self._logical)

    def append_value(self, value: Any, count: int = 1) -> None:
        """Adds `count` rows of one value, or of None."""
        size = size_of(count, "the number of rows")
        try:
            ask(calls.hv_append_value, self._handle, *passed(self._kind, _times.number_of(self._logical, value)), size)
        except NullNotAllowed as refused:
            raise refused.saying(f"append_value: the value is null, and {self.type} has no null") from None

    def encoding(self) -> Column:
        """All rows so far as runs, as few as there can be; the builder keeps its rows."""
        return Column._made(calls.hv_encoding, self._handle)._meaning(self._logical)

    def finish(self) -> Column:
        """The same, made of the builder's own memory where that can be; it has no rows after, and takes others."""
        return Column._made(calls.hv_finish, self._handle)._meaning(self._logical)

    @property
    def type(self) -> str:
        """The type as text: 'i64', 'decimal(10, 2)', and 'i64?' where rows may be null."""
        return text_of(self._kind)

    @property
    def logical_type(self) -> Optional[LogicalType]:
        """What the integers mean, as that of a column."""
        return self._logical

    @property
    def rows(self) -> int:
        """How many rows there are; there may be more than len() can answer, 2**63 and above."""
        return int(calls.hv_builder_rows(self._handle))

    def __len__(self) -> int:
        if self.rows > sys.maxsize:
            raise OverflowError(f"{self.rows} rows are more than len() can answer: builder.rows can")
        return self.rows

    def __bool__(self) -> bool:
        """Whether there is a row."""
        return self.rows > 0

    @property
    def runs(self) -> int:
        """How many runs are held: as many as the encoding has."""
        return int(calls.hv_builder_runs(self._handle))

    def __repr__(self) -> str:
        name = self.type if self._logical is None else f"{self._logical}{'?' * self._kind.nullable}"
        return f"<Builder {name}: {self.rows} rows in {self.runs} runs>"

    def __del__(self, free: Any = calls.hv_builder_free) -> None:  # kept here: modules are emptied before the last one
        if hasattr(self, "_handle"):
            free(self._handle)
