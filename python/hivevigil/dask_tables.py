"""Tables in chunks that Dask works on, as hivevigil.dask has columns: nothing is done before it is asked for.

    from hivevigil.dask_tables import ChunkedTable

    readings = ChunkedTable.from_files(paths)                       # one chunk for each file of Table.save
    north = readings.filter_by("station", "==", "north")            # files whose footers say that none is there: skipped
    north["level"].max().compute()                                  # of the others two columns are read
    readings.group_by("station").agg(rows="size", highest=("level", "max")).compute()

Chunks are tables one after the other, of the same names. Columns of several types of numbers, or of times in several
units, are joined in the type that has the rows of all (docs/TYPES.md). Workers need this package and Dask.
"""
from __future__ import annotations

import os
from collections.abc import Callable, Iterable, Mapping
from dataclasses import dataclass, replace
from typing import Any, Optional

from . import _chunk_groups
from ._table_files import LIMIT
from ._values import size_of
from .column import Column
from .dask import Answer, Chunked, ChunkedColumn, _asked, _dask, _of_column, _same, _stamp
from .errors import in_words
from .table import Table
from .table_groups import parts_of

__all__ = ["ChunkedTable", "ChunkedTableGroups"]

_Condition = tuple[str, str, Any]


@dataclass(frozen=True)
class _Files:
    """Files of which nothing was read but footers: their names as they were found, which columns are asked for (None:
    all), the limit of each, the conditions on rows, and how many files were left out since no row of theirs meets one."""

    stamps: tuple[tuple[str, int, int], ...]
    columns: Optional[tuple[str, ...]]
    limit: int
    conditions: tuple[_Condition, ...] = ()
    skipped: int = 0

    def filtered(self, condition: _Condition) -> _Files:
        """These without the files whose footers say that no row meets the condition; one is kept, for its types."""
        kept = [stamp for stamp in self.stamps if Table.footer(stamp[0]).may_have(*condition)] or self.stamps[:1]
        skipped = self.skipped + len(self.stamps) - len(kept)
        return replace(self, stamps=tuple(kept), conditions=(*self.conditions, condition), skipped=skipped)

    @property
    def names(self) -> list[str]:
        return [name for name, _, _ in self.stamps]

    def tasks(self, function: Callable[..., Any], *arguments: Any) -> list[Any]:
        quoted = [(_same, argument) for argument in arguments]
        return [(function, name, self.limit, (_same, self.conditions), *quoted) for name, _, _ in self.stamps]


class ChunkedTable(Chunked):
    """A table in chunks, each a table that a task makes."""

    _sort = "table"
    _files: Optional[_Files] = None

    # ---- Making ----

    @classmethod
    def from_files(
        cls, paths: Iterable[Any], columns: Optional[Iterable[str]] = None, limit: int = LIMIT
    ) -> ChunkedTable:
        """The tables that Table.save wrote, or their columns of these names, one chunk for each file. Columns that no
        answer needs are not read, where `filter_by`, `select` and `table[name]` come before all else. `limit` is that
        of Table.load, for each file."""
        for given, what in (paths, "files"), (columns, "columns"):
            if isinstance(given, (str, bytes, os.PathLike)):
                raise TypeError(f"from_files takes the names of several {what}, not {in_words(given)}")
        stamps = tuple(_stamp(os.path.abspath(os.fsdecode(path))) for path in paths)
        most = size_of(limit, "the limit")
        return cls._of_files(_Files(stamps, None if columns is None else tuple(columns), most))

    @classmethod
    def from_tables(cls, tables: Iterable[Table]) -> ChunkedTable:
        """The tables one after the other, each a chunk."""
        given = list(tables)
        for number, table in enumerate(given):
            if not isinstance(table, Table):
                raise TypeError(f"chunk {number} is {in_words(table)}, not a Table")
        made: ChunkedTable = cls._made("tables", [(_same, table) for table in given], *given)
        return made

    @classmethod
    def from_columns(cls, columns: Mapping[str, ChunkedColumn]) -> ChunkedTable:
        """Columns of the same chunks by name."""
        names, given = list(columns), list(columns.values())
        for name, column in columns.items():
            if not isinstance(column, ChunkedColumn):
                raise TypeError(f"column {in_words(name)} is {in_words(column)}, not a ChunkedColumn")
        if not given:
            raise ValueError("a chunked table has at least one column")
        made: ChunkedTable = given[0]._mapped(cls, _table_of, *given[1:], names)
        return made

    @classmethod
    def _of_files(cls, files: _Files) -> ChunkedTable:
        made: ChunkedTable = cls._made("files", files.tasks(_table_of_file, files.columns), files)
        made._from(files.names)._files = files
        return made

    # ---- All of it ----

    def __dask_postcompute__(self) -> Any:
        return _chunk_groups.concatenated, (self._parts(),)

    def compute(self, **options: Any) -> Table:
        """All rows as one table here, each column of the type that has the rows of each chunk."""
        whole: Table = _asked(self, **options)[0]
        return whole

    def persist(self, **options: Any) -> ChunkedTable:
        """The same chunks, worked now and kept where they are worked. On a cluster this returns at once."""
        kept: ChunkedTable = _dask.persist(self, **options)[0]
        return kept

    def chunk(self, number: int) -> ChunkedTable:
        """One of the chunks."""
        chosen: ChunkedTable = self._chunk(number)
        return chosen

    @property
    def skipped(self) -> int:
        """How many files were left out, since by their footers none of their rows meets a condition."""
        return 0 if self._files is None else self._files.skipped

    # ---- Chunk by chunk ----

    def map_chunks(self, function: Callable[..., Table], *others: Any) -> ChunkedTable:
        """What a function makes of each chunk: a table. Chunked columns and tables of as many chunks give it their
        chunks in turn, anything else is passed as it is."""
        mapped: ChunkedTable = self._mapped(ChunkedTable, function, *others)
        return mapped

    def filter_by(self, name: str, operator: str, value: Any) -> ChunkedTable:
        """The rows at which `row operator value` is true of the column of a name. Where the tables are in files, the
        footers are read at once, and files whose footers say that no row meets it are left out."""
        if self._files is not None and (self._files.columns is None or name in self._files.columns):
            return self._of_files(self._files.filtered((name, operator, value)))
        return self.map_chunks(Table.filter_by, name, operator, value)

    def filter(self, mask: ChunkedColumn) -> ChunkedTable:
        """The rows at which the mask, in the same chunks, is true; null selects nothing."""
        if not isinstance(mask, ChunkedColumn):
            raise TypeError(f"a mask of chunks is a ChunkedColumn, as column.gt(3) is, not {in_words(mask)}")
        return self.map_chunks(Table.filter, mask)

    def select(self, *names: str) -> ChunkedTable:
        """The columns of these names, in this order; of tables in files the others are not read."""
        if self._files is not None and self._files.columns is None:
            return self._of_files(replace(self._files, columns=names))
        return self.map_chunks(Table.select, *names)

    def with_column(self, name: str, column: ChunkedColumn) -> ChunkedTable:
        """The same columns and one more, or another in place of that of this name, in the same chunks."""
        return self.map_chunks(_with_column, name, column)

    def to_runs(self) -> ChunkedTable:
        """Each column of each chunk in as few runs as possible; lists as they are."""
        return self.map_chunks(Table.to_runs)

    def __getitem__(self, name: str) -> ChunkedColumn:
        """The column of a name; of tables in files no other is read but those of conditions."""
        if not isinstance(name, str):
            raise TypeError(f"a column of a table is named by a text, not by {in_words(name)}")
        files = self._files
        if files is not None and (files.columns is None or name in files.columns):
            column: ChunkedColumn = ChunkedColumn._made("column", files.tasks(_column_of_file, name), files, name)
        else:
            column = self._mapped(ChunkedColumn, Table._column, name)
        column._from([_of_column(source, name) for source in self._sources or [""] * self._count])
        return column

    def rechunk(self, runs: int) -> ChunkedTable:
        """The same rows in fewer chunks: neighbours are joined up to as many runs in all columns together, since small
        tasks cost more than their work. The runs are counted first, at once."""
        most = size_of(runs, "the number of runs")
        groups: list[list[int]] = []
        room = -1
        for number, count in enumerate(self._counted(_run_count)):
            if count > room:
                groups.append([])
                room = most
            groups[-1].append(number)
            room -= count
        parts = self._parts()
        tasks = [
            (_chunk_groups.concatenated, [(self._name, number) for number in group], [parts[at] for at in group])
            for group in groups
        ]
        joined: ChunkedTable = self._made("rechunk", tasks, self, most, after=[self])
        return joined

    # ---- Answers ----

    def aggregate(self, function: Callable[[Table], Any], join: Callable[[list[Any]], Any]) -> Answer:
        """What `function` says of each chunk, joined by `join`, which takes neighbours in their order, as a tree."""
        return self._aggregated(function, join)

    def group_by(self, name: str) -> ChunkedTableGroups:
        """The rows by runs of equal neighbouring rows of the column of a name, as Table.group_by; a group may go on
        from one chunk into the next."""
        return ChunkedTableGroups(self, name)


class ChunkedTableGroups:
    """The rows of a table in chunks by runs of equal neighbouring keys."""

    def __init__(self, table: ChunkedTable, name: str) -> None:
        self._table, self._name = table, name

    def agg(self, answers: Any = None, **named: Any) -> Answer:
        """A table of a row for each group, as TableGroups.agg, by `compute()`. A sum is that of all rows of the group,
        whichever chunks they are in; OverflowError where it is past 64 bits."""
        wanted = {**({} if answers is None else dict(answers)), **named}
        for alias, asked in wanted.items():
            parts_of(alias, asked)
        groups = self._table._aggregated(_chunk_groups.Groups.of, _chunk_groups.joined, self._name, wanted)
        return groups.then(_chunk_groups.Groups.table)

    def __repr__(self) -> str:
        return f"<groups of {self._table!r} by {in_words(self._name)}>"


# ---- What tasks do ----


def _table_of_file(
    path: str, limit: int, conditions: tuple[_Condition, ...], columns: Optional[tuple[str, ...]]
) -> Table:
    """The rows of a file that meet the conditions, of which no column is read that is not asked for."""
    names = None if columns is None else {**dict.fromkeys(columns), **{name: None for name, _, _ in conditions}}
    table = Table.load(path, names, limit)
    for condition in conditions:
        table = table.filter_by(*condition)
    return table if columns is None else table.select(*columns)


def _column_of_file(path: str, limit: int, conditions: tuple[_Condition, ...], name: str) -> Column:
    return _table_of_file(path, limit, conditions, (name,))._column(name)


def _table_of(first: Column, *others: Any) -> Table:
    """The table of columns, whose names come last."""
    columns, names = [first, *others[:-1]], others[-1]
    return Table(dict(zip(names, columns)))


def _with_column(table: Table, name: str, column: Column) -> Table:
    return table.with_column(name, column)


def _run_count(table: Table) -> int:
    """The runs of all columns together; each row of lists is one."""
    return sum(column._length if column.type.startswith("list") else column.to_runs().run_count()
               for column in table.values())
