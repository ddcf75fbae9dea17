"""Columns in chunks that Dask works on: what is asked of them is done where the chunks are, and nothing before it is
asked for.

    from hivevigil.dask import ChunkedColumn

    levels = ChunkedColumn.from_files(paths)                        # one chunk for each file of Column.save
    levels = ChunkedColumn.from_tables(paths, "level")              # or of Table.save
    high = levels.filter(levels.gt(900))
    dask.compute(levels.sum(), high.aggregate(), high.max())        # on the client that there is, else on threads

Chunks are columns one after the other. A list of commands that is done on each chunk leaves the chunks of what it
leaves of the whole column, and answers about chunks are joined as hivevigil.chunks says. Workers need this package and
Dask. Tasks that follow one another on a chunk are sent as one.
"""
from __future__ import annotations

import operator
import os
from collections.abc import Callable, Iterable, Sequence
from typing import Any, Optional

from dask import base, highlevelgraph, optimization, threaded, utils

from . import _runs
from . import chunks as _chunks
from ._chunk_groups import Groups
from ._table_files import LIMIT
from ._types import kind_of, text_of
from ._values import Scalar, size_of
from .chunks import Partial
from .column import Column
from .errors import HivevigilError, in_words
from .functions import joined
from .table import Table

__all__ = ["Answer", "ChunkedColumn"]

_WIDTH = 8  # how many answers one task joins
_dask: Any = base  # without annotations in some versions


def _token(*parts: Any) -> str:
    return str(_dask.tokenize(*parts))


def _graph(name: str, layer: dict[Any, Any], after: Iterable[Any] = ()) -> Any:
    """A layer of tasks over those of other collections."""
    make: Any = highlevelgraph.HighLevelGraph.from_collections
    return make(name, layer, dependencies=after)


def _optimized(graph: Any, keys: Any, **_: Any) -> Any:
    """The tasks that the keys need, with those that follow one another on a chunk as one."""
    flat = [key for part in keys for key in (part if isinstance(part, list) else [part])]
    optimizer: Any = optimization
    needed, dependencies = optimizer.cull(utils.ensure_dict(graph), flat)
    return optimizer.fuse(needed, flat, dependencies, ave_width=1, rename_keys=False)[0]


class _Lazy(base.DaskMethodsMixin):
    """What Dask asks of each collection: compute, persist and visualize come from it."""

    __dask_scheduler__ = staticmethod(threaded.get)
    __dask_optimize__ = staticmethod(_optimized)

    _sources: Sequence[str] = ()  # of each chunk the file that it is from, and the column, where they are known

    def __init__(self, graph: Any, name: str, count: int) -> None:
        self._graph, self._name, self._count = graph, name, count

    def _from(self, sources: Sequence[str]) -> Any:
        """The same chunks, which are from these sources."""
        self._sources = tuple(sources)
        return self

    def _parts(self) -> list[str]:
        """What refusals call the chunks."""
        return [_part_name(number, self._count, self._sources[number : number + 1]) for number in range(self._count)]

    def __dask_graph__(self) -> Any:
        return self._graph

    def __dask_keys__(self) -> list[tuple[str, int]]:
        return [(self._name, number) for number in range(self._count)]

    def __dask_layers__(self) -> tuple[str]:
        return (self._name,)

    def __dask_tokenize__(self) -> tuple[str, int]:
        return self._name, self._count

    def __dask_postpersist__(self) -> Any:
        return _rebuilt, (type(self), self._name, self._count, self._sources)


def _rebuilt(
    graph: Any, kind: Any, name: str, count: int, sources: Sequence[str], rename: Optional[dict[str, str]] = None
) -> Any:
    name = (rename or {}).get(name, name)
    return kind(_graph(name, dict(graph)), name, count)._from(sources)


class Answer(_Lazy):
    """A value that is not there before `compute()`."""

    def __dask_postcompute__(self) -> Any:
        return _first, ()

    def compute(self, **options: Any) -> Any:
        """The value, by the client that there is, else on threads; options are those of dask.compute."""
        return _asked(self, **options)[0]

    def then(self, function: Callable[[Any], Any], *arguments: Any) -> Answer:
        """What a function makes of the value."""
        name = f"hivevigil-then-{_token(function, self, *arguments)}"
        layer = {(name, 0): (function, (self._name, 0), *arguments)}
        return Answer(_graph(name, layer, [self]), name, 1)


class Chunked(_Lazy):
    """What columns and tables in chunks have in common: a task for each chunk."""

    _sort = ""

    @classmethod
    def _made(cls, what: str, tasks: list[Any], *token: Any, after: Iterable[Any] = ()) -> Any:
        if not tasks:
            raise ValueError(f"a chunked {cls._sort} has at least one chunk, whose type is that of the rows")
        name = f"hivevigil-{what}-{_token(*token)}"
        layer = {(name, number): task for number, task in enumerate(tasks)}
        return cls(_graph(name, layer, after), name, len(tasks))

    @property
    def chunk_count(self) -> int:
        return self._count

    def _chunk(self, number: int) -> Any:
        if not 0 <= number < self._count:
            raise IndexError(f"chunk {in_words(number)} is not among {self._count} chunks")
        made = self._made("chunk", [(_same, (self._name, number))], self, number, after=[self])
        return made._from(self._sources[number : number + 1])

    def _mapped(self, kind: Any, function: Callable[..., Any], *others: Any) -> Any:
        for other in others:
            if isinstance(other, Chunked) and other._count != self._count:
                raise ValueError(f"columns of {self._count} and of {other._count} chunks do not go together")
        name = f"hivevigil-{_name_of(function)}-{_token(function, self, *others)}"
        layer: dict[Any, Any] = {
            f"{name}-with-{at}": (_same, other) for at, other in enumerate(others) if isinstance(other, Column)
        }
        for number, part in enumerate(self._parts()):
            passed = [_argument(name, at, other, number) for at, other in enumerate(others)]
            layer[name, number] = (_on_chunk, part, function, (self._name, number), passed)
        after = [self, *(other for other in others if isinstance(other, Chunked))]
        return kind(_graph(name, layer, after), name, self._count)._from(self._sources)

    def _aggregated(self, function: Callable[..., Any], join: Callable[[list[Any]], Any], *others: Any) -> Answer:
        """What a function says of each chunk, joined as a tree, neighbours in their order."""
        parts = self._mapped(Answer, function, *others)
        name, count, layers = f"hivevigil-join-{_token(parts, join)}", self._count, {}
        keys: list[Any] = [(parts._name, number) for number in range(count)]
        level = 0
        while len(keys) > 1 or level == 0:
            groups = [keys[at : at + _WIDTH] for at in range(0, len(keys), _WIDTH)]
            level += 1
            made = [(f"{name}-{level}", at) if len(groups) > 1 else (name, 0) for at in range(len(groups))]
            layers.update({key: (join, group) for key, group in zip(made, groups)})
            keys = made
        return Answer(_graph(name, layers, [parts]), name, 1)

    def _counted(self, function: Callable[..., int]) -> list[int]:
        """A number for each chunk, at once."""
        (counts,) = _asked(self._mapped(_Counts, function))
        return list(counts)

    def rows(self) -> Answer:
        """How many rows there are."""
        return self._aggregated(_row_count, _total)

    def __repr__(self) -> str:
        return f"<{type(self).__name__}: {self._count} chunk{'' if self._count == 1 else 's'}>"


class ChunkedColumn(Chunked):
    """A column in chunks, each a column that a task makes."""

    _sort = "column"

    # ---- Making ----

    @classmethod
    def from_columns(cls, columns: Iterable[Column]) -> ChunkedColumn:
        """The columns one after the other, each a chunk."""
        given = list(columns)
        for number, column in enumerate(given):
            if not isinstance(column, Column):
                raise TypeError(f"chunk {number} is {in_words(column)}, not a Column")
        made: ChunkedColumn = cls._made("columns", [(_same, column) for column in given], *given)
        return made

    @classmethod
    def from_files(cls, paths: Iterable[Any]) -> ChunkedColumn:
        """The columns that Column.save wrote, one chunk for each file, which a task reads."""
        if isinstance(paths, (str, bytes, os.PathLike)):
            raise TypeError(f"from_files takes the names of several files, not {in_words(paths)}")
        names = [os.path.abspath(os.fsdecode(path)) for path in paths]
        made: ChunkedColumn = cls._made("files", [(Column.load, name) for name in names], *map(_stamp, names))
        made._from(names)
        return made

    @classmethod
    def from_tables(
        cls, paths: Iterable[Any], column: str, where: Optional[tuple[str, str, Any]] = None, limit: int = LIMIT
    ) -> ChunkedColumn:
        """A column of the tables that Table.save wrote, one chunk for each file, which a task reads. With `where`, the
        name of a column, an operator and a value, only the rows at which it is true: files whose footers say that they
        have none are left out. Footers are read at once. `limit` is that of Table.load, for each file."""
        if isinstance(paths, (str, bytes, os.PathLike)):
            raise TypeError(f"from_tables takes the names of several files, not {in_words(paths)}")
        if where is not None and (not isinstance(where, tuple) or len(where) != 3):
            raise TypeError(f"where is a name, an operator and a value, not {in_words(where)}")
        names = [os.path.abspath(os.fsdecode(path)) for path in paths]
        kept = [name for name in names if where is None or Table.footer(name).may_have(*where)]
        most = size_of(limit, "the limit")
        tasks = [(_column_of_table, name, column, (_same, where), most) for name in kept or names[:1]]
        made: ChunkedColumn = cls._made("tables", tasks, column, where, most, *map(_stamp, kept or names[:1]))
        made._from([_of_column(name, column) for name in kept or names[:1]])
        return made

    @classmethod
    def from_delayed(cls, parts: Iterable[Any], type: Any = None) -> ChunkedColumn:
        """A chunk for each value of dask.delayed, or future: a column, or rows as Column.of takes them, in runs."""
        given, asked = list(parts), None if type is None else text_of(kind_of(type))
        keys = [part.__dask_keys__()[0] if hasattr(part, "__dask_keys__") else part for part in given]
        graphs = [part for part in given if hasattr(part, "__dask_graph__")]
        made: ChunkedColumn = cls._made("delayed", [(_column_of, key, asked) for key in keys], keys, asked, after=graphs)
        return made

    @classmethod
    def from_array(cls, array: Any, type: Any = None) -> ChunkedColumn:
        """A chunk for each block of a Dask array in one dimension, in runs."""
        if getattr(array, "ndim", 1) != 1:
            raise ValueError(f"a column has one dimension, and the array has {array.ndim}")
        return cls.from_delayed(array.to_delayed().ravel(), type)

    def __dask_postcompute__(self) -> Any:
        return _whole, (self._parts(),)

    def compute(self, **options: Any) -> Column:
        """All rows as one column here, in runs where the chunks are, of the type that has the rows of each chunk."""
        whole: Column = _asked(self, **options)[0]
        return whole

    def persist(self, **options: Any) -> ChunkedColumn:
        """The same chunks, worked now and kept where they are worked. On a cluster this returns at once."""
        kept: ChunkedColumn = _dask.persist(self, **options)[0]
        return kept

    # ---- Chunks ----

    def chunk(self, number: int) -> ChunkedColumn:
        """One of the chunks."""
        chosen: ChunkedColumn = self._chunk(number)
        return chosen

    def map_chunks(self, function: Callable[..., Column], *others: Any) -> ChunkedColumn:
        """What a function makes of each chunk: a column. Other chunked columns of as many chunks give it their chunks
        in turn, anything else is passed as it is."""
        mapped: ChunkedColumn = self._mapped(ChunkedColumn, function, *others)
        return mapped

    def rechunk(self, runs: int) -> ChunkedColumn:
        """The same rows in chunks of as many runs, give or take: time and memory go by runs, and small tasks cost more
        than their work. The runs of each chunk are counted first, at once; chunks that are read from files are read
        twice, unless they are persisted."""
        most = size_of(runs, "the number of runs")
        if most == 0:
            raise ValueError("a chunk has at least one run")
        counts = self._counted(_run_count)
        total = sum(counts)
        parts, count = self._parts(), max(1, -(-total // most))
        bounds = [total * part // count for part in range(count + 1)]
        name = f"hivevigil-rechunk-{_token(self, most)}"
        layer = {
            (name, number): (_joined_pieces, [
                (_runs_between, (self._name, chunk), first, last) for chunk, first, last in _cut(counts, start, stop)
            ], [parts[chunk] for chunk, _, _ in _cut(counts, start, stop)])
            for number, (start, stop) in enumerate(zip(bounds, bounds[1:]))
        }
        return ChunkedColumn(_graph(name, layer, [self]), name, count)

    # ---- Commands, chunk by chunk ----

    def encode(self) -> ChunkedColumn:
        """Each chunk in as few runs as possible."""
        return self.map_chunks(Column.to_runs)

    def compare(self, operator: str, right: Any) -> ChunkedColumn:
        """Row by row whether `row operator right`, for a chunked column or one value, as Column.compare."""
        return self.map_chunks(Column.compare, operator, right)

    def eq(self, right: Any) -> ChunkedColumn:
        return self.compare("==", right)

    def ne(self, right: Any) -> ChunkedColumn:
        return self.compare("!=", right)

    def gt(self, right: Any) -> ChunkedColumn:
        return self.compare(">", right)

    def ge(self, right: Any) -> ChunkedColumn:
        return self.compare(">=", right)

    def lt(self, right: Any) -> ChunkedColumn:
        return self.compare("<", right)

    def le(self, right: Any) -> ChunkedColumn:
        return self.compare("<=", right)

    def filter(self, mask: ChunkedColumn) -> ChunkedColumn:
        """The rows at which the mask, in the same chunks, is true; null selects nothing."""
        if not isinstance(mask, ChunkedColumn):
            raise TypeError(f"a mask of chunks is a ChunkedColumn, as column.gt(3) is, not {in_words(mask)}")
        return self.map_chunks(Column.filter, mask)

    def cast(self, type: Any) -> ChunkedColumn:
        """Each row as the same value of a type; the task of a chunk with a row that does not fit is refused."""
        return self.map_chunks(Column.cast, text_of(kind_of(type)))

    def fill(self, value: Any) -> ChunkedColumn:
        """A value in place of each null."""
        return self.map_chunks(Column.fill, value)

    def where(self, mask: ChunkedColumn, other: Any) -> ChunkedColumn:
        """The row where the mask is true, and else that of `other`, a chunked column or one value, as Column.where."""
        if not isinstance(mask, ChunkedColumn):
            raise TypeError(f"a mask of chunks is a ChunkedColumn, as column.gt(3) is, not {in_words(mask)}")
        return self.map_chunks(Column.where, mask, other)

    def __add__(self, right: Any) -> ChunkedColumn:
        """Row by row `row + right`, for a chunked column or one value, as those of Column; so are - * & | and ~."""
        return self.map_chunks(operator.add, right)

    def __sub__(self, right: Any) -> ChunkedColumn:
        return self.map_chunks(operator.sub, right)

    def __mul__(self, right: Any) -> ChunkedColumn:
        return self.map_chunks(operator.mul, right)

    def __and__(self, right: Any) -> ChunkedColumn:
        return self.map_chunks(operator.and_, right)

    def __or__(self, right: Any) -> ChunkedColumn:
        return self.map_chunks(operator.or_, right)

    def __invert__(self) -> ChunkedColumn:
        return self.map_chunks(operator.invert)

    def take_from(self, dictionary: Column) -> ChunkedColumn:
        """The rows of the dictionary, a column that goes to each worker, that these codes number from 0."""
        return self.map_chunks(Column.take_from, dictionary)

    # ---- Answers ----

    def aggregate(
        self, function: Callable[[Column], Any] = Partial.of, join: Callable[[list[Any]], Any] = _chunks.joined
    ) -> Answer:
        """What `function` says of each chunk, joined by `join`, which takes neighbours in their order, as a tree. As it
        is, a Partial: rows, nulls, sum, least and greatest, sorted, runs."""
        return self._aggregated(function, join)

    def sum(self) -> Answer:
        """The sum of the rows that are not null; its compute() is an OverflowError where Column.sum() is one."""
        return self.aggregate().then(Partial.sum)

    def min(self) -> Answer:
        """The least row that is not null."""
        return self.aggregate().then(_least)

    def max(self) -> Answer:
        """The greatest row that is not null."""
        return self.aggregate().then(_greatest)


class _Counts(_Lazy):
    """A number for each chunk."""

    def __dask_postcompute__(self) -> Any:
        return list, ()


def _argument(name: str, at: int, other: Any, number: int) -> Any:
    """What the task of a chunk is given of an argument: its chunk, the task of a column, of which all chunks have the
    same, or the value."""
    if isinstance(other, Chunked):
        return other._name, number
    return f"{name}-with-{at}" if isinstance(other, Column) else (_same, other)


# ---- What tasks do ----


def _asked(*values: Any, **options: Any) -> tuple[Any, ...]:
    """Values of Dask, computed on the client that there is."""
    return tuple(_dask.compute(*values, **options))


def _same(value: Any) -> Any:
    return value


def _first(values: Any) -> Any:
    return values[0]


def _least(part: Partial) -> Scalar:
    return part.least


def _greatest(part: Partial) -> Scalar:
    return part.greatest


def _total(counts: list[int]) -> int:
    return sum(counts)


def _row_count(chunk: Any) -> int:
    return int(chunk.shape[0])  # of columns and tables; also where len() cannot answer


def _run_count(column: Column) -> int:
    return column.to_runs().run_count()


def _whole(columns: Any, parts: Sequence[str] = ()) -> Column:
    """The columns one after the other, in runs where they are in runs or constants; `parts` say in a refusal where each
    is from."""
    given = list(columns)
    if len(given) == 1:
        return given[0]  # type: ignore[no-any-return]
    whole = joined(given, "compute", parts)
    return whole.to_runs() if whole.form == "runs" else whole


def _column_of(rows: Any, type: Optional[str]) -> Column:
    if isinstance(rows, Column):
        return rows if type is None else rows._as(kind_of(type))
    return Column.of(rows, type).to_runs()


def _column_of_table(path: str, name: str, where: Optional[tuple[str, str, Any]], limit: int) -> Column:
    """A column of the table of a file, of which no other is read but that of the condition."""
    if where is None:
        column: Column = Table.load(path, [name], limit)[name]
        return column
    chosen: Column = Table.load(path, {name: None, where[0]: None}, limit).filter_by(*where)[name]
    return chosen


def _on_chunk(part: str, function: Callable[..., Any], chunk: Column, others: list[Any]) -> Any:
    """What a function makes of a chunk; a refusal says of which chunk, and so does one of what is known of it."""
    try:
        found = function(chunk, *others)
    except HivevigilError as refused:
        raise refused.saying(f"{part}: {refused}") from None
    return found.of_part(part) if isinstance(found, (Partial, Groups)) else found


def _part_name(number: int, count: int, source: Sequence[str]) -> str:
    """What a refusal calls a chunk."""
    return ", ".join([f"chunk {number} of {count}", *source])


def _of_column(source: str, name: str) -> str:
    """The source of a column of a table from a source."""
    return f"column {in_words(name)} of {source}" if source else f"column {in_words(name)}"


def _joined_pieces(pieces: list[Column], parts: Sequence[str]) -> Column:
    return _whole(pieces, parts).to_runs()


def _runs_between(column: Column, first: int, last: int) -> Column:
    """The rows of some of the runs of a chunk."""
    if first == last:
        return column.slice(0, 0)
    runs = column.to_runs()
    return runs.slice(_runs.run_at(runs, first).start, _runs.run_at(runs, last - 1).stop)


def _cut(counts: list[int], start: int, stop: int) -> list[tuple[int, int, int]]:
    """Which runs of which chunks are the runs from `start` to `stop` - 1 of all; of none the first chunk without a
    row."""
    found, before = [], 0
    for chunk, count in enumerate(counts):
        first, last = max(start, before), min(stop, before + count)
        if first < last:
            found.append((chunk, first - before, last - before))
        before += count
    return found or [(0, 0, 0)]


def _stamp(name: str) -> tuple[str, int, int]:
    """A file as it is now, so that the tasks of another file of this name have other names."""
    found = os.stat(name)
    return name, found.st_size, found.st_mtime_ns


def _name_of(function: Any) -> str:
    return str(getattr(function, "__name__", "map")).strip("_<>")
