"""The groups of a table's parts, which are joined: a group at the end of a part goes on in the part after it where the
keys are equal."""
from __future__ import annotations

from collections.abc import Iterable, Mapping, Sequence
from dataclasses import dataclass, replace
from fractions import Fraction
from typing import TYPE_CHECKING, Any, NamedTuple, Optional

from . import _floats, _runs
from ._common_types import NOTHING, Sources, common, merged, name_of, widened, written_type
from ._table_making import about
from ._types import TYPES
from ._values import decimal_of
from .chunks import FloatSums, Partial
from .column import Column
from .errors import CastOutOfRange, in_words
from .logical import asked_type
from .table_groups import TableGroups, parts_of

if TYPE_CHECKING:
    from .table import Table

_ADDED = ("sum", "mean")  # what is asked of the sums of groups
_AGAIN = {"size": "sum", "count": "sum"}  # what is asked of the answers of parts of a group, of all others what was


class Total(NamedTuple):
    """What the values of a group in one column add to a sum, before it is rounded or held against a type: an integer,
    of decimals a fraction, of floats their sums. `valid` counts the values that are not null."""

    valid: int
    total: Any

    @classmethod
    def of(cls, column: Column) -> Total:
        """Those of a column of numbers."""
        valid = column._length - column.null_count
        if _floats.is_float(column._logical):
            return cls(valid, FloatSums.of(column))
        if TYPES[column._kind.number] == "decimal":
            return cls(valid, Fraction(column.sum()))
        sums = Partial.of(column.storage()).sums
        return cls(valid, sums.total if sums else 0)

    def then(self, after: Total) -> Total:
        """Those of this part of the group and of the part after it."""
        if not self.valid or not after.valid:
            return after if after.valid else self
        is_float = isinstance(self.total, FloatSums)
        return Total(self.valid + after.valid, self.total.then(after.total) if is_float else self.total + after.total)

    def widened(self, before: str, after: str) -> Total:
        """The same values, of a type, as those of another one that has them."""
        if not self.valid or before.rstrip("?") == after.rstrip("?"):
            return self
        finer, meant = asked_type(before)[1], asked_type(after)[1]
        if _floats.is_float(meant):
            is_float = isinstance(self.total, FloatSums)
            return self if is_float else Total(self.valid, FloatSums.of_whole(self.total, self.valid))
        if finer is not None and meant is not None:
            return Total(self.valid, self.total * (finer.nanoseconds // meant.nanoseconds))
        return Total(self.valid, Fraction(self.total) if after.startswith("decimal") else self.total)

    def answer(self, fold: str) -> Any:
        """The sum or the mean; None where no value has one."""
        if not self.valid:
            return None
        total = self.total.rounded() if isinstance(self.total, FloatSums) else self.total
        return total if fold == "sum" else float(total / self.valid)


@dataclass(frozen=True)
class Edge:
    """The first or the last group of a part: the row of its key and its answers but sums and means, and what these are
    made of, by the names of the answers."""

    row: Table
    totals: dict[str, Total]

    @classmethod
    def of(cls, table: Table, name: str, asked: Mapping[str, Any]) -> Edge:
        """The one group that a table has."""
        named = {alias: parts_of(alias, question) for alias, question in asked.items()}
        totals = {alias: Total.of(table._column(column)) for alias, (column, fold) in named.items() if fold in _ADDED}
        others = {alias: question for alias, question in asked.items() if alias not in totals}
        return cls(TableGroups(table, name).agg(others), totals)

    def then(self, after: Edge, name: str, asked: Mapping[str, Any]) -> list[Edge]:
        """This group and that after it, or one where their keys are equal, null equal to null."""
        folds = {alias: parts_of(alias, asked[alias])[1] for alias in self.row if alias != name}
        again = {alias: (alias, _AGAIN.get(fold, fold)) for alias, fold in folds.items()}
        rows = TableGroups(self.row.append(after.row), name).agg(again)
        if rows.rows > 1:
            return [self, after]
        return [Edge(rows, {alias: total.then(after.totals[alias]) for alias, total in self.totals.items()})]


@dataclass(frozen=True)
class Groups:
    """The groups of a part. `sources` are the types of the columns that are used, and where a refusal says that they
    are from; `empty` are these columns without rows; `none` is the answer of no rows, `whole` are the answers of groups
    that are known to be whole; a part of one group has only `first`."""

    name: str
    asked: dict[str, Any]
    sources: dict[str, Sources]
    empty: Table
    none: Table
    first: Optional[Edge]
    whole: tuple[Table, ...]
    last: Optional[Edge]

    @classmethod
    def of(cls, table: Table, name: str, asked: Mapping[str, Any]) -> Groups:
        """Those of a table, by equal neighbouring rows of the column of a name."""
        columns = (column for column, _ in map(parts_of, asked, asked.values()) if column is not None)
        used = table.select(*dict.fromkeys([name, *columns]))
        sources: dict[str, Sources] = {column: ((name_of(rows), ""),) for column, rows in used.items()}
        for column in used:
            if _says_nothing(sources[column]):
                used = used.with_column(column, Column.constant(None, used.rows, "i64?"))
        empty = used.slice(0, 0)
        found = cls(name, dict(asked), sources, empty, TableGroups(empty, name).agg(asked), None, (), None)
        if not used.rows:
            return found
        keys = used._column(name).storage().to_runs()
        stop, start = _runs.run_at(keys, 0).stop, _runs.run_at(keys, -1).start
        first = Edge.of(used.slice(0, stop), name, asked)
        if stop == used.rows:
            return replace(found, first=first)
        whole = (_answered(used.slice(stop, start), name, asked),)
        return replace(found, first=first, whole=whole, last=Edge.of(used.slice(start, used.rows), name, asked))

    def of_part(self, part: str) -> Groups:
        """The same, of rows that are from a part of this name."""
        sources = {name: tuple((type, part) for type, _ in found) for name, found in self.sources.items()}
        return replace(self, sources=sources)

    def then(self, after: Groups) -> Groups:
        """The groups of this part and of the part after it, in the types that have the rows of both."""
        sources = {name: merged(found, after.sources[name]) for name, found in self.sources.items()}
        types = _types_of(sources)
        return replace(self._in_types(types)._then(after._in_types(types)), sources=sources)

    def _then(self, after: Groups) -> Groups:
        """The same of two parts of the same types."""
        if self.first is None or after.first is None:
            return after if self.first is None else self
        left = [self.first] if self.last is None else [self.first, self.last]
        right = [after.first] if after.last is None else [after.first, after.last]
        edges = [*left[:-1], *left[-1].then(right[0], self.name, self.asked), *right[1:]]
        if len(edges) == 1:
            return replace(self, first=edges[0])
        closed = tuple(map(self._row, edges[1:-1]))
        return replace(self, first=edges[0], whole=(*self.whole, *closed, *after.whole), last=edges[-1])

    def _in_types(self, types: dict[str, str]) -> Groups:
        """These groups with the columns of types that have all rows of theirs."""
        before = _types_of(self.sources)
        if all(type.rstrip("?") == types[name].rstrip("?") for name, type in before.items()):
            return self
        call = ": ".join(["group_by", *(part for _, part in self.sources[self.name][:1] if part)])
        empty = self.empty._of({name: widened(column, types[name], call) for name, column in self.empty.items()}, 0)
        none = TableGroups(empty, self.name).agg(self.asked)
        whole = tuple(self._answers(part, none, call) for part in self.whole)
        first, last = (edge and self._widened(edge, none, types, call) for edge in (self.first, self.last))
        return replace(self, empty=empty, none=none, first=first, whole=whole, last=last)

    def _widened(self, edge: Edge, none: Table, types: Mapping[str, str], call: str) -> Edge:
        """A group as that of columns of these types, whose answers are of the types that those of no rows have."""
        before, totals = _types_of(self.sources), {}
        for alias, total in edge.totals.items():
            column = parts_of(alias, self.asked[alias])[0]
            totals[alias] = total.widened(before[column], types[column])
        return Edge(self._answers(edge.row, none, call), totals)

    def _answers(self, part: Table, none: Table, call: str) -> Table:
        """Answers as those of other types of the columns. Only sums of floats are rounded."""
        made = {}
        for name, column in part.items():
            type = written_type(none._column(name))
            is_sum = name in self.asked and parts_of(name, self.asked[name])[1] == "sum"
            with about(name):
                if is_sum and column.null_count < column._length:
                    made[name] = column.cast(type, rounded=type == "float64?")
                else:
                    made[name] = widened(column, type, call)
        return part._of(made, part.rows)

    def table(self) -> Table:
        """The answers: a row for each group."""
        unknown = {name: (("utf8?", ""),) for name, found in self.sources.items() if _says_nothing(found)}
        if unknown:
            sources = {**self.sources, **unknown}
            return replace(self._in_types(_types_of(sources)), sources=sources).table()
        ends = [None if edge is None else self._row(edge) for edge in (self.first, self.last)]
        parts = [ends[0], *self.whole, ends[1]]
        return self._none_of_all().append(*(part for part in parts if part is not None))

    def _none_of_all(self) -> Table:
        """The answer of no rows, whose key may be null where that of any part may."""
        key = self.none._column(self.name)
        if key.nullable or not any(type.endswith("?") for type, _ in self.sources[self.name]):
            return self.none
        wider = key.storage().cast(f"{key.storage().type}?")._meaning(key.logical_type)
        return self.none._of({**dict(self.none.items()), self.name: wider}, 0)

    def _row(self, edge: Edge) -> Table:
        """The answers of a group that is whole."""
        key = edge.row._column(self.name)
        columns = {self.name: key}
        for name, asked in self.asked.items():
            total = edge.totals.get(name)
            fold = parts_of(name, asked)[1]
            columns[name] = edge.row._column(name) if total is None else self._cell(name, total.answer(fold), key)
        return self.none._of(columns, 1)

    def _cell(self, name: str, answer: Any, key: Column) -> Column:
        """An answer as a row of the column that has it."""
        column = self.none._column(name)
        logical, scale = column._logical, column._kind.scale
        if isinstance(answer, float):
            return Column.of([answer], f"{logical}?")
        if isinstance(answer, Fraction):
            answer = decimal_of(int(answer * 10**scale), scale)
        try:
            row = Column.of([answer], column.storage().type)
        except OverflowError:
            limit = "64 bits" if isinstance(answer, int) else "38 digits"
            raise OverflowError(f"{in_words(name)} of the group {in_words(key[0])} is {answer}, past {limit}") from None
        return row._meaning(column.logical_type)


def _says_nothing(sources: Sources) -> bool:
    """Whether no part has a value that says of which type a column is."""
    return all(type == f"{NOTHING}?" for type, _ in sources)


def _types_of(sources: Mapping[str, Sources]) -> dict[str, str]:
    """The types that have the rows of all parts, by the names of the columns."""
    types = {}
    for name, found in sources.items():
        with about(name):
            types[name] = common(found, "group_by")
    return types


def joined(parts: Iterable[Groups]) -> Groups:
    """The groups of parts in their order, of which there is at least one."""
    whole, *others = parts
    for part in others:
        whole = whole.then(part)
    return whole


def _answered(table: Table, name: str, asked: Mapping[str, Any]) -> Table:
    """The answers of whole groups; where a sum is too large, which group it is."""
    try:
        return TableGroups(table, name).agg(asked)
    except CastOutOfRange as large:
        group = _runs.run_at(table._column(name).storage().to_runs(), large.fields[0])
        Groups.of(table.slice(group.start, group.stop), name, asked).table()
        raise


def concatenated(tables: Iterable[Table], parts: Sequence[str] = ()) -> Table:
    """Tables one after the other, of which there is at least one; `parts` say in a refusal where each is from."""
    given = list(tables)
    whole: Table = given[0]._joined(given, "append", parts or [f"table {number}" for number in range(len(given))])
    return whole if len(given) > 1 else given[0]
