"""A table: columns of one number of rows, each with a name, which the library holds and works on as one."""
from __future__ import annotations

import functools
import operator
from collections.abc import Callable, Iterable, Iterator, Mapping, Sequence
from typing import TYPE_CHECKING, Any, Optional

from . import (
    _arrow, _files, _handles, _indexing, _joins, _other_names, _sorting, _table_files, _table_making, _table_showing,
    csv_files,
)
from ._handles import Held
from ._library import calls
from ._lists import is_list
from ._table_files import LIMIT, TableFooter
from ._table_making import Names, about, checked_name, each_of, refuse_twice
from ._values import Scalar, is_whole, row_of, size_of
from .column import Column
from .errors import WindowOverflow, in_words
from .functions import joined

if TYPE_CHECKING:
    from .table_groups import TableGroups


class Table(Mapping[str, Column]):
    """Columns by name, all of one number of rows. A table is a value: each method makes another one, and where it is
    refused the table is as it was. It owns its columns: what is put in or taken out is a copy that shares buffers.
    Threads may use one table at once: calls over many rows release the interpreter's lock.

    A table is a mapping in the order of its names, so `len(table)` counts columns; `table.rows` counts rows. `==` says
    whether two are one object; `equals` compares rows.
    """

    __slots__ = ("_held", "__weakref__")
    _held: Held  # which other tables may have too

    def __init__(
        self, columns: Any = (), logical_types: Optional[Mapping[str, str]] = None, rows: Optional[int] = None
    ) -> None:
        """The columns of a mapping, or of pairs of a name and a column; what is not a Column is what `Column.of` takes.
        `logical_types` says by name what the numbers of a column are, as a format of Arrow: 'tsu:UTC', 'tdD'. `rows`
        is needed only for a table without columns."""
        made = _table_making.columns_of(columns)
        held = Held.of(made, None if rows is None else size_of(rows, "the number of rows"))
        formats = _table_making.checked_logical_types({} if logical_types is None else logical_types, made)
        for name, column in _table_making.under({name: made[name] for name in formats}, formats).items():
            held.put(name, column)
        self._held = held

    @classmethod
    def _of(cls, columns: Mapping[str, Column], rows: int) -> Table:
        """A table of columns that are known to fit."""
        return cls._having(Held.of(columns, rows))

    @classmethod
    def _having(cls, held: Held) -> Table:
        table = cls.__new__(cls)
        table._held = held
        return table

    if not TYPE_CHECKING:  # which would take any name for one of a table

        def __getattr__(self, name: str) -> Any:
            raise _other_names.refused(self, name, _other_names.OF_TABLES)

    # ---- Making ----

    @classmethod
    def from_pandas(cls, frame: Any, types: Optional[Mapping[str, Any]] = None) -> Table:
        """The columns of a DataFrame, as Column.of reads each, of the type that `types` has for its name; those of
        hivevigil.pandas stay in runs. The index is left out. A column of objects that is empty or all null needs a
        type."""
        return cls(_table_making.series_of(frame, types), rows=len(frame))

    @classmethod
    def from_csv(cls, path: Any, batch_rows: int = 65536, types: Optional[Mapping[str, Any]] = None) -> Table:
        """The columns of a CSV file in runs, as few as there can be: each of the type that `types` has for its name,
        else of that which all of its fields have; floats, dates, times and timestamps too. An empty field is null.
        BadFile for a file that is not a CSV, and for a field that is not of the type asked for."""
        return cls(_table_making.read_csv(path, batch_rows, types))

    @classmethod
    def from_arrow(cls, source: Any) -> Table:
        """A copy of the batch, table or stream of batches of any Arrow library, by its capsules. Dates, times and so on
        are integers with their format as logical type."""
        imported = _arrow.imported(source, Column)
        if not imported.names:
            what = "an array" if imported.names is None else "no columns"
            raise TypeError(f"Table.from_arrow takes a batch or a table, and this is {what}")
        columns = _table_making.under(dict(zip(imported.names, imported.columns)), imported.logical_types())
        return cls._of(columns, imported.columns[0]._length)

    @classmethod
    def from_bytes(cls, data: bytes, limit: int = LIMIT) -> Table:
        """The table that `to_bytes` wrote, each column in the form that it had. `BadMetadata` for other bytes. Columns
        that are kept as differences, of which a few bytes may say many rows, take no more than `limit` bytes in memory
        together: else `OverLimit`, before one is read."""
        return cls._of(*_table_files.read_bytes(data, limit))

    @classmethod
    def load(cls, path: Any, columns: Optional[Iterable[str]] = None, limit: int = LIMIT) -> Table:
        """The table that `save` wrote to a file, or its columns of these names, which are read without the others.
        `BadMetadata` for a file of other bytes, OSError for none; `OverLimit` as `from_bytes`, of these columns."""
        return cls._of(*_table_files.load(path, columns, limit))

    @staticmethod
    def footer(path: Any) -> TableFooter:
        """What the end of a file says, where no column is read: the rows, and of each column its type, nulls, runs, the
        least and the greatest row. `footer.may_have(name, '>', 3)` says whether the file can be skipped."""
        return _table_files.read_footer(path)

    # ---- Names, types and rows ----

    @property
    def rows(self) -> int:
        """How many rows each column has."""
        return self._held.rows

    @property
    def names(self) -> list[str]:
        """The names of the columns, in their order."""
        return list(self._held.names)

    @property
    def shape(self) -> tuple[int, int]:
        """How many rows and how many columns there are."""
        return self.rows, len(self)

    @property
    def types(self) -> dict[str, str]:
        """The type of each column as text, as Column.type."""
        return {name: column.type for name, column in self._columns.items()}

    @property
    def logical_types(self) -> dict[str, str]:
        """The logical types, formats of Arrow, of the columns that have one."""
        found = ((name, column.logical_type) for name, column in self._columns.items())
        return {name: logical.format for name, logical in found if logical is not None}

    @property
    def nbytes(self) -> int:
        """How many bytes the columns take for what they show, each as Column.nbytes."""
        return sum(column.nbytes for column in self._columns.values())

    def __sizeof__(self) -> int:
        """How many bytes the table and what its columns show take, as sys.getsizeof and Dask ask for it."""
        return object.__sizeof__(self) + sum(column.__sizeof__() for column in self._columns.values())

    def __dask_tokenize__(self) -> tuple[Any, ...]:
        tokens = [(name, column.__dask_tokenize__()) for name, column in self._columns.items()]
        return "hivevigil.Table", self.rows, tokens

    def __len__(self) -> int:
        """How many columns there are."""
        return int(calls.hv_table_width(self._held))

    def __iter__(self) -> Iterator[str]:
        """The names."""
        return iter(self._held.names)

    def __contains__(self, name: object) -> bool:
        """Whether a column has this name."""
        return isinstance(name, str) and name in self._held.names

    def __getitem__(self, key: Any) -> Any:
        """The column of a name. Else, of a list of names, a slice, a mask or indices, a table, and of a number the row
        as a dict."""
        if isinstance(key, str):
            return self._column(key).copy()
        if isinstance(key, (list, tuple)) and key and all(isinstance(name, str) for name in key):
            return self.select(*key)
        if is_whole(key):
            return self.row(key)
        chosen = _indexing.chosen_by(self._any(), key)
        is_by_steps = isinstance(key, slice) and key.step not in (None, 1)
        return self._each(chosen) if is_by_steps else chosen(self)

    def row(self, number: int) -> dict[str, Any]:
        """A row by name, from the end where its number is negative."""
        at = row_of(number, self.rows)
        return {name: column._at(at) for name, column in self._columns.items()}

    def _column(self, name: Any) -> Column:
        """The column itself. Refused where there is none."""
        return self._held.column(_handles.checked(name))

    @property
    def _columns(self) -> dict[str, Column]:
        """The columns themselves by name."""
        return self._held.columns

    def _any(self) -> Column:
        """A column of as many rows as the table has."""
        return Column.constant(0, self.rows, "u8")

    # ---- Rows ----

    def _each(self, work: Callable[[Column], Column]) -> Table:
        """What a function makes of each column, columns of one length."""
        made = {name: work(column) for name, column in self._columns.items()}
        rows = (next(iter(made.values())) if made else work(self._any()))._length
        return self._of(made, rows)

    def filter(self, mask: Any) -> Table:
        """The rows at which the mask, a column in any form, a list or an array, is true; null selects nothing. The mask
        is read once for all columns, one in runs by its runs."""
        return self._having(self._held.made(calls.hv_table_filter, _indexing.mask_of(self._any(), mask)))

    def filter_by(self, name: str, operator: str, value: Any) -> Table:
        """The rows at which `row operator value` is true of the column of a name, as Column.compare has it."""
        column = self._column(name)
        with about(name):
            mask = column.compare(operator, value)
        return self.filter(mask)

    def take(self, indices: Any) -> Table:
        """The rows at the indices: a column, a list, or an array; null at a null index. In lists and arrays negative
        indices count from the end."""
        return self._having(self._held.made(calls.hv_table_take, _indexing.indices_of(self._any(), indices)))

    def slice(self, start: int, stop: int) -> Table:
        """The rows from `start` to `stop` - 1, all of which have to exist; `table[start:stop]` cuts as Python does."""
        bounds = size_of(start, "the start"), size_of(stop, "the stop")
        return self._having(self._held.made(calls.hv_table_slice, *bounds))

    def sort(self, by: Any, descending: Any = False, nulls: Any = "first") -> Table:
        """The rows in order by the column of a name, or by several, of which the first counts most; rows that are equal
        in all of them stay in their order. `descending` is one flag for all, or a list of one for each. Nulls come
        'first' or 'last' in either order: in all, or as a list says it of each. Texts are ordered by their bytes, floats
        by their total order: NaN is above infinity, and -0.0 below 0.0. The order is found over the runs of the columns
        that are named together."""
        keys = _sorting.names_of(by)
        flags = _sorting.flags_of(descending, nulls, len(keys))
        sort, said = calls.hv_table_sort, _sorting.TWICE
        return self._having(self._held.made_by_names(sort, keys, flags, len(flags), twice=said))

    def drop_null(self, *names: Names) -> Table:
        """The rows that are null in none of the columns of these names, or in no column where none is named."""
        chosen = _table_making.once(each_of(names))
        if names and not chosen:
            return self._having(self._held)
        # by their runs, where the library looks at each row of lists
        lists = [column for column in map(self._column, chosen or self) if is_list(column) and column.form == "runs"]
        rows = self.filter(functools.reduce(operator.and_, map(Column.is_valid, lists))) if lists else self
        return self._having(rows._held.made_by_names(calls.hv_table_drop_null, chosen))

    def join(self, other: Table, on: str, how: str = "inner") -> Table:
        """Each row with each row of another table that is equal in the column `on`, by which both tables are sorted:
        the columns of this table, then those of the other but `on`. Null equals nothing, and floats are equal where
        their bits are. With `how="left"` each row of this table comes at least once, with nulls where no other is
        equal. Refused where both have another column of one name. The cost goes by the runs of both."""
        if not isinstance(other, Table):
            hint = ": Table.from_pandas(frame) makes one" if hasattr(other, "iloc") else ""
            raise TypeError(f"a table is joined with a Table, not with {_table_making.what_is(other)}{hint}")
        columns, rows = _joins.joined(self, other, on, how)
        return self._of(columns, rows)

    def append(self, *tables: Table) -> Table:
        """The rows of this table, then those of others, which have columns of the same names. Columns of several types
        of numbers, or of times in several units, are joined in the type that has the rows of all (`docs/TYPES.md`), and
        else refused; a type has null where it has in one of them."""
        return self._joined([self, *tables], "append", [f"table {number}" for number in range(len(tables) + 1)])

    @classmethod
    def _joined(cls, tables: Sequence[Table], call: str, parts: Sequence[str]) -> Table:
        """The rows of tables, one after the other, for a call that a refusal names, and where the tables are from. Where
        the library does not join them, since a column is of several types or has lists, each column is joined by
        itself, in the type that has the rows of all."""
        alike = [_table_making.in_order_of(tables[0], table) for table in tables]
        try:
            whole = _handles.joined([table._held for table in alike])
            if whole is not None:
                return cls._having(whole)
            made = {}
            for name in alike[0]:
                with about(name):
                    made[name] = joined([table._column(name) for table in alike], call, parts)
            return cls._having(Held.of(made))
        except WindowOverflow as refused:
            rows = sum(table.rows for table in tables)
            raise refused.saying(f"{call}: {rows} rows are past 2**64 - 1") from None

    def to_runs(self) -> Table:
        """Each column in as few runs as possible; lists as they are."""
        return self._each(lambda column: column.copy() if column.type.startswith("list") else column.to_runs())

    def group_by(self, *names: Names, name: Optional[str] = None) -> TableGroups:
        """The rows by runs of neighbours that are equal in the column of a name, or in several, as Column.group_by:
        rows that are sorted by these come in one group for each of their values. `.agg(..)` says what is asked of each
        group. Several names may be a list, here and where columns are chosen; one may be given as `name=`."""
        from .table_groups import TableGroups

        if names and name is not None:
            raise TypeError("group_by: the columns are named one after the other, or one is by name=")
        keys = each_of(names) if name is None else (name,)
        if not keys:
            raise ValueError("group_by: at least one column has the keys")
        for name in keys:
            self._column(name)
        refuse_twice(keys)
        return TableGroups(self, *keys)

    # ---- Columns ----

    def with_column(self, name: str, column: Any, logical_type: Optional[str] = None) -> Table:
        """The same columns and one more, or another in place of that of this name; a Column, or what `Column.of`
        takes, of as many rows as the table has. Its logical type is the one that is given."""
        added = _table_making.columns_of({name: column})
        held = self._held.made(calls.hv_table_clone)
        held.put(name, added[name])
        if logical_type is not None:
            formats = _table_making.checked_logical_types({name: logical_type}, added)
            held.put(name, _table_making.under(added, formats)[name])
        return self._having(held)

    def select(self, *names: Names) -> Table:
        """The columns of these names, in this order, each once."""
        return self._having(self._held.made_by_names(calls.hv_table_select, each_of(names)))

    def drop(self, *names: Names) -> Table:
        """All columns but those of these names."""
        left_out = each_of(names)
        for name in left_out:
            self._held.place(_handles.checked(name))
        return self.select(*(name for name in self if name not in left_out))

    def rename(self, names: Mapping[str, str]) -> Table:
        """The same columns, of which those that the mapping has as keys have its values as names."""
        made = _handles.texts_of(map(checked_name, names.values()))
        return self._having(self._held.made_by_names(calls.hv_table_rename, [*names], made, changed=names))

    # ---- Comparing ----

    def equals(self, other: Table) -> bool:
        """Whether both have the same names in the same order, types, logical types and rows, whatever the forms."""
        if not isinstance(other, Table):
            raise TypeError(f"a table is compared with a Table, not with {in_words(other)}")
        if (self.names, self.types, self.rows) != (other.names, other.types, other.rows) or (
            self.logical_types != other.logical_types
        ):
            return False
        return all(_have_equal_rows(column, other._column(name)) for name, column in self._columns.items())

    def __eq__(self, other: object) -> bool:
        """Whether both are one object; `equals` compares rows."""
        return self is other

    __hash__ = object.__hash__

    # ---- Other forms ----

    def to_bytes(self, differences: bool = False) -> bytes:
        """The table as bytes: a message of the Protocol Buffers encoding by docs/table.proto. With `differences` a
        column of integers or times is kept as those of its rows where that is shorter, as for times at regular steps:
        the bytes are then of version 2, which readers of version 1 refuse. A column of more than 16 levels of runs is
        refused, as `Unsupported`."""
        return b"".join(_table_files.parts(self._columns, self.rows, differences))

    def save(self, path: Any, differences: bool = False) -> None:
        """Writes the bytes of `to_bytes` to a file, a column at a time, which `load` reads. A file of this name is
        replaced at once when all is written, and stays as it was where that fails."""
        _files.write(path, _table_files.parts(self._columns, self.rows, differences))

    def to_csv(self, path: Any) -> None:
        """Writes the rows to a CSV file, which `from_csv` reads: a line of names, then a line for each row. Null is an
        empty field, and an empty text is one in quotes, which is read as null. Dates and times are as ISO 8601 has
        them, durations in seconds, bytes in hexadecimal digits; lists are refused. A file of this name is replaced at
        once when all is written."""
        for name, column in self._columns.items():
            with about(name):
                csv_files.refuse_lists(column)
        lines = csv_files.lines_of_columns(self._columns, self.rows)
        _files.write(path, lines, "to_pandas().to_csv(file) writes to an open file")

    def to_dict(self) -> dict[str, list[Scalar]]:
        """The rows of each column as a list of Python's values, by name."""
        return {name: column.to_list() for name, column in self._columns.items()}

    def to_pandas(self, in_runs: bool = False) -> Any:
        """A DataFrame of Column.to_pandas() of each column; with `in_runs` of arrays of hivevigil.pandas, in runs."""
        return _table_making.frame_of(self._columns, self.rows, in_runs)

    def __array__(self, dtype: Any = None, copy: Any = None) -> Any:
        """Refused: NumPy, and pandas.DataFrame(table), which asks for an array, would make one of the names."""
        hint = "table.to_pandas() is a DataFrame of it, and numpy.asarray(table[name]) an array of a column"
        raise TypeError(f"a table is not an array: {hint}")

    def __arrow_c_schema__(self) -> Any:
        return _arrow.struct_schema_capsule(self._columns)

    def __arrow_c_stream__(self, requested_schema: Any = None) -> Any:
        """A stream of one batch, as Arrow libraries ask for it: `pyarrow.table(table)`."""
        return _arrow.struct_stream_capsule(self._columns, requested_schema)

    def __reduce__(self) -> Any:
        return _unpickled, (type(self), self._columns, self.rows)

    def __repr__(self) -> str:
        return _table_showing.text(self._columns, self.rows)

    def _repr_html_(self) -> str:
        return _table_showing.html(self._columns, self.rows)


def _unpickled(
    kind: type[Table], columns: dict[str, Column], rows: int, logical_types: Mapping[str, str] = {}
) -> Table:
    """Pickles of versions before 2.0 have logical types beside the columns."""
    return kind._of(_table_making.under(columns, logical_types), rows)


def _have_equal_rows(left: Column, right: Column) -> bool:
    """Whether two columns of one type have equal rows: then their encodings have the same bytes."""
    if left.type.startswith("list"):
        return left.to_list() == right.to_list()
    return left.to_runs().to_bytes() == right.to_runs().to_bytes()
