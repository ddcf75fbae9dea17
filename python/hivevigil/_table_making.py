"""What tables are made of: columns by name, of mappings, frames of pandas and CSV files."""
from __future__ import annotations

import contextlib
import os
from collections.abc import Iterable, Iterator, Mapping
from typing import TYPE_CHECKING, Any, Optional, Union

from ._handles import checked
from ._making import shows_no_type
from ._types import TYPES
from ._values import checked_text, size_of
from .builder import Builder
from .column import Column
from .csv_files import CsvFile
from .errors import HivevigilError, in_words
from .logical import meaning_of

if TYPE_CHECKING:
    from .table import Table

Names = Union[str, list[str], tuple[str, ...]]  # a name, or several


@contextlib.contextmanager
def about(name: str) -> Iterator[None]:
    """A refusal within says of which column it is."""
    where = f"column {in_words(name)}: "
    try:
        yield
    except HivevigilError as refused:
        raise refused.saying(f"{where}{refused}") from None
    except (TypeError, ValueError, OverflowError) as error:
        if type(error) not in (TypeError, ValueError, OverflowError):
            raise
        raise type(error)(f"{where}{error}") from None


def checked_name(name: Any) -> str:
    """A name that a column gets: a text that is UTF-8."""
    text = checked(name)
    checked_text(text, "the name of a column: ")
    return text


def what_is(value: Any) -> str:
    """What a sentence calls a value that is not a table: a frame of pandas by its class."""
    return f"a {type(value).__name__}" if hasattr(value, "iloc") else in_words(value)


def checked_types(types: Any) -> Mapping[str, Any]:
    """Types by the names of columns, where they are given."""
    if types is not None and not isinstance(types, Mapping):
        raise TypeError(f"types are a mapping from names of columns, not {in_words(types)}")
    return types or {}


def each_of(names: tuple[Any, ...]) -> tuple[Any, ...]:
    """The names that a call is given, one by one or as one list."""
    return tuple(names[0]) if len(names) == 1 and isinstance(names[0], (list, tuple)) else names


def refuse_twice(names: Iterable[Any]) -> None:
    """Refuses names of which one is there twice."""
    seen = set()
    for name in names:
        if name in seen:
            raise ValueError(f"two columns have the name {in_words(name)}")
        seen.add(name)


def once(names: Iterable[Any]) -> list[str]:
    """The names, each once."""
    return list(dict.fromkeys(map(checked, names)))


def columns_of(columns: Any) -> dict[str, Column]:
    """Columns of a mapping, or of pairs."""
    made: dict[str, Column] = {}
    for name, rows in _pairs_of(columns):
        if checked_name(name) in made:
            raise ValueError(f"two columns have the name {in_words(name)}")
        with about(name):
            made[name] = rows._there() if isinstance(rows, Column) else Column.of(rows)
    return made


def _pairs_of(columns: Any) -> Iterable[tuple[Any, Any]]:
    if isinstance(columns, Mapping):
        return columns.items()
    if hasattr(columns, "iloc"):
        raise TypeError("Table.from_pandas takes a frame of pandas")
    if hasattr(columns, "__arrow_c_stream__") or hasattr(columns, "__arrow_c_array__"):
        raise TypeError("Table.from_arrow takes batches and tables of an Arrow library")
    expected = "columns by name are a mapping, or pairs of a name and a column"
    try:
        pairs = [(name, rows) for name, rows in columns]
    except (TypeError, ValueError):
        raise TypeError(f"{expected}, not {in_words(columns)}") from None
    return pairs


def checked_logical_types(given: Any, columns: Mapping[str, Column]) -> Mapping[str, str]:
    """Logical types by name, each of a column that there is."""
    if not isinstance(given, Mapping):
        raise TypeError(f"logical types are a mapping from names, not {in_words(given)}")
    for name, format in given.items():
        if name not in columns:
            raise ValueError(f"a logical type for {in_words(name)}, and no column has this name")
        if not isinstance(format, str) or not format:
            raise TypeError(f"a logical type is a format of Arrow, as 'tsu:UTC', not {in_words(format)}")
        checked_text(format, f"the logical type of column {in_words(name)}: ")
    return dict(given)


def under(columns: Mapping[str, Column], formats: Mapping[str, str]) -> dict[str, Column]:
    """The columns under the formats that are given by name; the others as they are."""
    return {
        name: column._meaning(meaning_of(formats[name], TYPES[column._kind.number])) if name in formats else column
        for name, column in columns.items()
    }


def in_order_of(first: Table, other: Any) -> Table:
    """A table that is appended to the first, with its columns in the order of those. Refused where it has other
    names."""
    if type(other) is not type(first):
        hint = ": Table.from_pandas(frame) makes one" if hasattr(other, "iloc") else ""
        raise TypeError(f"a table is appended to a table, not {what_is(other)}{hint}")
    table: Table = other
    if table.names == first.names:
        return table
    for name in [*first, *table]:
        if (name in first) != (name in table):
            only = f"{'only the first' if name in first else 'only the other'} has {in_words(name)}"
            raise ValueError(f"append: the tables have columns of different names: {only}")
    return table.select(*first)


# ---- Frames of pandas ----


def series_of(frame: Any, types: Optional[Mapping[str, Any]]) -> list[tuple[Any, Any]]:
    """The columns of a DataFrame, with their labels; arrays of hivevigil.pandas as the columns that they have."""
    asked = checked_types(types)
    if not hasattr(frame, "iloc") or getattr(frame, "ndim", 0) != 2:
        raise TypeError(f"Table.from_pandas takes a DataFrame, not {in_words(frame)}")
    series = (frame.iloc[:, place] for place in range(frame.shape[1]))
    for name in asked:
        if name not in frame.columns:
            raise ValueError(f"a type for column {in_words(name)}, and the frame has no column of this name")
    return [(label, _column_of(label, one, asked.get(label))) for label, one in zip(frame.columns, series)]


def _column_of(label: Any, series: Any, type: Any) -> Any:
    column = getattr(series.array, "column", series)
    if type is not None:
        with about(label):
            return Column.of(column, type)
    if isinstance(column, Column):
        return column
    if series.dtype == object and shows_no_type(series):
        hint = f"name one, as Table.from_pandas(frame, types={{{in_words(label)}: 'i64'}})"
        raise ValueError(f"column {in_words(label)}: no row shows a type: {hint}")
    # the rows say no type where all are null, and this dtype does
    return Column.of(series.tolist(), "utf8") if series.dtype.name == "string" else series


def frame_of(columns: Mapping[str, Column], rows: int, in_runs: bool) -> Any:
    import pandas

    if in_runs:
        from .pandas import RunEndArray

        made = {name: pandas.Series(RunEndArray(column)) for name, column in columns.items()}
    else:
        made = {}
        for name, column in columns.items():
            with about(name):
                made[name] = column.to_pandas()
    return pandas.DataFrame(made, index=pandas.RangeIndex(rows))


# ---- CSV files ----


def read_csv(path: Any, batch_rows: int, types: Optional[Mapping[str, Any]]) -> dict[str, Column]:
    """The columns of a CSV file in runs."""
    if not isinstance(path, (str, os.PathLike)):
        hint = ": Table.from_pandas(pandas.read_csv(file)) reads an open file" if hasattr(path, "read") else ""
        raise TypeError(f"a file is named by a text or a path, not by {in_words(path)}{hint}")
    if size_of(batch_rows, "the number of rows of a batch") == 0:
        raise ValueError("a batch has at least one row")
    file = CsvFile(os.fspath(path), batch_rows, asked=checked_types(types))
    builders: dict[str, Builder] = {}
    for batch in file.batches(lambda _: None):
        for name, column in batch.items():
            if name not in builders:
                builders[name] = Builder(file.types[name])
            builders[name].append(column)
    for name, kind in file.types.items():
        builders.setdefault(name, Builder(kind))
    return {name: builder.finish() for name, builder in builders.items()}
