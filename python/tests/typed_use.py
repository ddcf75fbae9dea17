"""A user's program, of which test_types.py has mypy say the types; nothing runs it."""
from datetime import date, time, timedelta
from decimal import Decimal
from typing import Any, Optional, Union

from hivevigil import Builder, Column, Run, Table, concat
from hivevigil.chunks import Partial, Stretch, Sums, join, joined
from hivevigil.dask import Answer, ChunkedColumn
from hivevigil.dask_tables import ChunkedTable
from hivevigil.pandas import RunEndArray, RunEndDtype

Row = Union[int, float, bool, Decimal, str, bytes, date, time, timedelta, None]

column: Column = Column.of([1, None], "i64?").to_runs()
rows: list[Row] = column.tolist()
same: list[Row] = column.to_pylist()
shape: tuple[int] = column.shape
windows: list[Column] = column.split(4, by="runs")
mask: Column = column.gt(3)
runs: list[Run] = list(column.runs())
both: tuple[Row, Row] = column.min_max()
column.save("file")
kept: Column = Column.load("file")
whole: Column = concat([column, kept])
summed: Column = 2 * column - kept
less: Column = column < kept
either: Column = (column == 3) | ~mask
picked: Column = column.where(mask, 0)
counted: tuple[Column, Column] = column.value_counts()
totals: tuple[Column, Column] = column.running_totals()
each_total: Column = column.cumsum()
is_same: bool = column.equals(kept) and mask.any()
builder: Builder = Builder("i64")
builder.append_value(3, count=2)

table: Table = Table({"level": column, "place": ["a"] * 2}, {"level": "tdm"})
some: Table = table.filter_by("level", ">", 3).append(table.take([0])).select("place")
in_order: Table = table.sort(["place", "level"], [True, False], nulls="last")
sorted_rows: Column = column.sort(descending=True).nlargest(3)
spread: Optional[float] = column.var(ddof=0)
groups: Table = table.drop_null("level").group_by("place", "level").agg(most=("level", "max"))
table.to_csv("file.csv")
looked_up: Table = table.join(groups, on="place", how="left")
lists: dict[str, list[Row]] = table.to_dict()
table.save("file")
skipped: bool = not Table.footer("file").may_have("level", ">", 3)
read: Table = Table.load("file", columns=["place"])

part: Partial = joined(map(Partial.of, windows))
more: Partial = join(part, part.join(Partial.empty("i64")))
first: Optional[Stretch] = part.first
sums: Optional[Sums] = part.sums
total: int = part.sum()

chunks: ChunkedColumn = ChunkedColumn.from_files(["a", "b"]).rechunk(100)
answer: Answer = chunks.filter(chunks.fill(0).gt(3)).sum()
computed: Any = answer.compute()
gathered: Column = chunks.persist().compute(scheduler="threads")
worked: ChunkedColumn = (chunks + chunks * 2).where(chunks.gt(3) & ~chunks.lt(9), 0)
in_files: ChunkedTable = ChunkedTable.from_files(["a", "b"], columns=["level"]).filter_by("level", ">", 3)
left_out: int = in_files.skipped
one: ChunkedColumn = in_files["level"]
by_place: Answer = in_files.with_column("more", one).group_by("level").agg(rows="size")
all_of_it: Table = in_files.rechunk(100).persist().compute()

array: RunEndArray = RunEndArray(column)
again: Column = array.column
dtype: RunEndDtype = array.dtype
