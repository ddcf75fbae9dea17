"""Mistakes of a user, each of which mypy has to find; test_types.py counts them, and nothing runs them."""
from hivevigil import Column
from hivevigil.chunks import Partial
from hivevigil.dask import ChunkedColumn

Column.of([1]).split("four")  # wrong
Column.of([1]).run_count() + "a"  # wrong
Partial.of([1])  # wrong
Partial.of(Column.of([1])).join(3)  # wrong
Partial.of(Column.of([1])).rows = 3  # wrong
ChunkedColumn.from_columns([1])  # wrong
text: str = Column.of([1]).null_count  # wrong
Column.of([1]).none_such()  # wrong
