"""Run-end encoded columns, over the proved library libhivevigil.so. Nothing of this package itself is proved.

    from hivevigil import Column

    column = Column.of([4, 4, 4, 7, 7, None])       # i64?, flat
    runs = column.encode()                          # as few runs as there can be
    runs.sum(), runs[-2], runs[2:4].to_list()       # 26, 7, [4, 7]
    runs[runs.gt(4)].to_list()                      # [7, 7]

The shared object is next to this file, in lib/ of a checkout, or where HIVEVIGIL_SO says. NumPy, pandas and Matplotlib
are used where they are there. `python -m hivevigil FILE.csv` shows what the columns of a CSV file take in runs.
A Table is columns by name, which are filtered, cut and kept in a file together.
`hivevigil.chunks` joins what is known of parts of a column; `hivevigil.pandas` has a column as an array of pandas, and
`hivevigil.dask` one in chunks, and `hivevigil.dask_tables` a table.
"""
from typing import Any

from ._arrow_structs import ArrowArray, ArrowArrayStream, ArrowSchema
from ._runs import Run
from ._types import FORMS, OPERATORS, TYPES
from .builder import Builder
from .column import Column
from .errors import CLASSES, HivevigilError
from .functions import columns_from_arrow, concat, version
from .table import Table

__all__ = [
    "ArrowArray", "ArrowArrayStream", "ArrowSchema", "Builder", "CLASSES", "Column", "FORMS", "HivevigilError",
    "OPERATORS", "Run", "TYPES", "Table", "columns_from_arrow", "concat",
]


def __getattr__(name: str) -> Any:
    """`__version__`, which is looked up when it is asked for."""
    if name == "__version__":
        return version()
    raise AttributeError(f"module {__name__!r} has no attribute {name!r}")
