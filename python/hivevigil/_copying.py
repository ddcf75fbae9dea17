"""Columns as NumPy arrays, as Series of pandas, and by pickle."""
from __future__ import annotations

import hashlib
import pickle
import sys
from typing import TYPE_CHECKING, Any

from . import _float_columns, _floats, _lists, _runs, _time_arrays
from ._types import LETTERS, TYPES
from ._values import is_whole
from .errors import Unsupported
from .logical import LogicalType

if TYPE_CHECKING:
    from .column import Column

# ---- NumPy and pandas ----


def _stored(flat: Column) -> tuple[Any, Any]:
    """The numbers or booleans of a flat column, and which of them are null, None where the type has no null."""
    import numpy

    name, rows = TYPES[flat._kind.number], len(flat)
    if name == "bool":
        items = _unpacked(flat.truths(), rows)
    else:
        items = numpy.frombuffer(flat.to_array(), dtype(flat))
    return items, ~_unpacked(flat.validity(), rows) if flat.nullable else None


def _unpacked(bits: bytes, rows: int) -> Any:
    import numpy

    return numpy.unpackbits(numpy.frombuffer(bits, numpy.uint8), count=rows, bitorder="little").astype(bool)


def _objects(column: Column) -> Any:
    """The rows as an array of objects, of a run one; each row of lists is a list of its own."""
    import numpy

    if column.form == "runs" and not _lists.is_list(column):
        shown = _runs.visible(column)
        return numpy.repeat(_objects(shown.values), _runs.lengths(shown.stops))
    items = numpy.empty(len(column), dtype=object)
    items[:] = column.to_list()
    return items


def dtype(column: Column) -> Any:
    """The dtype of to_numpy(). AttributeError without NumPy, so that the column is then an object without a dtype."""
    name = TYPES[column._kind.number]
    try:
        import numpy
    except ImportError:
        raise AttributeError("the dtype of a column is one of NumPy, which is not installed") from None
    if _floats.is_float(column._logical):
        return _float_columns.dtype(column._logical)
    if column._logical is not None:
        return _time_arrays.dtype(column._logical)
    if not _has_dtype(column):
        return numpy.dtype(object)
    return numpy.dtype("?" if name == "bool" else name[0] + str(int(name[1:]) // 8))


def _has_dtype(column: Column) -> bool:
    name = TYPES[column._kind.number]
    return name in LETTERS or name == "bool"


def to_numpy(column: Column, null: Any) -> Any:
    import numpy

    if _floats.is_float(column._logical):
        return _float_columns.to_numpy(column, null)
    if column._logical is not None and column._logical.sort != "time":
        filled = column.fill(null) if null is not None and column.nullable else column
        return _time_arrays.to_numpy(filled, column._logical)
    if column._logical is not None or not _has_dtype(column):
        items = _objects(column)
        if null is not None:
            items[numpy.array([item is None for item in items], dtype=bool)] = null
        return items
    if null is not None and column.nullable:
        is_bit = TYPES[column._kind.number] == "bool" and is_whole(null) and null in (0, 1)
        column = column.fill(bool(null) if is_bit else null)
    items, missing = _stored(column._flat())
    masks: Any = numpy.ma
    return items if missing is None else masks.masked_array(items, missing)


def as_numpy(column: Column, asked: Any) -> Any:
    """The rows as an implicit conversion has them: objects where a row is null. pandas 1.5 makes floats of integers
    next to None, and 2**53 + 1 is not among these, but keeps them next to its own NA: where it is loaded, null is
    that."""
    if _floats.is_float(column._logical):
        items = _float_columns.as_numpy(column)
    elif column._logical is not None:
        items = to_numpy(column, None)
    elif _has_dtype(column) and not column.null_count:
        items = _stored(column._flat())[0]
    else:
        items = _objects(column)
        missing = getattr(sys.modules.get("pandas"), "NA", None)
        if asked is None and missing is not None and TYPES[column._kind.number] in LETTERS:
            items[_stored(column._flat())[1]] = missing
    return items if asked is None else items.astype(asked)


def to_pandas(column: Column) -> Any:
    import pandas

    if _floats.is_float(column._logical):
        return _float_columns.to_pandas(column)
    if column._logical is not None:
        return _time_arrays.to_pandas(column, column._logical)
    if not _has_dtype(column):
        name = TYPES[column._kind.number]
        return pandas.Series(_objects(column), dtype="string" if name == "utf8" else object)
    items, missing = _stored(column._flat())
    if missing is None:
        return pandas.Series(items)
    masked = pandas.arrays.BooleanArray if items.dtype == bool else pandas.arrays.IntegerArray
    return pandas.Series(masked(items.copy(), missing))


# ---- Pickle, and names by content ----


def token(column: Column) -> tuple[str, str]:
    """A name for the column by what it has, equal for columns of the same rows in the same form."""
    return "hivevigil.Column", hashlib.sha256(pickle.dumps(column, protocol=4)).hexdigest()


def reduced(column: Column) -> Any:
    """How pickle makes the column again: from its bytes, or, of runs in more levels than bytes have, from ends and
    values."""
    kind = type(column)
    try:
        return _made_of_message, (kind, column.to_bytes())
    except Unsupported:
        if column.form != "runs":
            raise
        return _made_of_runs, (kind, column.ends(), column.values(), column.offset, column._length)


def _made_of_message(kind: type[Column], message: bytes) -> Column:
    return kind.from_bytes(message)


def _made_of_storage(storage: Column, format: str) -> Column:
    """As pickles of versions before 2.0 name it."""
    return storage._meaning(LogicalType.of_format(format))


def _made_of_runs(kind: type[Column], ends: Column, values: Column, offset: int, rows: int) -> Column:
    return kind.from_runs(ends, values, offset, rows)
