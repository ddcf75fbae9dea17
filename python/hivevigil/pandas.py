"""Columns as arrays of pandas: rows stay in runs and exact in a Series, 2**53 + 1 next to a null too.

    import pandas
    from hivevigil.pandas import RunEndArray

    pandas.Series(RunEndArray(column))
    pandas.Series([2**53 + 1, None], dtype="runend[i64]")       # once this module is imported
    series.array.column                                         # the column again
"""
from __future__ import annotations

import operator
from collections.abc import Callable, Iterable, Iterator, Sequence
from decimal import Decimal
from itertools import repeat
from typing import Any, Optional

import numpy
import pandas
from pandas.api.extensions import ExtensionArray, ExtensionDtype, register_extension_dtype
from pandas.api.indexers import check_array_indexer

from . import _copying
from ._types import WHOLE_NUMBERS, kind_of, text_of
from ._values import Scalar, is_missing
from .column import Column
from .errors import in_words
from .functions import concat

__all__ = ["RunEndArray", "RunEndDtype"]

_DEFAULT = pandas.api.extensions.no_default
_CLASSES: dict[str, Any] = {**dict.fromkeys(WHOLE_NUMBERS, int), "bool": bool, "utf8": str, "binary": bytes}


@register_extension_dtype
class RunEndDtype(ExtensionDtype):
    """The dtype of rows in runs, of a column's type: "runend[i64]", "runend[utf8]". Rows may be null, pandas.NA."""

    na_value = pandas.NA
    _metadata = ("column_type",)
    _are_objects = False  # booleans of which some are null, which pandas 1.5 would count as numbers of 8 bits

    def __init__(self, type: Any = "i64") -> None:
        self.column_type = text_of(kind_of(type)).rstrip("?")

    @property
    def name(self) -> str:
        return f"runend[{self.column_type}]"

    @property
    def type(self) -> Any:
        """The class of a row."""
        return numpy.object_ if self._are_objects else _CLASSES.get(self.column_type, Decimal)

    @property
    def _is_numeric(self) -> bool:
        return self.column_type in WHOLE_NUMBERS

    @property
    def has_numpy_dtype(self) -> bool:
        """Whether NumPy has a dtype for the rows that are not null."""
        return self._is_numeric or self._is_boolean

    @property
    def _is_boolean(self) -> bool:
        return self.column_type == "bool"

    def __repr__(self) -> str:
        return self.name

    @classmethod
    def construct_array_type(cls) -> Any:
        return RunEndArray

    @classmethod
    def construct_from_string(cls, string: str) -> RunEndDtype:
        if not isinstance(string, str):
            raise TypeError(f"'construct_from_string' expects a string, got {type(string)}")
        if not (string.startswith("runend[") and string.endswith("]")):
            raise TypeError(f"Cannot construct a '{cls.__name__}' from '{string}': as 'runend[i64]' is expected")
        return cls(string[len("runend[") : -1])

    def _get_common_dtype(self, dtypes: list[Any]) -> Optional[RunEndDtype]:
        return self if all(each == self for each in dtypes) else None


class RunEndArray(ExtensionArray):
    """An array of pandas over one column, which is kept in runs. Setting rows makes a new column, at the cost of rows;
    a view or a slice is an array of its own, which does not follow."""

    def __init__(self, rows: Any, dtype: Any = None) -> None:
        asked = None if dtype is None else _dtype_of(dtype).column_type
        column = rows.column if isinstance(rows, RunEndArray) else _column_of(rows, asked)
        if column.type.startswith("list"):
            raise TypeError("RunEndArray does not serve columns of lists")
        if column._logical is not None:
            hint = "column.to_pandas() makes a Series, column.storage() has the integers"
            raise TypeError(f"RunEndArray does not serve {column._logical}: {hint}")
        self._column = column if column.form == "runs" else column.to_runs()

    @property
    def column(self) -> Column:
        """The column of the rows, in runs."""
        return self._column

    # ---- What pandas asks of each array ----

    @classmethod
    def _from_sequence(cls, scalars: Any, *, dtype: Any = None, copy: bool = False) -> RunEndArray:
        is_bits = dtype is not None and getattr(scalars, "dtype", None) == numpy.uint8 and _dtype_of(dtype)._is_boolean
        if is_bits and len(scalars) and scalars.max() < 2:  # as which pandas 1.5 has booleans when it counts them
            scalars = scalars.astype(bool)
        return cls(scalars, dtype)

    @classmethod
    def _from_sequence_of_strings(cls, strings: Any, *, dtype: Any = None, copy: bool = False) -> RunEndArray:
        read = _READERS.get(_dtype_of(dtype).type, str)
        return cls([None if pandas.isna(text) else read(text) for text in strings], dtype)

    @classmethod
    def _from_factorized(cls, values: Any, original: RunEndArray) -> RunEndArray:
        return cls(values, original.dtype)

    @classmethod
    def _concat_same_type(cls, to_concat: Sequence[RunEndArray]) -> RunEndArray:
        return cls(concat([part.column for part in to_concat]))

    @property
    def dtype(self) -> RunEndDtype:
        found = RunEndDtype(self._column.type)
        found._are_objects = found._is_boolean and self._hasna
        return found

    @property
    def nbytes(self) -> int:
        return self._column.nbytes

    def __len__(self) -> int:
        return len(self._column)

    def __iter__(self) -> Iterator[Any]:
        return (pandas.NA if row is None else row for row in self._column)

    def __contains__(self, item: object) -> bool:
        if _is_na(item):
            return item is pandas.NA and self._hasna
        return item in self._column

    def isna(self) -> Any:
        return ~_copying._unpacked(self._column.validity(), len(self))

    def copy(self) -> RunEndArray:
        return type(self)(self)

    def __getitem__(self, item: Any) -> Any:
        if isinstance(item, tuple):
            item = _without_ellipsis(item)
        if item is Ellipsis:
            return self.copy()
        key = check_array_indexer(self, item)
        if isinstance(key, (slice, numpy.ndarray)):
            return type(self)(self._column[key] if isinstance(key, slice) else _chosen(self._column, key))
        if isinstance(key, (int, numpy.integer)):
            if not -len(self) <= key < len(self):
                raise IndexError(f"index {key} is out of bounds for axis 0 with size {len(self)}")
            row = self._column[int(key)]
            return pandas.NA if row is None else row
        raise IndexError(
            "only integers, slices (`:`), ellipsis (`...`), numpy.newaxis (`None`) and integer or boolean arrays are "
            "valid indices"
        )

    def __setitem__(self, key: Any, value: Any) -> None:
        key = check_array_indexer(self, key)
        places = numpy.arange(len(self))
        count = numpy.size(places[key])
        is_one = isinstance(key, (int, numpy.integer)) or not pandas.api.types.is_list_like(value)
        if is_one and pandas.api.types.is_list_like(value):
            raise ValueError("one row is set to one value, not to several")
        if not is_one and len(value) not in (1, count):
            raise ValueError(f"{count} rows are set to {len(value)} values")
        values = type(self)([value] if is_one else value, self.dtype).column
        places[key] = numpy.arange(len(self), len(self) + count) if len(values) == count else len(self)
        self._column = concat([self._column, values]).take(places.astype(numpy.uint64)).to_runs()

    def take(self, indices: Any, *, allow_fill: bool = False, fill_value: Any = None) -> RunEndArray:
        places, rows = numpy.asarray(indices, dtype=numpy.int64), len(self)
        least = -1 if allow_fill else -rows
        if allow_fill and places.size and places.min() < -1:
            raise ValueError("with allow_fill an index is -1 or a row")
        if places.size and rows == 0 and (not allow_fill or places.max() >= 0):
            raise IndexError("cannot do a non-empty take from an empty axes.")
        if places.size and (places.max() >= rows or places.min() < least):
            raise IndexError("out of bounds value in 'indices'.")
        if not allow_fill:
            return type(self)(self._column.take(numpy.where(places < 0, places + rows, places).astype(numpy.uint64)))
        column = concat([self._column, type(self)([fill_value], self.dtype).column])
        return type(self)(column.take(numpy.where(places < 0, rows, places).astype(numpy.uint64)))

    # ---- Other forms ----

    def __array__(self, dtype: Any = None, copy: Any = None) -> Any:
        return self.to_numpy(dtype)

    def to_numpy(self, dtype: Any = None, copy: bool = False, na_value: Any = _DEFAULT) -> Any:
        """The rows as NumPy has them: as numbers or booleans where no row is null, else as objects with `na_value`,
        which is pandas.NA where none is given."""
        na_value = pandas.NA if na_value is _DEFAULT else na_value
        if not self._hasna:
            rows = self._column.fill(_zero(self._column)).to_numpy() if self._column.nullable else (
                self._column.to_numpy()
            )
            return rows if dtype is None else rows.astype(dtype)
        rows = _copying._objects(self._column)
        rows[self.isna()] = na_value
        return rows if dtype is None else rows.astype(dtype)

    @property
    def _hasna(self) -> bool:
        return self._column.null_count > 0

    def astype(self, dtype: Any, copy: bool = True) -> Any:
        asked = pandas.api.types.pandas_dtype(dtype)
        if isinstance(asked, RunEndDtype):
            return (self.copy() if copy else self) if asked == self.dtype else type(self)(self._as(asked))
        if isinstance(asked, ExtensionDtype) and self.dtype.has_numpy_dtype:
            return self._column.to_pandas().array.astype(asked)  # without objects
        return super().astype(dtype, copy)

    def _as(self, asked: RunEndDtype) -> Column:
        is_cast = self.dtype._is_numeric and asked._is_numeric
        return self._column.cast(asked.column_type + "?") if is_cast else Column.of(list(self), asked.column_type)

    def _values_for_argsort(self) -> Any:
        """Any value where a row is null: pandas sorts these apart."""
        return self._column.fill(_zero(self._column)).to_numpy() if self._column.nullable else self._column.to_numpy()

    def _formatter(self, boxed: bool = False) -> Any:
        return str if boxed else repr

    # ---- Questions ----

    def value_counts(self, dropna: bool = True) -> Any:
        """How many rows have each value, counted by runs."""
        counts: dict[Scalar, int] = {}
        for start, stop, value in self._column.runs():
            if not (dropna and value is None):
                counts[value] = counts.get(value, 0) + stop - start
        index = pandas.Index(type(self)(list(counts), self.dtype))
        return pandas.Series(pandas.array(list(counts.values()), dtype="Int64"), index=index)

    def unique(self) -> RunEndArray:
        """Each value once, as the first row of it comes."""
        return type(self)(list(dict.fromkeys(row for _, _, row in self._column.runs())), self.dtype)

    def factorize(self, na_sentinel: Any = _DEFAULT, use_na_sentinel: Any = _DEFAULT) -> tuple[Any, RunEndArray]:
        """A code for each row, and the values that they number; by runs, and exact where pandas' own takes a text for
        another that differs after a zero."""
        keeps_null = use_na_sentinel is False or na_sentinel is None
        null = -1 if na_sentinel is _DEFAULT or na_sentinel is None else na_sentinel
        codes: dict[Scalar, int] = {}
        found: list[int] = []
        counts: list[int] = []
        for start, stop, value in self._column.runs():
            found.append(null if value is None and not keeps_null else codes.setdefault(value, len(codes)))
            counts.append(stop - start)
        rows = numpy.repeat(numpy.array(found, numpy.intp), numpy.array(counts, numpy.intp))
        return rows, type(self)(list(codes), self.dtype)

    def fillna(self, value: Any = None, method: Any = None, limit: Any = None, copy: bool = True) -> Any:
        if value is None or method is not None or limit is not None or pandas.api.types.is_list_like(value):
            asked = {"value": value, "method": method, "limit": limit}
            return super().fillna(**{name: given for name, given in asked.items() if given is not None})
        return self.copy() if is_missing(value) or not self._column.nullable else type(self)(self._column.fill(value))

    def _reduce(self, name: str, *, skipna: bool = True, **options: Any) -> Any:
        served = ("min", "max", *["sum"] * self.dtype._is_numeric, *["any", "all"] * self.dtype._is_boolean)
        if name not in served:
            raise TypeError(f"'{type(self).__name__}' with dtype {self.dtype} does not support reduction '{name}'")
        answer = self._reduced(name, skipna, options.get("min_count", 0))
        return type(self)([answer], self.dtype) if options.get("keepdims") else answer

    def _accumulate(self, name: str, *, skipna: bool = True, **options: Any) -> RunEndArray:
        """The total up to each row, as pandas 2 asks for it; without `skipna` null from the first null on."""
        if name != "cumsum" or not self.dtype._is_numeric:
            raise NotImplementedError(f"'{type(self).__name__}' with dtype {self.dtype} does not support {name}")
        totals = self._column.cumsum()
        if skipna or not self._column.null_count:
            return type(self)(totals)
        first = next(start for start, _, value in self._column.runs() if value is None)
        return type(self)(concat([totals[:first], Column.constant(None, len(self) - first, totals.type)]))

    def _reduced(self, name: str, skipna: bool, least: int) -> Any:
        """The answer; pandas.NA where a null counts, or where there are fewer rows than a sum needs."""
        nulls = self._column.null_count
        if name in ("any", "all"):
            is_decided = (name == "any") in self._column  # a true row decides any, a false one all
            return pandas.NA if nulls and not skipna and not is_decided else is_decided == (name == "any")
        if nulls and not skipna or name == "sum" and len(self) - nulls < least:
            return pandas.NA
        answer = getattr(self._column, name)()
        return pandas.NA if answer is None else answer

    # ---- Comparisons ----

    def _compared(self, sign: str, other: Any) -> Any:
        if isinstance(other, (pandas.Series, pandas.Index, pandas.DataFrame)):
            return NotImplemented
        if not pandas.api.types.is_list_like(other):
            return self._compared_with_one(sign, None if pandas.isna(other) else other)
        if len(other) != len(self):
            raise ValueError("Lengths must match to compare")
        try:
            right = type(self)(other, self.dtype).column
        except (TypeError, ValueError, OverflowError):  # floats, or numbers that the type does not have
            return self._compared_by_rows(sign, other)
        return _mask_of(self._column.compare(sign, right))

    def _compared_with_one(self, sign: str, other: Any) -> Any:
        try:
            return _mask_of(self._column.compare(sign, other))
        except TypeError:  # of another type, and yet == and != are asked of any two
            if sign not in ("==", "!="):
                raise
            return self._compared_by_rows(sign, repeat(other))

    def _compared_by_rows(self, sign: str, other: Iterable[Any]) -> Any:
        """What Python says of each two, which is exact where NumPy makes a float of an integer first."""
        pairs = zip(self, (two.item() if isinstance(two, numpy.generic) else two for two in other))
        rows = [pandas.NA if one is pandas.NA or _is_na(two) else _SIGNS[sign](one, two) for one, two in pairs]
        return pandas.array(rows, dtype="boolean")

    def __eq__(self, other: Any) -> Any:
        return self._compared("==", other)

    def __ne__(self, other: Any) -> Any:
        return self._compared("!=", other)

    def __lt__(self, other: Any) -> Any:
        return self._compared("<", other)

    def __le__(self, other: Any) -> Any:
        return self._compared("<=", other)

    def __gt__(self, other: Any) -> Any:
        return self._compared(">", other)

    def __ge__(self, other: Any) -> Any:
        return self._compared(">=", other)


_SIGNS = {
    "==": operator.eq, "!=": operator.ne, "<": operator.lt, "<=": operator.le, ">": operator.gt, ">=": operator.ge,
}


def _mask_of(mask: Column) -> Any:
    """A mask as a boolean array of pandas."""
    rows, missing = _copying._stored(mask._flat())
    return pandas.arrays.BooleanArray(rows.copy(), numpy.zeros(len(rows), bool) if missing is None else missing)


def _is_na(row: Any) -> bool:
    return bool(pandas.api.types.is_scalar(row) and pandas.isna(row))


_READERS: dict[type, Callable[[str], Any]] = {
    int: int, bool: lambda text: {"True": True, "False": False}[str(text)], Decimal: Decimal, str: str,
    bytes: lambda text: text.encode(),
}


def _dtype_of(dtype: Any) -> RunEndDtype:
    if isinstance(dtype, RunEndDtype):
        return dtype
    is_name = isinstance(dtype, str) and dtype.startswith("runend[")
    return RunEndDtype.construct_from_string(dtype) if is_name else RunEndDtype(dtype)


def _column_of(rows: Any, asked: Optional[str]) -> Column:
    """The column of rows of any sort, in which all that pandas takes as missing is null."""
    if isinstance(rows, Column):
        return rows if asked is None or rows.type.rstrip("?") == asked else rows.cast(asked + "?")
    given = getattr(rows, "array", rows) if isinstance(rows, (pandas.Series, pandas.Index)) else rows
    if isinstance(given, RunEndArray):
        column: Column = (given if asked is None else given.astype(RunEndDtype(asked))).column
        return column
    dtype = getattr(given, "dtype", None)
    if getattr(getattr(dtype, "numpy_dtype", dtype), "kind", "O") in "iub":  # of NumPy, or an array of pandas over one
        return Column.of(given, asked)
    if not pandas.api.types.is_list_like(given):
        raise TypeError(f"RunEndArray takes rows or a Column, not {in_words(rows)}")
    listed = [None if _is_na(row) else row for row in given]
    if asked is None and all(row is None for row in listed):
        raise ValueError("no row shows a type: name one, as RunEndArray(rows, 'i64')")
    return Column.of(listed, asked)


def _without_ellipsis(item: tuple[Any, ...]) -> Any:
    """The one key of a tuple, next to which there may be an ellipsis."""
    keys = [key for key in item if key is not Ellipsis]
    if len(keys) > 1 or len(item) > 2:
        raise IndexError("too many indices for array.")
    return keys[0] if keys else Ellipsis


def _chosen(column: Column, key: Any) -> Column:
    """The rows of a mask or at indices, of which negative ones count from the end."""
    if key.dtype == bool:
        return column.filter(key)
    rows = len(column)
    outside = key[(key < -rows) | (key >= rows)]
    if len(outside):
        raise IndexError(f"index {outside[0]} is out of bounds for axis 0 with size {rows}")
    return column.take(numpy.where(key < 0, key + rows, key).astype(numpy.uint64))


def _zero(column: Column) -> Any:
    """A value of the type of a column."""
    return _ZEROS[RunEndDtype(column.type).type]


_ZEROS: dict[type, Any] = {int: 0, bool: False, str: "", bytes: b"", Decimal: Decimal(0)}
