"""A column: rows of one type, each a value or null, flat, as one constant, or as runs."""
from __future__ import annotations

import array
import ctypes
import sys
from collections.abc import Iterator
from typing import TYPE_CHECKING, Any, Optional

from . import (
    _arrow, _casting, _comparing, _copying, _files, _float_columns, _floats, _indexing, _lists, _making, _other_names, _pairs,
    _questions, _reading, _rows, _runs, _showing, _sorting, _statistics, _times, _totals, _ufuncs,
)
from ._library import Handle, Kind, ask, calls, session
from ._runs import Run
from ._types import FORMS, LETTERS, SIGNED, TYPES, kind_of, text_of
from ._values import Scalar, is_missing, passed, row_of, size_of, whole
from .errors import NoColumn, Unsupported, in_words
from .groups import Groups
from .logical import LogicalType, asked_type, storage_of

_UNREAD: Any = object()


class Column(_comparing.Comparisons, _pairs.Pairs, _ufuncs.Ufuncs):
    """Rows of one type, each a value or null. What a command makes is a new column; the old one stays as it was.

    A column is freed by `with`, by `free()`, or when nothing refers to it; each call on one that was freed is refused
    as NoColumn. Threads may use one column at once: calls over many rows release the interpreter's lock.
    """

    __slots__ = ("_handle", "_as_parameter_", "_meant", "__weakref__")
    _handle: Handle
    _as_parameter_: Any  # what ctypes passes for a column, which it keeps alive during the call
    _meant: Optional[LogicalType]  # what the format of the handle says, once it has been read

    def __init__(self, *_: object, **__: object) -> None:
        raise TypeError("Column.of(rows) makes a column; so do from_buffer, from_runs, from_arrow and from_record")

    # ---- Life ----

    @classmethod
    def _owning(cls, handle: Handle) -> Column:
        column = cls.__new__(cls)
        column._handle, column._as_parameter_, column._meant = handle, ctypes.pointer(handle), _UNREAD
        return column

    @classmethod
    def _made(cls, call: Any, *arguments: Any) -> Column:
        column = cls._owning(Handle())
        ask(call, *arguments, column._handle)
        return column

    def _meaning(self, logical: Optional[LogicalType]) -> Column:
        """The column under a logical type, or under none; itself where it is."""
        if logical == self.logical_type:
            return self
        format = b"" if logical is None else logical.format.encode()
        return self._made(calls.hv_with_type, self, format, len(format))

    def _there(self) -> Column:
        """The column, for calls that refuse nothing. The others refuse a freed one themselves."""
        if self.freed:
            raise NoColumn()
        return self

    def _beside(self, other: Column) -> Column:
        """The other column of a call. A call takes two handles, so a column that is passed twice is copied."""
        return self.copy() if other is self else _column(other)

    def free(self) -> None:
        """Frees the column now. From then on each call on it is refused, except this one and `freed`."""
        calls.hv_free(self._handle)

    @property
    def freed(self) -> bool:
        return not self._handle.at

    def __del__(self, free: Any = calls.hv_free) -> None:  # kept here: modules are emptied before the last columns
        if hasattr(self, "_handle"):
            free(self._handle)

    def __enter__(self) -> Column:
        return self._there()

    def __exit__(self, *_: object) -> None:
        self.free()

    def copy(self) -> Column:
        """The same column in the same form, which is freed by itself."""
        return self._made(calls.hv_clone, self)

    def compact(self) -> Column:
        """A copy in the same form that shares no buffer but texts' bytes: a small slice keeps a whole column's."""
        return self._made(calls.hv_compact, self)

    def __copy__(self) -> Column:
        return self.copy()

    def __deepcopy__(self, _: Any) -> Column:
        return self.copy()

    def __reduce__(self) -> Any:
        return _copying.reduced(self)

    def __sizeof__(self) -> int:
        """How many bytes the column and what it shows take, as sys.getsizeof and Dask ask for it."""
        return object.__sizeof__(self) + int(calls.hv_bytes_used(self._handle))

    def __dask_tokenize__(self) -> tuple[str, str]:
        return _copying.token(self)

    if not TYPE_CHECKING:  # which would take any name for one of a column

        def __getattr__(self, name: str) -> Any:
            if name == "_data":
                raise _ufuncs.refused_as_masked()
            raise _other_names.refused(self, name, _other_names.OF_COLUMNS)

    # ---- Making ----

    @classmethod
    def of(cls, rows: Any, type: Any = None) -> Column:
        """The column of a list, any iterable, or an array of NumPy, pandas or an Arrow library; None, pandas.NA and
        what is masked or missing are null.

        The type is inferred where none is given: integers are i64 (u64 where one needs it) or as the array has
        them, decimal.Decimal a decimal of 38 digits with the places that the rows need, then bool, utf8 and binary;
        floats, dates, times, datetimes and timedeltas have a `logical_type`. A type is given as 'i32', 'float64',
        'decimal(10, 2)', 'timestamp[us, UTC]', int, str or a dtype, and may be null where a row is; 'i32?' always. A
        NaN is a row like any other, but where pandas calls it missing.
        """
        asked, logical = (None, None) if type is None else asked_type(type)
        if isinstance(rows, str):
            raise TypeError("rows come first, then their type: Column.of([1, 2], 'i64')")
        is_array = isinstance(rows, (array.array, memoryview, bytes, bytearray)) or _making.is_array(rows)
        if is_array and (asked is None or not _making.shows_no_type(rows)):
            column = cls._of_array(rows)
            return column if asked is None else column._as(asked, logical)
        rows = _making.listed(rows)
        logical = _times.inferred(rows) if asked is None else logical
        if logical is not None:
            numbers = _times.stored_rows(logical, rows)
            return cls._made(*_making.flat_of(numbers, asked or storage_of(logical)))._meaning(logical)
        return cls._made(*_making.flat_of(rows, _making.inferred(rows) if asked is None else asked))

    @classmethod
    def _of_array(cls, rows: Any) -> Column:
        if isinstance(rows, Column):
            return rows.copy()
        if hasattr(getattr(rows, "dtype", None), "categories"):
            codes, values = _making.coded(rows)
            return cls._made(*codes).take_from(cls._of_array(values))
        floats = _float_columns.of_array(cls, rows)
        if floats is not None:
            return floats
        timed = _making.of_timed(rows)
        if timed is not None:
            return cls._made(*timed[0])._meaning(timed[1])
        if hasattr(rows, "isna"):
            return cls._made(*_making.of_pandas(rows))
        if _making.is_arrow(rows):
            return cls.from_arrow(rows)
        return cls._made(*_making.of_numpy(rows)) if hasattr(rows, "dtype") else cls.from_buffer(rows)

    def _as(self, asked: Kind, logical: Optional[LogicalType] = None, call: str = "Column.of") -> Column:
        """The same rows as a type, which may be null where a row is, or where it says so."""
        asked.nullable = asked.nullable or self._kind.nullable
        if logical is not None or self._logical is not None:
            return _casting.recounted(self, asked, logical, call)
        if bytes(asked) == bytes(self._kind):
            return self
        same_sort = TYPES[asked.number] in LETTERS and TYPES[self._kind.number] in LETTERS
        if same_sort or asked.number == self._kind.number and TYPES[asked.number] != "decimal":
            return _casting.cast(self, asked, call)
        return self._made(*_making.flat_of(self.to_list(), asked))

    @classmethod
    def from_buffer(cls, items: Any, valid: Optional[Any] = None) -> Column:
        """The flat column of a buffer of integers: an array, a memoryview, a NumPy array. Null where a flag of
        `valid` is false. The items are copied."""
        validity = _making.validity_of(_making.flags_of(valid), len(_making.view_of(items)))
        return cls._made(*_making.numbers_of(items, validity))

    @classmethod
    def from_runs(cls, ends: Any, values: Any, offset: int = 0, rows: Optional[int] = None) -> Column:
        """The runs that end before these rows, with a value for each, of which `rows` rows from row `offset` on are
        shown; without `rows` all to the last end. Both are copied; ends are integers without sign. More than 64 levels
        of runs are refused, as `Unsupported`."""
        end_column = ends if isinstance(ends, Column) else cls.of(ends, None if hasattr(ends, "dtype") else "u64")
        if end_column.type in SIGNED:
            end_column = end_column._as(kind_of("u64"), None, "from_runs, ends")
        value_column = values if isinstance(values, Column) else cls.of(values)
        start = size_of(offset, "the offset")
        if rows is None:
            rows = max(0, whole(end_column[-1], "an end") - start) if len(end_column) else 0
        count = size_of(rows, "the number of rows")
        return cls._made(calls.hv_runs, end_column, end_column._beside(value_column), start, count)

    @classmethod
    def constant(cls, value: Scalar, rows: int, type: Any = None) -> Column:
        """The value in each of `rows` rows, in memory for one. The type is that of the value where none is given."""
        logical = _times.inferred([value])
        kind = storage_of(logical) if logical else _making.inferred(_making.listed([value])) if type is None else None
        if type is not None:
            kind, logical = asked_type(type)
        assert kind is not None
        kind.nullable = kind.nullable or is_missing(value)
        made = (kind, *passed(kind, _times.number_of(logical, value)), size_of(rows, "the number of rows"))
        return cls._made(calls.hv_constant, *made)._meaning(logical)

    @classmethod
    def from_lists(cls, elements: Any, offsets: Any, sizes: Any, valid: Any = None) -> Column:
        """Lists: row i is the sizes[i] elements from offsets[i] on, null where a flag of `valid` is false."""
        return _lists.made(cls.of(elements), offsets, sizes, valid)

    @classmethod
    def from_record(cls, type: Any, rows: int, record: bytes, ends: Column, values: Column) -> Column:
        """The run column of this many rows that a metadata record describes, over copies of ends and values."""
        count, data = size_of(rows, "the number of rows"), bytes(_making.view_of(record))
        passed_record = (kind_of(type), count, data or b"\0", len(data))
        return cls._made(calls.hv_deserialize, *passed_record, _column(ends), ends._beside(values))

    @classmethod
    def from_bytes(cls, message: bytes) -> Column:
        """The column that `to_bytes` wrote, in the form that it had, with its logical type. `BadMetadata` for other
        bytes. Files of earlier versions, which have a line before the message that says the type, are read too."""
        return _files.of_bytes(cls, bytes(_making.view_of(message)))  # of a number bytes() would make as many bytes

    @staticmethod
    def is_message(message: bytes) -> bool:
        """Whether the bytes are those of some column, so that `from_bytes` reads them. No column is made: memory is
        only taken for a copy of bytes that are not of the type `bytes`, or have a line of earlier versions."""
        return _files.is_message(bytes(_making.view_of(message)))

    @classmethod
    def load(cls, path: Any) -> Column:
        """The column that `save` wrote to a file. `BadMetadata` for a file of other bytes, OSError for none."""
        return _files.load(cls, path)

    @classmethod
    def from_arrow(cls, source: Any) -> Column:
        """A copy of what an object of any Arrow library holds, by its capsules (`__arrow_c_array__`, else
        `__arrow_c_stream__`, whose chunks become one column): an array, or a batch or table of one column."""
        columns = _arrow.import_columns(source, cls)
        if len(columns) != 1:
            raise ValueError(f"{len(columns)} columns ({', '.join(columns)}) and not one: see columns_from_arrow")
        return columns.popitem()[1]

    @classmethod
    def from_arrow_structs(cls, schema: Any, items: Any, child: Optional[int] = None) -> Column:
        """A copy of an array by the two structs of Arrow's C data interface, or their addresses, which stay the
        producer's; with `child`, of that column of a batch."""
        structs = (session, _address(schema), _address(items))
        logical = _arrow.logical_of(schema, child)
        return _arrow.of_structs(cls, *structs[1:], logical, None if child is None else size_of(child, "the child"))

    # ---- Commands ----

    def encode(self) -> Column:
        """The rows of integers in as few runs as possible; to_runs() serves every type but lists."""
        return self._made(calls.hv_encode, session, self)

    def to_runs(self) -> Column:
        """The rows of any type but lists in as few runs as possible."""
        return self._made(calls.hv_encode_rows, self)

    def reverse(self) -> Column:
        """The last row first, of any type but lists, in as few runs as possible; a constant stays one."""
        return self._made(calls.hv_reverse, self)

    def decode(self) -> Column:
        """The rows written out in a flat form."""
        return self._made(calls.hv_decode, session, self)

    def _flat(self) -> Column:
        return self if self.form == "flat" else self.decode()

    def slice(self, start: int, stop: int) -> Column:
        """The rows from `start` to `stop` - 1, all of which have to exist; `column[start:stop]` cuts as Python does."""
        return self._made(calls.hv_slice, session, self, size_of(start, "the start"), size_of(stop, "the stop"))

    def cast(self, type: Any, nullable: Optional[bool] = None, *, rounded: bool = False) -> Column:
        """Each row as the same value of a type: refused at the first row that does not fit, or that is null where the
        type has no null. 'i8' has none, 'i8?' has, and so has each type with `nullable`. A cast of integers to
        'timestamp[us]' says what they count; one of timestamps counts the same times, exactly, in another unit. Floats
        are cast to floats and integers, and integers and decimals to floats, exactly; `rounded` takes the nearest float.
        Integers and decimals are cast to decimals of any scale, and decimals to integers; texts to the integers that
        they are the digits of, integers to texts, and booleans to 1 and 0."""
        kind, logical = asked_type(type)
        kind.nullable = kind.nullable if nullable is None else nullable
        if logical is not None or self._logical is not None or rounded:
            return _casting.recounted(self, kind, logical, f"cast to {logical or text_of(kind)}", bool(rounded))
        return _casting.converted(self, kind)

    def take(self, indices: Any) -> Column:
        """The rows at the indices: a column, a list, or an array; null at a null index. In lists and arrays negative
        indices count from the end."""
        return self._made(calls.hv_take, session, self, self._beside(_indexing.indices_of(self, indices)))

    def filter(self, mask: Any) -> Column:
        """The rows at which the mask, a column in any form, a list or an array, is true; null selects nothing."""
        return self._made(calls.hv_filter, session, self, self._beside(_indexing.mask_of(self, mask)))

    def take_from(self, dictionary: Any) -> Column:
        """The rows of the dictionary that these codes number from 0; null stays null."""
        values = dictionary if isinstance(dictionary, Column) else self.of(dictionary)
        return self._made(calls.hv_take_from, session, self, self._beside(values))

    def fill(self, value: Any) -> Column:
        """A value in place of each null, after which the type has no null."""
        return self._made(calls.hv_fill, session, self, *passed(self._kind, _times.number_of(self._logical, value)))

    def is_null(self) -> Column:
        """Whether each row is null: a mask without null."""
        return ~self.is_valid() if _lists.is_list(self) else self._made(calls.hv_is_null, self)

    def is_valid(self) -> Column:
        """Whether each row is not null: a mask without null."""
        return _rows.is_valid(self)

    def drop_null(self) -> Column:
        """The rows that are not null."""
        return self.filter(self.is_valid())

    def where(self, mask: Any, other: Any) -> Column:
        """The row where the mask is true, and else that of `other`, a column of the same type, or of decimals of any
        scale, or one value; a null in the mask chooses the other."""
        return _rows.chosen(self, mask, other)

    def coalesce(self, other: Any) -> Column:
        """The row, or where it is null that of another column of the same integers, of booleans or of decimals, or one
        value. Decimals of two scales are picked from at the greater one."""
        return _pairs.worked(self, "coalesce", other)

    def lesser(self, other: Any) -> Column:
        """The lesser of the row and that of another column, or one value, as `coalesce` takes them; null where either
        is null. `min()` is the least of all rows."""
        return _pairs.worked(self, "lesser", other)

    def greater(self, other: Any) -> Column:
        """The greater of the two, in the same way."""
        return _pairs.worked(self, "greater", other)

    def isin(self, values: Any) -> Column:
        """Whether each row is one of some values: a mask without null. A null row is where None is among them."""
        return _rows.is_among(self, values)

    def shift(self, rows: int = 1) -> Column:
        """Each row as the one that is this number of rows before it (after it, where the number is negative), and null
        where there is none."""
        return _rows.shifted(self, rows)

    def sort(self, descending: bool = False, nulls: str = "first") -> Column:
        """The rows in order, in runs: the runs are sorted, and equal ones joined, so that there is one for each value.
        Nulls come 'first' or 'last' in either order; texts are ordered by their bytes, floats by their total order: NaN
        is above infinity, and -0.0 below 0.0."""
        return _sorting.sorted_rows(self, descending, nulls)

    def nlargest(self, count: int) -> Column:
        """As many of the greatest rows, in descending order, in runs: null and NaN are left out. Each run is looked at
        once, and as many are held as are asked for."""
        return _statistics.extremes(self, count, True)

    def nsmallest(self, count: int) -> Column:
        """As many of the least rows, in ascending order, in the same way."""
        return _statistics.extremes(self, count, False)

    def diff(self, rows: int = 1) -> Column:
        """Each row minus the one that is this number of rows before it, null where there is none or either is null.
        OverflowError names the first row whose difference the type does not have."""
        return self - self.shift(rows)

    def cumsum(self) -> Column:
        """The sum of the rows up to each row, 'i64', or 'u64' of unsigned rows: null rows stay null and are skipped, as
        in pandas and Arrow. OverflowError names the row with which it leaves 64 bits. Unlike `running_totals` it takes
        a step and 8 bytes for each row that is not 0 or null, and is flat where these are more than half."""
        return _totals.of_rows(self)

    # ---- Questions ----

    def __len__(self) -> int:
        """How many rows. Runs may have 2**63 and more, which len() cannot answer."""
        if self._length > sys.maxsize:
            raise OverflowError(f"{self._length} rows are more than len() can answer")
        return self._length

    def __bool__(self) -> bool:
        """Whether there is a row. A mask is refused, since `if a == b` asks for its rows: any(), all() or equals()."""
        if TYPES[self._kind.number] == "bool":
            raise ValueError(
                "a mask is not true or false: ask mask.any(), mask.all() or len(mask), and a.equals(b); two conditions "
                "are (a > 1) & (a < 5)"
            )
        return self._length > 0

    def __contains__(self, value: Any) -> bool:
        """Whether a row has this value, or is null for None; of runs each value is looked at once."""
        return _questions.has(self, value)

    @property
    def _length(self) -> int:
        return int(calls.hv_length(self._there()))

    @property
    def _kind(self) -> Kind:
        kind: Kind = calls.hv_kind_of(self._there())
        return kind

    @property
    def type(self) -> str:
        """The type as text: 'i64', 'decimal(10, 2)', and 'i64?' where rows may be null."""
        return text_of(self._kind)

    @property
    def logical_type(self) -> Optional[LogicalType]:
        """What the integers mean, as 'timestamp[us, UTC]' by str: dates, times, timestamps, durations. None where
        they mean themselves, and for columns of other types. One of the sort 'other' came with the bytes, and is kept:
        the rows are those that are stored."""
        return self._there()._meaning_read()

    def _meaning_read(self) -> Optional[LogicalType]:
        if self._meant is _UNREAD:
            self._meant = None if self.freed else _reading.meaning(self)
        return self._meant

    @property
    def _logical(self) -> Optional[LogicalType]:
        """What the rows are read as: no type of the sort 'other'."""
        logical = self._meaning_read()
        return None if logical is None or logical.sort == "other" else logical

    def storage(self) -> Column:
        """The same column of the integers that its rows are stored as."""
        return self._made(calls.hv_with_type, self, b"", 0)

    @property
    def dtype(self) -> Any:
        """The dtype of `to_numpy()`: that of the type for integers and booleans, else that of objects."""
        return _copying.dtype(self)

    @property
    def shape(self) -> tuple[int]:
        """The number of rows, as NumPy has it of one dimension."""
        return (self._length,)

    @property
    def ndim(self) -> int:
        return len(self.shape)

    @property
    def nullable(self) -> bool:
        """Whether the type has null."""
        return bool(self._kind.nullable)

    @property
    def form(self) -> str:
        """'flat', 'constant', 'lists' or 'runs'."""
        return FORMS[calls.hv_form(self._there())]

    @property
    def offset(self) -> int:
        """How many rows of the runs come before the window; 0 in other forms."""
        return int(calls.hv_offset(self._there()))

    @property
    def null_count(self) -> int:
        """How many rows are null, counted by runs."""
        return int(calls.hv_null_count(self._there()))

    def sum(self, axis: None = None, dtype: None = None, out: None = None) -> Any:
        """The sum of the rows that are not null, 0 where there is none; a duration of durations, and of no other times.
        OverflowError where it leaves 64 bits, or of decimals 38 digits, on the way from row to row, which names the row. A
        sum of floats is exact and rounded once, an infinity past the finite floats, and NaN where a row is or both
        infinities are. What numpy.sum passes is served only as None, as of `mean`, `min`, `max`, `any` and `all`."""
        _statistics.refuse_of_numpy("sum", axis, dtype, out)
        return _questions.total(self)

    def mean(self, axis: None = None, dtype: None = None, out: None = None) -> Optional[float]:
        """The sum by the number of rows that are not null, of integers, decimals and floats. None where there is none. That
        of integers and decimals is exact and rounded once, also where the sum is past 64 bits, or 38 digits."""
        _statistics.refuse_of_numpy("mean", axis, dtype, out)
        return _statistics.mean(self)

    def var(self, ddof: int = 1, axis: None = None, dtype: None = None, out: None = None) -> Optional[float]:
        """The variance of integers and floats: the sum of squared distances from the mean by the number of rows that
        are not null less `ddof`, exact and rounded once. None where that number is not above 0, NaN where a row is NaN
        or infinite. The others are what numpy.var passes, and only None is served."""
        _statistics.refuse_of_numpy("var", axis, dtype, out)
        return _statistics.variance(self, ddof)

    def std(self, ddof: int = 1, axis: None = None, dtype: None = None, out: None = None) -> Optional[float]:
        """The standard deviation, the root of `var`."""
        _statistics.refuse_of_numpy("std", axis, dtype, out)
        return _statistics.root(_statistics.variance(self, ddof))

    def quantile(self, q: Any = 0.5, interpolation: str = "linear") -> Any:
        """What a part `q` of the rows is below, of rows that are neither null nor NaN, or one for each of a list; None
        where there is none. Between two rows it is exact and rounded to a float ('linear', 'midpoint'), which integers
        and floats have, or a row of any type but lists ('lower', 'higher', 'nearest'). The runs are sorted."""
        return _statistics.quantile(self, q, interpolation)

    def median(self) -> Scalar:
        """The middle of the rows of integers or floats, `quantile(0.5)`."""
        return _statistics.median(self)

    def group_by(self, keys: Any) -> Groups:
        """The rows of this column by runs of equal neighbouring rows of another, a column or what `Column.of` takes:
        `values.group_by(keys).sum()` is the keys of the groups and their sums."""
        return Groups(keys if isinstance(keys, Column) else self.of(keys), self._there())

    def running_totals(self) -> tuple[Column, Column]:
        """Where each run of equal neighbouring rows ends, null equal to null, and the sum of all rows before that end,
        'i64?' or 'u64?', null where all of them are, both flat: a step and 8 bytes for each run. Integers and durations
        have them."""
        return _totals.at_ends(self)

    def equals(self, other: Column) -> bool:
        """Whether both have the same type and the same rows, whatever their forms, null equal to null."""
        return _rows.is_same(self, _column(other))

    def any(self, axis: None = None, out: None = None) -> bool:
        """Whether a row of booleans is true."""
        _statistics.refuse_of_numpy("any", axis, out)
        return _rows.truths_of(self, "any").max() is True

    def all(self, axis: None = None, out: None = None) -> bool:
        """Whether no row of booleans is false: null is not."""
        _statistics.refuse_of_numpy("all", axis, out)
        return _rows.truths_of(self, "all").min() is not False

    def value_counts(self) -> tuple[Column, Column]:
        """Each value that a row has, null too, in the order of their first rows, and how many rows have it, 'u64'."""
        return _rows.counted(self)

    def unique(self) -> Column:
        """Each value that a row has, null too, in the order of their first rows."""
        return _rows.counted(self)[0]

    def hash_rows(self) -> int:
        """A hash of the rows, 64 bits, the same for all columns with these rows, in whatever forms and types."""
        return _questions.row_hash(self)

    def is_constant(self) -> bool:
        """Whether all rows are equal, null equal to null."""
        return _questions.truth(self, calls.hv_is_constant)

    def is_sorted(self, strict: bool = False) -> bool:
        """Whether no row is above the next (strict: whether each is below it), null below all else."""
        return _questions.truth(self, calls.hv_is_sorted, bool(strict))

    def min(self, skip_nan: bool = True, axis: None = None, out: None = None) -> Scalar:
        """The least row that is not null. None where there is none. NaNs are left out, or, without `skip_nan`, the answer
        is NaN where a row is."""
        _statistics.refuse_of_numpy("min", axis, out)
        if _floats.is_float(self._logical):
            return self.min_max(skip_nan)[0]
        return _questions.value_of(self, calls.hv_extreme, session, self, 0)

    def max(self, skip_nan: bool = True, axis: None = None, out: None = None) -> Scalar:
        """The greatest row that is not null. None where there is none. NaNs are left out, or, without `skip_nan`, the
        answer is NaN where a row is."""
        _statistics.refuse_of_numpy("max", axis, out)
        if _floats.is_float(self._logical):
            return self.min_max(skip_nan)[1]
        return _questions.value_of(self, calls.hv_extreme, session, self, 1)

    def min_max(self, skip_nan: bool = True) -> tuple[Scalar, Scalar]:
        """Both at once."""
        if not skip_nan and _floats.is_float(self._logical) and _float_columns.has_nan(self):
            return float("nan"), float("nan")
        return _questions.least_and_greatest(self)

    def __getitem__(self, key: Any) -> Any:
        """A row by its number, from the end where it is negative; else a column: of a slice, of a mask's rows (a
        column, a list, or an array of booleans), or of the rows at indices."""
        return _indexing.selected(self, key)

    def at(self, row: int) -> Any:
        """The row, from the end where it is negative."""
        return self._at(row_of(row, self._length))

    def _at(self, row: int) -> Any:
        return _lists.row(self, row) if _lists.is_list(self) else _questions.value_of(self, calls.hv_at, self, row)

    # ---- Reading ----

    def __iter__(self) -> Iterator[Scalar]:
        """Row by row, read in blocks; of runs each value is read once."""
        return _runs.rows(self)

    def blocks(self, rows: int = _reading.BLOCK) -> Iterator[Column]:
        """The column in pieces of `rows` rows, the last one of what is left."""
        step = size_of(rows, "the number of rows of a block")
        if step == 0:
            raise ValueError("a block has at least one row")
        length = self._length
        return (self.slice(start, min(start + step, length)) for start in range(0, length, step))

    def split(self, parts: int, by: str = "rows") -> list[Column]:
        """The column in this many windows, which share its buffers: of as many rows each, give or take one, or with
        `by="runs"` of as many runs, so that work by runs is shared out evenly. Some are empty where there are fewer."""
        return _runs.split(self, parts, by)

    def to_list(self) -> list[Scalar]:
        """The rows as values of Python: int, bool, decimal.Decimal, str, bytes, and None for null."""
        return list(self)

    tolist = to_list  # as NumPy and pandas call it
    to_pylist = to_list  # as PyArrow calls it

    def to_numpy(self, null: Any = None) -> Any:
        """The rows as a NumPy array of the type's dtype; of decimals, texts and bytes an array of objects, in which
        null is None. Integers and booleans that may be null are a masked array, or, with `null`, a plain one
        that has this value in place of null."""
        return _copying.to_numpy(self, null)

    def __array__(self, dtype: Any = None, copy: Any = None) -> Any:
        """As NumPy asks for it: of objects, with None, where a row is null, since a mask would be lost; of integers
        with pandas.NA where pandas is loaded, whose Series would else have floats."""
        if copy is False:
            raise ValueError("the rows of a column are copied for NumPy")
        return _copying.as_numpy(self, dtype)

    def to_pandas(self) -> Any:
        """The rows as a pandas.Series, of a dtype with a mask (Int64, boolean) where they may be null."""
        return _copying.to_pandas(self)

    def to_array(self) -> array.array[Any]:
        """The numbers of a column of integers in any form, which NumPy reads without a copy; a null row may have any
        number. It has the floats of a column of floats of 32 or 64 bits."""
        if TYPES[self._kind.number] not in LETTERS:
            raise Unsupported().about("to_array", self)
        if _floats.is_float(self._logical):
            return _float_columns.to_array(self)
        return _reading.numbers(self, 0, len(self))

    def validity(self) -> bytes:
        """Arrow's bitmap: row i is valid where bit i % 8 of byte i // 8 is 1."""
        return _reading.validity(self, 0, len(self))

    def truths(self) -> bytes:
        """The booleans as a bitmap; a null row may have either."""
        return _reading.truths(self, 0, len(self))

    # ---- Runs ----

    def runs(self) -> Iterator[Run]:
        """The runs that the column shows, each as (start, stop, value), counted from its first row: the stored ones of
        runs and constants, as few as possible of a flat column."""
        return _runs.stored_runs(self if self.form in ("runs", "constant") else self.to_runs())

    def run_count(self) -> int:
        """How many runs runs() gives."""
        if self.form == "constant":
            return min(1, self._length)
        return len(_runs.span(self if self.form == "runs" else self.to_runs()))

    def ends(self) -> Column:
        """The stored ends of a run column, also before its window; the end of a constant's one run."""
        if self.form == "constant":
            return self.of([self._length] if self._length else [], "u64")
        return self._made(calls.hv_ends, self)

    def values(self) -> Column:
        """The value of each stored run."""
        if self.form == "constant":
            return self.slice(0, min(1, self._length)).decode()
        return self._made(calls.hv_values, self)

    def record(self) -> bytes:
        """The metadata record of a run column."""
        data, size = ctypes.create_string_buffer(64), ctypes.c_size_t()
        ask(calls.hv_serialize, self, data, len(data), size)
        return data.raw[: size.value]

    def to_bytes(self) -> bytes:
        """The column as bytes, in the form that it has, to keep or to send: a message of the Protocol Buffers encoding,
        which keeps the logical type. Texts and bytes are read into one buffer. Only more than 16 levels of runs are
        refused, as `Unsupported`."""
        size = ctypes.c_size_t()
        ask(calls.hv_write_size, self, size)
        data = ctypes.create_string_buffer(size.value)
        ask(calls.hv_write, self, data, len(data), size)
        return data.raw

    def save(self, path: Any) -> None:
        """Writes the bytes of `to_bytes` to a file, which `load` reads. A file of this name is replaced at once when
        all is written, and stays as it was where that fails."""
        _files.save(self, path)

    @property
    def nbytes(self) -> int:
        """How many bytes the column takes for what it shows, in its form: numbers as wide as their type, bits eight to
        a byte, of texts and bytes 24 for each row and what the rows show; of runs the ends and the values."""
        return int(calls.hv_bytes_used(self._there()))

    # ---- Arrow ----

    def to_arrow(self, name: str = "", format: Optional[str] = None, dictionary: Optional[Column] = None) -> Any:
        """The column as the two structs of Arrow's C data interface, which `with` releases; a mover sets `release` to
        null. `format` is one of the type's, as 'tdD' of i32; with a `dictionary` these are codes over it."""
        return _arrow.export(self, name, format, dictionary)

    def __arrow_c_schema__(self) -> Any:
        return _arrow.schema_capsule(self)

    def __arrow_c_array__(self, requested_schema: Any = None) -> tuple[Any, Any]:
        return _arrow.array_capsules(self, requested_schema)

    def __arrow_c_stream__(self, requested_schema: Any = None) -> Any:
        return _arrow.stream_capsule(self, requested_schema)

    # ---- Looking ----

    def __repr__(self) -> str:
        return _showing.text(self)

    def _repr_html_(self) -> str:
        return _showing.html(self)


def _column(other: Any) -> Column:
    if not isinstance(other, Column):
        raise TypeError(f"a Column is expected here, not {in_words(other)}")
    return other


def _address(part: Any) -> int:
    if not isinstance(part, (int, ctypes.Structure)):
        raise TypeError(f"an ArrowSchema, an ArrowArray or an address is expected here, not {in_words(part)}")
    return part if isinstance(part, int) else ctypes.addressof(part)
