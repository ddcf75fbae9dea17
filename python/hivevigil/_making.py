"""From rows, buffers and NumPy arrays to the calls that make flat columns. A `Made` is a call and what it takes."""
from __future__ import annotations

import array
import ctypes
from collections.abc import Iterable, Sequence
from decimal import Decimal
from itertools import accumulate
from numbers import Integral
from operator import index
from typing import Any, Optional

from . import _time_arrays, _times
from ._library import NUMBERS, Kind, Pair, calls
from ._types import GREATEST_PRECISION, LETTERS, TYPES, checked_places, range_of
from ._values import NOT_FLOAT, checked_text, is_missing, is_missing_class, is_truth, is_whole, unscaled, why_not
from .errors import ColumnLength, in_words
from .logical import LogicalType, sort_of_class, storage_of

Made = tuple[Any, ...]
_DIGITS = bytes([48, 49]) + bytes(254)  # the bytes 0 and 1 as the letters 0 and 1
_FLAT, _NO_NULLS, _BY_BITS = 0, 1, 2


def bits_of(flags: Iterable[Any]) -> bytes:
    """Flags as bits, the first in the lowest bit of the first byte, and a byte where there are none."""
    if hasattr(flags, "dtype"):
        import numpy

        packed: bytes = numpy.packbits(numpy.asarray(flags, dtype=bool), bitorder="little").tobytes()
        return packed + b"\0"
    letters = bytes(map(bool, flags))[::-1].translate(_DIGITS)
    return int(letters or b"0", 2).to_bytes(len(letters) // 8 + 1, "little")


def flags_of(valid: Optional[Any]) -> Optional[Any]:
    """Flags that a caller gives, in which None, pandas.NA and what is masked are false."""
    if valid is None:
        return None
    if isinstance(valid, type) or not hasattr(valid, "dtype") or valid.dtype.kind == "O":
        return listed(valid, "flags")
    if valid.ndim != 1 or valid.dtype.kind not in "biu":
        raise TypeError(f"flags are booleans in one dimension, not {in_words(valid)}")
    if hasattr(valid, "isna"):
        return valid.to_numpy(dtype=bool, na_value=False)
    return valid.filled(False) if hasattr(valid, "filled") else valid


def validity_of(valid: Optional[Sequence[Any]], rows: int, nullable: bool = False) -> tuple[int, bytes, int, int]:
    """What the makers take: nulls, bits, their number of bytes, and the first bit."""
    if valid is None:
        return (_NO_NULLS if nullable else _FLAT), b"\0", 0, 0
    if len(valid) != rows:
        raise ColumnLength(rows, len(valid))
    bits = bits_of(valid)
    return _BY_BITS, bits, len(bits), 0


# ---- Rows as Python has them ----


def listed(rows: Any, what: str = "rows") -> list[Any]:
    """An iterable as a list, in which None is each null: pandas.NA, numpy.ma.masked, what pandas calls missing."""
    if hasattr(rows, "isna") and getattr(rows, "ndim", 1) == 1 and not isinstance(rows, type):
        return [None if missing else row for row, missing in zip(rows.astype(object), rows.isna())]
    try:
        if isinstance(rows, (str, bytes)) or isinstance(rows, memoryview) and rows.ndim != 1:
            raise TypeError
        iterator = iter(rows)  # refused of a number or a class
    except TypeError:
        raise TypeError(f"{what} are a list, another iterable, an array or a column, not {in_words(rows)}") from None
    given = list(iterator)
    missing = set(filter(is_missing_class, set(map(type, given)))) - {type(None)}
    return [None if type(row) in missing else row for row in given] if missing else given


def shows_no_type(rows: Any) -> bool:
    """Whether these are objects in one dimension, none or each of them missing."""
    if getattr(getattr(rows, "dtype", None), "kind", "") != "O" or getattr(rows, "ndim", 1) != 1:
        return False
    return bool(rows.isna().all()) if hasattr(rows, "isna") else all(map(is_missing, rows))


_SORTS = {"whole": "integers", "decimal": "decimals", "bool": "booleans", "utf8": "texts", "binary": "bytes"}


_TIMES = {"date", "time", "timestamp", "duration"}  # rows of these are counted before


def _sort_of(kind: type) -> Optional[str]:
    """What values of a class of Python are; None of a class that no column has values of."""
    if kind is bool or kind.__module__ == "numpy" and kind.__name__ in ("bool_", "bool"):
        return "bool"
    if sort_of_class(kind) is not None:  # timedelta64 is among NumPy's integers
        return sort_of_class(kind)
    for sort, classes in (("whole", Integral), ("decimal", Decimal), ("utf8", str)):
        if issubclass(kind, classes):
            return sort
    return "binary" if issubclass(kind, (bytes, bytearray, memoryview)) else None


def inferred(rows: Sequence[Any]) -> Kind:
    """The type of rows: i64, or u64 where a number needs it; a decimal with as many digits as there are; bool, utf8,
    binary."""
    present = [row for row in rows if row is not None]
    sorts = set(map(_sort_of, set(map(type, present))))
    nullable = len(present) < len(rows)
    if not sorts or sorts <= _TIMES and all(map(is_missing, present)):
        raise ValueError("no row tells a type: name one, as Column.of(rows, 'i64')")
    if sorts == {"whole", "decimal"}:
        sorts = {"decimal"}
    if len(sorts) > 1 or None in sorts:
        raise TypeError(_misfit(rows))
    (sort,) = sorts
    if sort == "decimal":
        return Kind(TYPES.index("decimal"), nullable, *_places_of(rows))
    return Kind(TYPES.index(_whole_type_of(present) if sort == "whole" else str(sort)), nullable, 0, 0)


def _misfit(rows: Sequence[Any]) -> str:
    """Which row no column has, or none that has the rows before it."""
    first: Optional[tuple[int, Any, str]] = None
    for number, row in enumerate(rows):
        sort = row if row is None else _sort_of(type(row))
        if row is not None and sort is None:
            hint = "; Column.from_lists makes lists" if isinstance(row, (list, tuple)) else why_not(row)
            return f"row {number} is {in_words(row)}, of class {type(row).__name__}, which no column has{hint}"
        if first and sort and {sort, first[2]} not in ({sort}, {"whole", "decimal"}, {"whole", "float"}):
            return f"row {first[0]} is {in_words(first[1])} and row {number} is {in_words(row)}: a column has one type"
        first = (number, row, sort) if sort and (not first or sort in ("decimal", "float")) else first
    return "the rows are of several types"


def _whole_type_of(present: Sequence[int]) -> str:
    least, greatest = int(min(present)), int(max(present))
    for name in ("i64", "u64"):
        if least in range_of(name) and greatest in range_of(name):
            return name
    alone = [number for number in (least, greatest) if number not in range_of("i64") and number not in range_of("u64")]
    raise OverflowError(
        f"no type of integers has {in_words(alone[0]) if alone else f'both {in_words(least)} and {in_words(greatest)}'}"
    )


def _places_of(rows: Sequence[Any]) -> tuple[int, int]:
    """As many digits as a decimal has, so that other numbers fit, and the least scale that has all places of the
    rows."""
    parts = [Decimal(0 if row is None else row).as_tuple() for row in rows]
    for number, part in enumerate(parts):
        if not isinstance(part.exponent, int):
            raise ValueError(f"row {number} is {rows[number]}: a decimal column has neither NaN nor infinity")
    exponents = [int(part.exponent) for part in parts]
    scale = max(0, -min(exponents))
    precision = max(len(part.digits) + exponent + scale for part, exponent in zip(parts, exponents))
    if max(precision, scale) > GREATEST_PRECISION:
        raise OverflowError(f"the rows need {max(precision, scale)} digits, and a decimal has {GREATEST_PRECISION}")
    return checked_places(GREATEST_PRECISION, scale)


def flat_of(rows: Sequence[Any], kind: Kind) -> Made:
    """The flat column of rows of a type; None is null."""
    flags = [row is not None for row in rows]
    all_valid = all(flags)
    name = TYPES[kind.number]
    validity = validity_of(None if all_valid else flags, len(rows), bool(kind.nullable))
    if name in LETTERS:
        return numbers_of(numbers(rows if all_valid else [0 if row is None else row for row in rows], name), validity)
    if name == "bool":
        return truths_of(bits_of(_truths(rows)), len(rows), validity)
    if name == "decimal":
        return decimals_of(_pairs(rows, kind), kind, validity)
    return texts_of(_encoded(rows, name), name, validity)


def numbers(rows: Sequence[Any], name: str, what: str = "row") -> array.array[int]:
    """Integers as a type of C has them."""
    try:
        return array.array(LETTERS[name], rows)
    except (OverflowError, TypeError):
        for number, row in enumerate(rows):
            if not (isinstance(row, bool) or is_whole(row)):
                raise TypeError(f"{what} {number} is {in_words(row)}, not an integer{why_not(row)}") from None
            if index(row) not in range_of(name):
                raise OverflowError(f"{what} {number} is {in_words(index(row))}, which does not fit {name}") from None
        raise


def _truths(rows: Sequence[Any]) -> list[bool]:
    for number, row in enumerate(rows):
        if row is not None and not is_truth(row):
            raise TypeError(f"row {number} is {in_words(row)}, not a boolean")
    return list(map(bool, rows))


def _pairs(rows: Sequence[Any], kind: Kind) -> bytes:
    parts, precision, scale = [], kind.precision, kind.scale
    try:
        for row in rows:
            number = 0 if row is None else unscaled(row, precision, scale)
            parts.append(number.to_bytes(16, "little", signed=True))
    except (OverflowError, TypeError, ValueError) as error:
        raise type(error)(f"row {len(parts)}: {error}") from None
    return b"".join(parts)


def _encoded(rows: Sequence[Any], name: str) -> list[bytes]:
    wanted: Any = str if name == "utf8" else (bytes, bytearray, memoryview)
    for number, row in enumerate(rows):
        if row is not None and not isinstance(row, wanted):
            raise TypeError(f"row {number} is {in_words(row)}, not {'a text' if name == 'utf8' else 'bytes'}")
    if name == "binary":
        return [b"" if row is None else bytes(row) for row in rows]
    try:
        return [b"" if row is None else row.encode() for row in rows]
    except UnicodeEncodeError:
        return [checked_text(row or "", f"row {number}: ") for number, row in enumerate(rows)]


# ---- Items as C has them ----


def numbers_of(items: Any, validity: tuple[Any, ...]) -> Made:
    """A buffer of integers in one dimension."""
    view = view_of(items)
    name = type_of_view(view)
    if not view.contiguous:
        view = memoryview(view.tobytes()).cast(LETTERS[name])
    number, rows = NUMBERS[name], view.shape[0] if view.shape else 0
    if rows == 0:
        passed = (number * 1)()
    else:
        passed = (number * rows).from_buffer_copy(view) if view.readonly else (number * rows).from_buffer(view)
    return getattr(calls, "hv_" + name), passed, rows, *validity


def truths_of(bits: bytes, rows: int, validity: tuple[Any, ...]) -> Made:
    return calls.hv_bools, bits, len(bits), 0, rows, *validity


def decimals_of(data: bytes, kind: Kind, validity: tuple[Any, ...]) -> Made:
    """Numbers of 16 bytes."""
    rows = len(data) // 16
    pairs = (Pair * rows).from_buffer_copy(data) if rows else (Pair * 1)()
    return calls.hv_decimals, pairs, rows, kind.precision, kind.scale, *validity


def texts_of(encoded: Sequence[bytes], name: str, validity: tuple[Any, ...]) -> Made:
    offsets = array.array("q", accumulate(map(len, encoded), initial=0))
    return texts_at(offsets, b"".join(encoded), name, validity)


def texts_at(offsets: array.array[int], data: bytes, name: str, validity: tuple[Any, ...]) -> Made:
    """Texts or bytes by their offsets."""
    passed = (ctypes.c_int64 * len(offsets)).from_buffer(offsets)
    return calls.hv_large_texts, name == "binary", passed, len(offsets), data, len(data), *validity


def view_of(items: Any) -> memoryview:
    """The buffer of an object that has one. That of a masked array would be read without its mask."""
    if type(items).__name__ == "MaskedArray":
        raise TypeError("a masked array has flags of its own: Column.of reads them")
    try:
        return memoryview(items)
    except TypeError:
        expected = "an array, a memoryview or another bytes-like object is expected"
        raise TypeError(f"{expected}, not {in_words(items)}") from None


def type_of_view(view: memoryview) -> str:
    """The type of a buffer's items, by its format and width: 'i32' of 'i', '<i4' or 'l' of four bytes."""
    letter = view.format.lstrip("@=<")
    if len(letter) != 1 or letter not in "bhilqBHILQ" or view.ndim != 1:
        raise TypeError(f"not a buffer of integers in one dimension: format {view.format!r}, {view.ndim} dimensions")
    return ("u" if letter.isupper() else "i") + str(8 * view.itemsize)


# ---- Arrays of other libraries ----


def is_arrow(items: Any) -> bool:
    """Whether an object hands out Arrow's capsules."""
    return hasattr(items, "__arrow_c_array__") or hasattr(items, "__arrow_c_stream__")


def is_array(items: Any) -> bool:
    """Whether an object is an array of NumPy, of pandas, or of an Arrow library, and not an iterable of rows."""
    return not isinstance(items, type) and (hasattr(items, "dtype") or hasattr(items, "isna") or is_arrow(items))


def of_numpy(items: Any, valid: Optional[Any] = None) -> Made:
    """A NumPy array in one dimension; a masked row is null."""
    import numpy

    if isinstance(items, numpy.ma.MaskedArray):
        masks: Any = numpy.ma
        valid = ~masks.getmaskarray(items)
        items = items.data
    if items.ndim != 1:
        raise ValueError(f"a column has one dimension, and the array has {items.ndim}")
    if items.dtype.kind in "iu":
        native = numpy.ascontiguousarray(items, items.dtype.newbyteorder("="))
        return numbers_of(native, validity_of(valid, len(items)))
    if items.dtype.kind == "b":
        return truths_of(bits_of(items), len(items), validity_of(valid, len(items)))
    if items.dtype.kind not in "OUS":
        hint = f": {NOT_FLOAT}" if items.dtype.kind == "f" else ""
        raise TypeError(f"no column has items of dtype {items.dtype}{hint}")
    rows = listed(items.tolist())
    if valid is not None:
        rows = [row if flag else None for row, flag in zip(rows, valid)]
    name = {"U": "utf8", "S": "binary"}.get(items.dtype.kind)
    return flat_of(rows, Kind(TYPES.index(name), 0, 0, 0) if name else inferred(rows))


def of_timed(items: Any) -> Optional[tuple[Made, LogicalType]]:
    """An array of dates, timestamps or durations of NumPy or pandas, in which NaT is null; None of another array."""
    dtype = getattr(items, "dtype", None)
    if getattr(dtype, "kind", "") == "O" and getattr(items, "ndim", 1) == 1:
        rows = listed(items if hasattr(items, "isna") else items.tolist())
        sort = _times.inferred(rows)
        return None if sort is None else (flat_of(_times.stored_rows(sort, rows), storage_of(sort)), sort)
    if not _time_arrays.is_timed(dtype):
        return None
    if getattr(items, "ndim", 1) != 1:
        raise ValueError(f"a column has one dimension, and the array has {items.ndim}")
    if hasattr(items, "isna"):
        numbers, valid, logical = _time_arrays.of_pandas(items)
    else:
        numbers, valid, logical = _time_arrays.of_numpy(_unmasked(items))
    return numbers_of(numbers, validity_of(valid, len(numbers))), logical


def _unmasked(items: Any) -> Any:
    """An array in which NaT is in place of what is masked."""
    import numpy

    masks: Any = numpy.ma
    if not isinstance(items, numpy.ma.MaskedArray):
        return items
    return numpy.where(masks.getmaskarray(items), items.dtype.type("NaT"), items.data)


def coded(items: Any) -> tuple[Made, Any]:
    """The codes of categories of pandas, null where a row is missing, and the categories that rows have."""
    import numpy

    used = getattr(items, "array", items).remove_unused_categories()
    codes = numpy.asarray(used.codes)
    valid: Any = codes >= 0
    numbers = numpy.where(valid, codes, 0).astype("u8")
    return numbers_of(numbers, validity_of(None if valid.all() else valid, len(numbers))), used.categories


def of_pandas(items: Any) -> Made:
    """A Series, an Index or an array of pandas; what pandas calls missing is null."""
    import numpy

    if getattr(items, "ndim", 1) != 1:
        raise TypeError(f"a {type(items).__name__} has several columns: give one, as frame['name']")
    missing = numpy.asarray(items.isna())
    valid = ~missing if missing.any() else None
    native = getattr(items.dtype, "numpy_dtype", items.dtype)
    if getattr(native, "kind", "O") not in "iub":
        return of_numpy(numpy.asarray(items.astype(object)), valid)
    if native is items.dtype:
        return of_numpy(numpy.asarray(items), valid)
    return of_numpy(items.to_numpy(dtype=native, na_value=native.type(0)), ~missing)
