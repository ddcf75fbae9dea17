"""Columns of floats: made of arrays and of bits, as arrays, compared, converted."""
from __future__ import annotations

import array
import math
from fractions import Fraction
from typing import TYPE_CHECKING, Any, Callable, Optional

from . import _floats, _reading, _runs
from ._library import Kind, calls
from ._making import numbers_of, validity_of
from ._types import TYPES, WHOLE_NUMBERS, range_of
from ._values import NOT_FLOAT
from .errors import CastOutOfRange, TypeMismatch, in_words
from .logical import LogicalType, storage_of

if TYPE_CHECKING:
    from .column import Column

_AS_THEY_ARE, _CANONICAL = 0, 1
_WIDE = LogicalType("float", "64")


# ---- Bits ----


def bits(column: Column) -> Column:
    """The bits of the floats, as integers without sign in the form of the column."""
    return _of_values(column, lambda values: values._made(calls.hv_float_decode, values))


def _of_values(column: Column, make: Callable[[Column], Column]) -> Column:
    """What is made of the floats, of each run once, in the form of the column."""
    rows = column._length
    if column.form == "constant" and rows:
        one = make(column.slice(0, 1))
        return column.constant(one[0], rows, one.type)
    if column.form == "runs":
        return column.from_runs(column.ends(), make(column.values()), column.offset, rows)
    return make(column)


def of_bits(words: Column, logical: LogicalType) -> Column:
    """The floats with these bits: flat of a flat column, else runs."""
    made = words._made(calls.hv_float_encode, words, _AS_THEY_ARE)._meaning(logical)
    return made.decode() if words.form == "flat" else made


def _one_pattern_each(column: Column) -> Column:
    """The keys of the same numbers, with one zero and one NaN, which is above all else; flat of a flat column."""
    made = column._made(calls.hv_float_encode, bits(column), _CANONICAL)
    return made.decode() if column.form == "flat" else made


# ---- Arrays ----


def of_array(kind: type[Column], items: Any) -> Optional[Column]:
    """The column of a buffer or an array of floats of NumPy or pandas; what is masked, or what pandas calls missing, is
    null. None of an array of other items."""
    if isinstance(items, (array.array, memoryview)):
        return _of_buffer(kind, memoryview(items))
    native: Any = getattr(getattr(items, "dtype", None), "numpy_dtype", getattr(items, "dtype", None))
    if getattr(native, "kind", "") != "f":
        return None
    native = getattr(native, "subtype", native)  # of a sparse array
    if getattr(items, "ndim", 1) != 1:
        raise ValueError(f"a column has one dimension, and the array has {items.ndim}")
    if native.itemsize > 8:
        raise TypeError(f"no column has items of dtype {items.dtype}: {NOT_FLOAT}")
    import numpy

    floats, valid = _parts_of_pandas(items, native) if hasattr(items, "isna") else _parts_of_numpy(items)
    words = numpy.ascontiguousarray(floats, native.newbyteorder("=")).view(f"u{native.itemsize}")
    made = kind._made(*numbers_of(words, validity_of(valid, len(words))))
    return of_bits(made, LogicalType("float", str(8 * native.itemsize)))


def _of_buffer(kind: type[Column], view: memoryview) -> Optional[Column]:
    letter = view.format.lstrip("@=<")
    if letter not in ("e", "f", "d") or view.ndim != 1:
        return None
    unit = str(8 * view.itemsize)
    words = memoryview(view.tobytes()).cast(_floats.WORDS[unit])
    return of_bits(kind._made(*numbers_of(words, validity_of(None, len(words)))), LogicalType("float", unit))


def _parts_of_numpy(items: Any) -> tuple[Any, Optional[Any]]:
    import numpy

    masks: Any = numpy.ma
    if isinstance(items, numpy.ma.MaskedArray):
        return items.data, ~masks.getmaskarray(items)
    return items, None


def _parts_of_pandas(items: Any, native: Any) -> tuple[Any, Optional[Any]]:
    import numpy

    missing = numpy.asarray(items.isna())
    if native is items.dtype:
        return numpy.asarray(items), ~missing if missing.any() else None
    return items.to_numpy(dtype=native, na_value=native.type("nan")), ~missing


def dtype(logical: Any) -> Any:
    """The dtype of NumPy of a type of floats."""
    import numpy

    return numpy.dtype(str(logical))


def to_array(column: Column) -> array.array[float]:
    """The floats, of 32 or 64 bits; a null row may have any."""
    logical: Any = column._logical
    if logical.unit == "16":
        raise TypeError("to_array: array.array has no floats of 16 bits; column.cast('float32') has")
    words = _words(column)
    return array.array("f" if logical.unit == "32" else "d", words.tobytes())


def _words(column: Column) -> array.array[int]:
    flat = column._made(calls.hv_float_decode, column)
    return _reading.numbers(flat, 0, flat._length)


def _items_and_missing(column: Column) -> tuple[Any, Optional[Any]]:
    """An array of the floats, and flags of those that are null, None where the type has no null."""
    import numpy

    logical: Any = column._logical
    items = numpy.frombuffer(_words(column), f"u{int(logical.unit) // 8}").view(dtype(logical))
    if not column.nullable:
        return items, None
    flags = numpy.frombuffer(column.validity(), numpy.uint8)
    return items, ~numpy.unpackbits(flags, count=len(items), bitorder="little").astype(bool)


def to_numpy(column: Column, null: Any) -> Any:
    """The rows as an array of floats, masked where they may be null, or with a value in place of null."""
    import numpy

    masks: Any = numpy.ma
    items, missing = _items_and_missing(column.fill(null) if null is not None and column.nullable else column)
    return items if missing is None else masks.MaskedArray(items, missing)


def as_numpy(column: Column) -> Any:
    """The rows as an array of floats in which null is NaN."""
    items, missing = _items_and_missing(column)
    if missing is not None:
        items = items.copy()
        items[missing] = items.dtype.type("nan")
    return items


def to_pandas(column: Column) -> Any:
    """The rows as a Series: of Float32 or Float64 where they may be null, and of 16 bits with NaN for null."""
    import pandas

    items, missing = _items_and_missing(column)
    if missing is None:
        return pandas.Series(items)
    if items.dtype.itemsize == 2:
        return pandas.Series(as_numpy(column))
    return pandas.Series(pandas.arrays.FloatingArray(items.copy(), missing))


# ---- Questions ----


def has_nan(column: Column) -> bool:
    """Whether a row is a NaN: these are the first or the last in the order of keys."""
    logical: Any = column._logical
    ends: Any = column.storage().min_max()
    return _floats.any_nan(_floats.shown(logical, key) for key in ends if key is not None)


def number_bounds(bounds: Column) -> Column:
    """The least and the greatest float, in place of a NaN the infinity on its side, up to which numbers may reach; no row
    where both are NaNs of one sign, between which no number is."""
    ends: Any = bounds.to_list()
    if not _floats.any_nan(ends):
        return bounds
    are_above, are_nan = [math.copysign(1, end) > 0 for end in ends], [math.isnan(end) for end in ends]
    if all(are_nan) and are_above[0] == are_above[1]:
        return bounds.slice(0, 0)
    ends = [side * math.inf if is_nan else end for side, is_nan, end in zip((-1, 1), are_nan, ends)]
    return bounds.of(ends, f"{bounds._logical}{'?' * bounds.nullable}")


# ---- Comparisons ----


def with_column(column: Column, sign: str, right: Column) -> Column:
    """Row by row whether `row sign other`, as numbers by IEEE 754, by the runs of both, unless both are flat. Keys of one
    pattern for each value compare as numbers do, but those of a NaN, which is above all else."""
    if column._logical != right._logical:
        column, right = (converted(each, storage_of(_WIDE, True), _WIDE, "compare") for each in (column, right))
    if sign == "!=":
        return _flipped(with_column(column, "==", right))
    holds = _one_pattern_each(column).compare(sign, _one_pattern_each(right))
    bounded = right if sign in ("<", "<=") else column
    is_number = bounded.le(math.inf)
    if holds.form == "flat":
        is_number = is_number.decode()
    return holds.gt(_flipped(is_number))  # both: where a NaN is bounded, it holds of none


def _flipped(mask: Column) -> Column:
    """The mask of the other rows, flat of a flat one."""
    return mask.eq(False) if mask.form == "flat" else ~mask


# ---- Conversions ----


def converted(
    column: Column, kind: Kind, logical: Optional[LogicalType], call: str, rounded: bool = False
) -> Column:
    """The same numbers as floats of a width, or as integers: exactly, or refused at the first row that the type does not
    have; or the nearest floats. Each run is cast once."""
    if column._logical == logical:
        return _recast(column.storage(), kind, logical, call)
    name = str(logical) if logical is not None else TYPES[kind.number]
    if logical is not None and _floats.is_float(logical) and TYPES[column._kind.number] == "decimal":
        floats = logical
        made = _runs.in_form(column, lambda rows: _of_decimals(rows, floats, call, rounded))
        return _recast(made, kind, logical, call)
    convert = _conversion(column, kind, logical)
    if convert is None:
        before = column._logical or column.type.rstrip("?")
        raise TypeMismatch().saying(
            f"{call}: {before} is not cast to {name}; floats are cast to floats and integers, and integers and decimals "
            "to floats"
        )
    if rounded and logical is None:
        raise TypeError(f"{call}: only floats are rounded, and {name} has none; a float that is an integer is cast as it is")
    try:
        made = _runs.in_form(column, lambda rows: _cast(rows, kind, logical, rounded))
    except CastOutOfRange:
        _refuse_misfit(column, convert, f"{call}: row", name)
        made = _runs.in_form(column, lambda rows: _cast(rows, kind, logical, True))  # only NaNs, without what they carry
    return _recast(made, kind, logical, call)


def _of_decimals(column: Column, logical: LogicalType, call: str, rounded: bool) -> Column:
    """The floats of decimals, in runs: those that are the same numbers, or the nearest ones."""
    shown = _runs.visible(column if column.form == "runs" else column.to_runs())
    given: list[Any] = shown.values.to_list()
    floats = [None if row is None else _floats.rounded(logical, Fraction(row)) for row in given]
    for start, row, near in zip([0, *shown.stops], given, floats):
        if not rounded and row is not None and row != near:
            raise CastOutOfRange().saying(f"{call}: row {start} is {row}, which is not a value of {logical}")
    return column.from_runs(shown.stops, column.of(floats, f"{logical}?"))


def _cast(column: Column, kind: Kind, logical: Optional[LogicalType], rounded: bool) -> Column:
    """The keys of floats, or integers, in runs."""
    if logical is None:
        return column._made(calls.hv_float_to_integers, column, kind.number)
    call = calls.hv_float_cast if _floats.is_float(column._logical) else calls.hv_float_of_integers
    return column._made(call, column, kind.number, rounded)


def _refuse_misfit(column: Column, convert: Callable[[Any], Any], said: str, name: str) -> None:
    """Refuses the first row that is not a value of a type, if there is one."""
    for start, _, value in column.runs():
        if value is not None and convert(value) is None:
            raise CastOutOfRange().saying(f"{said} {start} is {in_words(value)}, which is not a value of {name}") from None


def _recast(storage: Column, kind: Kind, logical: Optional[LogicalType], call: str) -> Column:
    from ._casting import cast

    return cast(storage, kind, call)._meaning(logical)


def _conversion(column: Column, kind: Kind, logical: Optional[LogicalType]) -> Optional[Callable[[Any], Any]]:
    """What makes a number of the type of a row, None where there is none; None for types without a conversion."""
    if logical is not None:
        is_number = column._logical is None and column.type.rstrip("?") in WHOLE_NUMBERS
        if logical.sort != "float" or not (is_number or _floats.is_float(column._logical)):
            return None
        floats = logical
        return lambda value: value if _floats.is_exact(floats, value) else None
    name = TYPES[kind.number]
    if name not in WHOLE_NUMBERS:
        return None
    fits = range_of(name)

    def whole(value: float) -> Optional[int]:
        number = _floats.whole_of(value)
        return number if number is not None and number in fits else None

    return whole
