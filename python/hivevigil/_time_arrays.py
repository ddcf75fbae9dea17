"""Dates, timestamps and durations in arrays of NumPy and pandas, as integers and back."""
from __future__ import annotations

from typing import TYPE_CHECKING, Any, Optional

from . import _times
from ._types import range_of
from .logical import LogicalType

if TYPE_CHECKING:
    from .column import Column

_COARSER = {"h": "s", "m": "s", "W": "D", "M": "D", "Y": "D"}  # a unit of NumPy, and the one that it is counted in here


def is_timed(dtype: Any) -> bool:
    """Whether items of a dtype of NumPy or pandas are dates, timestamps or durations."""
    return getattr(dtype, "kind", "") in ("m", "M")


def of_numpy(items: Any) -> tuple[Any, Optional[Any], LogicalType]:
    """The integers of an array of datetime64 or timedelta64, flags of those that are not NaT, None where all are, and
    the type. Days are dates; hours, minutes, weeks, months and years are counted in seconds and days."""
    import numpy

    unit, count = numpy.datetime_data(items.dtype)
    name = "datetime64" if items.dtype.kind == "M" else "timedelta64"
    if unit == "generic" or unit in ("M", "Y") and name == "timedelta64":
        raise TypeError(f"no column has items of dtype {items.dtype}: these have no length in seconds")
    counted = _COARSER.get(unit, unit)
    if name == "timedelta64" and counted == "D":
        counted = "s"
    items = _counted_in(items, name, counted, count)
    sort = "duration" if name == "timedelta64" else "date" if counted == "D" else "timestamp"
    valid = ~numpy.isnat(items)
    numbers = items.astype("i8")
    if sort == "date":
        numbers = numpy.where(valid, numbers, 0)
        fits = range_of("i32")
        if numbers.size and (int(numbers.min()) not in fits or int(numbers.max()) not in fits):
            raise OverflowError("a day is past what a column of dates has, which counts in 32 bits")
        numbers = numbers.astype("i4")
    return numbers, None if valid.all() else valid, LogicalType(sort, counted)


def _counted_in(items: Any, name: str, unit: str, count: int) -> Any:
    """The items in this unit, each as the same time."""
    import numpy

    native = numpy.ascontiguousarray(items, items.dtype.newbyteorder("="))
    if unit not in ("s", "ms", "us", "ns", "D"):
        raise TypeError(f"no column has items of dtype {items.dtype}: nanoseconds are the finest unit")
    if count == 1 and numpy.datetime_data(items.dtype)[0] == unit:
        return native
    counted = native.astype(f"{name}[{unit}]")
    if (counted.astype(native.dtype) != native)[~numpy.isnat(native)].any():
        raise OverflowError(f"an item of dtype {items.dtype} does not fit {name}[{unit}]")
    return counted


def of_pandas(items: Any) -> tuple[Any, Optional[Any], LogicalType]:
    """The same of a Series, an Index or an array of pandas, whose zone is kept."""
    import numpy

    zone = getattr(items.dtype, "tz", None)
    if zone is not None:
        series = _series(items).dt.tz_convert("UTC").dt.tz_localize(None)
        numbers, valid, logical = of_numpy(series.to_numpy())
        return numbers, valid, LogicalType("timestamp", logical.unit, _times.zone_name(zone))
    return of_numpy(numpy.asarray(items))


def _series(items: Any) -> Any:
    import pandas

    return pandas.Series(items).reset_index(drop=True)


def dtype(logical: LogicalType) -> Any:
    """The dtype of to_numpy(): NumPy has none for times of day."""
    import numpy

    if logical.sort == "time":
        return numpy.dtype(object)
    return numpy.dtype(f"{'timedelta64' if logical.sort == 'duration' else 'datetime64'}[{logical.unit}]")


def to_numpy(column: Column, logical: LogicalType) -> Any:
    """The rows as an array of datetime64, in UTC where there is a zone, or timedelta64, in which null is NaT."""
    import numpy

    stored = column.storage()
    numbers = stored._flat().to_array()
    items = numpy.array(numbers, "i8")
    valid = numpy.ones(len(items), bool)
    if column.nullable:
        valid = numpy.unpackbits(
            numpy.frombuffer(stored.validity(), numpy.uint8), count=len(items), bitorder="little"
        ).astype(bool)
    if (items[valid] == -(2**63)).any():
        raise OverflowError(f"-2**63 of {logical} is NaT for NumPy; column.storage() has the integers")
    items[~valid] = -(2**63)
    return items.view(dtype(logical))


def _past_pandas(column: Column, logical: LogicalType) -> OverflowError:
    """What says which row the nanoseconds of pandas do not have."""
    fits = range(-(2**63) + 1, 2**63)
    for start, _, number in column.storage().to_runs().runs():
        if isinstance(number, int) and number * logical.nanoseconds not in fits:
            limit = "292 years" if logical.sort == "duration" else "the years 1678 to 2261"
            said = f"to_pandas: row {start} is {_times.written(logical, number)}, past {limit} of pandas' nanoseconds"
            return OverflowError(f"{said}: column.to_list() has the rows, and column.storage() the integers")
    return OverflowError(f"to_pandas: a row of {logical} is past what pandas has")


def to_pandas(column: Column, logical: LogicalType) -> Any:
    """The rows as a Series: of timestamps, in their zone, and durations; dates and times of day are objects.
    OverflowError where pandas has no such time."""
    import pandas

    from ._copying import _objects

    if logical.sort in ("date", "time"):
        return pandas.Series(_objects(column), dtype=object)
    try:
        series = pandas.Series(to_numpy(column, logical))
    except (pandas.errors.OutOfBoundsDatetime, pandas.errors.OutOfBoundsTimedelta):
        raise _past_pandas(column, logical) from None
    return series.dt.tz_localize("UTC").dt.tz_convert(_times.pandas_zone(logical.zone)) if logical.zone else series
