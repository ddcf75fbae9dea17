"""Dates, times of day, timestamps and durations of Python as the integers that a logical type counts, and back."""
from __future__ import annotations

import functools
import re
from collections.abc import Sequence
from datetime import date, datetime, time, timedelta, timezone, tzinfo
from fractions import Fraction
from itertools import groupby, repeat
from typing import Any, Optional, Union

from . import _floats
from ._types import range_of
from ._values import is_missing, is_missing_class
from .errors import in_words
from .logical import NANOSECONDS, LogicalType, article, sort_of_class

_EPOCH = datetime(1970, 1, 1)
_FIRST_DAY = _EPOCH.toordinal()
_SECOND, _DAY = NANOSECONDS["s"], NANOSECONDS["D"]
_OFFSET = re.compile(r"([+-])(\d\d):(\d\d)")
# nanoseconds in a unit of NumPy that is not a calendar's
_NUMPY_UNITS = {
    **{unit: Fraction(count) for unit, count in NANOSECONDS.items()}, "W": Fraction(7 * _DAY),
    "h": Fraction(3600 * _SECOND), "m": Fraction(60 * _SECOND), "ps": Fraction(1, 10**3), "fs": Fraction(1, 10**6),
    "as": Fraction(1, 10**9),
}


# ---- In ----


def exact(logical: LogicalType, value: Any) -> Union[int, Fraction]:
    """How many of the type's units a value is, exactly. TypeError for a value of another sort: a date is not a
    timestamp, as for Python itself, and a zone is on both sides or on neither."""
    sort = sort_of_class(type(value))
    if sort is None or not _is_of_sort(logical, sort, value):
        raise TypeError(f"a value of type {logical} is {article(logical)}, not {in_words(value)}")
    nanoseconds = _nanoseconds(logical, value)
    count = Fraction(nanoseconds, logical.nanoseconds)
    return count.numerator if count.denominator == 1 else count


def _is_of_sort(logical: LogicalType, sort: str, value: Any) -> bool:
    if type(value).__module__ == "numpy":  # datetime64 is of no zone, and of no time where it counts days
        return not logical.zone and (logical.sort == sort or (logical.sort, sort) == ("date", "timestamp"))
    has_zone = getattr(value, "tzinfo", None) is not None
    return logical.sort == sort and has_zone == bool(logical.zone)


def _nanoseconds(logical: LogicalType, value: Any) -> Union[int, Fraction]:
    """From midnight, from 1970-01-01, or of a duration."""
    numpy_value = getattr(value, "asm8", value)  # pandas has its values as NumPy's, those with a zone in UTC
    if type(numpy_value).__module__ == "numpy":
        return _of_numpy(numpy_value)
    if isinstance(value, datetime):
        offset = value.utcoffset()
        return _length(value.replace(tzinfo=None) - _EPOCH) - _length(offset if offset is not None else timedelta())
    if isinstance(value, date):
        return (value.toordinal() - _FIRST_DAY) * _DAY
    if isinstance(value, time):
        minutes = value.hour * 60 + value.minute
        return ((minutes * 60 + value.second) * 10**6 + value.microsecond) * 1000
    return _length(value)


def _length(value: timedelta) -> int:
    return ((value.days * 86_400 + value.seconds) * 10**6 + value.microseconds) * 1000


def _of_numpy(value: Any) -> Union[int, Fraction]:
    import numpy

    unit, count = numpy.datetime_data(value.dtype)
    if unit in ("M", "Y") and value.dtype.kind == "M":
        value, unit, count = value.astype("datetime64[D]"), "D", 1
    if unit not in _NUMPY_UNITS:
        counted = "no unit" if unit == "generic" else "months"
        raise TypeError(f"{in_words(value)} counts {counted}, which have no length")
    counts: Union[int, Fraction] = int(value.astype("i8")) * count * _NUMPY_UNITS[unit]
    return counts


def stored(logical: LogicalType, value: Any) -> int:
    """The integer of a value, which the type has; nothing is rounded."""
    if _floats.is_float(logical):
        return _floats.stored(logical, value)
    count = exact(logical, value)
    if not isinstance(count, int):
        raise ValueError(f"{in_words(value)} is finer than {logical}, and nothing is rounded")
    if count not in range_of(logical.storage):
        raise OverflowError(f"{in_words(value)} does not fit {logical}")
    return count


def number_of(logical: Optional[LogicalType], value: Any) -> Any:
    """What a column of a type stores of a value: of a null None, and where nothing is counted the value itself."""
    return value if logical is None else None if is_missing(value) else stored(logical, value)


def stored_rows(logical: LogicalType, rows: Sequence[Any]) -> list[Optional[int]]:
    """The integers of rows, None of each null."""
    if _floats.is_float(logical):
        return _floats.stored_rows(logical, rows)
    found: list[Optional[int]] = []
    try:
        for row in rows:
            found.append(None if is_missing(row) else stored(logical, row))
    except (OverflowError, TypeError, ValueError) as error:
        raise type(error)(f"row {len(found)}: {error}") from None
    return found


def inferred(rows: Sequence[Any]) -> Optional[LogicalType]:
    """The type of rows that are floats, or dates, times, timestamps or durations, in microseconds, or nanoseconds where a
    library has them; None where a row is of another sort."""
    kinds = {kind for kind in set(map(type, rows)) if not is_missing_class(kind)}
    sorts = set(map(sort_of_class, kinds))
    if "float" in sorts:
        return _floats.inferred(kinds)
    if len(sorts) != 1 or None in sorts:
        return None
    (sort,) = sorts
    present = [(number, row) for number, row in enumerate(rows) if not is_missing(row)]
    if not present:  # only NaT of NumPy
        return None
    if sort == "date":
        return LogicalType("date", "D")
    unit = "ns" if any(hasattr(row, "asm8") or type(row).__module__ == "numpy" for _, row in present) else "us"
    return LogicalType(str(sort), unit, _zone_of_rows(present) if sort == "timestamp" else "")


def _zone_of_rows(present: Sequence[tuple[int, Any]]) -> str:
    """The one zone of all rows."""
    first, zone = present[0][0], zone_name(getattr(present[0][1], "tzinfo", None))
    for number, row in present:
        other = zone_name(getattr(row, "tzinfo", None))
        if other != zone:
            words = [f"row {at} is {f'in the zone {name}' if name else 'without a zone'}" for at, name in (
                (first, zone), (number, other),
            )]
            raise TypeError(f"{' and '.join(words)}: a column has one, as with the type 'timestamp[us, UTC]'")
    return zone


# ---- Out ----


def value_of(logical: Optional[LogicalType], stored: Any) -> Any:
    """The value of what a column of a type stores."""
    return stored if logical is None or stored is None else shown(logical, stored)


def values_of(logical: Optional[LogicalType], rows: list[Any]) -> list[Any]:
    """The values of what rows store; equal neighbours share one."""
    if logical is None:
        return rows
    return [value for stored, same in groupby(rows) for value in repeat(value_of(logical, stored), len(list(same)))]


def shown(logical: LogicalType, number: int) -> Any:
    """The value of an integer. ValueError or OverflowError where Python has none."""
    if _floats.is_float(logical):
        return _floats.shown(logical, number)
    if logical.sort == "date":
        return _date(logical, number)
    if logical.sort == "time":
        return _time(logical, number)
    if logical.unit == "ns" and _pandas() is not None:
        return _of_pandas(logical, number)
    microseconds = _whole(logical, number, 1000)
    try:
        length = timedelta(microseconds=microseconds)
        if logical.sort == "duration":
            return length
        return _EPOCH + length if not logical.zone else _with_zone(length, zone_of(logical.zone))
    except OverflowError:
        raise _past(logical, number, "timedelta" if logical.sort == "duration" else "datetime") from None


def _with_zone(length: timedelta, zone: tzinfo) -> datetime:
    return (_EPOCH.replace(tzinfo=timezone.utc) + length).astimezone(zone)


def _whole(logical: LogicalType, number: int, nanoseconds: int) -> int:
    """A count in units of this number of nanoseconds."""
    whole, rest = divmod(number * logical.nanoseconds, nanoseconds)
    if rest:
        raise ValueError(f"{number} of {logical} is finer than Python's {logical.sort}{_STORAGE}")
    return whole


_STORAGE = "; column.storage() has the integers"


def _past(logical: LogicalType, number: int, name: str) -> OverflowError:
    return OverflowError(f"{number} of {logical} is past what {name} has{_STORAGE}")


def _date(logical: LogicalType, number: int) -> date:
    day = _whole(logical, number, _DAY) + _FIRST_DAY
    try:
        return date.fromordinal(day)
    except (OverflowError, ValueError):
        raise _past(logical, number, "date") from None


def _time(logical: LogicalType, number: int) -> time:
    if not 0 <= number * logical.nanoseconds < _DAY:
        raise _past(logical, number, "a day")
    seconds, microseconds = divmod(_whole(logical, number, 1000), 10**6)
    minutes, second = divmod(seconds, 60)
    return time(minutes // 60, minutes % 60, second, microseconds)


@functools.lru_cache(maxsize=None)
def _pandas() -> Any:
    """pandas, whose values have nanoseconds; None where it is not installed."""
    try:
        import pandas
    except ImportError:
        return None
    return pandas


def _of_pandas(logical: LogicalType, number: int) -> Any:
    pandas = _pandas()
    if number == -(2**63):
        raise _past(logical, number, "pandas")
    if logical.sort == "duration":
        return pandas.Timedelta(number, "ns")
    value = pandas.Timestamp(number, unit="ns")
    return value.tz_localize("UTC").tz_convert(pandas_zone(logical.zone)) if logical.zone else value


def written(logical: LogicalType, number: int) -> str:
    """The text of a time, of a unit or a year that Python has no value of; one of a zone is in UTC."""
    nanoseconds = number * logical.nanoseconds
    days, rest = divmod(nanoseconds, _DAY)
    seconds, fraction = divmod(rest, _SECOND)
    clock = f"{seconds // 3600:02}:{seconds // 60 % 60:02}:{seconds % 60:02}"
    clock += f".{fraction:09}".rstrip("0") if fraction else ""
    if logical.sort == "duration":
        return f"{f'{days:,} days, ' if days else ''}{clock.lstrip('0') if clock[:2] != '00' else clock[1:]}"
    if logical.sort == "time":
        return clock if days == 0 else f"{number} of {logical}"
    cycles, day = divmod(days + _FIRST_DAY - 1, 146_097)  # the calendar is the same after 400 years
    found = date.fromordinal(day + 1)
    text = f"{found.year + 400 * cycles:04}-{found.month:02}-{found.day:02}"
    return text if logical.sort == "date" and not rest else f"{text} {clock}{'+00:00' if logical.zone else ''}"


# ---- Zones ----


@functools.lru_cache(maxsize=None)
def zone_of(name: str) -> tzinfo:
    """The zone of a name, or of an offset as '+02:00'."""
    offset = _OFFSET.fullmatch(name)
    if offset and int(offset[2]) < 24 and int(offset[3]) < 60:
        length = timedelta(hours=int(offset[2]), minutes=int(offset[3]))
        return timezone(-length if offset[1] == "-" else length)
    if name == "UTC":
        return timezone.utc
    import zoneinfo

    try:
        return zoneinfo.ZoneInfo(name)
    except (OSError, ValueError, zoneinfo.ZoneInfoNotFoundError):
        raise ValueError(f"{in_words(name)} is not a zone that is known here{_STORAGE}") from None


def pandas_zone(name: str) -> Any:
    """A zone as pandas makes it of its name."""
    zone = zone_of(name)
    return zone if _OFFSET.fullmatch(name) else name


def zone_name(zone: Optional[tzinfo]) -> str:
    """The name of a zone, empty of none; of one without a name its offset, where that is always the same."""
    if zone is None:
        return ""
    for name in (getattr(zone, "key", None), getattr(zone, "zone", None)):  # of zoneinfo, of pytz
        if isinstance(name, str):
            return name
    offset = zone.utcoffset(None)
    if offset is None or offset % timedelta(minutes=1):
        raise TypeError(f"the zone {in_words(zone)} has no name: zoneinfo.ZoneInfo has zones with one")
    if zone is timezone.utc:
        return "UTC"
    minutes = abs(offset) // timedelta(minutes=1)
    return f"{'-' if offset < timedelta() else '+'}{minutes // 60:02}:{minutes % 60:02}"
