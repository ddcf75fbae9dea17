"""Logical types: what the integers of a column mean, an annotation that travels with the column.

    from hivevigil import Column

    days = Column.of([date(2026, 1, 1), None])
    str(days.logical_type), days.type                   # 'date', 'i32?'
    days.storage().to_list()                            # [20454, None]

A type is written 'date', 'date[ms]', 'time[us]', 'timestamp[us]', 'timestamp[ns, Europe/Berlin]', 'duration[ms]' or
'float64', with a '?' after it where rows may be null. Its `format` is that of Arrow's C data interface.
"""
from __future__ import annotations

import functools
import re
from dataclasses import dataclass
from datetime import date, datetime, time, timedelta
from typing import Any, Optional

from ._library import Kind
from ._types import TYPES, kind_of
from .errors import in_words

__all__ = ["LogicalType"]

NANOSECONDS = {"s": 10**9, "ms": 10**6, "us": 10**3, "ns": 1, "D": 86_400 * 10**9}
_LETTERS = {"s": "s", "ms": "m", "us": "u", "ns": "n"}
_UNITS = {letter: unit for unit, letter in _LETTERS.items()}
_SORTS = {"date": "td", "time": "tt", "timestamp": "ts", "duration": "tD"}
_OF_LETTERS = {letters: sort for sort, letters in _SORTS.items()}
_NARROW = {("date", "D"), ("time", "s"), ("time", "ms")}  # stored in 32 bits
_FLOATS = {"16": "e", "32": "f", "64": "g"}  # Arrow's formats, by the number of bits
_FLOAT_BITS = {letter: bits for bits, letter in _FLOATS.items()}
_FLOAT_TEXT = re.compile(r"\s*[Ff]loat(16|32|64|)\s*")
_TEXT = re.compile(
    r"\s*(date|time|timestamp|duration|datetime64|timedelta64)\s*(?:\[\s*(\w+)\s*(?:,\s*([^\]]+?)\s*)?\])?"
)
_NUMPY = {"datetime64": "timestamp", "timedelta64": "duration"}
_CLASSES: dict[Any, str] = {
    date: "date", datetime: "timestamp", time: "time", timedelta: "duration", float: "float",
}


@dataclass(frozen=True)
class LogicalType:
    """What the integers of a column mean: `sort` is 'date', 'time', 'timestamp' or 'duration', `unit` what they
    count ('D' for the days of dates, 's', 'ms', 'us', 'ns'), `zone` that of timestamps, empty where there is none. With
    the sort 'float' they are keys of floats, and `unit` is the number of their bits: '16', '32' or '64'. A type that is
    kept with bytes, and that rows are not read as, has the sort 'other' and its format as `unit`."""

    sort: str
    unit: str
    zone: str = ""

    def __post_init__(self) -> None:
        units = {"date": ("D", "ms"), "float": tuple(_FLOATS), "other": (self.unit or None,)}.get(
            self.sort, tuple(_LETTERS)
        )
        if self.sort not in (*_SORTS, "float", "other") or self.unit not in units:
            raise ValueError(f"{self.sort}[{self.unit}] is not a logical type: see hivevigil.logical")
        if self.zone and self.sort != "timestamp" or "\0" in self.zone:
            raise ValueError(f"only timestamps have a zone, which is a text without a zero, not {in_words(self.zone)}")

    def __str__(self) -> str:
        if (self.sort, self.unit) == ("date", "D"):
            return "date"
        if self.sort == "float":
            return self.sort + self.unit
        if self.sort == "other":
            return self.unit
        return f"{self.sort}[{self.unit}{', ' if self.zone else ''}{self.zone}]"

    @property
    def storage(self) -> str:
        """The type of the integers; that of the sort 'other' is refused, since rows of any type may have it."""
        if self.sort == "other":
            raise TypeError(f"{in_words(self.unit)} does not say of which type its rows are")
        if self.sort == "float":
            return "i" + self.unit
        return "i32" if (self.sort, self.unit) in _NARROW else "i64"

    @property
    def format(self) -> str:
        """The format of Arrow's C data interface."""
        if self.sort == "float":
            return _FLOATS[self.unit]
        if self.sort == "other":
            return self.unit
        letter = "D" if self.unit == "D" else _LETTERS[self.unit]
        return _SORTS[self.sort] + letter + (f":{self.zone}" if self.sort == "timestamp" else "")

    @property
    def nanoseconds(self) -> int:
        """How many nanoseconds a count of 1 means."""
        return NANOSECONDS[self.unit]

    @classmethod
    def of_format(cls, format: str) -> Optional[LogicalType]:
        """The type that a format of Arrow names; None for a format of another sort of type."""
        if format in _FLOAT_BITS:
            return cls("float", _FLOAT_BITS[format])
        sort, letter, rest = _OF_LETTERS.get(format[:2]), format[2:3], format[3:]
        unit = "D" if (sort, letter) == ("date", "D") else _UNITS.get(letter)
        has_zone = sort == "timestamp"
        if sort is None or unit is None or (rest[:1] != ":" or "\0" in rest if has_zone else rest):
            return None
        if sort == "date" and letter not in ("D", "m"):
            return None
        return cls(sort, unit, rest[1:])


@functools.lru_cache(maxsize=256)
def meaning_of(format: str, storage: str) -> Optional[LogicalType]:
    """What a format of Arrow says of rows of a type: nothing where it is empty, and the sort 'other' where it is not one
    of these rows."""
    logical = LogicalType.of_format(format)
    is_served = logical is not None and logical.storage == storage
    return logical if is_served or not format else LogicalType("other", format)


def asked_type(asked: Any) -> tuple[Kind, Optional[LogicalType]]:
    """The type of the integers of a type that is asked for, and what they mean."""
    if isinstance(asked, LogicalType):
        return storage_of(asked), asked
    if isinstance(asked, type) and asked in _CLASSES:
        sort = _CLASSES[asked]
        logical = LogicalType(sort, {"date": "D", "float": "64"}.get(sort, "us"))
        return storage_of(logical), logical
    name = asked.__name__ if isinstance(asked, type) else getattr(asked, "name", asked)
    text = name.rstrip() if isinstance(name, str) else ""
    is_float = _FLOAT_TEXT.fullmatch(text.rstrip("?"))
    if is_float:
        logical = LogicalType("float", is_float[1] or "64")
        return storage_of(logical, text.endswith("?")), logical
    found = None if isinstance(asked, type) else _TEXT.fullmatch(text.rstrip("?"))
    if not found:
        return kind_of(asked), None
    logical = _of_words(found[1], found[2], found[3], asked)
    return storage_of(logical, text.endswith("?")), logical


def storage_of(logical: LogicalType, nullable: bool = False) -> Kind:
    """The type of the integers of a logical type."""
    return Kind(TYPES.index(logical.storage), nullable, 0, 0)


def _of_words(sort: str, unit: Optional[str], zone: Optional[str], asked: Any) -> LogicalType:
    if unit is None and sort != "date":
        raise TypeError(f"{in_words(asked)} names no unit, as '{_NUMPY.get(sort, sort)}[us]' does")
    if sort == "datetime64" and unit == "D":
        return LogicalType("date", "D")
    try:
        return LogicalType(_NUMPY.get(sort, sort), unit or "D", zone or "")
    except ValueError as error:
        raise TypeError(f"{in_words(asked)} is not a type of columns: {error}") from None


def format_in_words(format: str) -> str:
    """What a sentence calls what a format of Arrow names: the logical type, and of any other the format itself."""
    logical = LogicalType.of_format(format)
    return in_words(format) if logical is None else str(logical)


def sort_of_class(kind: type) -> Optional[str]:
    """What values of a class are: dates, times, timestamps, durations, floats; None of another class."""
    library = kind.__module__.partition(".")[0]
    if library == "numpy" and kind.__name__ in ("float16", "float32", "float64"):
        return "float"
    if library == "numpy" and kind.__name__ in _NUMPY:
        return _NUMPY[kind.__name__]
    for base in (datetime, date, time, timedelta, float):  # a datetime is a date, too
        if issubclass(kind, base):
            return _CLASSES[base]
    return None


def article(logical: LogicalType) -> str:
    """What a value is, in a sentence."""
    return {
        "date": "a date", "time": "a time of day", "timestamp": "a datetime", "duration": "a timedelta",
        "float": "a number",
    }[logical.sort] + (" with a zone" if logical.zone else " without a zone" if logical.sort == "timestamp" else "")
