"""Fields of a CSV file: which type all fields of a column have, and the value of a field in a type."""
from __future__ import annotations

import re
from collections.abc import Callable
from dataclasses import dataclass, field
from decimal import Decimal
from fractions import Fraction
from math import isfinite
from typing import Any, Optional

from . import _iso
from ._floats import rounded
from ._types import GREATEST_PRECISION, range_of, text_of
from .logical import NANOSECONDS, LogicalType, asked_type

_TRUTHS = {"true": True, "false": False}
_OF_PYTHON = {"True": True, "False": False}  # read where booleans are asked for; else they are texts
_WHOLE = re.compile(r"-?(?:0|[1-9]\d{0,37})", re.ASCII)
_DECIMAL = re.compile(_WHOLE.pattern + r"(?:\.\d+)?", re.ASCII)
_NEGATIVE_ZERO = re.compile(r"-0\.0+", re.ASCII)
_FLOAT = re.compile(r"-?(?:0|[1-9]\d*)(?:\.\d+)?(?:[eE][+-]?\d{1,4})?", re.ASCII)
_NO_NUMBERS = {"nan", "NaN"} | {sign + word for sign in ("", "-", "+") for word in ("inf", "Inf", "Infinity")}


# ---- What a text is ----


def _is_decimal(text: str) -> bool:
    """Whether a text is a decimal. -0.0 is a float, since no decimal has the sign of 0."""
    return _DECIMAL.fullmatch(text) is not None and not _NEGATIVE_ZERO.fullmatch(text)


def _is_float(text: str) -> bool:
    """Whether a text is the number of a float of 64 bits in its shortest digits, so that none is lost, NaN or an
    infinity. A float has each number of up to 15 digits so."""
    if len(text) <= 15 and _DECIMAL.fullmatch(text):
        return True
    if not _FLOAT.fullmatch(text):
        return text in _NO_NUMBERS
    value = float(text)
    return isfinite(value) and Decimal(repr(value)) == Decimal(text)


_TESTS: dict[str, Callable[[str], Any]] = {
    "truth": _TRUTHS.__contains__, "whole": _WHOLE.fullmatch, "decimal": _is_decimal, "float": _is_float,
    "date": lambda text: _iso.day(text) is not None, "time": _iso.time_of_day,
}
_TIMESTAMPS = {"timestamp", "instant"}  # without an offset, and with one


@dataclass
class Guess:
    """What all fields of a column are, so far: booleans, integers, decimals, floats, dates, times, timestamps without an
    offset or with one; else texts."""

    could_be: set[str] = field(default_factory=lambda: {*_TESTS, *_TIMESTAMPS})
    least: int = 0
    greatest: int = 0
    digits: int = 1  # before the point
    places: int = 0  # after it, or after the second
    seen: bool = False

    def add(self, texts: set[str]) -> None:
        texts = texts - {""}
        self.seen = self.seen or bool(texts)
        could_be_instants = self.could_be & _TIMESTAMPS
        self.could_be = {sort for sort in self.could_be - _TIMESTAMPS if all(map(_TESTS[sort], texts))}
        if could_be_instants:
            self._add_instants(texts, could_be_instants)
        if "whole" in self.could_be:
            self.least = min(self.least, *map(int, texts), 0)
            self.greatest = max(self.greatest, *map(int, texts), 0)
        if "decimal" in self.could_be:
            parts = [text.lstrip("-").partition(".") for text in texts]
            self.digits = max([self.digits, *(len(before) for before, _, _ in parts)])
            self.places = max([self.places, *(len(after) for _, _, after in parts)])
        if "time" in self.could_be:
            self.places = max([self.places, *(places for _, places in filter(None, map(_iso.time_of_day, texts)))])

    def _add_instants(self, texts: set[str], could_be: set[str]) -> None:
        """Timestamps, each without an offset or each with one; nothing changes where one of the texts is another."""
        least, greatest, places = self.least, self.greatest, self.places
        for text in texts:
            found = _iso.instant(text)
            if found is None:
                return
            could_be = could_be - {"timestamp" if found.has_offset else "instant"}
            least, greatest = min(least, found.nanoseconds), max(greatest, found.nanoseconds)
            places = max(places, found.places)
        if could_be:
            self.could_be |= could_be
            self.least, self.greatest, self.places = least, greatest, places

    def type(self) -> str:
        """The type of the column; texts where no row says more."""
        if not self.seen:
            return "utf8?"
        if "truth" in self.could_be:
            return "bool?"
        return self._number() or self._time() or "utf8?"

    def _number(self) -> str:
        """The type of numbers, or nothing."""
        if "whole" in self.could_be:
            for name in ("i32", "i64"):
                if self.least in range_of(name) and self.greatest in range_of(name):
                    return name + "?"
        if "decimal" in self.could_be and self.digits + self.places <= GREATEST_PRECISION:
            return f"decimal({self.digits + self.places}, {self.places})?"
        return "float64?" if "float" in self.could_be else ""

    def _time(self) -> str:
        """The type of dates and times, or nothing."""
        if "date" in self.could_be:
            return "date?"
        unit = _iso.unit_of(min(self.places, 9))
        if "time" in self.could_be:
            return f"time[{unit}]?"
        past = unit == "ns" and (self.least not in range_of("i64") or self.greatest not in range_of("i64"))
        if past or not self.could_be & {"timestamp", "instant"}:
            return ""
        return f"timestamp[{unit}]?" if "timestamp" in self.could_be else f"timestamp[{unit}, UTC]?"


# ---- The value of a text ----


def _where(is_so: bool, value: Any) -> Any:
    """The value where the text is what it should be; ValueError elsewhere."""
    if not is_so:
        raise ValueError
    return value


def _float(text: str, logical: LogicalType) -> float:
    """The nearest float of the type, which may be another number; none is past the finite ones."""
    value = float(_where(text in _NO_NUMBERS or _FLOAT.fullmatch(text) is not None, text))
    if logical.unit != "64" and value and isfinite(value):  # -0.0 keeps its sign
        value = rounded(logical, Fraction(text))
    return float(_where(text in _NO_NUMBERS or isfinite(value), value))


def _units(nanoseconds: int, logical: LogicalType) -> int:
    """Nanoseconds in the unit of a type, which has to have them."""
    count, rest = divmod(nanoseconds, logical.nanoseconds)
    return int(_where(rest == 0, count))


def _timestamp(text: str, logical: LogicalType) -> int:
    """The count of a timestamp, which has an offset exactly where the type has a zone."""
    found = _iso.instant(text)
    is_fit = found is not None and found.has_offset == bool(logical.zone)
    return _units(_where(is_fit, found).nanoseconds, logical)


def _date(text: str, logical: LogicalType) -> int:
    days = _iso.day(text)
    return _units(_where(days is not None, days) * NANOSECONDS["D"], logical)


def _time(text: str, logical: LogicalType) -> int:
    found = _iso.time_of_day(text)
    return _units(_where(found is not None, found)[0], logical)


def _duration(text: str, logical: LogicalType) -> int:
    """The count of a number of seconds, as `to_csv` writes it."""
    _where(_DECIMAL.fullmatch(text) is not None, 0)
    nanoseconds = Decimal(text).scaleb(9)
    return _units(_where(nanoseconds == int(nanoseconds), int(nanoseconds)), logical)


_READERS: dict[str, Callable[[str], Any]] = {
    "bool": {**_TRUTHS, **_OF_PYTHON}.__getitem__, "utf8": str, "binary": bytes.fromhex,
    "decimal": lambda text: Decimal(_where(_DECIMAL.fullmatch(text) is not None, text)),
}
_READERS_OF_TYPES: dict[str, Callable[[str, LogicalType], Any]] = {
    "timestamp": _timestamp, "date": _date, "time": _time, "duration": _duration, "float": _float,
}


@dataclass(frozen=True)
class FieldType:
    """A type of columns, and how a field of it is read: `value` raises ValueError or KeyError for another text. Times
    are read as the integers of the storage."""

    asked: str
    storage: str
    is_counted: bool  # integers of a time, which are cast to the type
    value: Callable[[str], Any]

    @classmethod
    def of(cls, asked: Any) -> FieldType:
        """Of what Column.of takes for a type; TypeError for lists, which a CSV file does not have."""
        kind, logical = asked_type(asked)
        storage = text_of(kind).rstrip("?")
        if logical is not None:
            read, meant = _READERS_OF_TYPES[logical.sort], logical
            return cls(f"{logical}?", storage, logical.sort != "float", lambda text: read(text, meant))
        name = storage.partition("(")[0]
        whole = lambda text: int(_where(_WHOLE.fullmatch(text) is not None, text))  # noqa: E731
        if name not in _READERS and name[:1] not in "iu":
            raise TypeError(f"a CSV file has no column of {storage}")
        return cls(f"{storage}?", storage, False, _READERS.get(name, whole))
