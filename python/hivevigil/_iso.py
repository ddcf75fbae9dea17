"""Dates and times as ISO 8601 spells them: `2026-01-31`, `09:30`, `2026-01-31T09:30:00.5+02:00`."""
from __future__ import annotations

import re
from datetime import date
from functools import lru_cache
from typing import NamedTuple, Optional

_TIME = re.compile(r"(\d\d):(\d\d)(?::(\d\d)(?:\.(\d{1,9}))?)?", re.ASCII)
_DATE = re.compile(r"\d{4}-\d\d-\d\d", re.ASCII)
_CLOCK = re.compile(rf"[T ]{_TIME.pattern}(?:(Z)|([+-])(\d\d):(\d\d))?", re.ASCII)
_FIRST_DAY = date(1970, 1, 1).toordinal()
_SECOND, _DAY = 10**9, 86_400 * 10**9
UNITS = ("s", "ms", "us", "ns")


class Instant(NamedTuple):
    """A date and a time: nanoseconds from 1970-01-01 00:00, in UTC where it has an offset; digits after the second."""

    nanoseconds: int
    has_offset: bool
    places: int


@lru_cache(maxsize=4096)
def day(text: str) -> Optional[int]:
    """The days from 1970-01-01 to a date. Rows that follow each other have few dates."""
    if not _DATE.fullmatch(text):
        return None
    try:
        return date.fromisoformat(text).toordinal() - _FIRST_DAY
    except ValueError:
        return None


def time_of_day(text: str) -> Optional[tuple[int, int]]:
    """The nanoseconds from midnight, and the digits after the second."""
    found = _TIME.fullmatch(text)
    return _time(*found.groups()) if found else None


def _time(hour: str, minute: str, second: Optional[str], fraction: Optional[str]) -> Optional[tuple[int, int]]:
    """The same of the parts of a time, each two digits but the last."""
    if hour > "23" or minute > "59" or (second or "") > "59":
        return None
    seconds = int(hour) * 3600 + int(minute) * 60 + int(second or 0)
    return seconds * _SECOND + (int(fraction.ljust(9, "0")) if fraction else 0), len(fraction or "")


def instant(text: str) -> Optional[Instant]:
    """A date, a T or a space, a time, and perhaps Z or an offset."""
    days, clock = day(text[:10]), _clock(text[10:])
    if days is None or clock is None:
        return None
    nanoseconds, has_offset, places = clock
    return Instant(days * _DAY + nanoseconds, has_offset, places)


@lru_cache(maxsize=1 << 17)  # each second of a day, and some
def _clock(text: str) -> Optional[Instant]:
    """What follows a date: the nanoseconds are from its midnight."""
    found = _CLOCK.fullmatch(text)
    if not found:
        return None
    hour, minute, second, fraction, zulu, *offset = found.groups()
    time, before = _time(hour, minute, second, fraction), _minutes(*offset)
    if time is None or before is None:
        return None
    return Instant(time[0] - before * 60 * _SECOND, bool(zulu or offset[0]), time[1])


def _minutes(sign: Optional[str], hours: Optional[str], minutes: Optional[str]) -> Optional[int]:
    """How far the clock of an offset is ahead of UTC; 0 where there is none."""
    if sign is None or hours is None or minutes is None:
        return 0
    if int(hours) > 23 or int(minutes) > 59:
        return None
    return (int(hours) * 60 + int(minutes)) * (-1 if sign == "-" else 1)


def unit_of(places: int) -> str:
    """The coarsest unit that has this many digits after the second."""
    return UNITS[-(-places // 3)]
