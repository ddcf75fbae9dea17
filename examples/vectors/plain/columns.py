"""Columns: a type, and a form, which is a plain tree; the rows of any form are runs of equal plain values.

Rows are a list of pairs (how many rows, value): a value is None, a number, a truth, a text, bytes, or a tuple of these.
"""

from __future__ import annotations

import re
from collections.abc import Iterable
from dataclasses import dataclass, replace
from typing import Any

Pairs = list[tuple[int, Any]]

WIDTHS = {"u8": 8, "u16": 16, "u32": 32, "u64": 64, "i8": 8, "i16": 16, "i32": 32, "i64": 64}
UNSIGNED = ("u8", "u16", "u32", "u64")


class Refused(Exception):
    """A refusal: the error's number and its fields."""

    def __init__(self, *fields: object) -> None:
        super().__init__(" ".join(map(str, fields)))


class Unmodelled(Exception):
    """What the model does not say."""


class BadLine(Exception):
    """A line that cannot be read."""


@dataclass(frozen=True)
class Type:
    """A type of rows."""

    name: str
    nullable: bool = False
    precision: int = 0
    scale: int = 0
    element: Type | None = None

    def text(self) -> str:
        """The type as lines have it."""
        name = f"decimal({self.precision},{self.scale})" if self.name == "decimal" else self.name
        name = f"list({self.element.text()})" if self.name == "list" else name
        return name + ("?" if self.nullable else "")

    def is_integer(self) -> bool:
        return self.name in WIDTHS

    def bare(self) -> Type:
        """The same type without null."""
        return replace(self, nullable=False)

    def range(self) -> tuple[int, int]:
        bits = WIDTHS[self.name]
        return (0, 2**bits - 1) if self.name[0] == "u" else (-(2 ** (bits - 1)), 2 ** (bits - 1) - 1)

    def has(self, value: int) -> bool:
        low, high = self.range()
        return low <= value <= high


def type_of(text: str) -> Type:
    """The type that a word names."""
    nullable = text.endswith("?")
    bare = text[:-1] if nullable else text
    if bare in WIDTHS or bare in ("bool", "utf8", "binary"):
        return Type(bare, nullable)
    if found := re.fullmatch(r"decimal\((\d+),(-?\d+)\)", bare):
        if int(found[1]) < 256 and -128 <= int(found[2]) < 128:
            return Type("decimal", nullable, int(found[1]), int(found[2]))
    if found := re.fullmatch(r"list\((.*)\)", bare):
        return Type("list", nullable, element=type_of(found[1]))
    raise BadLine(text)


@dataclass(frozen=True)
class Flat:
    """What is stored of each row; `valid` has a truth for each row where `how` is "bits"."""

    type: Type
    how: str
    stored: tuple[Any, ...]
    valid: tuple[bool, ...] = ()

    def length(self) -> int:
        return len(self.stored)

    def rows(self) -> Pairs:
        if self.how == "invalid":
            return [(len(self.stored), None)] if self.stored else []
        if self.how == "bits":
            return [(1, value if valid else None) for value, valid in zip(self.stored, self.valid)]
        return [(1, value) for value in self.stored]

    def levels(self) -> int:
        return 0


@dataclass(frozen=True)
class Constant:
    """One value in each row."""

    type: Type
    value: Any
    count: int

    def length(self) -> int:
        return self.count

    def rows(self) -> Pairs:
        return [(self.count, self.value)] if self.count else []

    def levels(self) -> int:
        return 0


@dataclass(frozen=True)
class Runs:
    """The rows before which runs end, from row `offset` on, and a column with a row for each run."""

    ends_type: str
    offset: int
    count: int
    ends: tuple[int, ...]
    values: Column

    @property
    def type(self) -> Type:
        return self.values.type

    def length(self) -> int:
        return self.count

    def rows(self) -> Pairs:
        values = self.values.rows()
        place, left = 0, values[0][0] if values else 0
        last, found = 0, []
        for end in self.ends:
            while left == 0:
                place, left = place + 1, values[place + 1][0]
            low, high = max(last, self.offset), min(end, self.offset + self.count)
            if low < high:
                found.append((high - low, values[place][1]))
            last, left = end, left - 1
        return found

    def levels(self) -> int:
        return 1 + self.values.levels()


@dataclass(frozen=True)
class Lists:
    """Where lists begin in their elements, and how many these are; `valid` has truths where `how` is "bits", or is a
    column of runs where it is "runs"."""

    elements: Flat
    offsets: Column
    sizes: Column
    how: str
    valid: Any = ()

    @property
    def type(self) -> Type:
        return Type("list", self.how != "nonnull", element=self.elements.type)

    def length(self) -> int:
        return self.offsets.length()

    def valid_rows(self) -> Pairs:
        """Whether each row is valid."""
        if self.how == "bits":
            return [(1, each) for each in self.valid]
        if self.how == "runs":
            return self.valid.rows()
        return [(self.length(), self.how != "invalid")] if self.length() else []

    def rows(self) -> Pairs:
        items = [value for count, value in self.elements.rows() for _ in range(count)]
        cut = lambda parts: tuple(items[parts[1] : parts[1] + parts[2]]) if parts[0] else None
        parts = together(self.valid_rows(), self.offsets.rows(), self.sizes.rows())
        return [(count, cut(each)) for count, each in parts]

    def levels(self) -> int:
        parts = [self.offsets, self.sizes, *([self.valid] if self.how == "runs" else [])]
        return 2 if any(isinstance(each, Runs) for each in parts) else 0


@dataclass(frozen=True)
class Known:
    """A column of which only the rows are known."""

    type: Type
    pairs: tuple[tuple[int, Any], ...]

    def length(self) -> int:
        return total(self.pairs)

    def rows(self) -> Pairs:
        return list(self.pairs)

    def levels(self) -> int:
        raise Unmodelled("form")


Column = Flat | Constant | Runs | Lists | Known


def total(pairs: Iterable[tuple[int, Any]]) -> int:
    """How many rows these are."""
    return sum(count for count, _ in pairs)


def expanded(pairs: Pairs) -> list[Any]:
    """The rows one by one, where these are not too many."""
    if total(pairs) > 1 << 21:
        raise Unmodelled("too many rows")
    return [value for count, value in pairs for _ in range(count)]


def together(*columns: Pairs) -> Pairs:
    """Runs of tuples of the rows of columns of one length."""
    queues = [[list(pair) for pair in reversed(pairs) if pair[0]] for pairs in columns]
    found = []
    while all(queues):
        count = min(queue[-1][0] for queue in queues)
        found.append((count, tuple(queue[-1][1] for queue in queues)))
        for queue in queues:
            queue[-1][0] -= count
            if not queue[-1][0]:
                queue.pop()
    return found


def joined(pairs: Iterable[tuple[int, Any]]) -> Pairs:
    """As few runs as possible."""
    found = []
    for count, value in pairs:
        if not count:
            continue
        if found and found[-1][1] == value and type(found[-1][1]) is type(value):
            found[-1] = (found[-1][0] + count, value)
        else:
            found.append((count, value))
    return found


def least_unsigned(number: int) -> str:
    """The least unsigned type that has a number."""
    return next(name for name in UNSIGNED if number < 2 ** WIDTHS[name])


def in_runs(type_: Type, pairs: Iterable[tuple[int, Any]]) -> Runs:
    """As few runs as possible, with ends of the least type, over flat values."""
    least = joined(pairs)
    ends, last = [], 0
    for count, _ in least:
        last += count
        ends.append(last)
    values = tuple(value for _, value in least)
    return Runs(least_unsigned(last), 0, last, tuple(ends), flat_of(type_, values))


def blank(type_: Type) -> Any:
    """What is stored under null."""
    return {"utf8": "", "binary": b"", "bool": False, "list": ()}.get(type_.name, 0)


def how_of(valid: Iterable[bool]) -> str:
    """How a validity is kept that is made from bits: as bits only where both kinds of rows are there."""
    kinds = set(valid)
    return "bits" if len(kinds) == 2 else "invalid" if kinds == {False} else "valid"


def flat_of(type_: Type, values: Iterable[Any]) -> Flat:
    """A flat column of these rows, with a validity made from its bits where the type has null."""
    values = tuple(values)
    if not type_.nullable and None in values:
        raise Refused(15)
    stored = tuple(blank(type_) if value is None else value for value in values)
    valid = tuple(value is not None for value in values)
    how = how_of(valid) if type_.nullable else "nonnull"
    return Flat(type_, how, stored, valid if how == "bits" else ())
