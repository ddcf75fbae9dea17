"""Words of lines, read: types, rows, floats, and how many items runs have."""

from __future__ import annotations

import re

from floats import FORMATS, Format, read
from words import INTEGERS, Row, Type

DECIMAL = re.compile(r"decimal\((\d+),(-?\d+)\)")
FLOAT = re.compile(r"nan|-?inf|-?\d+(?:\.\d+)?(?:e-?\d+)?")
BITS = re.compile(r"0x[0-9a-fA-F]+")
ESCAPED = re.compile(r"\\(.)")
# By type how its words begin.
OPENED = {"utf8": '"', "binary": "x"}
MEANT = {"s": " ", "n": "\n"}
# Columns of more rows than this are not written out.
MOST_ROWS = 100_000


class Unknown(Exception):
    """Says that the models do not answer a line."""


def type_of(text: str) -> Type:
    """Returns the type that a word names."""
    name = text.removesuffix("?")
    if found := DECIMAL.fullmatch(name):
        return Type((int(found[1]), int(found[2])), name != text)
    if name not in INTEGERS and name not in ("bool", "utf8", "binary") and not name.startswith("list("):
        raise Unknown
    return Type(name, name != text)


def row_of(type: Type, text: str) -> Row:
    """Returns the row that a word means."""
    if text.partition(":")[0] == "null":
        return None
    if type.is_list:
        return text.strip("[]").split(",") if text != "[]" else []
    if type.is_boolean:
        return {"true": True, "false": False}[text]
    if type.kind in OPENED and not text.startswith(OPENED[type.kind]):
        raise Unknown
    if type.kind == "utf8":
        return ESCAPED.sub(lambda found: MEANT.get(found[1], found[1]), text[1:-1])
    if type.kind == "binary":
        return bytes.fromhex(text[1:])
    low, high = INTEGERS.get(type.kind, (-(2**127), 2**127 - 1))
    if not low <= int(text) <= high:
        raise Unknown
    return int(text)


def length_of(text: str) -> int:
    """Returns a number of rows that can be written out."""
    if int(text) > MOST_ROWS:
        raise Unknown
    return int(text)


def index_of(text: str) -> int:
    """Returns the number of a row."""
    if not text.isdigit():
        raise Unknown
    return int(text)


def float_of(format: Format, text: str, nullable: bool = False) -> int | None:
    """Returns the bits that a word of a float means, or None for null where it may be."""
    is_bits = bool(BITS.fullmatch(text))
    if not is_bits and not FLOAT.fullmatch(text) and not (nullable and text == "null"):
        raise Unknown
    if is_bits and int(text, 16) >= 1 << format.width:
        raise Unknown
    return read(format, text)


def format_of(text: str) -> tuple[Format, bool]:
    """Returns the format that a word names, and whether rows may be null."""
    name = text.removesuffix("?")
    return FORMATS[name], name != text


def rows_of_runs(values: list[Row], ends: list[int], offset: int, length: int) -> list[Row]:
    """Returns the rows of runs through a window; a window that is refused is not known."""
    steps = list(zip([0, *ends], ends))
    is_window = not length or (ends and ends[0] >= offset and ends[-1] >= offset + length)
    is_window = is_window and (ends or not offset)
    if len(values) != len(ends) or any(start >= end for start, end in steps[1:]) or not is_window:
        raise Unknown
    if length and not 0 < ends[0]:
        raise Unknown
    shown = [max(0, min(end, offset + length) - max(start, offset)) for start, end in steps]
    if sum(shown) > MOST_ROWS:
        raise Unknown
    return [value for value, count in zip(values, shown) for _ in range(count)]
