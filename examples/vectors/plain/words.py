"""The words of values, by docs/VECTORS.md."""

from __future__ import annotations

import re
from typing import Any

from .columns import WIDTHS, BadLine, Type

ESCAPES = {"s": " ", "n": "\n", '"': '"', "\\": "\\"}
TEXT = re.compile(r'"((?:[^"\\]|\\[sn"\\])*)"')
SHAPES = {bool: ("bool",), str: ("utf8",), bytes: ("binary",), int: (*WIDTHS, "decimal"), tuple: ("list",)}


def need(holds: object) -> None:
    """Refuses to read a line unless this holds."""
    if not holds:
        raise BadLine


def read_word(word: str, type_: Type) -> Any:
    """The value that a word is, whatever type it is of; of a list the type says what the elements are."""
    if word in ("null", "true", "false"):
        return {"null": None, "true": True, "false": False}[word]
    if re.fullmatch(r"-?\d+", word):
        return int(word)
    if found := TEXT.fullmatch(word):
        return re.sub(r"\\(.)", lambda escape: ESCAPES[escape[1]], found[1])
    if re.fullmatch(r"x(?:[0-9A-Fa-f]{2})*", word):
        return bytes.fromhex(word[1:])
    need(word[:1] == "[" and word[-1:] == "]" and type_.element)
    return tuple(read_value(each, type_.element) for each in word[1:-1].split(",")) if word != "[]" else ()


def is_of(value: Any, type_: Type) -> bool:
    """Whether a type has a value that is not null."""
    return type_.name in SHAPES[type(value)] and (not type_.is_integer() or type_.has(value))


def read_value(word: str, type_: Type) -> Any:
    """The value of this type that a word is."""
    value = read_word(word, type_)
    need(type_.nullable if value is None else is_of(value, type_))
    return value


def write_value(value: Any) -> str:
    if value is None:
        return "null"
    if isinstance(value, bool):
        return "true" if value else "false"
    if isinstance(value, str):
        escaped = value.replace("\\", "\\\\").replace('"', '\\"').replace("\n", "\\n").replace(" ", "\\s")
        return f'"{escaped}"'
    if isinstance(value, bytes):
        return f"x{value.hex().upper()}"
    if isinstance(value, tuple):
        return f"[{','.join(map(write_value, value))}]"
    return str(value)
