"""Types, forms and operators by name, in the order of hivevigil.h's numbers, and how Python names a type."""
from __future__ import annotations

import re
from typing import Any

from ._library import Kind
from .errors import in_words

TYPES = ("u8", "u16", "u32", "u64", "i8", "i16", "i32", "i64", "bool", "decimal", "utf8", "binary", "list")
FORMS = {0: "flat", 1: "constant", 2: "lists", 3: "runs"}
OPERATORS = ("==", "!=", ">", ">=", "<", "<=")
WHOLE_NUMBERS = TYPES[:8]
SIGNED = TYPES[4:8]
GREATEST_PRECISION = 38
SCALES = range(-128, 128)

# bytes of an item, and the letter of an array.array of them
WIDTHS = {"u8": 1, "u16": 2, "u32": 4, "u64": 8, "i8": 1, "i16": 2, "i32": 4, "i64": 8, "decimal": 16}
LETTERS = {"u8": "B", "u16": "H", "u32": "I", "u64": "Q", "i8": "b", "i16": "h", "i32": "i", "i64": "q"}

_OF_CLASSES = {
    "int": "i64", "bool": "bool", "bool_": "bool", "str": "utf8", "str_": "utf8", "bytes": "binary", "bytes_": "binary",
}
_OF_DTYPES = {**_OF_CLASSES, "boolean": "bool", "string": "utf8"}  # pandas' names, and NumPy's of classes of Python
_OF_KINDS = {"U": "utf8", "S": "binary"}  # of NumPy, whose names of these have a length
_TEXT = re.compile(r"\s*(?:([uU]?)[iI]nt(8|16|32|64)|(\w+))\s*(?:\(\s*(\d+)\s*(?:,\s*(-?\d+)\s*)?\))?\s*(\??)\s*")


def text_of(kind: Kind) -> str:
    """'i64', 'decimal(10, 2)', followed by a '?' where rows may be null."""
    name = TYPES[kind.number]
    places = f"({kind.precision}, {kind.scale})" if name == "decimal" else ""
    return name + places + ("?" if kind.nullable else "")


def kind_of(asked: Any) -> Kind:
    """The type that is asked for: 'i64?', 'int64', 'decimal(10, 2)', int, str, or a dtype of NumPy or pandas."""
    name = asked.__name__ if isinstance(asked, type) else getattr(asked, "name", asked)
    text = _OF_KINDS.get(getattr(asked, "kind", ""), _OF_DTYPES.get(name, name)) if isinstance(name, str) else name
    found = _TEXT.fullmatch(text) if isinstance(text, str) else None
    if not found:
        raise TypeError(f"{in_words(asked)} is not a type of columns, as 'i64?' is")
    unsigned, bits, word, precision, scale, nullable = found.groups()
    name = ("u" if unsigned else "i") + bits if bits else word
    if name not in TYPES[:-1] or (precision is not None) != (name == "decimal"):
        others = "bool, utf8, binary, float64, decimal(10, 2), date, timestamp[us, UTC] .."
        is_decimal = str(name).lower().startswith("decimal")
        expected = "decimal(precision, scale)" if is_decimal else ", ".join((*WHOLE_NUMBERS, others))
        raise TypeError(f"{in_words(asked)} is not a type of columns: expected {expected}")
    kind = Kind(TYPES.index(name), bool(nullable), 0, 0)
    if precision is not None:
        kind.precision, kind.scale = checked_places(int(precision), int(scale or 0))
    return kind


def checked_places(precision: int, scale: int) -> tuple[int, int]:
    """Precision and scale of a decimal, where 128 bits have it."""
    if not 1 <= precision <= GREATEST_PRECISION:
        raise ValueError(f"a decimal has 1 to {GREATEST_PRECISION} digits, not {precision}")
    if scale not in SCALES:
        raise ValueError(f"a decimal's scale is from -128 to 127, not {scale}")
    return precision, scale


def range_of(name: str) -> range:
    """The values of a type of integers."""
    bits = int(name[1:])
    return range(0, 2**bits) if name[0] == "u" else range(-(2 ** (bits - 1)), 2 ** (bits - 1))
