"""Types, rows and forms, in the words of docs/VECTORS.md."""

from __future__ import annotations

import operator
from dataclasses import dataclass
from typing import Any, Iterable, Tuple, Union

# A row: None, a boolean, an integer (also of a decimal), a text, bytes, or a list of these.
Row = Any
# A type's name, or the precision and scale of decimals.
Kind = Union[str, Tuple[int, int]]

# By type the least and the greatest integer.
INTEGERS = {f"u{bits}": (0, 2**bits - 1) for bits in (8, 16, 32, 64)}
INTEGERS |= {f"i{bits}": (-(2 ** (bits - 1)), 2 ** (bits - 1) - 1) for bits in (8, 16, 32, 64)}
COMPARISONS = {"eq": operator.eq, "ne": operator.ne, "gt": operator.gt}
COMPARISONS |= {"ge": operator.ge, "lt": operator.lt, "le": operator.le}
ESCAPES = str.maketrans({" ": "\\s", "\n": "\\n", '"': '\\"', "\\": "\\\\"})


@dataclass(frozen=True)
class Type:
    """A type of rows, and whether they may be null."""

    kind: Kind
    nullable: bool

    def __str__(self) -> str:
        name = "decimal({},{})".format(*self.kind) if self.is_decimal else str(self.kind)
        return name + "?" * self.nullable

    @property
    def is_integer(self) -> bool:
        """Says whether rows are integers."""
        return self.kind in INTEGERS

    @property
    def is_boolean(self) -> bool:
        """Says whether rows are booleans."""
        return self.kind == "bool"

    @property
    def is_decimal(self) -> bool:
        """Says whether rows are decimals."""
        return isinstance(self.kind, tuple)

    @property
    def is_list(self) -> bool:
        """Says whether rows are lists."""
        return not self.is_decimal and self.kind.startswith("list")

    @property
    def is_stored_whole(self) -> bool:
        """Says whether an item is stored for each row, also under null."""
        return self.is_integer or self.is_boolean or self.is_decimal


def word(row: Row) -> str:
    """Returns the word of a row."""
    if row is None:
        return "null"
    if isinstance(row, (bool, int)):
        return str(row).lower()
    if isinstance(row, str):
        return f'"{row.translate(ESCAPES)}"'
    if isinstance(row, list):
        return f"[{','.join(map(word, row))}]"
    return "x" + row.hex().upper()


def words(rows: Iterable[Row]) -> str:
    """Returns the words of rows; nothing where there are none."""
    return " ".join(map(word, rows))


def shown(rows: Iterable[Row]) -> str:
    """Returns the answer of `rows`."""
    return words(rows) or "-"


def spaced(text: str) -> str:
    """Returns the text after a space, or nothing where it is empty."""
    return f" {text}" if text else ""


def stored(type: Type, rows: list[Row]) -> str:
    """Returns what is stored of rows: 0 or false under null."""
    return words([(False if type.is_boolean else 0) if row is None else row for row in rows])


def order(row: Row) -> tuple:
    """Returns what rows are sorted by: null first, texts by their bytes."""
    if row is None:
        return (0,)
    return (1, row.encode() if isinstance(row, str) else row)


def equal(left: Row, right: Row) -> bool:
    """Says whether two rows are equal; null equals null."""
    return type(left) is type(right) and left == right


def runs_of(rows: list[Row]) -> tuple[list[int], list[Row]]:
    """Returns the ends and the values of the runs of equal rows."""
    ends: list[int] = []
    values: list[Row] = []
    for index, row in enumerate(rows):
        if values and equal(values[-1], row):
            ends[-1] = index + 1
        else:
            ends.append(index + 1)
            values.append(row)
    return ends, values


def least_unsigned(number: int) -> str:
    """Returns the least unsigned type that has the number."""
    return next(kind for kind in ("u8", "u16", "u32", "u64") if number <= INTEGERS[kind][1])


def flat_form(type: Type, rows: list[Row]) -> str:
    """Returns the form of a flat column."""
    if not type.nullable:
        validity = "nonnull"
    elif None not in rows:
        validity = "valid"
    else:
        validity = "invalid" if all(row is None for row in rows) else "bits"
    return f"flat {type} {validity}{spaced(words(rows))}"


def constant_form(type: Type, row: Row, length: int) -> str:
    """Returns the form of a constant."""
    return f"constant {type} {word(row)} {length}"


def encoded_form(type: Type, rows: list[Row]) -> str:
    """Returns the form of the encoding of rows: as few runs as they have, with ends of the least type."""
    ends, values = runs_of(rows)
    window = f"runs {least_unsigned(len(rows))} 0 {len(rows)}"
    return f"{window}{spaced(words(ends))} {{ {flat_form(type, values)} }}"
