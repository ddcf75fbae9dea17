"""Columns as messages, field by field as docs/BYTES.md has them, and the message that keeps a column's logical type."""

from __future__ import annotations

import struct
from dataclasses import dataclass
from typing import Union

from words import Row, Type, word, words

KINDS = ["", "u8", "u16", "u32", "u64", "i8", "i16", "i32", "i64", "bool", "decimal", "utf8", "binary"]
FLAT, RUNS, CONSTANT = 1, 2, 3
VALIDITIES = ["", "nonnull", "valid", "invalid", "bits"]
LETTERS = {"8": "b", "16": "h", "32": "i", "64": "q"}
TYPED_VERSION, FORMAT_FIELD, COLUMN_FIELD = 2, 22, 23


def varint(number: int) -> bytes:
    """Returns a number, seven bits to a byte, the lowest first."""
    return bytes([number]) if number < 128 else bytes([number % 128 + 128]) + varint(number // 128)


def number_field(field: int, number: int) -> bytes:
    """Returns a field that holds a number."""
    return varint(field * 8) + varint(number)


def bytes_field(field: int, content: bytes) -> bytes:
    """Returns a field that holds bytes."""
    return varint(field * 8 + 2) + varint(len(content)) + content


def bits(flags: list[bool]) -> bytes:
    """Returns a bit for each flag, the lowest first, in as few bytes as can be."""
    number = sum(flag << place for place, flag in enumerate(flags))
    return number.to_bytes((len(flags) + 7) // 8, "little")


def item(type: Type, value: Row) -> bytes:
    """Returns the bytes of an integer or of a decimal."""
    if type.is_decimal:
        return value.to_bytes(16, "little", signed=True)
    letter = LETTERS[type.kind[1:]]
    return struct.pack("<" + (letter.upper() if type.kind[0] == "u" else letter), value)


def text(value: Row) -> bytes:
    """Returns the bytes of a text, of bytes, or of null, which has none."""
    return b"" if value is None else value.encode() if isinstance(value, str) else value


def head(type: Type, form: int, rows: int) -> bytes:
    """Returns the fields that all forms have."""
    kind = KINDS.index("decimal" if type.is_decimal else type.kind)
    return number_field(1, 1) + number_field(2, kind) + number_field(3, form) + number_field(4, rows)


def scale_fields(type: Type) -> bytes:
    """Returns the precision and the scale of decimals, and nothing for other types."""
    if not type.is_decimal:
        return b""
    precision, scale = type.kind
    return number_field(14, precision) + number_field(15, 2 * scale if scale >= 0 else -2 * scale - 1)


@dataclass(frozen=True)
class Flat:
    """A flat column that `flat` makes, with 0 or false under null."""

    type: Type
    rows: list[Row]

    @property
    def validity(self) -> int:
        """Returns the number of the validity that is made from the rows."""
        if not self.type.nullable:
            return 1
        if None not in self.rows:
            return 2
        return 3 if all(row is None for row in self.rows) else 4

    @property
    def maker(self) -> str:
        """Returns the words that make the column."""
        return " ".join(["flat", str(self.type), *map(word, self.rows)])

    @property
    def form(self) -> str:
        """Returns the answer of `form`."""
        return " ".join(["flat", str(self.type), VALIDITIES[self.validity], *map(word, self.rows)])

    def message(self) -> bytes:
        """Returns the bytes of the column."""
        front = head(self.type, FLAT, len(self.rows)) + number_field(5, self.validity)
        if self.validity == 4:
            front += bytes_field(6, bits([row is not None for row in self.rows]))
        if self.type.kind in ("utf8", "binary"):
            texts = [text(row) for row in self.rows]
            lengths = b"".join(varint(len(part)) for part in texts)
            return front + bytes_field(12, lengths) + bytes_field(13, b"".join(texts))
        if self.type.is_boolean:
            return front + bytes_field(7, bits([bool(row) for row in self.rows]))
        items = b"".join(item(self.type, row or 0) for row in self.rows)
        return front + bytes_field(7, items) + scale_fields(self.type)


@dataclass(frozen=True)
class Constant:
    """One value in each of a number of rows."""

    type: Type
    value: Row
    count: int

    @property
    def maker(self) -> str:
        """Returns the words that make the column."""
        return f"constant {self.type} {word(self.value)} {self.count}"

    @property
    def form(self) -> str:
        """Returns the answer of `form`."""
        return self.maker

    def message(self) -> bytes:
        """Returns the bytes of the column."""
        validity = 3 if self.value is None else 1 + self.type.nullable
        if self.value is None or self.type.kind in ("utf8", "binary"):
            items = text(self.value)
        else:
            items = bytes([self.value]) if self.type.is_boolean else item(self.type, self.value)
        front = head(self.type, CONSTANT, self.count) + number_field(5, validity)
        return front + bytes_field(7, items) + scale_fields(self.type)


@dataclass(frozen=True)
class Runs:
    """Runs over a column, which is there as `w`, seen through a window."""

    ends_kind: str
    offset: int
    count: int
    ends: list[int]
    values: Union[Flat, Constant]

    @property
    def type(self) -> Type:
        """Returns the type of the rows."""
        return self.values.type

    @property
    def maker(self) -> str:
        """Returns the words that make the column."""
        return " ".join(["runs", self.ends_kind, str(self.offset), str(self.count), words(self.ends), "/ w"])

    @property
    def form(self) -> str:
        """Returns the answer of `form`."""
        window = f"runs {self.ends_kind} {self.offset} {self.count}"
        return f"{window} {words(self.ends)} {{ {self.values.form} }}"

    def message(self) -> bytes:
        """Returns the bytes of the column."""
        lengths = [end - start for start, end in zip([0, *self.ends], self.ends)]
        window = number_field(8, self.offset) + number_field(9, KINDS.index(self.ends_kind))
        runs = bytes_field(10, b"".join(map(varint, lengths)))
        return head(self.type, RUNS, self.count) + window + runs + bytes_field(11, self.values.message())


def typed(format: str, message: bytes) -> bytes:
    """Returns the message of a column with the logical type of a name: where that is empty, the column's message."""
    if not format:
        return message
    fields = bytes_field(FORMAT_FIELD, format.encode()) + bytes_field(COLUMN_FIELD, message)
    return number_field(1, TYPED_VERSION) + fields


def hexadecimal(data: bytes) -> str:
    """Returns a word for each byte, or `-` where there are none."""
    return data.hex(" ").upper() or "-"
