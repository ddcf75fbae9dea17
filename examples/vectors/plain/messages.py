"""Messages of columns, by docs/BYTES.md: read exactly, and written from a form."""

from __future__ import annotations

from typing import Any

from .columns import UNSIGNED, WIDTHS, Column, Constant, Flat, Lists, Refused, Runs, Type, Unmodelled, together

NAMES = ["", "u8", "u16", "u32", "u64", "i8", "i16", "i32", "i64", "bool", "decimal", "utf8", "binary", "list"]
HOWS = {1: "nonnull", 2: "valid", 3: "invalid", 4: "bits", 5: "runs"}
LEVELS = 16


class Damaged(Exception):
    """Bytes of no message."""


def need(holds: object) -> None:
    """Refuses the bytes unless this holds."""
    if not holds:
        raise Damaged


class Reader:
    """The fields of a message, in order."""

    def __init__(self, data: bytes) -> None:
        self.data, self.at = data, 0

    def varint(self) -> int:
        """The number in front, in its shortest spelling."""
        value, shift = 0, 0
        while True:
            need(self.at < len(self.data) and shift < 70)
            byte = self.data[self.at]
            self.at += 1
            value |= (byte & 127) << shift
            if byte < 128:
                need(byte or not shift)
                need(value < 2**64)
                return value
            shift += 7

    def is_next(self, field: int, wire: int) -> bool:
        start = self.at
        if start == len(self.data):
            return False
        key = self.varint()
        self.at = start
        return key == field * 8 + wire

    def number(self, field: int) -> int:
        need(self.is_next(field, 0))
        self.varint()
        return self.varint()

    def bytes(self, field: int) -> bytes:
        need(self.is_next(field, 2))
        self.varint()
        size = self.varint()
        need(size <= len(self.data) - self.at)
        self.at += size
        return self.data[self.at - size : self.at]

    def message(self, field: int, left: int) -> Column:
        inner = Reader(self.bytes(field))
        column = read_fields(inner, left)
        inner.end()
        return column

    def end(self) -> None:
        need(self.at == len(self.data))


def read(data: bytes) -> Column:
    """The column of which the bytes are the message; refused as 17 where they are none."""
    try:
        reader = Reader(data)
        column = read_fields(reader, LEVELS)
        reader.end()
        return column
    except Damaged:
        raise Refused(17) from None


def read_typed(data: bytes) -> tuple[str, Column]:
    """The name of the logical type, and the column."""
    try:
        reader = Reader(data)
        if reader.number(1) == 1:
            return "", read(data)
        reader = Reader(data)
        need(reader.number(1) == 2)
        name = text_of(reader.bytes(22))
        need(name)
        column = reader.message(23, LEVELS)
        reader.end()
        return name, column
    except Damaged:
        raise Refused(17) from None


def text_of(data: bytes) -> str:
    try:
        return data.decode("utf-8")
    except UnicodeDecodeError:
        raise Damaged from None


def read_fields(reader: Reader, left: int) -> Column:
    """The column of the fields, under which `left` more levels of runs may be."""
    need(reader.number(1) == 1)
    number, form, rows = reader.number(2), reader.number(3), reader.number(4)
    need(1 <= number <= 13)
    name = NAMES[number]
    if form == 2:
        return read_runs(reader, name, rows, left)
    if form == 1:
        need(name != "list")
        return read_flat(reader, name, rows)
    if form == 3:
        return read_constant(reader, name, rows)
    need(form == 4 and name == "list")
    return read_lists(reader, rows, left)


def read_bits(data: bytes, rows: int) -> tuple[bool, ...]:
    need(len(data) == (rows + 7) // 8)
    number = int.from_bytes(data, "little")
    need(number >> rows == 0)
    return tuple(bool(number >> row & 1) for row in range(rows))


def read_validity(reader: Reader, rows: int, most: int) -> tuple[str, Any]:
    """How, and the truths of bits."""
    number = reader.number(5)
    need(1 <= number <= most)
    return HOWS[number], read_bits(reader.bytes(6), rows) if number == 4 else ()


def read_numbers(name: str, data: bytes, rows: int) -> tuple[Any, ...]:
    if name == "bool":
        return read_bits(data, rows)
    width = 16 if name == "decimal" else WIDTHS[name] // 8
    need(len(data) == rows * width)
    signed = name[0] != "u"
    parts = (data[at : at + width] for at in range(0, len(data), width))
    return tuple(int.from_bytes(part, "little", signed=signed) for part in parts)


def read_digits(reader: Reader) -> tuple[int, int]:
    """The precision and the scale of decimals."""
    precision, scale = reader.number(14), reader.number(15)
    need(precision < 256)
    scale = scale // 2 if scale % 2 == 0 else -(scale + 1) // 2
    need(-128 <= scale <= 127)
    return precision, scale


def read_flat(reader: Reader, name: str, rows: int) -> Flat:
    how, valid = read_validity(reader, rows, 4)
    nullable = how != "nonnull"
    if name in ("utf8", "binary"):
        return Flat(Type(name, nullable), how, read_texts(reader, name, rows, how, valid), valid)
    stored = read_numbers(name, reader.bytes(7), rows)
    digits = read_digits(reader) if name == "decimal" else (0, 0)
    return Flat(Type(name, nullable, *digits), how, stored, valid)


def read_texts(reader: Reader, name: str, rows: int, how: str, valid: tuple[bool, ...]) -> tuple[Any, ...]:
    inner, lengths = Reader(reader.bytes(12)), []
    while inner.at < len(inner.data):
        lengths.append(inner.varint())
    data = reader.bytes(13)
    need(len(lengths) == rows and sum(lengths) == len(data))
    found, at = [], 0
    for row, size in enumerate(lengths):
        need(size == 0 or how != "invalid" and (how != "bits" or valid[row]))
        part = data[at : at + size]
        found.append(text_of(part) if name == "utf8" else part)
        at += size
    return tuple(found)


def read_constant(reader: Reader, name: str, rows: int) -> Constant:
    how = HOWS.get(reader.number(5))
    need(how in ("nonnull", "valid", "invalid"))
    data, nullable = reader.bytes(7), how != "nonnull"
    if name == "list":
        need(how == "invalid" and not data)
        digits = read_digits(reader) if reader.is_next(14, 0) else None
        number, element_nulls = reader.number(20), reader.number(21)
        need(1 <= number <= 12 and element_nulls in (1, 2) and (digits is not None) == (number == 10))
        element = Type(NAMES[number], element_nulls == 2, *(digits or (0, 0)))
        return Constant(Type("list", True, element=element), None, rows)
    digits = read_digits(reader) if name == "decimal" else (0, 0)
    if how == "invalid":
        need(not data)
        value = None
    elif name == "bool":
        need(data in (b"\0", b"\1"))
        value = data == b"\1"
    elif name in ("utf8", "binary"):
        value = text_of(data) if name == "utf8" else data
    else:
        value = read_numbers(name, data, 1)[0]
    return Constant(Type(name, nullable, *digits), value, rows)


def read_runs(reader: Reader, name: str, rows: int, left: int) -> Runs:
    need(left >= 1)
    offset, ends_number = reader.number(8), reader.number(9)
    need(1 <= ends_number <= 4)
    inner, ends, last = Reader(reader.bytes(10)), [], 0
    while inner.at < len(inner.data):
        size = inner.varint()
        need(size or not ends)
        last += size
        need(last < 2 ** WIDTHS[UNSIGNED[ends_number - 1]])
        ends.append(last)
    values = reader.message(11, left - 1)
    need(values.type.name == name and values.length() == len(ends))
    need(offset + rows < 2**64 and (ends or not offset and not rows))
    need(not rows or ends[0] >= offset and last >= offset + rows)
    return Runs(UNSIGNED[ends_number - 1], offset, rows, tuple(ends), values)


def read_lists(reader: Reader, rows: int, left: int) -> Lists:
    how, valid = read_validity(reader, rows, 5)
    if how == "runs":
        valid = reader.message(16, LEVELS)
        need(isinstance(valid, Runs) and valid.count == rows and isinstance(valid.values, Flat))
        need(valid.type == Type("bool"))
    elements, offsets, sizes = (reader.message(field, LEVELS) for field in (17, 18, 19))
    need(isinstance(elements, Flat))
    for part in (offsets, sizes):
        need(part.type == Type("u64") and part.length() == rows)
        need(isinstance(part, Flat) or isinstance(part, Runs) and isinstance(part.values, Flat))
    column = Lists(elements, offsets, sizes, how, valid)
    need(column.levels() <= left)
    for _, (is_valid, start, size) in together(column.valid_rows(), offsets.rows(), sizes.rows()):
        need(not is_valid or start + size <= elements.length())
    return column


def varint(number: int) -> bytes:
    found = bytearray()
    while number > 127:
        found.append(number & 127 | 128)
        number >>= 7
    return bytes([*found, number])


def field(number: int, value: int | bytes) -> bytes:
    if isinstance(value, int):
        return varint(number * 8) + varint(value)
    return varint(number * 8 + 2) + varint(len(value)) + value


def bits(truths: tuple[bool, ...]) -> bytes:
    number = sum(1 << row for row, truth in enumerate(truths) if truth)
    return number.to_bytes((len(truths) + 7) // 8, "little")


def numbers(name: str, values: tuple[Any, ...]) -> bytes:
    if name == "bool":
        return bits(tuple(map(bool, values)))
    width = 16 if name == "decimal" else WIDTHS[name] // 8
    return b"".join((value or 0).to_bytes(width, "little", signed=name[0] != "u") for value in values)


def digits(type_: Type) -> bytes:
    if type_.name != "decimal":
        return b""
    scale = type_.scale
    return field(14, type_.precision) + field(15, 2 * scale if scale >= 0 else -2 * scale - 1)


def write(column: Column) -> bytes:
    """The message of a column; refused as 13 where it has more than 16 levels of runs."""
    if column.levels() > LEVELS:
        raise Refused(13)
    return put(column)


def put(column: Column) -> bytes:
    type_ = column.type
    form = {Flat: 1, Runs: 2, Constant: 3, Lists: 4}.get(type(column))
    if form is None:
        raise Unmodelled("form")
    head = field(1, 1) + field(2, NAMES.index(type_.name)) + field(3, form) + field(4, column.length())
    return head + {1: put_flat, 2: put_runs, 3: put_constant, 4: put_lists}[form](column, type_)


def put_validity(column: Flat | Lists) -> bytes:
    how = next(number for number, name in HOWS.items() if name == column.how)
    return field(5, how) + (field(6, bits(column.valid)) if column.how == "bits" else b"")


def put_flat(column: Flat, type_: Type) -> bytes:
    head = put_validity(column)
    if type_.name not in ("utf8", "binary"):
        return head + field(7, numbers(type_.name, column.stored)) + digits(type_)
    rows = [value for count, value in column.rows() for _ in range(count)]
    data = [b"" if row is None else row.encode() if isinstance(row, str) else row for row in rows]
    return head + field(12, b"".join(varint(len(each)) for each in data)) + field(13, b"".join(data))


def put_runs(column: Runs, _: Type) -> bytes:
    sizes = [end - last for last, end in zip((0, *column.ends), column.ends)]
    head = field(8, column.offset) + field(9, UNSIGNED.index(column.ends_type) + 1)
    return head + field(10, b"".join(map(varint, sizes))) + field(11, put(column.values))


def put_constant(column: Constant, type_: Type) -> bytes:
    value = column.value
    how = 3 if value is None else 2 if type_.nullable else 1
    if value is None:
        data = b""
    elif isinstance(value, bool):
        data = bytes([value])
    elif isinstance(value, str):
        data = value.encode()
    else:
        data = value if isinstance(value, bytes) else numbers(type_.name, (value,))
    head = field(5, how) + field(7, data)
    if type_.name != "list":
        return head + digits(type_)
    element = type_.element
    return head + digits(element) + field(20, NAMES.index(element.name)) + field(21, 1 + element.nullable)


def put_lists(column: Lists, _: Type) -> bytes:
    runs = field(16, put(column.valid)) if column.how == "runs" else b""
    parts = zip((17, 18, 19), (column.elements, column.offsets, column.sizes))
    return put_validity(column) + runs + b"".join(field(number, put(part)) for number, part in parts)
