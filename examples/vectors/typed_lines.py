"""Lines of messages that keep the logical type of their column, and of bytes that are none."""

from __future__ import annotations

import random
from typing import Iterator, Union

from draws import TEXTS, any_kind, few_decimal, integer
from messages import Constant, Flat, Runs, bytes_field, hexadecimal, number_field, typed, varint
from words import INTEGERS, Row, Type, word
from writer import Writer

Made = Union[Flat, Constant, Runs]
# Names of logical types as Arrow has them, by the type that stores their rows.
FORMATS = {
    "i16": ["e"],
    "i32": ["tdD", "tts", "ttm", "f"],
    "i64": ["tdm", "ttu", "ttn", "tss:", "tsm:", "tsu:", "tsn:", "tsu:UTC", "tsn:Europe/Berlin", "tss:+05:30", "g"],
}
FORMATS["i64"] += ["tDs", "tDm", "tDu", "tDn"]
# A message keeps any text: with other letters, with what a word escapes, and with a length of two bytes.
OTHER_NAMES = ["tsu:Österreich/Wien", "ts:東京", "\U0001f41d", "a b", 'q"\\', "\n", "x" * 127, "x" * 128, "é" * 64]
OTHER_NAMES += ["d:5,2", "tsu:" + "é" * 150]
SMALL = Flat(Type("i64", True), [1, None])
# The first bytes of a message with a type: version 2, and the keys of fields 22 and 23.
VERSION, FORMAT_KEY, COLUMN_KEY = b"\x08\x02", b"\xb2\x01", b"\xba\x01"


def value(r: random.Random, type: Type) -> Row:
    """Returns a row of the type that is not null."""
    if type.is_integer:
        return integer(r, type.kind)
    if type.is_boolean:
        return r.random() < 0.5
    if type.is_decimal:
        return few_decimal(r, type.kind[0])
    return r.choice(TEXTS) if type.kind == "utf8" else r.choice(TEXTS).encode()


def flat(r: random.Random, type: Type, count: int) -> Flat:
    """Returns a flat column by chance."""
    has_null = type.nullable and r.random() < 0.7
    return Flat(type, [None if has_null and r.random() < 0.4 else value(r, type) for _ in range(count)])


def constant(r: random.Random, type: Type, count: int) -> Constant:
    """Returns a constant by chance."""
    return Constant(type, None if type.nullable and r.random() < 0.3 else value(r, type), count)


def runs(r: random.Random, type: Type) -> Runs:
    """Returns runs by chance, of which some rows may be before the window, and some after it."""
    count = r.randint(1, 5)
    ends = sorted(r.sample(range(1, 200), count))
    offset = r.randint(0, ends[0] - 1)
    kind = r.choice([kind for kind in INTEGERS if kind[0] == "u"])
    values = constant(r, type, count) if r.random() < 0.2 else flat(r, type, count)
    return Runs(kind, offset, r.randint(1, ends[-1] - offset), ends, values)


def make(writer: Writer, name: str, made: Made) -> None:
    """Writes lines that make a column."""
    if isinstance(made, Runs):
        writer.say(f"w = {made.values.maker}")
    writer.say(f"{name} = {made.maker}")


def column(writer: Writer, type: Type) -> tuple[str, Made]:
    """Writes lines that make a column of the type."""
    r, name = writer.random, writer.fresh()
    drawn = r.random()
    made = runs(r, type) if drawn < 0.5 else flat(r, type, r.randint(0, 6))
    if drawn > 0.8:
        made = constant(r, type, r.choice([0, 1, 7, 2**60]))
    make(writer, name, made)
    return name, made


def takes_memory(made: Made) -> bool:
    """Says whether reading a column is known to ask for memory."""
    return isinstance(made, Runs) or isinstance(made, Flat) and len(made.rows) > 0


def kept(writer: Writer, name: str, made: Made, format: str) -> None:
    """Writes lines that write a column with a logical type, which takes no memory, read it, and ask for the type."""
    data = hexadecimal(typed(format, made.message()))
    refuse = writer.happens(0.15) and takes_memory(made)
    before, written, read = ("refuse ", " none", " memory") if refuse else ("", "", "")
    writer.say(f"{before}{name} typed_bytes {word(format)}", data + written)
    writer.say(f"{before}z = from typed_bytes {data}", "ok" + read)
    writer.say("z form", made.form)
    writer.say(f"{before}read typed_bytes {data}", word(format) + read)


def names_case(writer: Writer) -> None:
    """Writes lines of columns of each logical type, and of names of any letters."""
    for kind, formats in FORMATS.items():
        for format in formats:
            name, made = column(writer, Type(kind, writer.happens(0.7)))
            kept(writer, name, made, format)
    for format in ["", *OTHER_NAMES]:
        name, made = column(writer, Type(any_kind(writer.random), writer.happens(0.7)))
        kept(writer, name, made, format)


def unkept_case(writer: Writer) -> None:
    """Writes lines of one column without a logical type: its message is that of `bytes`."""
    name, made = column(writer, Type("i64", True))
    data = hexadecimal(made.message())
    writer.say(f"{name} bytes", data)
    writer.say(f'{name} typed_bytes ""', data)
    writer.say(f"z = from typed_bytes {data}")
    writer.say("z bytes", data)
    writer.say(f"read typed_bytes {data}", '""')
    writer.say(f"z = from bytes {hexadecimal(typed('tdm', made.message()))}", "refused 17")


def refused(writer: Writer, data: bytes, refuse: bool = False) -> None:
    """Writes lines of bytes that are not a message, and are refused before any request for memory."""
    before, after = ("refuse ", " none") if refuse else ("", "")
    if writer.happens(0.5):
        writer.say(f"{before}z = from typed_bytes {hexadecimal(data)}", "refused 17" + after)
    else:
        writer.say(f"{before}read typed_bytes {hexadecimal(data)}", "refused 17" + after)


def prefixes_case(writer: Writer) -> None:
    """Writes lines of each front of messages, which is none."""
    columns = [(SMALL, "tsu:UTC"), (Constant(Type("utf8", False), "é", 3), "\U0001f41d")]
    columns.append((Runs("u8", 0, 3, [1, 3], Flat(Type("bool", False), [True, False])), ""))
    for made, format in columns:
        data = typed(format, made.message())
        for length in range(len(data)):
            refused(writer, data[:length])


def damages() -> Iterator[bytes]:
    """Yields bytes that are not a message, each with one fault."""
    message = SMALL.message()
    format, inner = bytes_field(22, b"tdm"), bytes_field(23, message)
    whole = typed("tdm", message)
    # fields that are absent, twice, in another order, under another number, or of another wire type
    yield VERSION + inner
    yield VERSION + format
    yield format + inner
    yield VERSION + VERSION + format + inner
    yield VERSION + format + format + inner
    yield VERSION + format + inner + inner
    yield VERSION + inner + format
    yield format + VERSION + inner
    for wrong in (1, 6, 7, 11, 21, 23, 24):
        yield VERSION + bytes_field(wrong, b"tdm") + inner
    for wrong in (1, 11, 17, 21, 22, 24):
        yield VERSION + format + bytes_field(wrong, message)
    yield VERSION + number_field(22, 3) + inner
    yield VERSION + format + number_field(23, len(message))
    for wire in (1, 3, 5, 6):
        yield VERSION + varint(22 * 8 + wire) + varint(3) + b"tdm" + inner
    # other versions, of the message and of the column in it
    for version in (0, 1, 3, 130, 258, 2**32 + 2):
        yield number_field(1, version) + format + inner
    yield VERSION + message[2:]
    yield VERSION + format + bytes_field(23, VERSION + message[2:])
    yield VERSION + format + bytes_field(23, whole)
    yield VERSION + format + bytes_field(23, typed("g", whole))
    # an empty name, and names that are not UTF-8
    yield VERSION + bytes_field(22, b"") + inner
    for name in (b"\xff", b"\x80", b"\xc3", b"td\xc3", b"\xc0\x80", b"\xed\xa0\x80", b"\xf4\x90\x80\x80", b"\xe2\x82"):
        yield VERSION + bytes_field(22, name) + inner
    # bytes after the message, within its last field or after it, and an inner message that ends early
    yield whole + b"\0"
    yield whole + message
    yield whole + whole
    yield VERSION + format + bytes_field(23, message + b"\0")
    yield VERSION + format + bytes_field(23, message[:-1])
    yield VERSION + format + bytes_field(23, b"")
    yield whole[:-1]
    # lengths that are one more, one fewer, or past the end
    yield VERSION + FORMAT_KEY + b"\x02tdm" + inner
    yield VERSION + FORMAT_KEY + b"\x04tdm" + inner
    for length in (len(message) - 1, len(message) + 1, 2**32, 2**64 - 1):
        yield VERSION + format + COLUMN_KEY + varint(length) + message
    # longer varints, of the version, of keys and of lengths, and numbers past 64 bits
    yield b"\x88\x00\x02" + format + inner
    yield b"\x08\x82\x00" + format + inner
    yield VERSION + b"\xb2\x81\x00\x03tdm" + inner
    yield VERSION + FORMAT_KEY + b"\x83\x00tdm" + inner
    yield VERSION + FORMAT_KEY + b"\x83\x80\x80\x00tdm" + inner
    yield VERSION + format + b"\xba\x81\x00" + varint(len(message)) + message
    yield VERSION + format + COLUMN_KEY + bytes([len(message) + 128, 0]) + message
    yield VERSION + format + COLUMN_KEY + bytes([len(message) + 128, *[128] * 8, 2]) + message


def damages_case(writer: Writer) -> None:
    """Writes lines of bytes that are not a message, each with one fault, and that they leave a column as it is."""
    make(writer, "z", SMALL)
    for data in damages():
        refused(writer, data, writer.happens(0.1))
    writer.say("z form", SMALL.form)


def changed(r: random.Random, front: bytes) -> bytes:
    """Returns the bytes before a column's message with one of them changed, put in or left out."""
    place = r.randrange(len(front))
    new = bytes([r.choice([r.randrange(256), front[place] ^ 1 << r.randrange(8)])])
    before, after = front[:place], front[place + 1 :]
    return r.choice([before + new + after, before + new + front[place:], before + after])


def format_of(front: bytes, size: int) -> str | None:
    """Returns the name in the bytes before a message of this size, or None where that is not what they are."""
    start, end = VERSION + FORMAT_KEY, COLUMN_KEY + varint(size)
    if not front.startswith(start) or not front.endswith(end) or len(front) < len(start) + len(end):
        return None
    middle = front[len(start) : len(front) - len(end)]
    # The length has one byte or two here.
    for name in (middle[1:], middle[2:]):
        if name and varint(len(name)) + name == middle:
            try:
                return name.decode()
            except UnicodeDecodeError:
                return None
    return None


def chance_case(writer: Writer) -> None:
    """Writes lines of a column with a name by chance, and of its message with a byte before the column's changed."""
    r = writer.random
    letters = [*"abtsu:/ 09", "é", "東", "\U0001f41d", "\n", "\\", '"']
    format = "".join(r.choice(letters) for _ in range(r.choice([1, 2, 5, 30, 127, 128])))
    name, made = column(writer, Type(any_kind(r), writer.happens(0.6)))
    kept(writer, name, made, format)
    message = made.message()
    data = typed(format, message)
    for _ in range(2):
        front = changed(r, data[: len(data) - len(message)])
        found = format_of(front, len(message))
        due = "refused 17" if found is None else word(found)
        writer.say(f"read typed_bytes {hexadecimal(front + message)}", due)
