#!/usr/bin/env python3
"""Random columns as messages by docs/column.proto, written and read by Protocol Buffers' own library, and what
reader.c, a program over the library, has to answer to each.

    /usr/bin/python3 messages.py lines COUNT SEED        the messages, a line each in hexadecimal digits
    /usr/bin/python3 messages.py answers < LINES         the answer that is due to each line
    /usr/bin/python3 messages.py try PROGRAM COUNT SEED  runs the program on COUNT of them, and compares

Of three messages the second is the first with a byte or two changed, put in or left out, and the third the first with a
field of it, or of a message in it, changed, put in or left out. One in four of COUNT has a logical type. Needs what
model.py needs.
"""

import random
import subprocess
import sys
import warnings

from model import (
    ALL_NULL, BINARY, BOOL, BY_BITS, BY_RUNS, CONSTANT, DECIMAL, FLAT, LIST, LISTS, NEVER_NULL, NON_NULLABLE, NONE_NULL,
    NULLABLE, PLAIN, RUNS, SIZES, U64, UNSIGNED, UTF8, Column, answer, is_valid, written,
)

TEXTS = ["", "", "a", "two words", "Z\u00fcrich", "\U0001f41d", "x" * 200]
# formats of Arrow with the types of columns that have them, and names of types that are none of these
FORMATS = {
    "e": 6, "f": 7, "g": 8, "tdD": 7, "tdm": 8, "tts": 7, "ttm": 7, "ttu": 8, "ttn": 8, "tss:": 8, "tsm:UTC": 8,
    "tsu:Europe/Berlin": 8, "tsn:+02:00": 8, "tDs": 8, "tDm": 8, "tDu": 8, "tDn": 8,
}
OTHER_FORMATS = ["l", "tsx:", "tdD ", "tss", "\0", "d:5,2", "Z\u00fcrich", "\U0001f41d", "tsu:" + "x" * 200]
PLAIN_FIELDS = [field for field in Column.DESCRIPTOR.fields if field.number < 22]  # of version 1


def bits(flags: list[bool]) -> bytes:
    number = sum(flag << place for place, flag in enumerate(flags))
    return number.to_bytes((len(flags) + 7) // 8, "little")


def some_flags(chance: random.Random, count: int) -> list[bool]:
    return [chance.random() < 0.5 for _ in range(count)]


def begun(kind: int, form: int, rows: int):
    message = Column()
    message.version, message.type, message.form, message.rows = 1, kind, form, rows
    return message


# ---- flat columns and constants


def flat(chance: random.Random, rows: int, kind: int = 0):
    """A flat column of this number of rows, of this type or of any, with anything stored under null."""
    kind = kind or chance.choice([*PLAIN])
    message = begun(kind, FLAT, rows)
    message.validity = chance.choice([NEVER_NULL, NONE_NULL, ALL_NULL, BY_BITS, BY_BITS])
    if message.validity == BY_BITS:
        message.validity_bits = bits(some_flags(chance, rows))
    if kind == DECIMAL:
        message.precision, message.scale = chance.randrange(256), chance.randrange(-128, 128)
    if kind in (UTF8, BINARY):
        texts = [chance.choice(TEXTS).encode() if is_valid(message, index) else b"" for index in range(rows)]
        message.text_lengths.extend(map(len, texts))
        message.text_bytes = b"".join(texts)
    elif kind == BOOL:
        message.items = bits(some_flags(chance, rows))
    else:
        size = SIZES[kind]
        message.items = b"".join(chance.choice([bytes(size), chance.randbytes(size)]) for _ in range(rows))
    return message


def flat_truths(flags: list[bool]):
    message = begun(BOOL, FLAT, len(flags))
    message.validity, message.items = NEVER_NULL, bits(flags)
    return message


def flat_numbers(numbers: list[int]):
    """Of 64 bits, without null."""
    message = begun(U64, FLAT, len(numbers))
    message.validity, message.items = NEVER_NULL, b"".join(number.to_bytes(8, "little") for number in numbers)
    return message


def null_of_lists(chance: random.Random, rows: int):
    """Null in each of this number of rows, of lists of any type."""
    message = begun(LIST, CONSTANT, rows)
    message.validity, message.items = ALL_NULL, b""
    message.element_type = chance.choice([*PLAIN, DECIMAL])
    message.element_nullability = chance.choice([NON_NULLABLE, NULLABLE])
    if message.element_type == DECIMAL:
        message.precision, message.scale = chance.randrange(256), chance.randrange(-128, 128)
    return message


def constant(chance: random.Random, rows: int):
    """One value in each of this number of rows, or null."""
    kind = chance.choice([*PLAIN, LIST])
    if kind == LIST:
        return null_of_lists(chance, rows)
    message = begun(kind, CONSTANT, rows)
    message.validity = chance.choice([NEVER_NULL, NONE_NULL, ALL_NULL])
    if kind == DECIMAL:
        message.precision, message.scale = chance.randrange(256), chance.randrange(-128, 128)
    if message.validity == ALL_NULL:
        message.items = b""
    elif kind == BOOL:
        message.items = bytes([chance.randrange(2)])
    elif kind in (UTF8, BINARY):
        message.items = chance.choice(TEXTS).encode()
    else:
        message.items = chance.randbytes(SIZES[kind])
    return message


# ---- runs and lists


def window(chance: random.Random, rows: int) -> tuple[int, int, list[int]] | None:
    """A type of ends, an offset, and ends that show `rows` rows from there on; None where they do not fit."""
    ends_type, offset = chance.choice([*UNSIGNED]), chance.choice([0, 0, 1, 3])
    most = 2 ** (8 * SIZES[ends_type]) - 1
    if offset + rows > most:
        return None
    first = chance.randint(offset, offset + rows)
    later = range(first + 1, offset + rows)
    ends = [first, *sorted(chance.sample(later, min(len(later), chance.randrange(6))))]
    if ends[-1] < offset + rows:
        ends.append(offset + rows)
    if chance.random() < 0.3 and ends[-1] < most:
        ends.append(min(most, ends[-1] + chance.choice([1, 2, 300])))
    if rows == 0 and offset == 0 and chance.random() < 0.5:
        ends = []
    return ends_type, offset, ends


def over(values, rows: int, ends_type: int, offset: int, ends: list[int]):
    """Runs over these values."""
    message = begun(values.type, RUNS, rows)
    message.offset, message.ends_type = offset, ends_type
    message.run_lengths.extend(end - start for start, end in zip([0, *ends], ends))
    message.values.CopyFrom(values)
    return message


def numbers(chance: random.Random, rows: int, most: int, may_be_runs: bool):
    """Numbers of at most so much, flat or in runs."""
    cut = window(chance, rows) if may_be_runs and chance.random() < 0.5 else None
    values = flat_numbers([chance.randint(0, most) for _ in range(len(cut[2]) if cut else rows)])
    return over(values, rows, *cut) if cut else values


def lists(chance: random.Random, rows: int, levels: int):
    """So many lists, which lie anywhere in some elements. Some of them may end after the last, which is refused unless
    they are null."""
    message = begun(LIST, LISTS, rows)
    count = chance.choice([0, 1, 2, 5, 10])
    half, has_levels = count // 2, levels >= 2
    cut = window(chance, rows) if has_levels else None
    message.validity = chance.choice([NEVER_NULL, NONE_NULL, ALL_NULL, BY_BITS, *[BY_RUNS, BY_RUNS] * bool(cut)])
    if message.validity == BY_BITS:
        message.validity_bits = bits(some_flags(chance, rows))
    if message.validity == BY_RUNS:
        message.validity_runs.CopyFrom(over(flat_truths(some_flags(chance, len(cut[2]))), rows, *cut))
    too_many = chance.random() < (0.5 if message.validity == ALL_NULL else 0.05)
    message.elements.CopyFrom(flat(chance, count))
    message.offsets.CopyFrom(numbers(chance, rows, half, has_levels))
    message.sizes.CopyFrom(numbers(chance, rows, 2**64 - 1 if too_many else count - half, has_levels))
    return message


def column(chance: random.Random, rows: int, levels: int):
    """A column of this number of rows, under at most this number of levels of runs."""
    cut = window(chance, rows)
    if levels == 0 or chance.random() < 0.2 or cut is None:
        form = chance.choice([constant, constant, flat, flat, lists, lists])
        return lists(chance, rows, levels) if form is lists else form(chance, rows)
    return over(column(chance, len(cut[2]), levels - 1), rows, *cut)


# ---- columns with a logical type


def typed(format: str, storage):
    """The message of version 2."""
    message = Column()
    message.version, message.logical_type = 2, format
    message.storage.CopyFrom(storage)
    return message


def typed_column(chance: random.Random, rows: int):
    """A column with a logical type that its numbers may have, or with any."""
    format = chance.choice([*FORMATS])
    cut = window(chance, rows)
    if chance.random() < 0.4 or cut is None:
        return typed(chance.choice([*FORMATS, *OTHER_FORMATS]), column(chance, rows, 3))
    if chance.random() < 0.3:
        return typed(format, flat(chance, rows, FORMATS[format]))
    return typed(format, over(flat(chance, len(cut[2]), FORMATS[format]), rows, *cut))


# ---- messages, and what the program answers


def changed(chance: random.Random, data: bytes) -> bytes:
    """The bytes with one or two of them changed, put in or left out."""
    found = bytearray(data)
    for _ in range(chance.choice([1, 1, 2])):
        place = chance.randrange(len(found))
        match chance.randrange(4):
            case 0:
                found[place] = chance.randrange(256)
            case 1:
                found[place] ^= 1 << chance.randrange(8)
            case 2:
                found.insert(place, chance.randrange(256))
            case _:
                del found[place]
    return bytes(found)


def parts_of(message) -> list:
    """The message, and all that are in it."""
    inner = [found for field, found in message.ListFields() if field.message_type]
    return [message, *(part for found in inner for part in parts_of(found))]


def other_bytes(chance: random.Random, data: bytes) -> bytes:
    """One bit changed, or a byte more or fewer, or none."""
    flipped = int.from_bytes(data, "little") ^ 1 << chance.randrange(8 * len(data) or 1)
    return chance.choice([flipped.to_bytes(len(data) or 1, "little"), data + b"\0", data[:-1], b""])


def set_other(chance: random.Random, message, field) -> None:
    """Another message, number, bytes or list of numbers in this field."""
    found = getattr(message, field.name)
    if field.message_type:
        found.CopyFrom(flat(chance, chance.choice([0, 1, 3])))
    elif field.type == field.TYPE_STRING:
        setattr(message, field.name, chance.choice(["", *FORMATS, *OTHER_FORMATS]))
    elif field.label == field.LABEL_REPEATED:
        place = chance.randrange(len(found) + 1)
        found[place : place + chance.randrange(2)] = chance.choice([[], [0], [1], [chance.randrange(300)]])
    elif field.cpp_type == field.CPPTYPE_STRING:
        setattr(message, field.name, other_bytes(chance, found))
    else:
        most = 2**64 - 1 if field.cpp_type == field.CPPTYPE_UINT64 else 2**31 - 1
        other = chance.choice([0, 1, 2, found + 1, found + 1, found - 1, found - 1, chance.randrange(14), 2**60])
        setattr(message, field.name, max(0, min(other, most)))


def altered(chance: random.Random, message):
    """The message with one field, or one of a message in it, changed, left out or put in."""
    whole = Column()
    whole.CopyFrom(message)
    part = chance.choice(parts_of(whole))
    there = [field for field, _ in part.ListFields()]
    field = chance.choice(there if chance.random() < 0.9 else PLAIN_FIELDS)
    if chance.random() < 0.1:
        part.ClearField(field.name)
    else:
        set_other(chance, part, field)
    return whole


def some_rows(chance: random.Random) -> int:
    return chance.choice([0, 1, 2, 3, 5, 8, 9, 17, 64, 100, 300])


def messages(count: int, seed: int) -> list[bytes]:
    """Columns without a logical type, changed ones among them."""
    chance = random.Random(seed)
    made = []
    while len(made) < count:
        rows = some_rows(chance)
        message = column(chance, rows, chance.choice([0, 1, 1, 2, 2, 3, 5, 8]))
        data = written(message)
        made += [data, changed(chance, data), written(altered(chance, message))]
    return made[:count]


def typed_messages(count: int, seed: int) -> list[bytes]:
    """The same of columns with a logical type, each also with a byte or two changed of what is around its column."""
    chance = random.Random(seed)
    made = []
    while len(made) < count:
        message = typed_column(chance, some_rows(chance))
        data = written(message)
        around = len(data) - len(written(message.storage))
        made += [data, changed(chance, data), written(altered(chance, message))]
        made.append(changed(chance, data[:around]) + data[around:])
    return made[:count]


def main() -> None:
    warnings.simplefilter("ignore")
    match sys.argv[1:]:
        case ["lines", count, seed]:
            print(*(data.hex() for data in messages(int(count), int(seed))), sep="\n")
        case ["answers"]:
            for line in sys.stdin:
                print(answer(bytes.fromhex(line)))
        case ["try", program, count, seed]:
            made = [*messages(int(count) * 3 // 4, int(seed)), *typed_messages(int(count) // 4, int(seed))]
            lines = "".join(f"{data.hex()}\n" for data in made)
            done = subprocess.run([program], input=lines, capture_output=True, text=True, check=True)
            found, wanted = done.stdout.splitlines(), [answer(data) for data in made]
            for data, is_so, due in zip(made, found, wanted, strict=True):
                assert is_so == due, f"{data.hex()}: {is_so}, and should {due}"
            refused = sum(due == "refused" for due in wanted)
            print(f"{count} messages are answered as Protocol Buffers has them, {refused} of them refused")
        case _:
            sys.exit(__doc__)


if __name__ == "__main__":
    main()
