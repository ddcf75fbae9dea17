"""The messages of docs/column.proto, over Protocol Buffers' own library: which bytes are a column's, what its rows are,
and how they are written. Written from docs/BYTES.md, and shares nothing with the library that it is held against.

Needs protoc and Debian's python3-protobuf.
"""

import importlib
import subprocess
import sys
import tempfile
from itertools import accumulate, pairwise
from pathlib import Path

SCHEMA = Path(__file__).resolve().parents[2] / "docs"
FLAT, RUNS, CONSTANT, LISTS = 1, 2, 3, 4
NEVER_NULL, NONE_NULL, ALL_NULL, BY_BITS, BY_RUNS = 1, 2, 3, 4, 5
U64, BOOL, DECIMAL, UTF8, BINARY, LIST = 4, 9, 10, 11, 12, 13
SIZES = {1: 1, 2: 2, 3: 4, 4: 8, 5: 1, 6: 2, 7: 4, 8: 8, DECIMAL: 16}  # bytes of a number, by its type
UNSIGNED = {1, 2, 3, 4}
PLAIN = {*SIZES, BOOL, UTF8, BINARY}
NON_NULLABLE, NULLABLE = 1, 2
MOST_LEVELS, SHOWN = 16, 100


def compiled():
    """The class of messages, as protoc makes it of column.proto."""
    with tempfile.TemporaryDirectory() as folder:
        subprocess.run(["protoc", f"-I{SCHEMA}", f"--python_out={folder}", "column.proto"], check=True)
        sys.path.insert(0, folder)
        return importlib.import_module("column_pb2").Column


Column = compiled()

# ---- what is written

# a list of no numbers, which Protocol Buffers leave out, is here a field of no bytes where its form has this field
STANDS_BEFORE = {"run_lengths": "values", "text_lengths": "text_bytes"}


def varint(number: int) -> bytes:
    low = number & 127
    return bytes([low]) if number < 128 else bytes([low | 128]) + varint(number >> 7)


def field_bytes(message, field) -> bytes:
    name, found = field.name, getattr(message, field.name)
    alone, key = Column(), varint(field.number * 8 + 2)
    if name in STANDS_BEFORE:
        if not found and message.HasField(STANDS_BEFORE[name]):
            return key + b"\0"
        getattr(alone, name).extend(found)
    elif not message.HasField(name):
        return b""
    elif field.message_type:
        content = written(found)
        return key + varint(len(content)) + content
    else:
        setattr(alone, name, found)
    return alone.SerializeToString()


def written(message) -> bytes:
    """The message's bytes, field by field, in the order in which the schema has them."""
    return b"".join(field_bytes(message, field) for field in Column.DESCRIPTOR.fields)


# ---- which bytes are messages


def is_set(data: bytes, place: int) -> bool:
    return data[place // 8] >> place % 8 & 1 == 1


def is_valid(message, index: int) -> bool:
    if message.validity == BY_RUNS:
        return row(message.validity_runs, index) == "true"
    by_bits = message.validity == BY_BITS
    return is_set(message.validity_bits, index) if by_bits else message.validity != ALL_NULL


def has_fields(message, wanted: set[str], lengths: str = "") -> bool:
    """These fields and no other, and those that all forms have; `lengths` are varints that may be none."""
    found = {field.name for field, _ in message.ListFields()}
    return found - {lengths} == wanted | {"version", "type", "form", "rows"}


def are_bits(data: bytes, count: int) -> bool:
    return len(data) == (count + 7) // 8 and int.from_bytes(data, "little") < 1 << count


def is_text(data: bytes) -> bool:
    return data.decode(errors="ignore").encode() == data


def texts_of(message) -> list[bytes]:
    ends = [0, *accumulate(message.text_lengths)]
    return [message.text_bytes[start:end] for start, end in pairwise(ends)]


def are_texts(message) -> bool:
    lengths, count = message.text_lengths, message.rows
    if len(lengths) != count or sum(lengths) != len(message.text_bytes):
        return False
    if any(length and not is_valid(message, index) for index, length in enumerate(lengths)):
        return False
    return message.type == BINARY or all(map(is_text, texts_of(message)))


def validity_fields(message) -> set[str]:
    told_by = {BY_BITS: {"validity_bits"}, BY_RUNS: {"validity_runs"}}
    return {"validity"} | told_by.get(message.validity, set())


def decimal_fields(message) -> set[str]:
    return {"precision", "scale"} if message.type == DECIMAL else set()


def is_decimal_type(message) -> bool:
    """Precision and scale are of native types; of other types they are none."""
    return message.precision <= 255 and message.scale in range(-128, 128)


def is_flat(message) -> bool:
    is_of_texts = message.type in (UTF8, BINARY)
    wanted = validity_fields(message) | decimal_fields(message) | {"text_bytes" if is_of_texts else "items"}
    if not has_fields(message, wanted, "text_lengths" if is_of_texts else "") or not is_decimal_type(message):
        return False
    if message.validity not in (NEVER_NULL, NONE_NULL, ALL_NULL, BY_BITS):
        return False
    if message.validity == BY_BITS and not are_bits(message.validity_bits, message.rows):
        return False
    if is_of_texts:
        return are_texts(message)
    if message.type == BOOL:
        return are_bits(message.items, message.rows)
    return message.type in SIZES and len(message.items) == message.rows * SIZES[message.type]


def is_null_of_lists(message) -> bool:
    """A constant of lists: null, and the type of the elements."""
    decimal = {"precision", "scale"} if message.element_type == DECIMAL else set()
    wanted = {"validity", "items", "element_type", "element_nullability"} | decimal
    if not has_fields(message, wanted) or not is_decimal_type(message):
        return False
    elements = (message.element_type in PLAIN, message.element_nullability in (NON_NULLABLE, NULLABLE))
    return message.validity == ALL_NULL and not message.items and all(elements)


def is_constant(message) -> bool:
    if message.type == LIST:
        return is_null_of_lists(message)
    if not has_fields(message, {"validity", "items"} | decimal_fields(message)) or not is_decimal_type(message):
        return False
    if message.validity == ALL_NULL:
        return message.type in PLAIN and not message.items
    if message.validity not in (NEVER_NULL, NONE_NULL):
        return False
    if message.type == UTF8:
        return is_text(message.items)
    if message.type in (BOOL, BINARY):
        return message.type == BINARY or message.items in (b"\0", b"\1")
    return message.type in SIZES and len(message.items) == SIZES[message.type]


def ends_of(message) -> list[int]:
    return list(accumulate(message.run_lengths))


def is_window(ends: list[int], offset: int, rows: int) -> bool:
    if not ends:
        return offset == rows == 0
    return offset + rows < 2**64 and (rows == 0 or ends[0] >= offset and ends[-1] >= offset + rows)


def are_runs(message, levels: int) -> bool:
    if not has_fields(message, {"offset", "ends_type", "values"}, "run_lengths") or levels == 0:
        return False
    if message.ends_type not in UNSIGNED or 0 in message.run_lengths[1:]:
        return False
    ends, values = ends_of(message), message.values
    if ends and ends[-1] >= 2 ** (8 * SIZES[message.ends_type]):
        return False
    return (
        is_column(values, levels - 1)
        and (values.type, values.rows) == (message.type, len(ends))
        and is_window(ends, message.offset, message.rows)
    )


# ---- messages of lists


def is_plain(message, kind: int) -> bool:
    """A flat column of the type, without null."""
    return message.form == FLAT and message.type == kind and message.validity == NEVER_NULL and is_column(message)


def is_over_plain(message, kind: int) -> bool:
    """Runs over such a column."""
    return message.form == RUNS and is_plain(message.values, kind) and is_column(message)


def rows_to_look_at(message) -> range | list[int]:
    """Of a stretch of rows in which each part of the lists is the same, the first is enough."""
    parts = [message.offsets, message.sizes, *[message.validity_runs] * (message.validity == BY_RUNS)]
    if message.validity == BY_BITS or any(part.form == FLAT for part in parts):
        return range(message.rows)
    stops = {end - part.offset for part in parts for end in ends_of(part)}
    return [place for place in sorted({0, *stops}) if 0 <= place < message.rows]


def are_within(message) -> bool:
    """The elements of each valid row are some that there are."""
    places = [place for place in rows_to_look_at(message) if is_valid(message, place)]
    stops = [int(row(message.offsets, place)) + int(row(message.sizes, place)) for place in places]
    return max(stops, default=0) <= message.elements.rows


def are_lists(message, levels: int) -> bool:
    if message.type != LIST or message.validity not in range(NEVER_NULL, BY_RUNS + 1):
        return False
    if not has_fields(message, validity_fields(message) | {"elements", "offsets", "sizes"}):
        return False
    if message.validity == BY_BITS and not are_bits(message.validity_bits, message.rows):
        return False
    by_runs, indices = message.validity == BY_RUNS, [message.offsets, message.sizes]
    if by_runs and not (is_over_plain(message.validity_runs, BOOL) and message.validity_runs.rows == message.rows):
        return False
    if not all(is_plain(index, U64) or is_over_plain(index, U64) for index in indices):
        return False
    # runs in offsets, sizes or validity count as two levels of runs
    if levels < 2 and (by_runs or any(index.form == RUNS for index in indices)):
        return False
    if message.elements.form != FLAT or not is_column(message.elements):
        return False
    return all(index.rows == message.rows for index in indices) and are_within(message)


def is_column(message, levels: int = MOST_LEVELS) -> bool:
    """Whether the message is a column's, with at most this number of levels of runs."""
    forms = {
        FLAT: is_flat,
        RUNS: lambda runs: are_runs(runs, levels),
        CONSTANT: is_constant,
        LISTS: lambda lists: are_lists(lists, levels),
    }
    return message.version == 1 and message.form in forms and forms[message.form](message)


def is_typed(message) -> bool:
    """Whether the message is that of a column with a logical type, around that of the column."""
    found = {field.name for field, _ in message.ListFields()}
    is_of_three = message.version == 2 and found == {"version", "logical_type", "storage"}
    return is_of_three and message.logical_type != "" and is_column(message.storage)


# ---- the rows, and the answer that is due


def item(message, index: int) -> str:
    """An integer or a decimal of a flat column or of a constant."""
    size = SIZES[message.type]
    found = message.items[index * size : (index + 1) * size]
    if message.type == DECIMAL:
        return found[::-1].hex()
    return str(int.from_bytes(found, "little", signed=message.type not in UNSIGNED))


def row(message, index: int) -> str:
    """A row as text: of a decimal the digits of its 16 bytes, of a text those of its bytes after a quote."""
    if message.form == RUNS:
        position = message.offset + index
        return row(message.values, next(run for run, end in enumerate(ends_of(message)) if end > position))
    if not is_valid(message, index):
        return "null"
    if message.form == LISTS:
        start, count = int(row(message.offsets, index)), int(row(message.sizes, index))
        return f"[{' '.join(row(message.elements, place) for place in range(start, start + count))}]"
    if message.form == CONSTANT:
        index = 0
    if message.type in (UTF8, BINARY):
        text = message.items if message.form == CONSTANT else texts_of(message)[index]
        return f"'{text.hex()}"
    if message.type == BOOL:
        return str(is_set(message.items, index)).lower()
    return item(message, index)


def parsed(data: bytes):
    """The message that Protocol Buffers read, where they write it as these bytes; else None."""
    message = Column()
    try:
        message.ParseFromString(data)
    except Exception:  # the two ways in which Protocol Buffers refuses bytes have no class in common
        return None
    message.DiscardUnknownFields()  # Protocol Buffers keep them, and would write them again
    return message if written(message) == data else None


def column(data: bytes):
    """The message, or None where the bytes are not those of a column without a logical type."""
    message = parsed(data)
    return message if message is not None and is_column(message) else None


def typed_column(data: bytes):
    """The message, or None where the bytes are not those of a column, with or without a logical type."""
    message = parsed(data)
    return message if message is not None and (is_column(message) or is_typed(message)) else None


def answer(data: bytes) -> str:
    """What reader.c has to answer to the bytes: the name of a logical type is shown as a text is."""
    message = typed_column(data)
    if message is None:
        return "refused"
    stored = message.storage if message.version == 2 else message
    rows = [row(stored, index) for index in range(min(stored.rows, SHOWN))]
    means = [f"of '{message.logical_type.encode().hex()}"] if message.version == 2 else []
    return " ".join([f"{stored.rows} rows:", *rows, *means, "=", data.hex()])
