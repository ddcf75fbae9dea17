"""The messages of docs/table.proto, over Protocol Buffers' own library: which bytes are a table's, and how they are
written. Written from docs/BYTES.md, over model.py, and shares nothing with the library that it is held against.

Needs what model.py needs.
"""

import importlib
import random
import subprocess
import sys
import tempfile
from itertools import groupby

import messages
import model
from model import (
    ALL_NULL, BINARY, BOOL, BY_BITS, DECIMAL, FLAT, LIST, NEVER_NULL, NONE_NULL, RUNS, SIZES, UNSIGNED, UTF8,
)


def compiled():
    """The class of tables, as protoc makes it of table.proto."""
    with tempfile.TemporaryDirectory() as folder:
        files = ["column.proto", "table.proto"]
        subprocess.run(["protoc", f"-I{model.SCHEMA}", f"--python_out={folder}", *files], check=True)
        sys.path.insert(0, folder)
        return importlib.import_module("table_pb2").Table


Table = compiled()
MAGIC, VERSIONS = "hivevigil", (1, 2)
ROWS, AS_FLAT, AS_RUNS = 0, 1, 2  # how a column is kept: as its rows, or as the differences of one of these forms
I64, MOST = 8, 2**26
NAMES = ["level", "place", "", "größe", "x,y", "level "]
LOGICAL_TYPES = ["", "", "tdD", "tsu:UTC", "e", "f", "g", "tts", "ttu", "tdm", "tDn", "tsn:", "tsx:", "days"]

# ---- what is written


def field_bytes(message, field) -> bytes:
    found = getattr(message, field.name)
    if field.message_type:
        parts = [written(part) for part in (found if field.label == field.LABEL_REPEATED else [found])]
        is_there = field.label == field.LABEL_REPEATED or message.HasField(field.name)
        return b"".join(model.varint(field.number * 8 + 2) + model.varint(len(part)) + part for part in parts * is_there)
    only = type(message)()
    if message.HasField(field.name):
        setattr(only, field.name, found)
    return only.SerializeToString()


def written(message) -> bytes:
    """The message's bytes, field by field, in the order in which the schema has them."""
    if message.DESCRIPTOR.name == "Column":
        return model.written(message)
    return b"".join(field_bytes(message, field) for field in message.DESCRIPTOR.fields)


# ---- what the footer says of a column


def has_null(message) -> bool:
    """Whether the type of the rows has null."""
    return has_null(message.values) if message.form == RUNS else message.validity != NEVER_NULL


def plain_of(message):
    """What the rows of a message are over: a flat column or a constant."""
    return plain_of(message.values) if message.form == RUNS else message


def value_of(row: str, kind: int):
    """A row of the model as a value that has its order."""
    if kind in (UTF8, BINARY):
        return bytes.fromhex(row[1:])
    if kind == BOOL:
        return row == "true"
    return int.from_bytes(bytes.fromhex(row), "big", signed=True) if kind == DECIMAL else int(row)


def bounds(message, values: list):
    """A flat column of these values, of the type of a message."""
    found = messages.begun(message.type, FLAT, len(values))
    found.validity = NONE_NULL if has_null(message) else NEVER_NULL
    if message.type == DECIMAL:
        found.precision, found.scale = plain_of(message).precision, plain_of(message).scale
    if message.type in (UTF8, BINARY):
        found.text_lengths.extend(map(len, values))
        found.text_bytes = b"".join(values)
    elif message.type == BOOL:
        found.items = messages.bits(values)
    else:
        signed = message.type not in UNSIGNED
        found.items = b"".join(value.to_bytes(SIZES[message.type], "little", signed=signed) for value in values)
    return found


def describe(footer, message, kept) -> None:
    """Writes into a footer what it has to say of the rows of a message, which are kept as another, or as they are."""
    footer.size = len(model.written(kept))
    if message.type == LIST:
        return
    rows = [model.row(message, at) for at in range(message.rows)]
    valid = [value_of(row, message.type) for row in rows if row != "null"]
    footer.nulls = len(rows) - len(valid)
    footer.runs = sum(1 for _ in groupby(rows))
    footer.bounds.CopyFrom(bounds(message, [min(valid), max(valid)] if valid else []))


# ---- columns of integers as differences


def integers_of(message) -> list:
    """The rows of a column of integers, None where they are null."""
    rows = [model.row(message, at) for at in range(message.rows)]
    return [None if row == "null" else int(row) for row in rows]


def integers(rows: list, kind: int, nullable: bool, validity: int):
    """The flat column of integers, which are 0 under null; `validity` says how nulls are given where there are some."""
    message = messages.begun(kind, FLAT, len(rows))
    message.validity = (validity if None in rows else NONE_NULL) if nullable else NEVER_NULL
    if message.validity == BY_BITS:
        message.validity_bits = messages.bits([row is not None for row in rows])
    signed = kind not in UNSIGNED
    message.items = b"".join((row or 0).to_bytes(SIZES[kind], "little", signed=signed) for row in rows)
    return message


def in_runs(rows: list, kind: int, nullable: bool):
    """The same rows in as few runs as possible, with the narrowest ends."""
    runs = [(row, len(list(part))) for row, part in groupby(rows)]
    values = [row for row, _ in runs]
    message = messages.begun(kind, RUNS, len(rows))
    message.offset, message.ends_type = 0, next(width for width in (1, 2, 3, 4) if len(rows) < 2 ** (8 * SIZES[width]))
    message.run_lengths.extend(count for _, count in runs)
    is_all_null = bool(values) and not any(value is not None for value in values)
    message.values.CopyFrom(integers(values, kind, nullable, ALL_NULL if is_all_null else BY_BITS))
    return message


def in_form(rows: list, kind: int, nullable: bool, form: int):
    """The column of a form that differences give back."""
    return integers(rows, kind, nullable, BY_BITS) if form == AS_FLAT else in_runs(rows, kind, nullable)


def differences(rows: list) -> list:
    """Of each row that is not null to the one before it that is not, of the first to 0."""
    found, before = [], 0
    for row in rows:
        found.append(None if row is None else row - before)
        before = before if row is None else row
    return found


def totals(steps: list) -> list:
    """The rows that have these differences."""
    found, total = [], 0
    for step in steps:
        total += step or 0
        found.append(None if step is None else total)
    return found


def is_in_range(rows: list, kind: int) -> bool:
    bits = 8 * SIZES[kind]
    least = 0 if kind in UNSIGNED else -(2 ** (bits - 1))
    return all(row is None or least <= row < least + 2**bits for row in rows)


def is_whole(kind: int) -> bool:
    return kind in SIZES and kind != DECIMAL


def as_differences(message):
    """How a column is kept as differences, and these; None where they are no shorter, or do not give it back."""
    form = {FLAT: AS_FLAT, RUNS: AS_RUNS}.get(message.form)
    if form is None or not is_whole(message.type):
        return None
    rows = integers_of(message)
    nullable = has_null(message)
    steps = differences(rows)
    if not is_in_range(steps, I64) or in_form(rows, message.type, nullable, form) != message:
        return None
    kept = in_runs(steps, I64, nullable)
    return (form, kept) if len(model.written(kept)) < len(model.written(message)) else None


def restored(footer, kept):
    """The column that a message of differences is kept for; None where it is none."""
    kind = footer.bounds.type
    if footer.differences not in (AS_FLAT, AS_RUNS) or not is_whole(kind) or not model.is_column(footer.bounds):
        return None
    nullable = has_null(footer.bounds)
    if not model.is_column(kept) or (kept.type, kept.form, has_null(kept)) != (I64, RUNS, nullable):
        return None
    if kept.rows > MOST:  # the model writes out each row
        return None
    steps = integers_of(kept)
    rows = totals(steps)
    if in_runs(steps, I64, nullable) != kept or not is_in_range(rows, kind):
        return None
    return in_form(rows, kind, nullable, footer.differences)


# ---- which bytes are tables


def column_of(footer, kept, version: int):
    """The column that a table has by a message and what its footer says; None where it is none."""
    if version == 2 and footer.differences != ROWS:
        return restored(footer, kept)
    return kept if model.is_column(kept) else None


def is_footer(footer, column, kept, version: int) -> bool:
    due = type(footer)()
    due.name, due.logical_type = footer.name, footer.logical_type
    describe(due, column, kept)
    if version == 2 and column.type != LIST:
        due.differences = footer.differences
    return written(due) == written(footer)


def is_table(message) -> bool:
    footers, names = message.footer.columns, [footer.name for footer in message.footer.columns]
    if message.magic != MAGIC or message.version not in VERSIONS or len(footers) != len(message.columns):
        return False
    if len(set(names)) < len(names) or message.footer_size != len(written(message.footer)):
        return False
    if message.version != (2 if any(footer.differences for footer in footers) else 1):
        return False
    for footer, kept in zip(footers, message.columns):
        column = column_of(footer, kept, message.version)
        if column is None or column.rows != message.footer.rows or not is_footer(footer, column, kept, message.version):
            return False
    return True


def columns(message) -> list:
    """The columns of a table."""
    return [column_of(footer, kept, message.version) for footer, kept in zip(message.footer.columns, message.columns)]


def table(data: bytes):
    """The message, or None where the bytes are not those of a table."""
    message = Table()
    try:
        message.ParseFromString(data)
    except Exception:  # the two ways in which Protocol Buffers refuses bytes have no class in common
        return None
    message.DiscardUnknownFields()
    has_all = message.HasField("footer") and message.HasField("footer_size") and message.footer.HasField("rows")
    return message if has_all and is_table(message) and written(message) == data else None


# ---- tables at random, and damaged ones


def made(rows: int, columns: dict, logical_types: dict, kept: dict = {}):
    """A table of messages by name, of which some are kept as differences: their form, and these."""
    message = Table()
    message.magic, message.version, message.footer.rows = MAGIC, 2 if kept else 1, rows
    for name, column in columns.items():
        form, part = kept.get(name, (ROWS, column))
        message.columns.add().CopyFrom(part)
        footer = message.footer.columns.add()
        footer.name, footer.logical_type = name, logical_types.get(name, "")
        describe(footer, column, part)
        if kept and column.type != LIST:
            footer.differences = form
    message.footer_size = len(written(message.footer))
    return message


def steady(chance: random.Random, rows: int):
    """A column of integers that mostly grow by the same, in one of the forms that differences give back."""
    kind, nullable = chance.choice([1, 2, 3, 4, 5, 6, 7, 8]), chance.random() < 0.5
    step, found = chance.choice([0, 1, 1, 3, -2]), []
    number = chance.choice([0, 5, 100, 2 ** (8 * SIZES[kind] - 1) - 3])
    for _ in range(rows):
        number += step if chance.random() < 0.9 else chance.choice([0, 7, -7, 2**40])
        is_null = nullable and chance.random() < 0.1
        found.append(number if not is_null and is_in_range([number], kind) else None if nullable else 0)
    return in_form(found, kind, nullable, chance.choice([AS_FLAT, AS_RUNS]))


def random_column(chance: random.Random, rows: int):
    column = None
    while column is None or not model.is_column(column):
        column = messages.column(chance, rows, chance.choice([0, 1, 1, 2, 3]))
    return column


def random_table(chance: random.Random, in_differences: bool = False):
    """A table of columns of any type and form; some of those that are shorter so are kept as differences."""
    rows, columns, kept = chance.choice([0, 1, 2, 3, 5, 9, 40]), {}, {}
    for name in chance.sample(NAMES, chance.choice([0, 1, 1, 2, 2, 3, 5])):
        is_steady = in_differences and chance.random() < 0.7
        columns[name] = steady(chance, rows) if is_steady else random_column(chance, rows)
        found = as_differences(columns[name]) if in_differences else None
        if found is not None and chance.random() < 0.8:
            kept[name] = found
    return made(rows, columns, {name: chance.choice(LOGICAL_TYPES) for name in columns}, kept)


def altered(chance: random.Random, message):
    """The table with a field, or one of a message in it, changed, left out or put in. Where a column was changed, its
    size and that of the footer mostly say so, so that the damage is in its rows."""
    whole = Table()
    whole.CopyFrom(message)
    if whole.columns and chance.random() < 0.5:
        place = chance.randrange(len(whole.columns))
        column, footer = whole.columns[place], whole.footer.columns[place]
        column.CopyFrom(messages.altered(chance, column))
        footer.size = len(model.written(column))
    elif whole.footer.columns:
        change_footer(chance, chance.choice(whole.footer.columns))
    else:
        whole.footer.rows += 1
    if chance.random() < 0.9:
        whole.footer_size = len(written(whole.footer))
    return whole


def change_footer(chance: random.Random, footer) -> None:
    """Another field of what a footer says of a column."""
    field = chance.choice(footer.DESCRIPTOR.fields)
    if field.name == "bounds" and footer.HasField("bounds") and chance.random() < 0.8:
        footer.bounds.CopyFrom(messages.altered(chance, footer.bounds))
    elif chance.random() < 0.2:
        footer.ClearField(field.name)
    elif field.cpp_type == field.CPPTYPE_STRING:
        setattr(footer, field.name, chance.choice([*NAMES, "tdD"]))
    else:
        messages.set_other(chance, footer, field)


def tables(count: int, seed: int, in_differences: bool = False) -> list[bytes]:
    """Bytes of tables, of which two of three are changed."""
    chance = random.Random(seed)
    found = []
    while len(found) < count:
        message = random_table(chance, in_differences)
        data = written(message)
        found += [data, messages.changed(chance, data), written(altered(chance, message))]
    return found[:count]
