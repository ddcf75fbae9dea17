#!/usr/bin/env python3
"""Holds the vectors with messages against Protocol Buffers' own library, by docs/column.proto.

    /usr/bin/python3 vectors.py < ../vectors/lines.txt        ends in 'N messages are those of the schema'

A line `NAME = from bytes HH ..` has to be refused exactly where the bytes are not those of a column, and the answer to
`NAME bytes` has to be a column's: the one that was read, where NAME has just been made of bytes. A line `NAME form`
right after one of these has to give the form of that message. Needs what model.py needs.
"""

import re
import sys
import warnings

import model
from model import (
    ALL_NULL, BINARY, BOOL, BY_BITS, BY_RUNS, CONSTANT, DECIMAL, LIST, LISTS, NEVER_NULL, NULLABLE, RUNS, UTF8, column,
    is_set,
)

READ = re.compile(r"(?:refuse )?([a-z]\w*) = from bytes ((?:[0-9A-Fa-f]{2} )*[0-9A-Fa-f]{2}|-)(?: => (.*))?")
WRITTEN = re.compile(r"(?:refuse )?([a-z]\w*) bytes => ([0-9A-F]{2}(?: [0-9A-F]{2})*)(?: memory| none)?")
FORM = re.compile(r"([a-z]\w*) form => (.*)")
TYPES = {1: "u8", 2: "u16", 3: "u32", 4: "u64", 5: "i8", 6: "i16", 7: "i32", 8: "i64"}
TYPES |= {BOOL: "bool", UTF8: "utf8", BINARY: "binary"}
ESCAPES = str.maketrans({" ": "\\s", "\n": "\\n", '"': '\\"', "\\": "\\\\"})
VALIDITIES = {1: "nonnull", 2: "valid", ALL_NULL: "invalid", BY_BITS: "bits"}


def list_validity(message) -> str:
    if message.validity == BY_RUNS:
        return f"{{ {form(message.validity_runs)} }}"
    if message.validity != BY_BITS:
        return VALIDITIES[message.validity]
    return f"bits {''.join(str(int(is_set(message.validity_bits, place))) for place in range(message.rows)) or '-'}"


def row(message, index: int) -> str:
    shown = model.row(message, index)
    if message.type not in (DECIMAL, UTF8, BINARY) or shown == "null":
        return shown
    data = bytes.fromhex(shown.removeprefix("'"))
    if message.type == DECIMAL:
        return str(int.from_bytes(data, "big", signed=True))
    return f"x{data.hex().upper()}" if message.type == BINARY else f'"{data.decode().translate(ESCAPES)}"'


def type_name(kind: int, message) -> str:
    """A type of rows, or of elements, with the precision and scale that the message has for decimals."""
    return f"decimal({message.precision},{message.scale})" if kind == DECIMAL else TYPES[kind]


def form(message) -> str:
    """The form of a column in the words of docs/VECTORS.md."""
    if message.form == RUNS:
        window = [TYPES[message.ends_type], message.offset, message.rows, *model.ends_of(message)]
        return " ".join(["runs", *map(str, window), "{", form(message.values), "}"])
    if message.form == LISTS:
        parts = [f"{{ {form(part)} }}" for part in (message.elements, message.offsets, message.sizes)]
        return " ".join(["lists", *parts, list_validity(message)])
    if message.type == LIST:
        elements = type_name(message.element_type, message) + "?" * (message.element_nullability == NULLABLE)
        return f"constant list({elements})? null {message.rows}"
    name, null = type_name(message.type, message), "" if message.validity == NEVER_NULL else "?"
    if message.form == CONSTANT:
        return f"constant {name}{null} {row(message, 0)} {message.rows}"
    rows = [row(message, index) for index in range(message.rows)]
    return " ".join(["flat", name + null, VALIDITIES[message.validity], *rows])


def main() -> int:
    warnings.simplefilter("ignore")
    failed, told, of, name = 0, 0, None, None
    for number, line in enumerate(map(str.rstrip, sys.stdin), 1):
        wrong = None
        if found := READ.fullmatch(line):
            data = bytes.fromhex(found[2].replace("-", ""))
            name, of = found[1], column(data)
            due = "refused 17" if of is None else "ok"
            wrong = due != re.sub(" (memory|none)$", "", found[3] or "ok") and f"should be {due}"
            told += 1
        elif found := WRITTEN.fullmatch(line):
            last, name, of = (name, of), found[1], column(bytes.fromhex(found[2]))
            wrong = of is None and "are no column's bytes"
            if last[0] == name and last[1] is not None and "refuse" not in line:
                wrong = wrong or last[1] != of and "are not the bytes that were read"
            told += 1
        elif found := FORM.fullmatch(line):
            wrong = found[1] == name and of is not None and form(of) != found[2] and f"should be {form(of)}"
        else:
            name = None
        if wrong:
            print(f"line {number}: {line}: {wrong}")
            failed += 1
    print(f"{told} messages are those of the schema" if not failed else f"{failed} of {told} are not")
    return 1 if failed or not told else 0


if __name__ == "__main__":
    sys.exit(main())
