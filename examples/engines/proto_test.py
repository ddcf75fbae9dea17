#!/usr/bin/env python3
"""Random columns by docs/column.proto: what the extension for SQLite writes is what Protocol Buffers' own writer writes of
the same rows, and what that writes is read.

    python3 proto_test.py EXTENSION [COUNT]

Needs protoc and Python's protobuf, and a Python whose sqlite3 loads extensions.
"""

import importlib
import random
import sqlite3
import struct
import subprocess
import sys
import tempfile
from itertools import groupby
from pathlib import Path

SCHEMA = Path(__file__).resolve().parents[2] / "docs"
FLAT, RUNS = 1, 2
NEVER_NULL, BY_BITS = 1, 4
U8, U16, U32, I64, UTF8, BINARY = 1, 2, 3, 8, 11, 12


def compiled(folder: str):
    """The class of messages, as protoc makes it of column.proto."""
    subprocess.run(["protoc", f"-I{SCHEMA}", f"--python_out={folder}", "column.proto"], check=True)
    sys.path.insert(0, folder)
    return importlib.import_module("column_pb2").Column


def random_rows(chance: random.Random) -> list:
    """Stretches of null and of numbers, texts or bytes."""
    values = chance.choice(
        [
            [None, 0, 1, -1, 2**63 - 1, -(2**63), 7_000_000_000],
            [None, "", "a", "Zürich", "a text that is longer than the others, by some"],
            [None, b"", b"\0", b"\xff" * 40],
        ]
    )
    rows = []
    for _ in range(chance.randrange(30)):
        rows += [chance.choice(values)] * chance.choice([1, 2, 3, 300])
    return rows


def kind_of(rows: list) -> int:
    present = [row for row in rows if row is not None]
    if not present or isinstance(present[0], int):
        return I64
    return UTF8 if isinstance(present[0], str) else BINARY


def write_values(message, values: list, kind: int) -> None:
    flags = [value is not None for value in values]
    message.version, message.type, message.form, message.rows = 1, kind, FLAT, len(values)
    message.validity = NEVER_NULL if all(flags) else BY_BITS
    if message.validity == BY_BITS:
        number = sum(flag << place for place, flag in enumerate(flags))
        message.validity_bits = number.to_bytes((len(flags) + 7) // 8, "little")
    if kind == I64:
        message.items = b"".join(struct.pack("<q", value or 0) for value in values)
        return
    texts = [value.encode() if isinstance(value, str) else value or b"" for value in values]
    message.text_lengths.extend(map(len, texts))
    message.text_bytes = b"".join(texts)


def message_of(rows: list, message):
    """The message of rows, which are some: a field of no numbers is left out by every writer of Protocol Buffers."""
    runs = [(value, len(list(stretch))) for value, stretch in groupby(rows)]
    message.version, message.type, message.form, message.rows = 1, kind_of(rows), RUNS, len(rows)
    message.offset, message.ends_type = 0, U8 if len(rows) < 2**8 else U16 if len(rows) < 2**16 else U32
    message.run_lengths.extend(count for _, count in runs)
    write_values(message.values, [value for value, _ in runs], kind_of(rows))
    return message


def asked(db: sqlite3.Connection, data: bytes) -> tuple:
    questions = "hv_rows(?1), hv_count(?1), hv_min(?1), hv_max(?1), hv_at(?1, hv_rows(?1) - 1)"
    return db.execute(f"SELECT {questions}", (data,)).fetchone()


def main() -> None:
    extension, count = sys.argv[1], int(sys.argv[2]) if len(sys.argv) > 2 else 500
    chance = random.Random(20261126)
    db = sqlite3.connect(":memory:")
    db.enable_load_extension(True)
    db.execute("SELECT load_extension(?)", (extension,))
    db.execute("CREATE TABLE t(v)")
    with tempfile.TemporaryDirectory() as folder:
        new_message = compiled(folder)
        for _ in range(count):
            rows = random_rows(chance) or [None]
            db.execute("DELETE FROM t")
            db.executemany("INSERT INTO t VALUES (?)", [(row,) for row in rows])
            (written,) = db.execute("SELECT hv_column(v) FROM t").fetchone()
            wanted = message_of(rows, new_message()).SerializeToString()
            assert written == wanted, f"{rows} are written {written.hex()}, and should {wanted.hex()}"
            present = [row for row in rows if row is not None]
            as_bytes = {row.encode() if isinstance(row, str) else row: row for row in present}
            ends = (as_bytes[min(as_bytes)], as_bytes[max(as_bytes)]) if present else (None, None)
            assert asked(db, wanted) == (len(rows), len(present), *ends, rows[-1]), rows
    print(f"{count} columns are written and read as Protocol Buffers has them")


if __name__ == "__main__":
    main()
