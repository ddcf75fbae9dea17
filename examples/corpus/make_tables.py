#!/usr/bin/env python3
"""The corpus of tables: the columns of messages.txt that have as many rows, as one table for each number of rows, written
by Protocol Buffers' own library through the model of examples/bytes.

    /usr/bin/python3 make_tables.py                  the lines of tables.txt
    /usr/bin/python3 make_tables.py --differences    the lines of differences.txt
    /usr/bin/python3 make_tables.py --check          whether both files have them

A line has three parts with a tab between them: the number of rows, the names of the columns, which are those of the
lines of messages.txt that they have, with a comma between them, and the table in hexadecimal digits. The tables of
differences.txt are of version 2, and the second part of its lines has for each column its name, its type, its form and
its rows. From the release 1.0.0 on no line changes and none is taken away. Needs what model.py needs.
"""

import sys
import warnings
from pathlib import Path

HERE = Path(__file__).resolve().parent
sys.path.insert(0, str(HERE.parent / "bytes"))

import model
import table_model

MOST_ROWS = 100  # of which the model writes out each
LOGICAL_TYPES = {"flat-i32": "tdD", "flat-i64": "tsu:UTC"}


def columns_by_rows() -> dict[int, dict]:
    """The messages of the corpus by name, for each number of rows."""
    found = {}
    for line in (HERE / "messages.txt").read_text(encoding="utf-8").splitlines():
        name, _, _, digits = line.split("\t")
        message = model.column(bytes.fromhex(digits))
        if message.rows <= MOST_ROWS:
            found.setdefault(message.rows, {})[name] = message
    return found


def lines() -> list[str]:
    found = ["0\t\t" + table_model.written(table_model.made(0, {}, {})).hex()]
    for rows, columns in sorted(columns_by_rows().items()):
        table = table_model.written(table_model.made(rows, columns, LOGICAL_TYPES))
        assert table_model.table(table) is not None
        found.append(f"{rows}\t{','.join(columns)}\t{table.hex()}")
    return found


# ---- Tables of version 2

U8, U64, I16, I32, I64 = 1, 4, 6, 7, 8
NAMES = {U8: "u8", U64: "u64", I16: "i16", I32: "i32", I64: "i64"}
FORMS = {table_model.AS_FLAT: "flat", table_model.AS_RUNS: "runs"}
MINUTES = [1_700_000_000 + 60 * row + 3600 * (row > 20) for row in range(40)]
# the columns of each table: a name, a type, whether it has null, a form and the rows
IN_DIFFERENCES = [
    [("at", I64, False, table_model.AS_FLAT, MINUTES)],
    [("at", I64, True, table_model.AS_RUNS, [None if row % 17 == 0 else at for row, at in enumerate(MINUTES)])],
    [("number", U8, False, table_model.AS_FLAT, list(range(100)))],
    [("far", U64, False, table_model.AS_RUNS, [2**63 - 1 + 2**57 * row for row in range(64)])],
    [
        ("nothing", I32, True, table_model.AS_FLAT, [None] * 30),
        ("down", I16, True, table_model.AS_RUNS, [100 - 7 * row for row in range(30)]),
    ],
    [
        ("at", I64, True, table_model.AS_FLAT, [None, None, *MINUTES[:9], 0, None, *MINUTES]),
        ("few", I32, False, table_model.AS_FLAT, [5] * 53),
        ("any", I32, False, table_model.AS_FLAT, [row * row * row for row in range(53)]),
    ],
]


def lines_in_differences() -> list[str]:
    """Columns that are no shorter as differences are kept as their rows."""
    found = []
    for parts in IN_DIFFERENCES:
        columns = {name: table_model.in_form(rows, kind, nullable, form) for name, kind, nullable, form, rows in parts}
        kept = {name: table_model.as_differences(column) for name, column in columns.items()}
        kept = {name: part for name, part in kept.items() if part is not None}
        count = len(parts[0][-1])
        table = table_model.written(table_model.made(count, columns, {"at": "tss:UTC"}, kept))
        assert table_model.table(table) is not None and kept
        words = (
            [name, NAMES[kind] + "?" * nullable, FORMS[form], *("null" if row is None else str(row) for row in rows)]
            for name, kind, nullable, form, rows in parts
        )
        found.append(f"{count}\t{', '.join(map(' '.join, words))}\t{table.hex()}")
    return found


def main() -> None:
    warnings.simplefilter("ignore")
    files = {"tables.txt": lines, "differences.txt": lines_in_differences}
    if sys.argv[1:] != ["--check"]:
        made = files["differences.txt" if sys.argv[1:] == ["--differences"] else "tables.txt"]()
        print(*made, sep="\n")
        return
    for name, make in files.items():
        if (HERE / name).read_text(encoding="utf-8").splitlines() != make():
            sys.exit(f"{name} does not have the lines that make_tables.py writes")
    print(f"{sum(len(make()) for make in files.values())} tables are as they should be")


if __name__ == "__main__":
    main()
