#!/usr/bin/env python3
"""Tables that Python writes are read by Rust and written again, byte for byte, in either version.

    python3 rust_tables.py PROGRAM COUNT SEED        PROGRAM: rust/examples/tables.rs, built

Random tables of every type and form go into a folder, the program writes each once more, and what it writes is what
Python writes: as rows, and as differences where these are shorter. The tables that are read again are the same, and so
is what both answer of their groups.
"""

import datetime
import decimal
import random
import subprocess
import sys
import tempfile
from pathlib import Path

sys.path.insert(0, str(Path(__file__).resolve().parents[2] / "python"))
from hivevigil import Column, Table

NAN = float("nan")
NOON = datetime.datetime(2024, 3, 1, 12, tzinfo=datetime.timezone.utc)


def rows_of(dice: random.Random, make, count: int) -> list:
    """Rows of which many repeat the one before, some null where null is among them."""
    rows, row, nulls = [], make(), dice.random() < 0.5
    for _ in range(count):
        if dice.random() < 0.4:
            row = None if nulls and dice.random() < 0.2 else make()
        rows.append(row)
    return rows


def column(dice: random.Random, count: int) -> Column:
    """A column of any type, in any form."""
    kinds = {
        "i8": lambda: dice.randint(-128, 127), "u16": lambda: dice.randint(0, 65535), "i32": lambda: dice.randint(-9, 9),
        "u64": lambda: 2**64 - dice.randint(1, 9), "i64": lambda: dice.choice([-2**63, 0, 2**63 - 1]),
        "bool": lambda: dice.random() < 0.5, "utf8": lambda: dice.choice(["", "größe", "x" * 40]),
        "binary": lambda: dice.choice([b"", b"\0\xff"]), "decimal(9, 2)": lambda: decimal.Decimal(dice.randint(-9, 9)) / 4,
        "float64": lambda: dice.choice([0.5, -0.0, float("nan"), float("inf")]), "float32": lambda: dice.choice([0.5, -NAN]),
        "float16": lambda: dice.choice([0.0, -0.0, NAN, -NAN, -float("inf")]),
        "date": lambda: (NOON + datetime.timedelta(days=dice.randint(0, 3))).date(),
        "timestamp[us, UTC]": lambda: NOON + datetime.timedelta(minutes=dice.randint(0, 3)),
    }  # fmt: skip
    name = dice.choice([*kinds, "lists", "steps"])
    if name == "lists":
        sizes = [dice.randint(0, 2) for _ in range(count)]
        return Column.from_lists([7, 8, 9], [dice.randint(0, 1) for _ in sizes], sizes)
    if name == "steps":
        made = Column.of([dice.randint(0, 1) + 60 * row for row in range(count + 2)], dice.choice(["i64", "i64?"]))
    else:
        rows = rows_of(dice, kinds[name], count + 2)
        made = Column.of(rows, name + "?" * (None in rows or dice.random() < 0.3))
    form = dice.choice(["flat", "runs", "window", "constant"])
    if form == "constant" and made.logical_type is None:
        return Column.constant(made[0], count, made.type)
    if form == "window":
        return made.to_runs().slice(1, count + 1)
    part = made.slice(1, count + 1)
    return part.to_runs() if form == "runs" else part


def groups_of(table: Table, names: list) -> Table:
    """What is answered of each group of the first of some columns, none of them of lists, about the others."""
    words = {"least": "min", "greatest": "max", "first": "first", "last": "last", "count": "count", "sum": "sum"}
    asked = {
        f"{name} {word}": (name, fold) for name in names[1:] for word, fold in words.items()
        if fold != "sum" or str(table[name].logical_type).startswith("float")
    }
    return table.group_by(names[0]).agg(asked)


def main() -> None:
    program, count, dice = sys.argv[1], int(sys.argv[2]), random.Random(int(sys.argv[3]))
    with tempfile.TemporaryDirectory() as name:
        folder, tables = Path(name), {}
        for number in range(count):
            rows = dice.choice([0, 1, 5, 60, 400])
            columns = {f"{place} größe": column(dice, rows) for place in range(dice.randint(0, 5))}
            tables[number] = Table(columns, rows=None if columns else rows)
            tables[number].save(folder / f"{number}.hv", differences=dice.random() < 0.3)
        subprocess.run([program, name], check=True, stdout=subprocess.PIPE)
        shorter = grouped = 0
        for number, table in tables.items():
            again, short = (folder / f"{number}.{end}" for end in ("again", "short"))
            assert again.read_bytes() == table.to_bytes(), f"table {number}"
            assert short.read_bytes() == table.to_bytes(differences=True), f"table {number} as differences"
            shorter += again.stat().st_size > short.stat().st_size
            assert Table.load(again).equals(table) and Table.load(short).equals(table)
            names = [name for name, rows in table.items() if not rows.type.startswith("list")]
            if names:
                found, due = Table.load(folder / f"{number}.groups"), groups_of(table, names)
                assert found.equals(due), f"groups of table {number}"
                grouped += 1
        assert shorter, "no table was shorter as differences"
        print(
            f"{count} tables are the same in Python and Rust, {shorter} of them shorter as differences, "
            f"and the groups of {grouped}"
        )


main()
