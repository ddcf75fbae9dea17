#!/usr/bin/env python3
"""Files of tables that C++ and Python write of the same rows, held against each other byte by byte: read and written
again, and chosen, sorted, grouped and joined by both. With --c the program is that of C.

    python3 table_files.py TOOL [--c] [--tables N] [--seed N]

TOOL is table_tool.cpp, or ../c/table_tool.c, built. Needs the Python package, which is taken from ../../python.
"""

import argparse
import random
import subprocess
import sys
import tempfile
from datetime import date, timedelta
from decimal import Decimal
from pathlib import Path

TOP = Path(__file__).resolve().parents[2]
sys.path.insert(0, str(TOP / "python"))
from hivevigil import Column, HivevigilError, Table  # noqa: E402

FOLDS = {"sum": 0, "size": 1, "count": 2, "min": 3, "max": 4, "first": 5, "last": 6}
TYPES = [
    "i8", "i16", "i32", "i64", "u8", "u16", "u32", "u64", "bool", "utf8", "binary", "decimal(7, 2)", "date", "float16",
    "float32", "float64", "duration[s]", "timestamp[us, UTC]",
]


# ---- Random tables


def some_value(chance: random.Random, name: str):
    number = chance.randint(-4, 4)
    if name.startswith("u"):
        return "" if name == "utf8" and number < 0 else "ab" * abs(number) if name == "utf8" else abs(number) * 20
    if name.startswith("float"):
        return chance.choice([number / 4, 0.0, -0.0, 1e3, float("inf"), -float("inf"), float("nan"), -float("nan")])
    made = {
        "bool": number > 0, "binary": bytes([abs(number)] * abs(number)), "date": date(2024, 2, 28) + timedelta(number),
        "decimal(7, 2)": Decimal(number) / 4, "duration[s]": timedelta(seconds=number * 60),
    }
    return made.get(name, number)


def some_rows(chance: random.Random, name: str, count: int) -> list:
    rows, stays = [], chance.choice([1, 3, 10, 60])
    is_nullable = chance.random() < 0.5
    for row in range(count):
        if row == 0 or chance.randrange(stays) == 0:
            rows.append(None if is_nullable and chance.random() < 0.2 else some_value(chance, name))
        else:
            rows.append(rows[-1])
    return rows


def some_column(chance: random.Random, name: str, count: int) -> Column:
    if name == "timestamp[us, UTC]":
        step = chance.choice([1, 60_000_000])
        return Column.of([step * row for row in range(count)], "i64").cast(name)
    rows = some_rows(chance, name, count)
    column = Column.of(rows, name if None not in rows and chance.random() < 0.5 else name + "?")
    how = chance.randrange(4)
    if how == 0 and count:
        return Column.constant(column[0], count, name + "?")
    if how == 1:
        longer = column.to_runs().take([0] * bool(count) + [*range(count)]).to_runs()
        return longer.slice(len(longer) - count, len(longer))
    return column.to_runs() if how == 2 else column


def some_table(chance: random.Random, count: int) -> Table:
    names = chance.sample(["level", "place", "größe", 'a "b"', "x,y", "level ", "-"], chance.randint(1, 4))
    columns = {name: some_column(chance, chance.choice(TYPES), count) for name in names}
    return Table(columns)


# ---- What both make


class Tool:
    """The program, in a folder of its own."""

    def __init__(self, path: str, folder: Path, is_c: bool) -> None:
        self.path, self.folder, self.is_c = str(Path(path).resolve()), folder, is_c

    def makes(self, command: str, due: bytes, *words: object) -> None:
        """Of from.hv the program makes these bytes."""
        made = self.folder / "to.hv"
        made.unlink(missing_ok=True)
        said = self.says(command, *words)
        assert not said and made.read_bytes() == due, f"{command} {words}: {said}"

    def says(self, command: str, *words: object) -> str:
        line = [self.path, command, "from.hv", "to.hv", *map(str, words)]
        return subprocess.run(line, cwd=self.folder, check=True, capture_output=True, text=True).stdout


def check_table(chance: random.Random, tool: Tool, table: Table) -> None:
    table.save(tool.folder / "from.hv")
    tool.makes("copy", table.to_bytes())
    tool.makes("differences", table.to_bytes(differences=True))
    start = chance.randint(0, table.rows)
    stop = chance.randint(start, table.rows)
    tool.makes("slice", table.slice(start, stop).to_bytes(), start, stop)
    names = chance.sample(table.names, chance.randint(1, len(table)))
    tool.makes("select", table.select(*names).to_bytes(), *names)
    indices = [chance.randrange(table.rows) for _ in range(chance.randint(0, 9))] if table.rows else []
    tool.makes("take", table.take(Column.of(indices, "u64")).to_bytes(), *indices)
    table.save(tool.folder / "other.hv")
    tool.makes("append", table.append(table).to_bytes(), "other.hv")
    tool.makes("arrow", Table.from_arrow(table).to_bytes(), 0)


def check_order(chance: random.Random, tool: Tool, table: Table) -> None:
    chosen = chance.sample(table.names, chance.randint(1, len(table)))
    flags = [chance.random() < 0.5 for _ in chosen]
    nulls = chance.choice(["first", "last"])
    words = ["-+"[not flag] + name for flag, name in zip(flags, chosen)]
    tool.makes("sort", table.sort(chosen, descending=flags, nulls=nulls).to_bytes(), nulls, *words)


def flat_bytes(data: bytes) -> bytes:
    """Of a table the bytes with each column flat."""
    table = Table.from_bytes(data)
    return Table({name: column.decode() for name, column in table.items()}).to_bytes()


def check_groups(chance: random.Random, tool: Tool, table: Table) -> bool:
    """Whether both answer, and not refuse."""
    keys, asked = chance.sample(table.names, chance.randint(1, min(2, len(table)))), chance.choice(table.names)
    fold = chance.choice(list(FOLDS))
    words = [asked, FOLDS[fold], *keys]
    try:
        due = table.group_by(*keys).agg(answer="size" if fold == "size" else (asked, fold)).to_bytes()
    except (HivevigilError, TypeError, OverflowError):
        assert tool.says("groups", *words), f"groups {words} is not refused"
        return False
    assert not tool.says("groups", *words)  # in whatever forms
    assert flat_bytes((tool.folder / "to.hv").read_bytes()) == flat_bytes(due), f"groups {words}"
    return True


def value_of_c(value: int, column: Column) -> int:
    """A value that C takes next to a column: of its type, or next to floats a double."""
    if column.logical_type is not None:
        return int(float(value))
    bits = int(column.type.strip("?")[1:])
    least = 0 if column.type[0] == "u" else -(2 ** (bits - 1))
    return least + (value - least) % 2**min(bits, 63)


def check_condition(chance: random.Random, tool: Tool, table: Table) -> None:
    numbers = [name for name, column in table.items()
               if column.type[0] in "iu" and str(column.logical_type or "float").startswith("float")
               and column.type[:4] != "utf8"]
    if numbers:
        name, sign = chance.choice(numbers), chance.choice(["==", "!=", "<", "<=", ">", ">="])
        value = chance.choice([chance.randint(-4, 9), chance.randint(-(2**63), 2**63 - 1)])
        if tool.is_c:
            value = value_of_c(value, table[name])
        tool.makes("filter", table.filter_by(name, sign, value).to_bytes(), name, sign, value)


def check_damaged(chance: random.Random, tool: Tool, table: Table) -> None:
    """What Python refuses, C++ refuses too, and what it reads has the same rows there."""
    data = bytearray(table.to_bytes(differences=chance.random() < 0.5))
    for _ in range(chance.randint(1, 2)):
        place = chance.randrange(len(data))
        data[place : place + chance.randint(0, 1)] = bytes(chance.choice([[], [chance.randrange(256)]]))
    (tool.folder / "from.hv").write_bytes(data)
    try:
        due = Table.from_bytes(bytes(data)).to_bytes()
    except HivevigilError:
        assert tool.says("copy").startswith("HV_BAD_METADATA: "), data.hex()
    else:
        tool.makes("copy", due)


def check_corpus(tool: Tool) -> int:
    """The stored tables, of every type and form: those of version 1 are written as they are, and of version 2 the same
    table is read."""
    lines = [(name, line.rsplit("\t", 1)[1]) for name in ("tables", "differences")
             for line in (TOP / f"examples/corpus/{name}.txt").read_text(encoding="utf-8").splitlines()]
    for name, digits in lines:
        data = bytes.fromhex(digits)
        (tool.folder / "from.hv").write_bytes(data)
        tool.makes("copy", data if name == "tables" else Table.from_bytes(data).to_bytes())
        tool.makes("differences", Table.from_bytes(data).to_bytes(differences=True))
    return len(lines)


def main() -> None:
    parser = argparse.ArgumentParser()
    parser.add_argument("tool")
    parser.add_argument("--c", action="store_true")
    parser.add_argument("--tables", type=int, default=60)
    parser.add_argument("--seed", type=int, default=1)
    asked = parser.parse_args()
    answered = 0
    with tempfile.TemporaryDirectory() as folder:
        tool = Tool(asked.tool, Path(folder), asked.c)
        stored = check_corpus(tool)
        for number in range(asked.tables):
            chance = random.Random(f"{asked.seed} {number}")
            table = some_table(chance, chance.choice([0, 1, 2, 7, 40, 300]))
            check_table(chance, tool, table)
            check_order(chance, tool, table)
            answered += check_groups(chance, tool, table)
            check_condition(chance, tool, table)
            for _ in range(3):
                check_damaged(chance, tool, table)
    assert answered > asked.tables // 4
    print(f"{stored} stored and {asked.tables} random tables the same from {'C' if asked.c else 'C++'} and Python, groups of {answered}")


if __name__ == "__main__":
    main()
