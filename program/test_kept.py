#!/usr/bin/env python3
"""Tests of the program hivevigil on files that it has kept: converted again as what they are, also onto themselves, or
refused, and the old file stays where that fails; and limits of columns that are kept as differences.

    python3 program/test_kept.py PROGRAM [--files N] [--seed N]

What is due comes from rows that are made here, by the types' widths and plain loops.
"""

import argparse
import random
import re
import resource
import signal
import tempfile
from pathlib import Path

from test import Program

USAGE = r" \(hivevigil --help\)"
NO_CSV = r"{} is the file of a {}, not a CSV file"


def random_steps(chance: random.Random, rows: int) -> list[int | None]:
    """Numbers of 32 bits that go on by a step, which changes now and then, and some nulls."""
    row, step, found = 0, chance.randint(-3, 3), []
    for _ in range(rows):
        step = chance.randint(-3, 3) if chance.random() < 0.02 else step
        row += step
        found.append(None if chance.random() < 0.01 else row)
    return found


def lines_of(columns: dict[str, list], lines: list[int]) -> str:
    """The rows of these lines as a CSV file."""
    shown = [",".join("" if rows[line] is None else str(rows[line]) for rows in columns.values()) for line in lines]
    return "".join(f"{line}\n" for line in [",".join(columns), *shown])


def runs_of(rows: list) -> int:
    return sum(not place or rows[place - 1] != row for place, row in enumerate(rows))


def make(chance: random.Random, program: Program) -> dict[str, list]:
    """A CSV file of steps; `row` numbers the lines, so that it has no run of two rows and is kept as differences."""
    count = chance.randint(100, 400)
    columns: dict[str, list] = {"row": list(range(1, count + 1))}
    for name in "abcd"[: chance.randint(0, 4)]:
        columns[name] = random_steps(chance, count)
    (program.folder / "steps.csv").write_text(lines_of(columns, list(range(count))))
    return columns


def rows_in(program: Program, file: str) -> str:
    return program.answers("show", file, "--rows", str(2**63))


def check_table(chance: random.Random, program: Program) -> None:
    """A table that was kept is kept again with the same rows, in the order and the form that is asked for, in another
    file or in its own, and columns of it in files of their own."""
    columns = make(chance, program)
    folder, count = program.folder, len(columns["row"])
    program.answers("convert", "steps.csv", "--to", "plain.hv")
    program.answers("convert", "steps.csv", "--to", "short.hv", "--differences")
    plain, short = ((folder / name).read_bytes() for name in ("plain.hv", "short.hv"))
    assert len(short) < len(plain)
    for source in "plain.hv", "short.hv":
        for words, due in ([], plain), (["--differences"], short):
            for target in "other.hv", source:
                kept = (folder / source).read_bytes()
                assert program.answers("convert", source, "--to", target, *words) == ""
                assert (folder / target).read_bytes() == due, (source, target, words)
                (folder / source).write_bytes(kept)
    program.answers("convert", "short.hv", "--to", "turned.hv", "--sort=-row")
    assert rows_in(program, "turned.hv") == lines_of(columns, list(range(count))[::-1])
    name = chance.choice([*columns])
    program.answers("convert", "steps.csv", "--column", name, "--to", "due.hv")
    program.answers("convert", "short.hv", "--column", name, "--to", "column.hv")
    assert (folder / "column.hv").read_bytes() == (folder / "due.hv").read_bytes()
    program.answers("convert", "column.hv", "--to", "column.hv")
    assert (folder / "column.hv").read_bytes() == (folder / "due.hv").read_bytes()
    check_limits(program, columns)


def check_limits(program: Program, columns: dict[str, list]) -> None:
    """Of the columns that `short.hv` keeps as differences, all in runs here, each run takes 4 bytes and 8 for its end.
    Which they are is seen from the bytes that a column has in both files."""
    sizes = [dict(line.split()[:1] + line.split()[4:5] for line in program.answers("show", file).splitlines()[1:-1])
             for file in ("plain.hv", "short.hv")]
    kept = [name for name in columns if sizes[0][name] != sizes[1][name]]
    assert "row" in kept
    due = sum(12 * runs_of(columns[name]) for name in kept)
    sentence = rf"short\.hv: the columns kept as differences take {{}} bytes in memory, above the limit of {{}} \(--limit\)"
    for limit in 0, due - 1, due, 2**64 - 1:
        for words in (["show", "short.hv"], ["show", "short.hv", "--rows=1"], ["query", "short.hv", "filter", "row > 0"],
                      ["convert", "short.hv", "--to", "other.hv"]):
            if due > limit:
                program.refuses(1, sentence.format(due, limit), *words, "--limit", str(limit))
            else:
                program.answers(*words, "--limit", str(limit))
    one = 12 * len(columns["row"])  # only the columns that are asked for are read
    query = ["query", "short.hv", "max", "--column=row", "--limit"]
    assert program.answers(*query, str(one)) == f"{columns['row'][-1]}\n"
    program.refuses(1, sentence.format(one, one - 1), *query, str(one - 1))
    assert program.answers("show", "plain.hv", "--limit", "0")


def check_refusals(program: Program) -> None:
    folder = program.folder
    (folder / "a.csv").write_text("level,day\n1,2024-03-01\n7,2024-03-02\n")
    program.answers("convert", "a.csv", "--to", "table.hv")
    program.answers("convert", "a.csv", "--column", "day", "--to", "column.hv")
    table, column = (folder / "table.hv").read_bytes(), (folder / "column.hv").read_bytes()
    old = b"hivevigil type 1 tdD\n" + bytes.fromhex("080110071801200228013a08474d0000484d0000")
    (folder / "old.hv").write_bytes(old)  # with the line of earlier versions
    for file, sort in ("table.hv", "table"), ("column.hv", "column"), ("old.hv", "column"):
        program.refuses(1, NO_CSV.format(re.escape(file), sort), "report", file)
        for option in "--type=i8", "--separator=;":
            more = ["--column=level"] if option == "--type=i8" else []
            sentence = rf"{re.escape(file)} is not a CSV file, which {option.partition('=')[0]} is of"
            program.refuses(1, sentence, "convert", file, "--to", "kept.hv", option, *more)
    for option in "--differences", "--sort=level", "--limit=9":
        sentence = rf"column\.hv is not the file of a table, which {option.partition('=')[0]} is of"
        program.refuses(1, sentence, "convert", "column.hv", "--to", "column.hv", option)
    program.refuses(1, r"a\.csv is not the file of a table, which --limit is of", "convert", "a.csv", "--to=b.hv", "--limit=9")
    sentence = r"column\.hv is not the file of a table, and its column has no name"
    program.refuses(1, sentence, "convert", "column.hv", "--to", "column.hv", "--column=day")
    none = "no column has the name 'x': the names are 'level', 'day'"
    program.refuses(1, rf"table\.hv: {none}", "convert", "table.hv", "--to=table.hv", "--column=x")
    program.refuses(1, rf"table\.hv: {none}", "convert", "table.hv", "--to=table.hv", "--sort=x")
    program.refuses(1, rf"a\.csv: {none}", "convert", "a.csv", "--to=table.hv", "--column=x")
    program.refuses(2, "--limit takes a number of bytes, not 'x'" + USAGE, "show", "table.hv", "--limit=x")
    program.answers("convert", "old.hv", "--to", "old.hv")  # as this version writes it
    assert program.answers("show", "old.hv", "--rows=9") == "2024-03-01\n2024-03-02\n"
    for data, sort in (table[:-1], "table"), (column[:-1], "column"):
        (folder / "cut.hv").write_bytes(data)
        sentence = rf"cut\.hv, of {len(data)} bytes, is not the file of a {sort}"
        program.refuses(1, sentence, "convert", "cut.hv", "--to", "cut.hv")
        program.refuses(1, NO_CSV.format(r"cut\.hv", sort), "report", "cut.hv")
        assert (folder / "cut.hv").read_bytes() == data
    assert (folder / "table.hv").read_bytes() == table and (folder / "column.hv").read_bytes() == column
    assert not (folder / "kept.hv").exists() and not (folder / "b.hv").exists()


def no_room() -> None:
    """Files may have 10 bytes, and what is past them is refused and no signal, as on a disk that is full."""
    signal.signal(signal.SIGXFSZ, signal.SIG_IGN)
    resource.setrlimit(resource.RLIMIT_FSIZE, (10, 10))


def check_no_room(program: Program) -> None:
    """Where a file cannot be written whole the old one stays, and no part of another is left."""
    folder = program.folder
    for file in "table.hv", "column.hv":
        data, there = (folder / file).read_bytes(), sorted(path.name for path in folder.iterdir())
        for source in file, "a.csv":
            more = ["--column=level"] if source == "a.csv" and file == "column.hv" else []
            refused = {"preexec_fn": no_room, "restore_signals": False}
            program.refuses(1, rf"{re.escape(file)}: File too large", "convert", source, "--to", file, *more, **refused)
            assert (folder / file).read_bytes() == data
            assert sorted(path.name for path in folder.iterdir()) == there
    program.refuses(1, "/dev/full: No space left on device", "convert", "table.hv", "--to", "/dev/full")


def check_standard_input(program: Program) -> None:
    """`-` is standard input: a CSV file, which is copied, or what was kept, to be shown and asked."""
    folder = program.folder
    text, table = (folder / "a.csv").read_bytes(), (folder / "table.hv").read_bytes()
    status, out, said = program.run("report", "-", stdin=text)
    assert (status, said) == (0, "") and b"level" in out
    assert program.run("convert", "-", "--to", "piped.hv", stdin=text) == (0, b"", "")
    assert (folder / "piped.hv").read_bytes() == table
    assert program.run("show", "-", "--rows=1", stdin=table) == (0, b"level,day\n1,2024-03-01\n", "")
    assert program.run("query", "-", "max", "--column=level", stdin=table) == (0, b"7\n", "")
    program.refuses(1, NO_CSV.format("/dev/stdin", "table"), "report", "-", stdin=table)
    (folder / "piped.hv").write_bytes(b"")
    assert program.run("convert", "-", "--to", "piped.hv", stdin=table) == (0, b"", "")
    assert (folder / "piped.hv").read_bytes() == table
    assert program.run("convert", "-", "--to", "/dev/stdout", "--column=day", stdin=table) == (
        0, (folder / "column.hv").read_bytes(), "")
    assert program.run("convert", "-", "--to", "/dev/stdout", stdin=(folder / "column.hv").read_bytes()) == (
        0, (folder / "column.hv").read_bytes(), "")
    sentence = rf"/dev/stdin, of {len(table) - 1} bytes, is not the file of a table"
    program.refuses(1, sentence, "convert", "-", "--to", "piped.hv", stdin=table[:-1])
    program.refuses(1, "/dev/stdin is not a CSV file, which --separator is of", "convert", "-", "--to=b.hv", "--separator=;",
                    stdin=table)
    assert program.run("head", "-", "--rows=1", stdin=table) == (0, b"level,day\n1,2024-03-01\n", "")
    assert program.run("query", "-", "--by=day", "--sum=level", stdin=table)[1].splitlines()[1] == b"2024-03-01,1"
    for words in ["-h"], ["show", "-h"], ["-h", "show"]:
        assert program.answers(*words) == program.answers("--help")


def main() -> None:
    parser = argparse.ArgumentParser(description=__doc__, formatter_class=argparse.RawDescriptionHelpFormatter)
    parser.add_argument("program")
    parser.add_argument("--files", type=int, default=30)
    parser.add_argument("--seed", type=int, default=1)
    chosen = parser.parse_args()
    with tempfile.TemporaryDirectory() as folder:
        program = Program(chosen.program, Path(folder))
        check_refusals(program)
        check_no_room(program)
        check_standard_input(program)
        for number in range(chosen.files):
            check_table(random.Random(f"{chosen.seed} {number}"), program)
        print(f"{chosen.files} random files kept again: {program.runs} runs of the program are as they should be")


if __name__ == "__main__":
    main()
