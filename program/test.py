#!/usr/bin/env python3
"""Tests of the program hivevigil, each answer held against Python's csv module and plain lists, which share nothing
with the library.

    python3 program/test.py PROGRAM [--files N] [--seed N] [--messages N]

Random CSV files are reported, converted, shown and asked; what is not a CSV file, a column or a command line is refused
with a sentence and a status, and leaves every file as it was. Messages by docs/column.proto, every third one damaged,
are shown or refused as the model of examples/bytes has it, where Protocol Buffers are there.
"""

import argparse
import csv
import io
import itertools
import json
import os
import random
import re
import resource
import shlex
import stat
import subprocess
import sys
import tempfile
import warnings
from decimal import Decimal, localcontext
from pathlib import Path

import logical_model
from csv_model import (
    IN_WORDS, OPERATORS, flat_bytes, found_mark, is_number, mean, meets, random_csv, random_value, read_by_csv, rows_of,
    run_bytes, runs_of, shown, type_of, value_of,
)
from logical_model import file_of, format_of, is_logical, parts_of

TOP = Path(__file__).resolve().parents[1]
PART_ROWS = 65536


class Program:
    """The program, run in a folder of its own."""

    def __init__(self, path: str, folder: Path) -> None:
        self.path, self.folder, self.runs = os.path.abspath(path), folder, 0

    def run(self, *words: str, stdin: bytes = b"", **more) -> tuple[int, bytes, str]:
        self.runs += 1
        environment = {**os.environ, "ASAN_OPTIONS": "exitcode=99", "UBSAN_OPTIONS": "exitcode=99"}
        ended = subprocess.run(
            [self.path, *words], input=stdin, capture_output=True, cwd=self.folder, env=environment, timeout=60, **more
        )
        said = ended.stderr.decode(errors="replace")
        assert ended.returncode in (0, 1, 2), f"{words} ended with {ended.returncode}: {said}"
        return ended.returncode, ended.stdout, said

    def answers(self, *words: str) -> str:
        status, out, said = self.run(*words)
        assert (status, said) == (0, ""), f"{words} ended with {status}: {said}"
        return out.decode()

    def stops(self, sentence: str, *words: str) -> None:
        """Ends with status 1 and this sentence, at a row that is not written, those before it maybe are."""
        status, _, said = self.run(*words)
        assert status == 1 and re.fullmatch(f"hivevigil: {sentence}\n", said), f"{words} ended with {status}: {said}"

    def refuses(self, status: int, sentence: str, *words: str, **more) -> None:
        """Ends with the status, prints nothing, and says this sentence, and no other line."""
        found, out, said = self.run(*words, **more)
        assert (found, out) == (status, b""), f"{words} ended with {found} and printed {out!r}"
        assert re.fullmatch(rf"hivevigil: {sentence}\n", said), f"{words} said {said!r} and not {sentence!r}"


# ---- What the program answers


def expected_report(columns: dict[str, list[str]]) -> str:
    lines, sums = [["column", "type", "rows", "nulls", "runs", "bytes flat", "bytes in runs"]], [0, 0]
    for name, fields in columns.items():
        kind = type_of(fields)
        rows = rows_of(fields, kind)
        parts = [rows[start : start + PART_ROWS] for start in range(0, len(rows), PART_ROWS)]
        flat, in_runs = sum(flat_bytes(part, kind) for part in parts), run_bytes(rows, kind)
        sums = [sums[0] + flat, sums[1] + in_runs]
        numbers = len(rows), rows.count(None), len(runs_of(rows)), flat, in_runs
        lines.append([name, kind, *map("{:,}".format, numbers)])
    widths = [max(len(line[place]) for line in lines) for place in range(7)]
    sides = [str.ljust] * 2 + [str.rjust] * 5
    table = ["  ".join(side(*cell) for side, *cell in zip(sides, line, widths)) for line in lines]
    return "\n".join([*table, "{:,} bytes flat, {:,} in runs\n".format(*sums)])


def message_of(data: bytes, kind: str) -> bytes:
    """The message in the file of a column of this type, which is in version 2 where the type is a logical one."""
    format, message = parts_of(data)
    assert format == (format_of(kind) if is_logical(kind) else "") and message.startswith(b"\x08\x01"), data[:40]
    assert file_of(format, message) == data, data[:40]
    return message


def lines_of(rows: list, kind: str) -> str:
    return "".join(f"{shown(row, kind)}\n" for row in rows)


def check_column(chance: random.Random, program: Program, name: str, fields: list[str], options: list[str]) -> None:
    program.answers("convert", "random.csv", "--column", name, "--to", "column.hv", *options)
    kind = type_of(fields)
    check_kept(chance, program, rows_of(fields, kind), kind)


def check_kept(chance: random.Random, program: Program, rows: list, kind: str) -> None:
    """What is shown and asked of a file of these rows, also of one of the older form."""
    file = program.folder / "column.hv"
    message = message_of(file.read_bytes(), kind)
    check_shown(chance, program, rows, kind, file.stat().st_size)
    if is_logical(kind):
        file.write_bytes(f"hivevigil type 1 {format_of(kind)}\n".encode() + message)
        check_shown(chance, program, rows, kind, file.stat().st_size)


def check_shown(chance: random.Random, program: Program, rows: list, kind: str, size: int) -> None:
    summary = f"{kind}: {len(rows):,} rows in {len(runs_of(rows)):,} runs, {rows.count(None):,} null; "
    assert program.answers("show", "column.hv") == summary + (
        f"{size:,} bytes in the file, {run_bytes(rows, kind):,} in memory\n"
    )
    count, start = chance.choice([0, 1, 7, len(rows), 2**64 - 1]), chance.choice([0, 0, 5, len(rows), 2**64 - 1])
    found = program.answers("show", "column.hv", "--rows", str(count), "--from", str(start))
    assert found == lines_of(rows[start : start + count], kind)
    assert program.answers("head", "column.hv") == lines_of(rows[:10], kind)
    assert program.answers("head", "column.hv", "--rows", str(count)) == lines_of(rows[:count], kind)
    runs = "".join(f"{start},{stop},{shown(value, kind)}\n" for start, stop, value in runs_of(rows))
    assert program.answers("show", "--runs", "column.hv") == f"start,stop,value\n{runs}"
    check_questions(program, rows, kind, [])
    for _ in range(3):
        check_condition(chance, program, rows, kind)


def check_questions(program: Program, rows: list, kind: str, where: list[str], column: str | None = None) -> None:
    """The answers over these rows, which are what the options leave of those of the file, or of a column of a table."""
    valid = [row for row in rows if row is not None]
    file = "column.hv" if column is None else "table.hv"
    where = where if column is None else [f"--column={column}", *where]
    assert program.answers("query", file, "count", *where) == f"{len(valid)}\n"
    for question, best in ("min", min), ("max", max):
        found = program.answers("query", file, question, *where)
        due = logical_model.best(valid, kind, best) if is_logical(kind) else best(valid, default=None)
        assert found == lines_of([due], kind), (question, where, found)
    check_sum(program, valid, kind, file, where)
    check_mean(program, valid, kind, file, where)


def check_mean(program: Program, valid: list, kind: str, file: str, where: list[str]) -> None:
    """A mean is refused where the sum is, whose sentence `check_sum` has seen."""
    status, _, said = program.run("query", file, "sum", *where)
    if not is_number(kind):
        program.refuses(1, rf"{re.escape(file)}: {re.escape(kind)} has no mean", "query", file, "mean", *where)
    elif status:
        program.refuses(1, re.escape(said.removeprefix("hivevigil: ")[:-1]), "query", file, "mean", *where)
    else:
        assert program.answers("query", file, "mean", *where) == f"{mean(valid, kind)}\n", (valid, kind)


def check_sum(program: Program, valid: list, kind: str, file: str, where: list[str]) -> None:
    if is_logical(kind) and (due := logical_model.total(valid, kind)) is not None:
        assert program.answers("query", file, "sum", *where) == f"{due}\n", (valid, kind)
        return
    if kind.startswith("decimal"):
        check_decimal_sum(program, valid, kind, file, where)
        return
    sums = list(itertools.accumulate(valid, initial=0)) if kind[0] == "i" else []
    overflow = next((True for total in sums if not -(2**63) <= total < 2**63), False)
    if kind[0] != "i":
        program.refuses(1, rf"{re.escape(file)}: {re.escape(kind)} has no sum", "query", file, "sum", *where)
    elif overflow:
        sentence = rf"{re.escape(file)}: integer overflow: with row \d+ the sum leaves the range of i64"
        program.refuses(1, sentence, "query", file, "sum", *where)
    else:
        assert program.answers("query", file, "sum", *where) == f"{sum(valid)}\n"


def check_decimal_sum(program: Program, valid: list, kind: str, file: str, where: list[str]) -> None:
    with localcontext() as context:
        context.prec = 99
        sums = list(itertools.accumulate(valid, initial=Decimal(0)))
        most = 10 ** (38 - int(kind.partition(", ")[2].rstrip(")?")))
        if any(abs(total) >= most for total in sums):
            sentence = rf"{re.escape(file)}: decimal overflow: with row \d+ the sum leaves 38 digits"
            program.refuses(1, sentence, "query", file, "sum", *where)
        else:
            assert program.answers("query", file, "sum", *where) == f"{shown(sums[-1], kind)}\n", (valid, kind)


def check_condition(chance: random.Random, program: Program, rows: list, kind: str) -> None:
    """A filter by one condition or by two, and the answers about the rows that it leaves."""
    conditions, left = [], rows
    for _ in range(chance.choice([1, 1, 2])):
        operator, value = chance.choice([*OPERATORS]), random_value(chance, rows, kind)
        # after a symbol one space may be; a value that begins with one, or with =, needs it
        space = " " if value.startswith((" ", "=")) or chance.random() < 0.5 else ""
        conditions.append(f"{IN_WORDS[operator]}{value}" if chance.random() < 0.3 else f"{operator}{space}{value}")
        right = value_of(value, kind)
        left = [row for row in left if meets(row, operator, right, kind)]
    more = [word for condition in conditions[1:] for word in ("--where", condition)]
    assert program.answers("query", "column.hv", "filter", conditions[0], *more) == lines_of(left, kind), conditions
    assert program.answers("query", "column.hv", "--where", conditions[0], *more) == f"{len(left)}\n", conditions
    program.answers("query", "column.hv", "filter", conditions[0], *more, "--to", "left.hv")
    message_of((program.folder / "left.hv").read_bytes(), kind)
    assert program.answers("show", "left.hv", "--rows", str(len(rows) + 1)) == lines_of(left, kind)
    check_questions(program, left, kind, [f"--where={condition}" for condition in conditions])


TYPES = ["date", "date[ms]", "float16", "float32", "float64", "timestamp[us, Europe/Berlin]", "timestamp[s,UTC]"]
TYPES += [f"{sort}[{unit}]" for sort in ("time", "timestamp", "duration") for unit in ("s", "ms", "us", "ns")]


def random_row(chance: random.Random, kind: str) -> int:
    """A row of a logical type that is written."""
    unit = logical_model.NANOSECONDS[logical_model.unit_of(kind)]
    match logical_model.sort_of(kind):
        case "float":
            bits = logical_model.float_bits(kind)
            number = chance.choice([0.1, 0.1, -7.7, 0.0, -0.0, float("inf"), float("nan"), 2.0**-14, 6e-8])
            return logical_model.key_of(number, bits) + chance.choice([0, 0, 1, -1])  # neighbours, and past infinity NaN
        case "date":
            return chance.randrange(-719_162, 2_932_896) * (logical_model.NANOSECONDS["D"] // unit)
        case "time":
            return chance.randrange(0, logical_model.NANOSECONDS["D"], chance.choice([1, 10**9])) // unit
    return chance.choice([0, -1, 1, chance.randrange(-9 * 10**15, 9 * 10**15) // unit, chance.randrange(-99, 99)])


def check_typed_column(chance: random.Random, program: Program, asked: str) -> None:
    """A column of a type that is asked for: of fields that are its rows, as they are written."""
    kind = asked.replace(",UTC", ", UTC") + "?"
    rows, count = [], chance.choice([1, 5, 40])
    while len(rows) < count:
        rows += [None if chance.random() < 0.2 else random_row(chance, kind)] * chance.randint(1, 4)
    if logical_model.sort_of(kind) == "float":  # a NaN is read as the one without a sign or a payload
        nan = logical_model.key_of(float("nan"), logical_model.float_bits(kind))
        rows = [nan if row is not None and logical_model.number_shown(row, kind) != logical_model.number_shown(row, kind)
                else row for row in rows]
    fields = "".join(f"{number},{shown(row, kind)}\n" for number, row in enumerate(rows))
    (program.folder / "typed.csv").write_text(f"row,a\n{fields}")
    program.answers("convert", "typed.csv", "--column=a", "--to=column.hv", "--type", asked + "?")
    check_kept(chance, program, rows, kind)


FIELDS = [
    ["2000-02-29", "2000-03-01", "1999-12-31"], ["1900-02-29"], ["2400-02-29", "0001-01-01", "9999-12-31"], ["2023-02-29"],
    ["2024-03-01T10:00-02:30", "2024-03-01T10:00+02:30"], ["2024-03-01T10:00+02:60"], ["2024-03-01T10:00+24:00"],
    ["2024-03-01T10:00Z", "2024-03-01T10:00"], ["2024-03-01 10:00", "2024-03-01"], ["10:00:00.1234"], ["10:00:00.123456"],
    ["10:00:00.1234567"], ["10:00", "1"], ["1500-01-01T00:00:00.1234567"], ["2262-04-11T23:47:16.854775807"],
    ["2262-04-11T23:47:16.854775808"], ["-0.0", "0.5"], ["-0.0"], ["-0", "0.5"], ["-0.00", "1e5"], ["1e400"], ["1e-400"],
    ["12345678901234567", "1e5"], ["1234567890.123456789", "nan"], ["9007199254740993", "1e5"], ["0e5"], ["nan"],
    ["123456789012345", "1e5"], ["0.1234567890123456", "1e5"], ["1" + "0" * 38, "1"], ["1" + "0" * 38, "1e5"],
]


def check_guessed_types(program: Program) -> None:
    """Fields that are just of a type, or just not."""
    columns = {f"c{number}": (fields + ["", ""])[:3] for number, fields in enumerate(FIELDS)}
    lines = [columns, *zip(*columns.values())]
    (program.folder / "random.csv").write_text("".join(f"{','.join(line)}\n" for line in lines))
    found, due = program.answers("report", "random.csv"), expected_report(columns)
    assert found == due, f"{found} and not {due}"
    for name, fields in columns.items():
        program.answers("convert", "random.csv", "--column", name, "--to=column.hv")
        kind = type_of(fields)
        assert program.answers("show", "column.hv", "--rows=9") == lines_of(rows_of(fields, kind), kind), fields


FLOATS = [
    "1e15", "1e16", "-1e16", "1e17", "9999999999999998", "12345678901234567", "0.0001", "0.00001", "0.00012345", "1e-5",
    "1e22", "1e23", "5e-324", "2.2250738585072014e-308", "1.7976931348623157e308", "0.1000000000000000055", "123456.5",
]


def check_shown_floats(program: Program) -> None:
    """Floats with and without an exponent, as Python writes them."""
    (program.folder / "typed.csv").write_text("row,a\n" + "".join(f"0,{text}\n" for text in FLOATS))
    program.answers("convert", "typed.csv", "--column=a", "--to=column.hv", "--type", "float64")
    assert program.answers("show", "column.hv", "--rows", "99") == "".join(f"{float(text)!r}\n" for text in FLOATS)


def check_nearest_floats(chance: random.Random, program: Program, bits: int) -> None:
    """Numbers next to the middle of two floats, where a second rounding goes wrong, are the nearest ones."""
    infinity = logical_model.key_of(float("inf"), bits)
    texts = ["0.1", "-0.0", "1e-400", {16: "65519.99", 32: "-3.4028235e38"}[bits]]
    with localcontext() as context:
        context.prec = 400
        for key in 0, *(chance.randrange(infinity - 1) for _ in range(40)):
            two = [Decimal(logical_model.number_of(key + more, bits)) for more in (0, 1)]
            step = chance.choice([0, 1, -1]) * Decimal(10) ** -chance.choice([30, 170])
            texts.append(f"{chance.choice([1, -1]) * (sum(two) / 2 + step):f}")
    (program.folder / "typed.csv").write_text("row,a\n" + "".join(f"0,{text}\n" for text in texts))
    program.answers("convert", "typed.csv", "--column=a", "--to=column.hv", "--type", f"float{bits}")
    found = program.answers("show", "column.hv", "--rows", "99").split()
    due = [f"{logical_model.nearest(text, bits)!r}" for text in texts]
    assert found == due, [(text, *both) for text, *both in zip(texts, found, due) if both[0] != both[1]]


def check_between_floats(program: Program, bits: int) -> None:
    """Adjacent floats, compared with the number between two of them, which has no float of this width."""
    kind = f"float{bits}"
    for number in 0.1, -7.7, 0.0, -0.0:
        key = logical_model.key_of(number, bits)
        rows = [key - 1, key, key + 1]
        (program.folder / "typed.csv").write_text("row,a\n" + "".join(f"0,{shown(row, kind)}\n" for row in rows))
        program.answers("convert", "typed.csv", "--column=a", "--to=column.hv", "--type", kind)
        for some in rows[:2], rows[1:]:
            with localcontext() as context:
                context.prec = 1200
                middle = f"{sum(Decimal(logical_model.number_of(row, bits)) for row in some) / 2:f}"
            for operator in "=", "<", "<=", ">", ">=":
                left = [row for row in rows if meets(row, operator, value_of(middle, kind), kind)]
                assert program.answers("query", "column.hv", "filter", operator + middle) == lines_of(left, kind), middle


def check_means(chance: random.Random, program: Program) -> None:
    """Means that are the middle of two floats, or next to it, where a second rounding goes wrong."""
    for scale in 0, 0, 1, 9, 30:
        kind = f"decimal(38, {scale})" if scale else "i64"
        for _ in range(8):
            count, more = chance.randint(1, 7), chance.choice([0, 0, 1, -1])
            middle = chance.choice([2**54 + 2 * chance.randrange(2**20) + 1, chance.randrange(99)])
            middle *= chance.choice([1, -1])
            numbers = [middle + step for step in range(count)] + [middle - step for step in range(count)]
            numbers[0] += more
            texts = [f"{Decimal(number).scaleb(-scale):f}" for number in numbers]
            (program.folder / "typed.csv").write_text("row,a\n" + "".join(f"0,{text}\n" for text in texts))
            program.answers("convert", "typed.csv", "--column=a", "--to=column.hv", "--type", kind)
            due = mean([Decimal(text) for text in texts], "decimal")
            assert program.answers("query", "column.hv", "mean") == f"{due}\n", texts


def check_random_file(chance: random.Random, program: Program) -> None:
    columns, data, options = random_csv(chance)
    (program.folder / "random.csv").write_bytes(data)
    mark = options[1] if options else found_mark(data)
    assert read_by_csv(data, mark) == columns, "the file is not what it should be"
    found, due = program.answers("report", "random.csv", *options), expected_report(columns)
    assert found == due, f"{data!r}: {found} and not {due}"
    name = chance.choice([*columns])
    check_column(chance, program, name, columns[name], options)


# ---- What is refused, and what is not


BAD_KINDS = [
    "", "i128", "?", "i8??", "list", "decimal", "decimal(0,0)", "decimal(39,0)", "decimal(3,4)", "decimal(3,-1)",
    "decimal(3,2", "decimal(3,2)x", "date[D]x", "date[us]", "time", "time[D]", "time[us, UTC]", "timestamp[]", "duration",
    "timestamp[us", "timestamp[us,]", "float8", "float", "date[ms, UTC]",
]


def check_usage(program: Program) -> None:
    version = (TOP / "VERSION").read_text().strip()
    assert re.fullmatch(rf"hivevigil {re.escape(version)}(\+unproved)?\n", program.answers("--version"))
    text = program.answers("--help")
    assert text == program.answers("show", "--help") and "--column NAME" in text
    end = r".* \(hivevigil --help\)"
    for words in (
        [], ["read"], ["report"], ["report", "a", "b"], ["show"], ["show", "a", "--rows"], ["show", "a", "--rows", "x"],
        ["show", "a", "--rows", ""], ["show", "a", "--rows", "-1"], ["show", "a", "--rows", str(2**64)],
        ["show", "a", "--rows", "1", "--runs"], ["show", "a", "--from", "1"], ["show", "a", "--rows=1", "--rows=2"],
        ["head"], ["head", "a", "b"], ["head", "a", "--rows", "x"], ["head", "a", "--runs"], ["head", "a", "--from=1"],
        ["show", "a", "--to", "b"], ["show", "a", "-x"], ["show", "a", "--where", "> 4"], ["convert", "a"],
        ["convert", "a", "--column", "b"], ["convert", "a", "--to"], ["query", "a", "median"],
        ["query", "a", "--column", "b"], ["query", "a", "--where", "4"], ["query", "a", "mean", "--sort", "b"],
        ["query", "a", "filter"], ["query", "a", "filter", "4"], ["query", "a", "sum", "--where", "4"],
        ["query", "a", "sum", "--to", "b"], ["query", "a", "sum", "> 4"], ["report", "a", "--separator", ""],
        ["report", "a", "--separator", "ab"], ["report", "a", "--separator", '"'], ["report", "a", "--runs=1"],
        *(["convert", "a", "--column", "b", "--to", "c", "--type", kind] for kind in BAD_KINDS),
    ):
        program.refuses(2, end, *words)
    for words, sentence in (
        (["show", "a", "--rows"], "--rows needs a value"), (["show", "a", "--rws=1"], "--rws=1 is not an option"),
        (["show", "a", "-xy"], "-x is not an option"), (["show", "--runs=1", "a"], "--runs=1 is not an option"),
        (["-hx", "show", "a"], "-x is not an option"), (["show", "--help=1", "a"], "--help=1 is not an option"),
    ):
        program.refuses(2, re.escape(sentence) + r" \(hivevigil --help\)", *words)


BAD_CSV = {
    b"": "no line of names", b"\n\n": "no line of names", b"\xef\xbb\xbf": "no line of names",
    b"a,b\n1,2\n3\n": "line 3 has 1 fields, the first 2", b"a\n1,2\n": "line 2 has 2 fields, the first 1",
    b"a,a\n": "two columns have the name 'a'", b'a\n"b': "line 2: the file ends within quotes",
    b'a\n"b\n\nc': "line 4: the file ends within quotes", b'a\n"b"c\n': "line 2: text after a closing quote",
    b"a,b\r\n1,2\r\n\r\n1\r\n": "line 4 has 1 fields, the first 2", b"a\xff\n1\n": "the names are not UTF-8",
    b"a\n1\n\xff\n": "line 3: column 'a': the text is not UTF-8",
}
BAD_TYPES = {
    ("i8", "300"): "300 does not fit i8", ("u8", "-1"): "-1 does not fit u8", ("i32", "x"): "'x' is not a number",
    ("i32", "1.5"): "1.5 does not fit i32", ("bool", "1"): "'1' is neither true nor false",
    ("bool", "TRUE"): "'TRUE' is neither true nor false",
    ("i64", ""): "null does not fit i64", ("u64?", str(2**64)): f"{2**64} does not fit u64",
    ("decimal(3,1)", "1.25"): "1.25 does not fit decimal(3, 1)",
    ("decimal(38,0)", "9" * 39): f"{'9' * 39} has more than 38 digits",
    ("decimal(38,37)", "1." + "0" * 38): f"1.{'0' * 38} has more than 38 digits",
    ("date?", "2023-02-29"): "'2023-02-29' is not a date as 2024-03-01",
    ("date", "2024-03-01T00:00"): "'2024-03-01T00:00' is not a date as 2024-03-01", ("date", ""): "null does not fit i32",
    ("time[ms]", "24:00"): "'24:00' is not a time of day as 10:00:00",
    ("time[ms]", "10:00:00.0005"): "'10:00:00.0005' is finer than time[ms]",
    ("timestamp[s]", "2024-03-01"): "'2024-03-01' is not a date and a time without an offset as 2024-03-01T10:00:00",
    ("timestamp[s]", "2024-03-01T10:00Z"):
        "'2024-03-01T10:00Z' is not a date and a time without an offset as 2024-03-01T10:00:00",
    ("timestamp[s,UTC]", "2024-03-01 10:00"):
        "'2024-03-01 10:00' is not a date and a time with an offset as 2024-03-01T10:00:00Z",
    ("timestamp[ns]", "1500-01-01T00:00"): "'1500-01-01T00:00' does not fit timestamp[ns]",
    ("duration[s]", "1.5"): "'1.5' is finer than duration[s]", ("duration[s]", "x"): "'x' is not a number of seconds",
    ("duration[ns]", "10000000000"): "'10000000000' does not fit duration[ns]",
    ("float32", "3.4028236e38"): "no float32 is 3.4028236e38", ("float16", "-65520"): "no float16 is -65520",
    ("float64", "1e400"): "no float64 is 1e400", ("float64", "-nan"): "'-nan' is not a number",
    ("float64", ".5"): "'.5' is not a number", ("binary", "0g"): "'0g' is not bytes in hexadecimal digits",
    ("binary", "abc"): "'abc' is not bytes in hexadecimal digits",
}


def check_bad_files(program: Program) -> None:
    file, kept = program.folder / "bad.csv", program.folder / "kept.hv"
    kept.write_bytes(b"as it was")
    for data, sentence in BAD_CSV.items():
        file.write_bytes(data)
        program.refuses(1, re.escape(f"bad.csv: {sentence}"), "report", "bad.csv")
        program.refuses(1, re.escape(f"bad.csv: {sentence}"), "convert", "bad.csv", "--column", "a", "--to", "kept.hv")
    for (kind, field), sentence in BAD_TYPES.items():
        file.write_text(f"row,a\n1,{field}\n")
        sentence = re.escape(f"bad.csv: line 2: column 'a': {sentence}")
        program.refuses(1, sentence, "convert", "bad.csv", "--column=a", "--to=kept.hv", "--type", kind)
    program.refuses(1, r"none\.csv: No such file or directory", "report", "none.csv")
    program.refuses(1, r"none\.hv: No such file or directory", "show", "none.hv")
    program.refuses(1, r"\.: Is a directory", "report", ".")
    program.refuses(1, r"\.: Is a directory", "show", ".")
    file.write_text("a,b\n1,2\n")
    convert = ["convert", "bad.csv", "--column"]
    program.refuses(1, r"bad\.csv: no column has the name 'c': the names are 'a', 'b'", *convert, "c", "--to", "kept.hv")
    program.refuses(1, r"none/x\.hv: No such .*", *convert, "a", "--to", "none/x.hv")
    # a file that cannot be written whole
    too_large = {"preexec_fn": lambda: resource.setrlimit(resource.RLIMIT_FSIZE, (0, 0)), "restore_signals": False}
    program.refuses(1, r".*kept\.hv: File too large", *convert, "a", "--to", "kept.hv", **too_large)
    program.refuses(1, r"bad\.csv, of 8 bytes, is not the file of a column", "show", "bad.csv")
    assert kept.read_bytes() == b"as it was"
    assert not [path for path in program.folder.iterdir() if ".hv." in path.name], "a part of a file was left"
    with open("/dev/full", "wb") as full:
        ended = subprocess.run([program.path, "--help"], stdout=full, stderr=subprocess.PIPE, text=True)
    assert (ended.returncode, ended.stderr) == (1, "hivevigil: standard output: No space left on device\n")


MARKS = {
    '"a;b"\nx;y\n': ["a;b"], '"a,b";c\n1;2\n': ["a,b", "c"], 'c;"a,b"\n1;2\n': ["c", "a,b"],
    '"a ""b;"""\tc\n1\t2\n': ['a "b;"', "c"], '5" pipe;6" pipe\n1;2\n': ['5" pipe', '6" pipe'],
    '\ufeff"a|b";c\n1;2\n': ["a|b", "c"], '"a;\n"\n1\n': ["a;\n"],
}


def check_marks(program: Program) -> None:
    """A mark in a name in quotes does not divide, and what is printed is read again."""
    for data, names in MARKS.items():
        for _ in range(2):
            (program.folder / "marks.csv").write_text(data)
            program.answers("convert", "marks.csv", "--to=marks.hv")
            data = program.answers("show", "marks.hv", "--rows=1")
            assert next(csv.reader(io.StringIO(data, newline=""), strict=True)) == names, data


def check_files(program: Program) -> None:
    """Types that are asked for, how a file is replaced, and rows that no machine could hold."""
    file = program.folder / "typed.csv"
    file.write_text("a,b\n1,00ff\n,\n1,\n")
    convert = ["convert", "typed.csv", "--to", "typed.hv", "--column"]
    for kind in ("u8?", "i64?", "u64?", "decimal(38,37)?"):
        program.answers(*convert, "a", "--type", kind)
        one = "1." + "0" * 37 if kind[0] == "d" else "1"
        assert program.answers("show", "typed.hv", "--rows", "9") == f"{one}\n\n{one}\n"
    rows = [True, None, False, True, False]  # as Python writes them, and as the program does
    fields = [*("" if row is None else str(row) for row in rows), "true", "false"]
    (program.folder / "flags.csv").write_text("row,flag\n" + "".join(f"0,{field}\n" for field in fields))
    program.answers("convert", "flags.csv", "--to=flags.hv", "--column=flag", "--type=bool?")
    assert program.answers("show", "flags.hv", "--rows=9") == lines_of([*rows, True, False], "bool?")
    assert program.answers("query", "flags.hv", "count", "--where", "= True") == "3\n"
    assert program.answers("report", "flags.csv").split("\n")[2].split()[:2] == ["flag", "utf8?"]  # nobody asked
    check_marks(program)
    program.answers(*convert, "b", "--type", "binary?")
    assert program.answers("show", "typed.hv", "--runs") == "start,stop,value\n0,1,00ff\n1,3,\n"
    assert program.answers("query", "typed.hv", "count", "--where", "= 00FF") == "1\n"
    program.refuses(1, "'x' is not bytes in hexadecimal digits", "query", "typed.hv", "filter", "=x")
    saved, link = program.folder / "typed.hv", program.folder / "link.hv"
    saved.chmod(0o640)
    link.symlink_to("typed.hv")
    program.answers("convert", "typed.csv", "--column", "a", "--to", "link.hv")
    assert link.is_symlink() and stat.S_IMODE(saved.stat().st_mode) == 0o640
    assert program.answers("query", "typed.hv", "sum") == "2\n"
    status, out, _ = program.run("convert", "typed.csv", "--column", "a", "--to", "/dev/stdout")
    assert (status, out) == (0, saved.read_bytes())
    file.write_text("a\n" + "9" * 38 + "\n-1\n" + "9" * 38 + "\n")
    program.answers("convert", "typed.csv", "--column", "a", "--to", "typed.hv")
    program.refuses(1, "typed.hv: decimal overflow: with row 2 the sum leaves 38 digits", "query", "typed.hv", "sum")
    assert program.answers("query", "typed.hv", "sum", "--where", "> 0", "--where", "< 0") == "0\n"
    # 2^60 rows "ab" in 22 bytes, as docs/BYTES.md has them
    saved.write_bytes(bytes.fromhex("0801100b1803208080808080808080102801 3a026162"))
    rows = 2**60
    assert program.answers("show", "typed.hv") == (
        f"utf8: {rows:,} rows of one value, 0 null; 22 bytes in the file, 2 in memory\n"
    )
    assert program.answers("show", "typed.hv", "--rows", "2", "--from", str(rows - 1)) == "ab\n"
    assert program.answers("query", "typed.hv", "count", "--where", "= ab") == f"{rows}\n"
    assert program.answers("query", "typed.hv", "count", "--where", "> ab") == "0\n"


def check_page(program: Program) -> None:
    """The commands of docs/PROGRAM.md print what the page says."""
    (program.folder / "towns.csv").write_text('place,count,price\nOslo,4,1.50\nOslo,4,\n"a, b",7,-2\n')
    page = (TOP / "docs/PROGRAM.md").read_text()
    commands = re.findall(r"^    \$ hivevigil (.*)\n((?:    (?!\$).*\n)*)", page, re.M)
    assert len(commands) > 6
    for words, due in commands:
        status, out, said = program.run(*shlex.split(words))
        assert out.decode() + said == re.sub("^    ", "", due, flags=re.M), f"{words}: {out.decode()}{said}"
        assert (status == 0) == (said == ""), words


def check_types_in_files(program: Program) -> None:
    """Formats that are not served are kept, and a file is refused where it ends early, or has another byte before its
    message, unless that makes another format."""
    file = program.folder / "message.hv"
    message = bytes.fromhex("080110071801200228013a08474d0000484d0000")  # two days of i32: 19783 and 19784
    dates, numbers, whole = "2024-03-01\n2024-03-02\n", "19783\n19784\n", file_of("tdD", message)
    for format in "tdD", "", "tiM", "tsu:UTC", "g", "tss:Z\u00fcrich", "a\nb", "z" * 300:
        file.write_bytes(file_of(format, message))
        assert program.answers("show", "message.hv", "--rows=9") == (dates if format == "tdD" else numbers), format
        program.answers("query", "message.hv", "filter", "< 2024-03-02" if format == "tdD" else "< 19784", "--to=left.hv")
        assert parts_of((program.folder / "left.hv").read_bytes())[0] == format
    for size in range(len(whole)):
        file.write_bytes(whole[:size])
        refuse_file(program, whole[:size])
    for place in range(len(whole) - len(message)):
        for bit in range(8):
            data = whole[:place] + bytes([whole[place] ^ 1 << bit]) + whole[place + 1 :]
            file.write_bytes(data)
            if parts_of(data) and parts_of(data)[1] == message:
                assert program.answers("show", "message.hv", "--rows=9") == numbers, data.hex()
            else:
                refuse_file(program, data)
    second = bytes.fromhex("0801100818012001 28013a08 6400000000000000")  # 100 in a row of i64
    not_text = b"hivevigil type 1 tss:\xff\n" + second
    line = b"hivevigil type 1 tdD\n"
    for data in whole + b"\0", file_of("tdD", whole), line + whole, whole[:2] + whole[11:], line + second, not_text:
        file.write_bytes(data)
        refuse_file(program, data)
    (program.folder / "typed.csv").write_text("a\n2024-03-01T10:00Z\n")
    zone = "timestamp[s,\udcff]"  # a byte that is not UTF-8
    convert = ["convert", "typed.csv", "--column=a", "--to=left.hv", "--type", zone]
    program.refuses(1, r"typed\.csv: the logical type is not UTF-8", *convert)


# ---- Messages of all forms, and damaged ones


def flat_of(message):
    """What the runs of a message are over, which has the type of the rows."""
    while message.form == 2:
        message = message.values
    return message


def scaled(digits: str, scale: int) -> str:
    """A decimal from the digits of its 16 bytes."""
    number = int.from_bytes(bytes.fromhex(digits), "big", signed=True)
    if scale <= 0:
        return str(number * 10**-scale)
    text = str(abs(number)).rjust(scale + 1, "0")
    return "-" * (number < 0) + text[:-scale] + "." + text[-scale:]


def item_of(model, message, row: str):
    """A row of the model that is not a list: None, a number or a boolean as text, or bytes."""
    if row == "null":
        return None
    if row.startswith("'"):
        return bytes.fromhex(row[1:])
    return scaled(row, message.scale) if message.type == model.DECIMAL else row


def json_of(model, elements, row: str) -> str:
    """A list of the model as JSON."""
    words = []
    for item in (item_of(model, elements, word) for word in row[1:-1].split(" ") if word):
        if not isinstance(item, bytes):
            words.append("null" if item is None else item)
        elif elements.type == model.BINARY:
            words.append(f'"{item.hex()}"')
        else:
            words.append(json.dumps(item.decode(), ensure_ascii=False))
    return f"[{','.join(words)}]"


def meant(model, message, format: str) -> str | None:
    """The logical type that a format of Arrow gives a column; None where it is not one of such integers."""
    kind = logical_model.name_of_format(format)
    stored = {"i16": 6, "i32": 7, "i64": 8}.get(logical_model.storage_of(kind) if kind else "")
    return kind if stored == message.type else None


def field_of(model, message, row: str, format: str = "") -> str | None:
    """A row of the model as a field of a CSV file; None where it is a date or a time that is not written."""
    if row != "null" and (kind := meant(model, message, format)):
        return logical_model.shown(int(row), kind)
    if message.type == model.LIST:
        return "" if row == "null" else shown(json_of(model, message.elements, row).encode(), "utf8")
    item = item_of(model, message, row)
    if not isinstance(item, bytes):
        return item or ""
    return shown(item if message.type == model.UTF8 else item.hex().encode(), "utf8")


def with_type(chance: random.Random, message: bytes) -> tuple[bytes, bytes | None, str]:
    """The file of a message and of a logical type, or of none, which one of three has changed: its bytes, the message
    in it, None where it is damaged, and the format. It may be of the older form, which has a line before the message."""
    format = chance.choice([*logical_model.FORMATS, "tsu:UTC", "tss:\u00fc", "tsx:", "", "tdD ", "z" * 130])
    is_older = chance.random() < 0.4
    line = f"hivevigil type 1 {format}\n".encode()
    data = line + message if is_older else file_of(format, message)
    front = data[: len(data) - len(message)]
    if front and chance.random() < 0.3:
        place, byte = chance.randrange(len(front)), bytes([chance.randrange(256)])
        before, after = front[:place], front[place + 1 :]
        changed = [before, after, before + byte + after, before + byte + front[place:], front * 2, front[:-2] + b"\xff\n"]
        front = chance.choice([*changed, front.replace(b"\x01", b"\x02"), front.replace(b"1", b"2")])
        data = front + message
    if found := re.match(rb"hivevigil type 1 ([^\n]*)\n", data):
        is_text = found[1] == found[1].decode(errors="ignore").encode()
        return data, data[found.end() :] if is_text else None, found[1].decode(errors="ignore")
    format, message = parts_of(data) or ("", None)
    return data, message, format


def check_rows_of_message(program: Program, rows: list, kind: str | None, data: bytes) -> None:
    """Shows the first rows; None is one that is a date or a time that is not written."""
    if None in rows:
        sentence = rf"message\.hv: row {rows.index(None)}: -?\d+ of {re.escape(kind)} is not .*"
        program.stops(sentence, "show", "message.hv", "--rows", "20")
        return
    due, found = "".join(f"{row}\n" for row in rows), program.answers("show", "message.hv", "--rows", "20")
    assert found == due, f"{data.hex()}: {found} and not {due}"


def refuse_file(program: Program, data: bytes) -> None:
    """The file of a message is not a column's."""
    what = "table" if data.startswith(b"\n") else "column"
    program.refuses(1, rf"message\.hv, of {len(data):,} bytes, is not the file of a {what}", "show", "message.hv")


def check_message(program: Program, model, data: bytes, storage: bytes | None = None, format: str = "") -> bool:
    """Whether the file is a column's, as the model has the message in it, and the program too."""
    message = model.column(storage) if storage is not None else None
    (program.folder / "message.hv").write_bytes(data)
    kind = meant(model, message, format) if message is not None else None
    if message is None or data.startswith(b"hivevigil") and not kind:
        refuse_file(program, data)
        return False
    rows = [model.row(message, row) for row in range(message.rows)]
    fields = [field_of(model, flat_of(message), row, format) for row in rows]
    check_rows_of_message(program, fields[:20], kind, data)
    assert program.answers("query", "message.hv", "count") == f"{len(rows) - rows.count('null')}\n", data.hex()
    assert f": {len(rows):,} rows" in program.answers("show", "message.hv")
    # of a window of runs the rows that are shown, and no other
    some = next((row for row in rows[::-1] if row != "null"), None)
    if kind and some is not None and None not in fields:
        check_value(program, fields, logical_model.number_shown(int(some), kind), fields[rows.index(some)], kind)
    elif not kind and some is not None and message.type not in (model.LIST, model.DECIMAL):
        value = item_of(model, flat_of(message), some)
        word = value if isinstance(value, str) else value.hex() if message.type == model.BINARY else value.decode()
        found = program.answers("query", "message.hv", "count", "--where", f"= {word}")
        assert found == f"{rows.count(some)}\n", f"{data.hex()}: {found} and not {rows.count(some)} of {word}"
    return True


def check_value(program: Program, fields: list, number, field: str, kind: str) -> None:
    """Counts the rows of a logical type that equal one of them: of floats both zeros, and no NaN."""
    same = [number == logical_model.exact(other, kind) for other in fields if other]
    found = program.answers("query", "message.hv", "count", "--where", f"= {field}")
    assert found == f"{same.count(True)}\n", (field, kind, found)


def check_messages(program: Program, count: int, seed: int) -> int:
    """Shows random messages, of which two of three are changed, and those of integers also with a logical type; how many
    are refused."""
    sys.path.insert(0, str(TOP / "examples/bytes"))
    import messages
    import model

    warnings.simplefilter("ignore")
    # a message that was changed may have any number of rows; those of more are shown by their first ones elsewhere
    made = [data for data in messages.messages(count, seed) if (model.column(data) or model.Column()).rows <= 1000]
    chance = random.Random(seed)
    of_integers = [data for data in made if (found := model.column(data)) and found.type in (6, 7, 8)]
    refused = sum(not check_message(program, model, *with_type(chance, data)) for data in of_integers)
    return refused + sum(not check_message(program, model, data, data) for data in made)


def main() -> None:
    parser = argparse.ArgumentParser(description=__doc__, formatter_class=argparse.RawDescriptionHelpFormatter)
    parser.add_argument("program")
    parser.add_argument("--files", type=int, default=60)
    parser.add_argument("--messages", type=int, default=300)
    parser.add_argument("--seed", type=int, default=1)
    chosen = parser.parse_args()
    with tempfile.TemporaryDirectory() as folder:
        program = Program(chosen.program, Path(folder))
        check_usage(program)
        check_bad_files(program)
        check_files(program)
        check_page(program)
        check_types_in_files(program)
        for number in range(chosen.files):
            check_random_file(random.Random(f"{chosen.seed} {number}"), program)
        check_guessed_types(program)
        check_shown_floats(program)
        check_means(random.Random(f"{chosen.seed} means"), program)
        for bits in 16, 32:
            check_nearest_floats(random.Random(f"{chosen.seed} {bits}"), program, bits)
        for bits in 16, 32, 64:
            check_between_floats(program, bits)
        for number, kind in enumerate(TYPES):
            check_typed_column(random.Random(f"{chosen.seed} {number} {kind}"), program, kind)
        said = f"{chosen.files} random files"
        try:
            refused = check_messages(program, chosen.messages, chosen.seed)
            said += f" and {chosen.messages} messages, {refused} of them refused"
        except (ImportError, FileNotFoundError):
            said += ", and no message (protoc and protobuf for Python are not there)"
        print(f"{said}: {program.runs} runs of the program are as they should be")


if __name__ == "__main__":
    main()
