#!/usr/bin/env python3
"""Tests of the program hivevigil on tables, each answer held against plain lists, and files against the model of
examples/bytes, where Protocol Buffers are there.

    python3 program/test_tables.py PROGRAM [--files N] [--seed N] [--messages N]

Random CSV files are converted whole, shown and asked, column by column and row by row. Messages by docs/table.proto, two
of three of them damaged, are shown or refused as the model has them.
"""

import argparse
import csv
import io
import itertools
import random
import re
import resource
import sys
import tempfile
import warnings
from decimal import localcontext
from pathlib import Path

import logical_model
from csv_model import (
    IN_WORDS, OPERATORS, found_mark, is_number, mean, meets, random_csv, random_value, read_by_csv, rows_of, run_bytes,
    runs_of, shown, type_of, value_of,
)
from logical_model import format_of, is_logical, parts_of
from test import TOP, Program, check_questions, field_of, flat_of, lines_of, meant, message_of

# ---- The model: what is printed of a table


def field(text: str, marks: str = ",") -> str:
    """A text as a field of a CSV file: in quotes where it is empty or needs them."""
    return text if text and not set(text) & set(marks + '"\r\n') else '"' + text.replace('"', '""') + '"'


def expected_rows(rows: dict[str, list], kinds: dict[str, str], lines: list[int]) -> str:
    found = [",".join(field(name, ",;|\t") for name in rows)]  # names with each mark that may divide a file
    found += [",".join(shown(rows[name][line], kinds[name]) for name in rows) for line in lines]
    return "".join(f"{line}\n" for line in found)


def expected_table(rows: dict[str, list], kinds: dict[str, str], sizes: dict[str, int], file_bytes: int) -> str:
    lines, count = [["column", "type", "nulls", "runs", "bytes in file", "bytes in memory"]], 0
    for name, kind in kinds.items():
        count = len(rows[name])
        numbers = rows[name].count(None), len(runs_of(rows[name])), sizes[name], run_bytes(rows[name], kind)
        lines.append([field(name), kind, *map("{:,}".format, numbers)])
    widths = [max(len(line[place]) for line in lines) for place in range(6)]
    sides = [str.ljust] * 2 + [str.rjust] * 4
    table = ["  ".join(side(*cell) for side, *cell in zip(sides, line, widths)) for line in lines]
    in_memory = sum(run_bytes(rows[name], kind) for name, kind in kinds.items())
    sums = f"{count:,} rows, {len(rows):,} columns; {file_bytes:,} bytes in the file, {in_memory:,} in memory"
    return "".join(f"{line}\n" for line in [*table, sums])


# ---- What the program answers


def check_random_file(chance: random.Random, program: Program, model) -> None:
    columns, data, options = random_csv(chance)
    (program.folder / "random.csv").write_bytes(data)
    mark = options[1] if options else found_mark(data)
    assert read_by_csv(data, mark) == columns, "the file is not what it should be"
    assert program.answers("convert", "random.csv", "--to", "table.hv", *options) == ""
    kinds = {name: type_of(fields) for name, fields in columns.items()}
    rows = {name: rows_of(fields, kinds[name]) for name, fields in columns.items()}
    sizes = {}
    for name in columns:
        program.answers("convert", "random.csv", "--column", name, "--to", "column.hv", *options)
        data = (program.folder / "column.hv").read_bytes()
        size, sizes[name] = len(data), len(message_of(data, kinds[name]))
        due = program.answers("show", "column.hv").replace(f"{size:,} bytes in", f"{sizes[name]:,} bytes in")
        assert program.answers("show", "table.hv", "--column", name) == due
    kept = (program.folder / "table.hv").read_bytes()
    if model is not None:
        assert model.table(kept) is not None, kept.hex()
        check_differences(program, model, rows, kinds, kept, options)
    assert program.answers("show", "table.hv") == expected_table(rows, kinds, sizes, len(kept))
    check_rows(chance, program, rows, kinds)
    check_order(chance, program, rows, kinds)
    program.answers("convert", "random.csv", "--to", "sorted.hv", "--sort", "-row", *options)
    due = expected_rows(rows, kinds, list(range(len(rows["row"])))[::-1])
    assert program.answers("show", "sorted.hv", "--rows", str(2**63)) == due
    for _ in range(3):
        check_conditions(chance, program, rows, kinds)


def formats_of(kinds: dict[str, str]) -> dict[str, str]:
    """The formats of Arrow of the columns that have a logical type."""
    return {name: format_of(kind) for name, kind in kinds.items() if is_logical(kind)}


def check_differences(
    program: Program, model, rows: dict[str, list], kinds: dict[str, str], plain: bytes, options: list[str]
) -> None:
    """The columns that are shorter so are kept as differences, as the model has them, and are shown as they were."""
    program.answers("convert", "random.csv", "--to", "short.hv", "--differences", *options)
    short = (program.folder / "short.hv").read_bytes()
    columns = dict(zip(rows, model.table(plain).columns))
    kept = {name: model.as_differences(column) for name, column in columns.items()}
    kept = {name: parts for name, parts in kept.items() if parts is not None}
    assert short == model.written(model.made(len(rows["row"]), columns, formats_of(kinds), kept)), short.hex()
    assert (short == plain) == (not kept) and (kept or len(rows["row"]) < 100)
    sizes = {footer.name: footer.size for footer in model.table(short).footer.columns}
    assert program.answers("show", "short.hv") == expected_table(rows, kinds, sizes, len(short))
    everything = ["--rows", str(2**63)]
    assert program.answers("show", "short.hv", *everything) == program.answers("show", "table.hv", *everything)
    for more, due in ([], plain), (["--differences"], short):
        program.answers("query", "short.hv", "filter", "row >= 0", "--to", "again.hv", *more)
        again = (program.folder / "again.hv").read_bytes()
        assert model.table(again) is not None and again[:13] == due[:13]


def check_rows(chance: random.Random, program: Program, rows: dict[str, list], kinds: dict[str, str]) -> None:
    total = len(rows["row"])
    count, start = chance.choice([0, 1, 7, total, 2**64 - 1]), chance.choice([0, 0, 5, total, 2**64 - 1])
    due = expected_rows(rows, kinds, list(range(total))[start : start + count])
    assert program.answers("show", "table.hv", "--rows", str(count), "--from", str(start)) == due
    # what is printed is a CSV file again, of the same fields
    whole = program.answers("show", "table.hv", "--rows", str(total))
    again = list(csv.reader(io.StringIO(whole, newline=""), strict=True))
    assert again[0] == [*rows] and len(again) == total + 1
    name = chance.choice([*rows])
    runs = "".join(f"{start},{stop},{shown(value, kinds[name])}\n" for start, stop, value in runs_of(rows[name]))
    assert program.answers("show", "table.hv", "--runs", "--column", name) == f"start,stop,value\n{runs}"


def in_order(lines: list[int], rows: dict[str, list], keys: list[str], nulls: str = "first") -> list[int]:
    """Numbers of rows, sorted by columns, of which those with a minus in front are in descending order; in each null
    comes first or last."""
    found = list(lines)
    for key in reversed(keys):
        values = rows[key.removeprefix("-")]
        valid = [line for line in found if values[line] is not None]
        valid.sort(
            key=lambda line: values[line].encode() if isinstance(values[line], str) else values[line],
            reverse=key.startswith("-"),
        )
        missing = [line for line in found if values[line] is None]
        found = missing + valid if nulls == "first" else valid + missing
    return found


def check_order(chance: random.Random, program: Program, rows: dict[str, list], kinds: dict[str, str]) -> None:
    """Rows that are shown, kept and filtered in order by some columns."""
    names = chance.sample([*rows], chance.randint(1, len(rows)))
    keys = [chance.choice(["", "-"]) + name for name in names]
    nulls = chance.choice([None, "first", "last"])
    due = in_order(list(range(len(rows["row"]))), rows, keys, nulls or "first")
    everything, sort = ["--rows", str(2**63)], ["--sort", ",".join(keys), *([f"--nulls={nulls}"] if nulls else [])]
    for file in "table.hv", "short.hv":
        if (program.folder / file).exists():
            found = program.answers("show", file, *sort, *everything)
            assert found == expected_rows(rows, kinds, due), keys
            assert program.answers("head", file, *sort) == expected_rows(rows, kinds, due[:10])
    program.answers("convert", "table.hv", *sort, "--to", "sorted.hv")
    assert program.answers("show", "sorted.hv", *everything) == expected_rows(rows, kinds, due)
    program.answers("query", "table.hv", "filter", "row >= 0", *sort, "--to", "sorted.hv")
    assert program.answers("show", "sorted.hv", *everything) == expected_rows(rows, kinds, due)
    found = program.answers("query", "table.hv", "filter", "row >= 3", *sort, "--column", names[0])
    assert found == lines_of([rows[names[0]][line] for line in due if line >= 3], kinds[names[0]])


def check_conditions(chance: random.Random, program: Program, rows: dict[str, list], kinds: dict[str, str]) -> None:
    """A filter by conditions on several columns, what is kept of it, and answers about a column of the rows left."""
    left, conditions = list(range(len(rows["row"]))), []
    for _ in range(chance.choice([1, 1, 2])):
        name, operator = chance.choice([*rows]), chance.choice([*OPERATORS])
        value = random_value(chance, rows[name], kinds[name])
        space = " " if value.startswith((" ", "=")) or chance.random() < 0.5 else ""
        # a name that ends in a space is followed by one more, or by none
        front = chance.choice(["", " ", "  "])
        in_words = chance.random() < 0.3
        conditions.append(f"{name} {IN_WORDS[operator]}{value}" if in_words else f"{name}{front}{operator}{space}{value}")
        right = value_of(value, kinds[name])
        left = [line for line in left if meets(rows[name][line], operator, right, kinds[name])]
    more = [word for condition in conditions[1:] for word in ("--where", condition)]
    asked = ["query", "table.hv", "filter", conditions[0], *more]
    assert program.answers(*asked) == expected_rows(rows, kinds, left), conditions
    for words in [], ["count"]:
        found = program.answers("query", "table.hv", *words, "--where", conditions[0], *more)
        assert found == f"{len(left)}\n", conditions
    program.answers(*asked, "--to", "left.hv")
    assert program.answers("show", "left.hv", "--rows", str(2**63)) == expected_rows(rows, kinds, left)
    name = chance.choice([*rows])
    some = [rows[name][line] for line in left]
    assert program.answers(*asked, "--column", name) == lines_of(some, kinds[name])
    program.answers(*asked, "--column", name, "--to", "column.hv")
    assert program.answers("show", "column.hv", "--rows", str(2**63)) == lines_of(some, kinds[name])
    where = [f"--where={condition}" for condition in conditions]
    check_questions(program, some, kinds[name], where, name)
    check_groups(chance, program, rows, kinds, left, where)


def answer(valid: list, kind: str, question: str, is_group: bool) -> str | None:
    """What rows that are not null are asked, as a field; None where such rows have no answer. A group has no sum where
    it has no row; of all rows in turn no sum on the way may be past 64 bits, or 38 digits."""
    if question == "count":
        return str(len(valid))
    if question in ("min", "max"):
        best = min if question == "min" else max
        return shown(logical_model.best(valid, kind, best) if is_logical(kind) else best(valid, default=None), kind)
    if not is_number(kind):
        return None
    if not is_logical(kind):
        scale = int(kind.partition(", ")[2].rstrip(")?") or 0)
        with localcontext(prec=99):
            sums = list(itertools.accumulate(valid, initial=0))
            least, most = (-(2**63), 2**63 - 1) if kind[0] == "i" else (1 - 10**38, 10**38 - 1)
            if any(not least <= total * 10**scale <= most for total in (sums[-1:] if is_group else sums)):
                return None
    if question == "mean":
        return mean(valid, kind)
    if is_group and not valid:
        return ""
    return logical_model.total(valid, kind) if is_logical(kind) else shown(sums[-1], kind)


def lines_of_groups(rows: dict[str, list], kinds: dict[str, str], groups: list[list[int]], keys: list[str],
                    asked: list[tuple[str, str]]) -> list[str] | None:
    """A line for each group of lines; None where one has no answer."""
    lines = []
    for group in groups:
        valid = [[rows[name][line] for line in group if rows[name][line] is not None] for _, name in asked]
        answers = [answer(some, kinds[name], question, bool(keys)) for some, (question, name) in zip(valid, asked)]
        if None in answers:
            return None
        fields = [shown(rows[key][group[0]], kinds[key]) for key in keys] + (answers or [str(len(group))])
        lines.append(",".join(fields) + "\n")
    return lines


def check_groups(
    chance: random.Random, program: Program, rows: dict[str, list], kinds: dict[str, str], left: list[int],
    where: list[str],
) -> None:
    """What options ask of groups of the rows that are left, and of all of these."""
    by = chance.sample([*rows], min(len(rows), chance.choice([0, 1, 2])))
    by = [chance.choice(["", "", "-"]) + name for name in by]
    questions = [(question, name) for question in ("count", "sum", "mean", "min", "max") for name in rows]
    served = [each for each in questions if each[0] not in ("sum", "mean") or is_number(kinds[each[1]])]
    asked = chance.sample(served if chance.random() < 0.8 else questions, chance.choice([0, 1, 3]))
    asked += [("count", "row")] if ("count", "row") not in asked else []
    keys = [key.removeprefix("-") for key in by]
    nulls = chance.choice(["first", "last"])
    ordered = in_order(left, rows, by, nulls)
    groups = [list(group) for _, group in itertools.groupby(ordered, lambda line: [rows[key][line] for key in keys])]
    lines = lines_of_groups(rows, kinds, groups if by else [left], keys, asked)
    words = ["query", "table.hv", *where, *(word for question, name in asked for word in (f"--{question}", name))]
    names = [*keys, *(f"{question}({name})" for question, name in asked)]
    named = ",".join(field(name, ",;|\t") for name in names) + "\n"
    # one option for each key, or one with a comma between them
    words += [f"--by={','.join(by)}"] if by and chance.random() < 0.5 else [f"--by={key}" for key in by]
    words += [f"--nulls={nulls}"] if by and (nulls == "last" or chance.random() < 0.3) else []
    if lines is None:
        program.refuses(1, r"table\.hv: column '(.|\n)*': .*(has no|have no|leaves?) .*", *words)
        return
    assert program.answers(*words) == named + "".join(lines), words
    if by:
        turned = named + "".join(line for _, line in sorted(zip(groups, lines), key=lambda each: -len(each[0])))
        program.answers(*words, "--sort", "-count(row)", "--to", "groups.hv")
        assert program.answers("show", "groups.hv", "--rows", str(2**63)) == turned, words
        named = ",".join(field(name, ",;|\t") for name in [*keys, "rows"]) + "\n"
        sizes = program.answers("query", "table.hv", *where, *(f"--by={key}" for key in by), "--nulls", nulls)
        assert sizes == named + "".join(lines_of_groups(rows, kinds, groups, keys, [])), words


def check_refusals(program: Program) -> None:
    folder = program.folder
    (folder / "a.csv").write_text("level,level > 1,\n1,2,3\n7,8,\n")
    program.answers("convert", "a.csv", "--to", "table.hv")
    program.answers("convert", "a.csv", "--column", "level", "--to", "column.hv")
    # of names that begin one another the longest that fits, also where it has an operator
    assert program.answers("query", "table.hv", "filter", "level > 1", "--column", "level") == "7\n"
    assert program.answers("query", "table.hv", "filter", "level > 1 > 2", "--column", "level") == "7\n"
    assert program.answers("query", "table.hv", "filter", "> 2") == 'level,level > 1,""\n1,2,3\n'
    sentence = r".* is not the name of a column, an operator \(.*\) and a value \(hivevigil --help\)"
    for text in ("place > 1", "levelgt 1", "level ~ > 1"):
        program.refuses(2, sentence, "query", "table.hv", "filter", text)
    program.refuses(2, r"query needs --column \(hivevigil --help\)", "query", "table.hv", "sum")
    sentence = r"query takes one of count, sum, mean, min, max, filter with --column \(hivevigil --help\)"
    program.refuses(2, sentence, "query", "table.hv", "--column", "level")
    assert program.answers("query", "table.hv") == program.answers("query", "column.hv") == "2\n"
    assert program.answers("query", "table.hv", "count") == "2\n"
    program.refuses(2, r"--runs of a table takes --column too \(hivevigil --help\)", "show", "table.hv", "--runs")
    program.refuses(2, r"--type takes --column too \(hivevigil --help\)", "convert", "a.csv", "--to=b", "--type=i8")
    for option in "--differences", "--sort=level":
        sentence = option.partition("=")[0] + r" is of a table, and --column keeps a column \(hivevigil --help\)"
        program.refuses(2, sentence, "convert", "a.csv", "--to=b", option, "--column", "level")
    sentence = r"--differences takes --to, and is of a table \(hivevigil --help\)"
    for more in [], ["--to=b", "--column=level"]:
        program.refuses(2, sentence, "query", "table.hv", "filter", "level > 1", "--differences", *more)
    program.refuses(2, r"--differences is not an option of query .*", "query", "table.hv", "sum", "--differences")
    for option in "--differences", "--sort=level":
        sentence = r"column\.hv is not the file of a table, which " + option.partition("=")[0] + " is of"
        program.refuses(1, sentence, "query", "column.hv", "filter", "> 1", option, "--to=b")
    check_refused_orders(program)
    none = r"table\.hv: no column has the name 'place': the names are 'level', 'level > 1', ''"
    program.refuses(1, none, "show", "table.hv", "--column", "place")
    program.refuses(1, none, "query", "table.hv", "max", "--column", "place")
    program.refuses(1, "'x' is not a number", "query", "table.hv", "filter", "level = x")
    sentence = r"column\.hv is not the file of a table, and its column has no name"
    for words in (["show", "column.hv"], ["query", "column.hv", "sum"], ["query", "column.hv", "filter", "> 1"]):
        program.refuses(1, sentence, *words, "--column", "level")
    (folder / "kept.hv").write_bytes(b"as it was")
    (folder / "bad.csv").write_text("a,b\n1\n")
    program.refuses(1, r"bad\.csv: line 2 has 1 fields, the first 2", "convert", "bad.csv", "--to", "kept.hv")
    assert (folder / "kept.hv").read_bytes() == b"as it was"
    (folder / "a.csv").write_text("a,b\n")
    program.answers("convert", "a.csv", "--to", "table.hv")
    assert program.answers("show", "table.hv", "--rows", "1") == "a,b\n"


def check_refused_groups(program: Program) -> None:
    """What is not asked of groups, and names that answers have."""
    (program.folder / "g.csv").write_text("place,level,day\nOslo,1,2024-03-01\n,3,2024-03-02\nOslo,2,2024-03-01\n")
    program.answers("convert", "g.csv", "--to", "g.hv")
    program.answers("convert", "g.csv", "--column", "level", "--to", "column.hv")
    usage, query = r" \(hivevigil --help\)", ["query", "g.hv"]
    for words, option in (["sum", "--column=level"], "by"), (["filter", "level > 1"], "by"), (["count"], "mean"):
        sentence = f"query takes {words[0]} or --{option}, not both" + usage
        program.refuses(2, sentence, *query, *words, f"--{option}=level")
    for option in "--sort=level", "--to=b", "--differences":
        sentence = option.partition("=")[0] + " takes filter or --by" + usage
        program.refuses(2, sentence, *query, option)
        program.refuses(2, sentence, *query, "--sum=level", option)
    program.refuses(2, "--differences takes --to, and is of a table" + usage, *query, "--by=place", "--differences")
    program.refuses(2, "--sum is given twice for 'level'" + usage, *query, "--sum=level", "--max=level", "--sum=level")
    program.refuses(2, "--by needs a value" + usage, *query, "--by")
    none = "g\\.hv: no column has the name '{}': the names are {}"
    names = "'place', 'level', 'day'"
    for words in ["--by=x"], ["--by=level", "--by=x"], ["--by=level,x"], ["--mean=x"], ["--by=level", "--sum=x"]:
        program.refuses(1, none.format("x", names), *query, *words)
    program.refuses(1, none.format("x", r"'place', 'max\(level\)'"), *query, "--by=place", "--max=level", "--sort=x")
    for option in "by", "mean":
        sentence = rf"column\.hv is not the file of a table, which --{option} is of"
        program.refuses(1, sentence, "query", "column.hv", f"--{option}=level")
    for words, said in (
        (["--sum=place"], "utf8? has no sum"), (["--mean=place"], "utf8? has no mean"),
        (["--by=level", "--mean=place"], "utf8? has no mean"),
        (["--by=level", "--sum=place"], "utf8? has no sum"),
        (["--sum=day"], "date? has no sum"), (["--by=level", "--mean=day"], "date? has no mean"),
        (["--by=level", "--sum=day"], "rows of the logical type tdD have no sum"),
    ):
        name = words[-1].partition("=")[2]
        program.refuses(1, re.escape(f"g.hv: column '{name}': {said}"), *query, *words)
    assert program.answers(*query, "--by=place") == "place,rows\n,1\nOslo,2\n"
    assert program.answers(*query, "--by=-place", "--max=day", "--mean=level", "--where", "level > 1") == (
        "place,max(day),mean(level)\n,2024-03-02,3.0\nOslo,2024-03-01,2.0\n"
    )
    none = ["--where", "level > 9"]
    assert program.answers(*query, "--by=place", *none) == "place,rows\n"
    assert program.answers(*query, "--max=level", "--sum=level", *none) == "max(level),sum(level)\n,0\n"
    (program.folder / "g.csv").write_text("level,sum(level)\n1,2\n")
    program.answers("convert", "g.csv", "--to", "g.hv")
    sentence = r"g\.hv: two columns have the name 'sum\(level\)'"
    program.refuses(1, sentence, *query, "--by=sum(level)", "--sum=level")


def check_refused_orders(program: Program) -> None:
    """Orders that are refused, and names that begin one another."""
    usage = r" \(hivevigil --help\)"
    program.refuses(2, "--sort takes --rows too" + usage, "show", "table.hv", "--sort=level")
    sentence = "--sort is of the rows of a table, and this is one column" + usage
    program.refuses(2, sentence, "show", "column.hv", "--rows=1", "--sort=level")
    program.refuses(2, "--nulls takes --sort too" + usage, "show", "table.hv", "--rows=1", "--nulls=last")
    program.refuses(2, "--nulls takes --sort too" + usage, "query", "table.hv", "--nulls=first")
    program.refuses(2, "--nulls takes --sort too" + usage, "convert", "table.hv", "--to=b", "--nulls=last")
    sentence = "--nulls takes first or last, not 'none'" + usage
    program.refuses(2, sentence, "head", "table.hv", "--sort=level", "--nulls=none")
    program.refuses(2, "--nulls is not an option of report" + usage, "report", "table.hv", "--nulls=last")
    program.refuses(2, "--sort is not an option of query" + usage, "query", "table.hv", "sum", "--sort=level")
    for text, name in ("place", "place"), ("level,place", "place"), ("level,-place,level", "place"), ("--level", "-level"):
        sentence = f"table\\.hv: no column has the name '{name}': the names are 'level', 'level > 1', ''"
        program.refuses(1, sentence, "show", "table.hv", "--rows=1", "--sort", text)
    (program.folder / "b.csv").write_text('a,"a,b",-a\n1,2,3\n2,1,3\n1,1,4\n')
    program.answers("convert", "b.csv", "--to", "b.hv")
    head = 'a,"a,b",-a\n'
    for text, rows in (
        ("a", "1,2,3\n1,1,4\n2,1,3\n"), ("a,b", "2,1,3\n1,1,4\n1,2,3\n"), ("-a,a", "1,2,3\n2,1,3\n1,1,4\n"),
        ("--a,a,b", "1,1,4\n2,1,3\n1,2,3\n"),
    ):  # fmt: skip
        assert program.answers("show", "b.hv", "--rows=9", "--sort", text) == head + rows, text


def check_pipes(program: Program) -> None:
    """A CSV file that comes through a pipe, longer than what is read at once, is kept whole; so is it with a mark in
    front. A field of its last line that does not fit is refused by its line, and a copy that has no room too."""
    levels = [*range(20_000), 2**40]
    for mark in b"", b"\xef\xbb\xbf":
        data = mark + b"level\n" + b"".join(b"%d\n" % level for level in levels)
        assert program.run("convert", "/dev/stdin", "--to", "pipe.hv", stdin=data) == (0, b"", "")
        assert program.answers("show", "pipe.hv", "--rows=99999").split() == ["level", *map(str, levels)]
        status, out, said = program.run("report", "/dev/stdin", stdin=data)
        assert (status, said, out.split()[10:15]) == (0, "", [b"level", b"i64?", b"20,001", b"0", b"20,001"]), out
    line = len(levels) + 1
    sentence = f"/dev/stdin: line {line}: column 'level': {2**40} does not fit i32"
    words = "convert", "/dev/stdin", "--column=level", "--type=i32", "--to=pipe.hv"
    program.refuses(1, sentence, *words, stdin=data)
    no_room = {"preexec_fn": lambda: resource.setrlimit(resource.RLIMIT_FSIZE, (0, 0)), "restore_signals": False}
    program.refuses(1, "/dev/stdin: a temporary file: File too large", "report", "/dev/stdin", stdin=data, **no_room)


# ---- Messages, and damaged ones


def check_message(program: Program, model, data: bytes) -> bool:
    """Whether the bytes are a table, which the program has to find, and then its rows."""
    (program.folder / "message.hv").write_bytes(data)
    message = model.table(data)
    if message is None:
        kind = "table" if data[:1] == b"\n" else "column"
        sentence = rf"message\.hv, of [\d,]+ bytes, is not the file of a {kind}"
        program.refuses(1, sentence, "show", "message.hv")
        return False
    footers, columns = message.footer.columns, model.columns(message)
    lines = [[field(footer.name) for footer in footers]]
    formats = [footer.logical_type for footer in footers]
    for at in range(message.footer.rows):
        rows = [(flat_of(column), model.model.row(column, at)) for column in columns]
        lines.append([field_of(model.model, *each, format) for each, format in zip(rows, formats)])
    refused = [line.index(None) for line in zip(*lines[1:]) if None in line]
    if refused:  # of the first column that has such a row
        sentence = rf"message\.hv: row {refused[0]}: -?\d+ of (date|time|timestamp)\S* (UTC\] )?is not .*"
        program.stops(sentence, "show", "message.hv", "--rows", "9999")
    else:
        found = program.answers("show", "message.hv", "--rows", "9999")
        assert found == "".join(f"{','.join(line)}\n" for line in lines), f"{data.hex()}: {found}"
    title, *shown_columns, summary = program.answers("show", "message.hv").splitlines()
    assert title.startswith("column") and len(shown_columns) == len(columns)
    for line, column, format in zip(shown_columns, columns, formats):
        kind = meant(model.model, flat_of(column), format)
        assert (f" {kind}{'?' * model.has_null(column)}  " if kind else f" {field(format)}" if format else "") in line, (line, kind, format)
    assert summary.startswith(f"{message.footer.rows:,} rows, {len(columns)} columns; {len(data):,} bytes in the file")
    return True


def stored_column(name: str, kind: str, form: str, *rows: str) -> tuple[str, ...]:
    """The name and the rows of a line of the corpus, in which columns of the name `at` are seconds of UTC."""
    meant = (lambda row: logical_model.shown(int(row), "timestamp[s, UTC]")) if name == "at" else str
    return name, *("" if row == "null" else meant(row) for row in rows)


def check_stored_tables(program: Program) -> None:
    """The tables of the corpus have the columns that their lines name."""
    for line in (TOP / "examples/corpus/tables.txt").read_text(encoding="utf-8").splitlines():
        rows, names, digits = line.split("\t")
        (program.folder / "message.hv").write_bytes(bytes.fromhex(digits))
        title, *columns, summary = program.answers("show", "message.hv").splitlines()
        assert [column.split()[0] for column in columns] == (names.split(",") if names else [])
        assert summary.startswith(f"{rows} rows, {len(columns)} columns; {len(digits) // 2:,} bytes in the file")
        assert program.answers("query", "message.hv") == f"{rows}\n"
        for name in (column.split()[0] for column in columns if column.split()[1].startswith("list")):
            for words, why in (["--by", name], "lists have no order"), (["--mean", name], r"list\?? has no mean"):
                sentence = rf"message\.hv: column '{re.escape(name)}': {why}"
                program.refuses(1, sentence, "query", "message.hv", *words)
    for line in (TOP / "examples/corpus/differences.txt").read_text(encoding="utf-8").splitlines():
        rows, columns, digits = line.split("\t")
        (program.folder / "message.hv").write_bytes(bytes.fromhex(digits))
        found = [line.split(",") for line in program.answers("show", "message.hv", "--rows", rows).splitlines()]
        assert list(zip(*found, strict=True)) == [stored_column(*words.split(" ")) for words in columns.split(", ")]


def check_types_are_kept(program: Program) -> None:
    """A column that is taken from a table keeps a type that is not served, and its rows are the stored numbers."""
    (program.folder / "days.csv").write_text("day\n2024-03-01\n2024-03-02\n")
    program.answers("convert", "days.csv", "--to", "days.hv")
    days = (program.folder / "days.hv").read_bytes()
    (program.folder / "months.hv").write_bytes(days.replace(b"\x12\x03tdD", b"\x12\x03tiM"))
    program.answers("query", "months.hv", "filter", "day > 19783", "--column", "day", "--to", "left.hv")
    format, message = parts_of((program.folder / "left.hv").read_bytes())
    assert format == "tiM" and message.endswith((19784).to_bytes(4, "little"))
    assert program.answers("show", "left.hv", "--rows", "9") == "19784\n"


def check_each_truncation(program: Program, model) -> None:
    data = next(data for data in model.tables(300, 1)[::3] if 150 < len(data) < 250 and model.table(data).columns)
    for size in range(len(data)):
        assert not check_message(program, model, data[:size])
    assert check_message(program, model, data)


def the_model():
    """The model of tables; None where Protocol Buffers are not there."""
    sys.path.insert(0, str(TOP / "examples/bytes"))
    warnings.simplefilter("ignore")
    try:
        import table_model

        return table_model
    except (ImportError, FileNotFoundError):
        return None


def main() -> None:
    parser = argparse.ArgumentParser(description=__doc__, formatter_class=argparse.RawDescriptionHelpFormatter)
    parser.add_argument("program")
    parser.add_argument("--files", type=int, default=60)
    parser.add_argument("--messages", type=int, default=300)
    parser.add_argument("--seed", type=int, default=1)
    chosen = parser.parse_args()
    model = the_model()
    with tempfile.TemporaryDirectory() as folder:
        program = Program(chosen.program, Path(folder))
        check_refusals(program)
        check_refused_groups(program)
        check_stored_tables(program)
        check_pipes(program)
        check_types_are_kept(program)
        for number in range(chosen.files):
            check_random_file(random.Random(f"{chosen.seed} {number}"), program, model)
        said = f"{chosen.files} random files"
        if model:
            check_each_truncation(program, model)
            made = [data for has_differences in (False, True)
                    for data in model.tables(chosen.messages // 2, chosen.seed, has_differences)]
            refused = sum(not check_message(program, model, data) for data in made)
            said += f" and {chosen.messages} tables, {refused} of them refused"
        else:
            said += ", and no message (protoc and protobuf for Python are not there)"
        print(f"{said}: {program.runs} runs of the program are as they should be")


if __name__ == "__main__":
    main()
