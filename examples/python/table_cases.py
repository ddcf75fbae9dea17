"""Runs the cases of examples/corpus/table_cases.txt in Python.

    python3 examples/python/table_cases.py

An answer that differs is shown, unless known_differences.txt lists it; what is listed there has to differ as it says.
"""

import math
import re
import sys
import tempfile
from decimal import Decimal
from pathlib import Path

TOP = Path(__file__).resolve().parents[2]
sys.path.insert(0, str(TOP / "python"))
from hivevigil import Column, Table  # noqa: E402
from hivevigil.errors import HivevigilError, NoName  # noqa: E402

CORPUS, LANGUAGE = TOP / "examples" / "corpus", "python"
ESCAPES = {"s": " ", "n": "\n", '"': '"', "\\": "\\", "0": "\0"}
FLOATS = {"f32": "float32", "f64": "float64"}
FOLDS = {"rows": "size", "least": "min", "greatest": "max"}
# what other exceptions than those of the library say, and their numbers in docs/ERRORS.md
NUMBERS = [("two columns have the name", 202), ("is named twice", 202), ("columns of different names", 201), ("at least one column", 13)]


# ---- Words ----


def text_of(word):
    found, letters = "", iter(word[1:-1])
    for letter in letters:
        found += ESCAPES[next(letters)] if letter == "\\" else letter
    return found


def word_of(text):
    back = {letter: "\\" + short for short, letter in ESCAPES.items()}
    return '"' + "".join(back.get(letter, letter) for letter in text) + '"'


def name_of(word):
    return text_of(word) if word.startswith('"') else word


def value_of(word, type):
    """A row, or, of no type, what rows are compared with."""
    if word == "null":
        return None
    if word in ("true", "false"):
        return word == "true"
    if word.startswith('"'):
        return text_of(word)
    if word.startswith("x"):
        return bytes.fromhex(word[1:])
    if word.startswith("["):
        return [value_of(each, type) for each in word[1:-1].split(",") if each]
    if type.startswith("decimal") or word.endswith("d"):
        return Decimal(word.rstrip("d"))
    return float(word) if type in FLOATS or not word.lstrip("+-").isdigit() else int(word)


def shown(value, type):
    if value is None:
        return "null"
    if isinstance(value, bool):
        return "true" if value else "false"
    if isinstance(value, (bytes, bytearray)):
        return "x" + value.hex().upper()
    if isinstance(value, float):
        return ("-" if math.copysign(1, value) < 0 else "") + "nan" if math.isnan(value) else repr(value)
    if isinstance(value, list):
        return "[" + ",".join(shown(each, type) for each in value) + "]"
    if isinstance(value, str):
        return word_of(value)
    return format(value, "f") if isinstance(value, Decimal) else str(value)


# ---- Columns and tables ----


def column_of(words):
    """The column of a type, a form and rows."""
    type, rows = words[0].replace(",", ", "), words[1:]
    form = rows[0] if rows and rows[0] in ("runs", "constant") else ""
    rows = rows[1:] if form else rows
    if type.startswith("list("):
        lists = [value_of(row, "") for row in rows]
        sizes = [len(row or []) for row in lists]
        elements = Column.of([item for row in lists for item in row or []], type[5:].rpartition(")")[0])
        valid = [row is not None for row in lists] if type.endswith("?") else None
        return Column.from_lists(elements, [sum(sizes[:place]) for place in range(len(sizes))], sizes, valid)
    name = type.rstrip("?")
    type = FLOATS.get(name, name) + "?" * type.endswith("?")
    if form == "constant":
        return Column.constant(value_of(rows[0], name), int(rows[1]), type)
    column = Column.of([value_of(row, name) for row in rows], type)
    return column.to_runs() if form else column


def table_of(lines):
    words = [line.split(" ") for line in lines]
    columns = [(name_of(name), type.partition(":"), rows) for _, name, type, *rows in words[1:]]
    return Table(
        [(name, column_of([type, *rows])) for name, (type, _, _), rows in columns],
        {name: format for name, (_, _, format), _ in columns if format},
        int(words[0][1]) if words[0][1:] else None,
    )


def lines_of(table):
    yield "table" if len(table) else f"table {table.rows}"
    for name, column in table.items():
        format, null = table.logical_types.get(name, ""), "?" * column.nullable
        floats = next((short for short, long in FLOATS.items() if str(column.logical_type) == long), None)
        column = column if floats else column.storage()
        type = floats + null if floats else column.type.replace(", ", ",") + (f":{format}" if format else "")
        word = name if name.isidentifier() else word_of(name)
        yield " ".join(["column", word, type, *(shown(row, type) for row in column.to_list())])


# ---- Calls ----


def sort(table, words):
    names, orders, nulls = (words[place::3] for place in range(3))
    return table.sort([name_of(name) for name in names], [order == "descending" for order in orders], nulls)


def group_by(table, words):
    parts = [part.split(" ") for part in " ".join(words).split(" / ")]
    asked = {name: (name_of(of[0]), FOLDS.get(fold, fold)) if of else FOLDS[fold] for name, fold, *of in parts[1:]}
    return table.group_by(*(name_of(key) for key in parts[0] if key)).agg(asked)


def footer_of(table):
    with tempfile.TemporaryDirectory() as folder:
        table.save(f"{folder}/t.hv")
        return Table.footer(f"{folder}/t.hv")


def load(table, words):
    with tempfile.TemporaryDirectory() as folder:
        table.save(f"{folder}/t.hv")
        return Table.load(f"{folder}/t.hv", [name_of(word) for word in words])


CALLS = {
    "table": lambda table, words: table,
    "slice": lambda table, words: table.slice(*map(int, words)),
    "take": lambda table, words: table.take(column_of(words)),
    "filter": lambda table, words: table.filter(column_of(words)),
    "filter_by": lambda table, words: table.filter_by(name_of(words[0]), words[1], value_of(words[2], "")),
    "may_have": lambda table, words: footer_of(table).may_have(name_of(words[0]), words[1], value_of(words[2], "")),
    "append": lambda table, words, other: table.append(other),
    "equals": lambda table, words, other: table.equals(other),
    "sort": sort,
    "group_by": group_by,
    "select": lambda table, words: table.select(*map(name_of, words)),
    "drop": lambda table, words: table.drop(*map(name_of, words)),
    "rename": lambda table, words: table.rename({name_of(words[0]): name_of(words[1])}),
    "put": lambda table, words: table.with_column(name_of(words[0]), column_of(words[1:])),
    "sum": lambda table, words: table[words[0]].sum(),
    "count": lambda table, words: len(table[words[0]]) - table[words[0]].null_count,
    "min": lambda table, words: table[words[0]].min(),
    "max": lambda table, words: table[words[0]].max(),
    "to_bytes": lambda table, words: table.to_bytes(differences=bool(words)),
    "from_bytes": lambda words: Table.from_bytes(bytes.fromhex(words[0][1:])),
    "load": load,
}


def refused(error, wanted):
    """The number of a refusal, with the fields that are asked for, if the exception has fields."""
    number, fields = getattr(error, "number", 0), getattr(error, "fields", None)
    if not isinstance(error, HivevigilError):
        # a TypeError of Python says of no type, and of no call, that they are not served
        of_type = 13 if wanted == "refused 13" else 12
        by_class = {NoName: 201, TypeError: of_type, OverflowError: 14, IndexError: 8}.get(type(error), 0)
        number = next((number for words, number in NUMBERS if words in str(error)), by_class)
    words = wanted.split(" ")
    if words[:2] != ["refused", str(number)]:
        return f"refused {number}" if number else f"refused by {type(error).__name__}"
    return wanted if fields is None else " ".join([*words[:2], *map(str, fields[: len(words) - 2])])


def answer_of(lines, wanted):
    end = next(place for place, line in enumerate(lines) if line.startswith("ask "))
    call, *words = lines[end].split(" ")[1:]
    starts = [place for place, line in enumerate(lines[:end]) if line.startswith("table")]
    try:
        tables = [table_of(lines[start:stop]) for start, stop in zip(starts, [*starts[1:], end])]
        found = CALLS[call](*tables[:1], words, *tables[1:])
    except (HivevigilError, NoName, TypeError, ValueError, OverflowError, IndexError) as error:
        return refused(error, wanted)
    return " ; ".join(lines_of(found)) if isinstance(found, Table) else shown(found, "")


def main():
    cases = [part.strip("\n").split("\n") for part in (CORPUS / "table_cases.txt").read_text().split("\n\n")]
    lines = (CORPUS / "known_differences.txt").read_text().split("\n")
    listed = [line.split(" ", 2) for line in lines if line and not line.startswith("#")]
    known = {name: answer for language, name, answer in listed if language == LANGUAGE}
    agree, wrong, count = 0, 0, len(known)
    for lines in cases:
        if not lines[0].startswith("case "):
            continue
        name, place = lines[0][5:], next(at for at, line in enumerate(lines) if line.startswith("answer "))
        wanted = " ; ".join([lines[place].partition(" ")[2], *lines[place + 1 :]])
        wanted = re.sub(r"list\(\w+\)", "list", wanted)  # types of lists do not say of what
        found, listed_answer = answer_of(lines[1:place], wanted), known.pop(name, None)
        agree += found == wanted
        if found != (wanted if listed_answer is None else listed_answer) or listed_answer == wanted:
            wrong += 1
            print(f"{LANGUAGE} {name} {found}\n    is listed as {listed_answer}, and should be {wanted}")
    for name in known:
        print(f"{LANGUAGE} {name}: no case has this name")
    print(f"{agree} cases agree, {count} differences are known, {wrong + len(known)} not")
    return 1 if wrong or known else 0


if __name__ == "__main__":
    sys.exit(main())
