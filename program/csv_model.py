"""Columns of a CSV file by Python's csv module and plain lists: the type that their fields have, their rows, what these
take in runs, and random files. What has a logical type is in logical_model.py."""

import csv
import io
import itertools
import random
import re
from decimal import Decimal
from fractions import Fraction

import logical_model
from logical_model import is_logical, storage_of

NUMBER = re.compile(r"-?(0|[1-9][0-9]*)(\.[0-9]+)?")
NEGATIVE_ZERO = re.compile(r"-0\.0+")  # which no decimal is
MOST_DIGITS = 38
OPERATORS = {
    "=": lambda row, value: row == value, "!=": lambda row, value: row != value, "<": lambda row, value: row < value,
    "<=": lambda row, value: row <= value, ">": lambda row, value: row > value, ">=": lambda row, value: row >= value,
}
IN_WORDS = {"=": "eq ", "!=": "ne ", "<": "lt ", "<=": "le ", ">": "gt ", ">=": "ge "}

# ---- The model: types, rows and bytes of a column, from its fields


def type_of(fields: list[str]) -> str:
    texts = [field for field in fields if field]
    if not texts:
        return "utf8?"
    if set(texts) <= {"true", "false"}:
        return "bool?"
    if all(NUMBER.fullmatch(text) and not NEGATIVE_ZERO.fullmatch(text) for text in texts):
        parts = [text.removeprefix("-").partition(".") for text in texts]
        digits, places = (max(len(part[place]) for part in parts) for place in (0, 2))
        if places == 0:
            for bits in (32, 64):
                if all(-(2 ** (bits - 1)) <= int(text) < 2 ** (bits - 1) for text in texts):
                    return f"i{bits}?"
        if digits + places <= MOST_DIGITS:
            return f"decimal({digits + places}, {places})?"
    return logical_model.type_of(texts) or "utf8?"


def rows_of(fields: list[str], kind: str) -> list:
    """Plain rows, None for null: integers, decimals, booleans, texts as their bytes, by which they are ordered, and what
    is stored of a logical type."""
    if is_logical(kind):
        return [logical_model.row_of(field, kind) if field else None for field in fields]
    read = {"i": int, "d": Decimal, "b": "true".__eq__, "u": str.encode}[kind[0]]
    return [read(field) if field else None for field in fields]


def shown(row, kind: str) -> str:
    """The row as a field of a CSV file."""
    if row is None:
        return ""
    if is_logical(kind):
        return logical_model.shown(row, kind)
    if kind.startswith("bool"):
        return str(row).lower()
    if kind.startswith("decimal"):
        scale = int(kind.partition(", ")[2].rstrip(")?"))
        return f"{row:.{scale}f}" if row else f"{0:.{scale}f}"
    if not kind.startswith("utf8"):
        return str(row)
    text = row.decode()
    return text if text and not set(text) & set(',"\r\n') else '"' + text.replace('"', '""') + '"'


def flat_bytes(rows: list, kind: str) -> int:
    """What hivevigil.h says that rows take, a bit more for each where some are null and some are not."""
    kind, bits = storage_of(kind), (len(rows) + 7) // 8
    width = {"i": lambda: int(kind.strip("i?")) // 8 * len(rows), "d": lambda: 16 * len(rows), "b": lambda: bits}
    texts = lambda: sum(24 + len(row or b"") for row in rows)
    return width.get(kind[0], texts)() + (bits if 0 < rows.count(None) < len(rows) else 0)


def runs_of(rows: list) -> list[tuple[int, int, object]]:
    runs, start = [], 0
    for value, stretch in itertools.groupby(rows):
        stop = start + len(list(stretch))
        runs.append((start, stop, value))
        start = stop
    return runs


def run_bytes(rows: list, kind: str) -> int:
    runs = runs_of(rows)
    width = next(width for width in (1, 2, 4, 8) if len(rows) < 256**width)
    return width * len(runs) + flat_bytes([value for _, _, value in runs], kind)


# ---- What rows that are not null are asked


def is_number(kind: str) -> bool:
    """Whether rows have a mean: integers, decimals and floats."""
    if is_logical(kind):
        return logical_model.sort_of(kind) == "float"
    return kind.startswith("decimal") or re.fullmatch(r"[iu]\d+\??", kind) is not None


def mean(valid: list, kind: str) -> str:
    """The exact quotient of the sum by the number of rows, rounded once, of floats that of their rounded sum; nothing
    of no rows."""
    if not valid:
        return ""
    if is_logical(kind):
        return repr(float(logical_model.total(valid, kind)) / len(valid))
    return repr(float(sum(map(Fraction, valid), Fraction(0)) / len(valid)))


# ---- Random files


def random_field(chance: random.Random, sort: str) -> str:
    match sort:
        case "small":
            return str(chance.randrange(-3, 4))
        case "wide":
            return str(chance.choice([2**31 - 1, -(2**31), 2**31, 2**63 - 1, -(2**63), 0]))
        case "wider":
            return str(chance.choice([2**63, -(2**63) - 1, 10**37, -(10**38) + 1, 5]))
        case "price":
            return f"{chance.randrange(-200, 200)}.{chance.randrange(10 ** chance.randrange(1, 4))}"
        case "truth":
            return chance.choice(["true", "false"])
        case "number or text":
            return chance.choice(["1", "01", "1.", ".5", "+1", "1e5", "-", "true", "١", "-0", "1" * 39])
    return logical_model.random_field(chance, sort) if sort in logical_model.SORTS else chance.choice(TEXTS)


TEXTS = ["Oslo", "a, b", 'said "so"', "two\nlines", "\r", "Zürich", "\U0001f41d", " ", "x" * 99, ";|\t"]
SORTS = ["small", "small", "wide", "wider", "price", "truth", "number or text", "text", "none", *logical_model.SORTS]


def random_fields(chance: random.Random, count: int) -> list[str]:
    """Fields of a column, most of them in runs, some of them empty, and some columns of two sorts."""
    sorts, stretch, empty = chance.sample(SORTS, chance.choice([1, 1, 2])), chance.choice([1, 2, 8]), chance.choice([0, 0.3])
    fields = []
    while len(fields) < count:
        sort = chance.choice(sorts) if chance.random() < 0.1 else sorts[0]
        field = "" if sort == "none" or chance.random() < empty else random_field(chance, sort)
        fields += [field] * chance.randint(1, stretch)
    return fields[:count]


def random_csv(chance: random.Random) -> tuple[dict[str, list[str]], bytes, list[str]]:
    """Columns by name, a file of them, and the options by which it is read. One column is never empty, since a line
    without a byte is not a row."""
    rows = chance.choice([0, 1, 2, 9, 64, 300, 700])
    names = ["row", *chance.sample(["count", "place, or town", "größe", 'a "b"', " ", "x;y"], chance.randrange(5))]
    columns = {name: random_fields(chance, rows) for name in names}
    columns["row"] = [str(row) for row in range(rows)]
    mark = chance.choice([",", ",", ";", "\t", "|"])
    ending = chance.choice(["\n", "\r\n", "\r"])
    out = io.StringIO(newline="")
    # the writer puts only its own line ending in quotes
    has_lines = any(set("\r\n") & set(field) for fields in columns.values() for field in fields)
    quoting = csv.QUOTE_ALL if has_lines else chance.choice([csv.QUOTE_MINIMAL, csv.QUOTE_ALL])
    writer = csv.writer(out, delimiter=mark, lineterminator=ending, quoting=quoting)
    writer.writerows([names, *zip(*columns.values(), strict=True)])
    text = out.getvalue()
    if chance.random() < 0.2 and not has_lines:
        text = text.replace(ending, ending * 2)  # lines without a byte, which are skipped
    if chance.random() < 0.3:
        text = text.removesuffix(ending)
    data = b"\xef\xbb\xbf" * (chance.random() < 0.2) + text.encode()
    # a name may have the mark for which the program looks first
    is_found = found_mark(data) == mark and chance.random() < 0.7
    return columns, data, [] if is_found else ["--separator", mark]


def found_mark(data: bytes) -> str:
    """The first mark in the line of names, but for what is in quotes."""
    names = re.split(r"[\r\n]", data.decode("utf-8-sig"), maxsplit=1)[0]
    plain = "".join(re.split('"', names)[::2])  # quotes are only around fields, and doubled in them
    return next((mark for mark in ",;\t|" if mark in plain), ",")


def read_by_csv(data: bytes, mark: str) -> dict[str, list[str]]:
    """The columns as Python's csv module reads them."""
    lines = csv.reader(io.StringIO(data.decode("utf-8-sig"), newline=""), delimiter=mark, strict=True)
    names, *rows = (line for line in lines if line)
    return {name: [row[place] for row in rows] for place, name in enumerate(names)}


# ---- Conditions


def value_of(text: str, kind: str):
    """What is written after an operator; a number may have more places than the rows."""
    if is_logical(kind):
        return logical_model.exact(text, kind)
    return text.encode() if kind[0] == "u" else text == "true" if kind[0] == "b" else Decimal(text)


def meets(row, operator: str, right, kind: str) -> bool:
    """Whether a row compares so with a value; a null does not."""
    left = logical_model.number_shown(row, kind) if is_logical(kind) and row is not None else row
    return row is not None and OPERATORS[operator](left, right)


def random_value(chance: random.Random, rows: list, kind: str) -> str:
    """A value to compare with: one of the rows, or another, which the type may not have."""
    if is_logical(kind):
        return logical_model.random_value(chance, rows, kind)
    some = [shown(row, kind) for row in rows if row is not None and kind[0] != "u"]
    if kind.startswith("bool"):
        return chance.choice(["true", "false"])
    if kind.startswith("utf8"):
        return chance.choice(["", "Oslo", "Zürich", " ", "~", *[row.decode() for row in rows if row][:2]])
    return chance.choice([*some[:3], "0", "-1.5", "0.0005", "2147483648", "9" * 38, "-" + "9" * 38])
