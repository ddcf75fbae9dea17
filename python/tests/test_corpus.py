"""The stored messages of examples/corpus: each is read as its rows, written as its bytes again, and made anew of its
rows where a call of this package makes its form."""
import hashlib
import re
from datetime import date, datetime, time, timezone
from decimal import Decimal
from pathlib import Path

import pytest

from hivevigil import Column, Table

CORPUS = Path(__file__).resolve().parents[2] / "examples/corpus"
LINES = (CORPUS / "messages.txt").read_text(encoding="utf-8").splitlines()
# how many lines there are since the first version that had them, and the checksum of these: what was written is read for
# ever, so they do not change
RELEASED = {
    "messages.txt": (72, "799efcd303de9ed2b38eb9bc6ee6adc459db72e0a6ecc783d02b3501bff1985a"),
    "typed.txt": (15, "f38788ef5bb351385eb988525c8755c75ea252c28e501ac21ca6d5f790e925ee"),
    "tables.txt": (9, "f0c45c203195bc77e8e86912427004f598715b751d33569cf3403221d2a2d60c"),
    "differences.txt": (6, "d18a0e7b7275a430cc2d29d324afc51f047b9724541673582949abf0bbf8b706"),
}
LETTERS = {"s": " ", "t": "\t", "n": "\n"}
SHOWN = 10


def value(word, type_of_rows):
    """A row from its word, None for null."""
    if word.startswith("null"):
        return None
    if type_of_rows.startswith("decimal"):
        scale = int(type_of_rows.partition(",")[2].rstrip(")?"))
        return Decimal((word.startswith("-"), tuple(map(int, word.lstrip("-"))), -scale))  # exact in any context
    if word.startswith('"'):
        return re.sub(r"\\(.)", lambda found: LETTERS.get(found[1], found[1]), word[1:-1])
    if word.startswith("x"):
        return bytes.fromhex(word[1:])
    return word == "true" if word in ("true", "false") else int(word)


@pytest.mark.parametrize("name", RELEASED)
def test_released_lines_do_not_change(name):
    count, due = RELEASED[name]
    lines = (CORPUS / name).read_text(encoding="utf-8").splitlines()[:count]
    assert len(lines) == count and hashlib.sha256("\n".join(lines).encode()).hexdigest() == due


class Maker:
    """Makes a column from the words that say how; None where no call of this package makes its form."""

    def __init__(self, form):
        self.words = form.split(" ")[::-1]

    def column(self):
        return getattr(self, self.words.pop())()

    def part(self):
        assert self.words.pop() == "{"
        made = self.column()
        if made is not None:
            assert self.words.pop() == "}"
        return made

    def rows(self, type_of_rows):
        found = []
        while self.words and self.words[-1] not in "{}":
            found.append(self.words.pop())
        # a null over a stored number, and a type of decimals that Python does not have
        if any(":" in word for word in found) or type_of_rows in ("decimal(0,-128)", "decimal(255,127)?"):
            return None
        return [value(word, type_of_rows) for word in found]

    def flat(self):
        type_of_rows, validity = self.words.pop(), self.words.pop()
        rows = self.rows(type_of_rows)
        by_bits = validity == "bits" and None in (rows or [])
        if rows is None or not (by_bits or validity == "no-null"):
            return None
        return Column.of(rows, type_of_rows.replace(",", ", "))

    def constant(self):
        type_of_rows, word, rows = (self.words.pop() for _ in range(3))
        if type_of_rows.startswith("list"):
            return None
        return Column.constant(value(word, type_of_rows), int(rows), type_of_rows.replace(",", ", "))

    def runs(self):
        ends_type, offset, rows = (self.words.pop() for _ in range(3))
        ends = self.rows(ends_type)
        values = self.part()
        runs = (Column.of(ends, ends_type), values, int(offset), int(rows))
        return None if values is None else Column.from_runs(*runs)

    def lists(self):
        elements, offsets, sizes = (self.part() for _ in range(3))
        validity = self.words.pop()
        if elements is None or "runs" in (offsets.form, sizes.form) or validity not in ("no-null", "bits"):
            return None
        valid = [flag == "1" for flag in self.words.pop()] if validity == "bits" else None
        return Column.from_lists(elements, offsets, sizes, valid)


def listed(text, column):
    """The rows of a line; items of lists are those of the column's elements."""
    count, _, rest = text.partition(" rows:")
    if column.type != "list?" and column.type != "list":
        return int(count), [value(word, column.type) for word in rest.split()]
    lists = re.findall(r"null|\[[^\]]*\]", rest)
    return int(count), [None if words == "null" else words[1:-1].split() for words in lists]


def word_of(item):
    """An item of a list as the corpus writes it."""
    if isinstance(item, Decimal):
        sign, digits, _ = item.as_tuple()
        return "-" * sign + "".join(map(str, digits))
    if isinstance(item, str):
        return '"' + item.replace(" ", "\\s") + '"'
    return "null" if item is None else str(item).lower()


@pytest.mark.parametrize("line", LINES, ids=[line.partition("\t")[0] for line in LINES])
def test_a_message_is_read_and_written(line):
    _, form, rows, digits = line.split("\t")
    message = bytes.fromhex(digits)
    column = Column.from_bytes(message)
    count, due = listed(rows, column)
    found = column[:SHOWN].to_list()
    assert len(column) == count
    if column.type in ("list", "list?"):
        found = [None if row is None else [word_of(item) for item in row] for row in found]
    assert found == due
    assert column.to_bytes() == message
    assert column.form == form.partition(" ")[0]
    made = Maker(form).column()
    assert made is None or made.to_bytes() == message


def test_most_messages_are_made_of_their_rows():
    made = [Maker(line.split("\t")[1]).column() for line in LINES]
    assert len(LINES) >= 60 and sum(column is not None for column in made) >= 45


TYPED = (CORPUS / "typed.txt").read_text(encoding="utf-8").splitlines()
# the lines whose logical type is none that this package has values for, or not one of such rows: these are as stored
OTHER_TYPES = {"months", "other-storage"}


@pytest.mark.parametrize("line", TYPED, ids=[line.partition("\t")[0] for line in TYPED])
def test_a_message_with_a_logical_type_is_read_and_written(line):
    """It has this type over these rows, and is written as its bytes again, also where it is made of its rows."""
    name, format, form, rows, digits = line.split("\t")
    message = bytes.fromhex(digits)
    column = Column.from_bytes(message)
    stored = column.storage()
    assert Column.is_message(message) and column.logical_type.format == format
    assert (column.logical_type.sort == "other") == (name in OTHER_TYPES)
    assert (len(column), stored[:SHOWN].to_list()) == listed(rows, stored)
    assert column.to_bytes() == message and message.endswith(stored.to_bytes())
    assert column.form == form.partition(" ")[0]
    made = Maker(form).column()
    if made is None:  # it has null, and no row is null
        assert " all-valid " in form
        return
    assert made.to_bytes() == stored.to_bytes()
    # a cast keeps no window, and makes other floats
    if made.form == "flat" and column.logical_type.sort not in ("float", "other"):
        assert made.cast(f"{column.logical_type}{'?' * made.nullable}").to_bytes() == message


def test_values_of_messages_with_a_logical_type():
    """What the numbers of some lines mean, by hand."""
    columns = {}
    for line in TYPED:
        name, *_, digits = line.split("\t")
        if name not in OTHER_TYPES:
            columns[name] = Column.from_bytes(bytes.fromhex(digits))
    utc = timezone.utc
    assert columns["date"].to_list() == [date(2026, 1, 1), None, date(1, 1, 1)]
    assert columns["date-milliseconds"].to_list() == [date(2026, 1, 1)] * 3
    assert columns["time"].to_list() == [time(0), time(23, 59, 59)]
    assert columns["timestamp"].to_list() == [datetime(2026, 1, 1)] * 3 + [None] * 2
    assert columns["timestamp-utc"].to_list() == [datetime(1970, 1, 1, 0, 1, 40, tzinfo=utc),
                                                  datetime(1970, 1, 1, 0, 2, 40, tzinfo=utc), None]
    assert columns["timestamp-long-zone"].to_list() == [None, None]
    assert columns["duration"].storage().to_list() == [-(2**63), 2**63 - 1]
    for name in ("float16", "float32", "float64"):
        assert str(columns[name].logical_type) == name
    assert [str(row) for row in columns["float16"].to_list()] == ["1.5", "-0.0", "inf", "0.0"]
    assert [str(row) for row in columns["float32"].to_list()] == ["1.5"] * 2 + ["None"] + ["-0.0"] * 2 + ["inf"] * 4
    assert [str(row) for row in columns["float64"].to_list()] == ["1.5", "nan", "-inf", "0.0"]
    assert columns["float64-constant"].sum() == 2.0**61


TABLES = (Path(__file__).resolve().parents[2] / "examples/corpus/tables.txt").read_text(encoding="utf-8").splitlines()


@pytest.mark.parametrize("line", TABLES, ids=[line.partition("\t")[0] for line in TABLES])
def test_a_stored_table(line):
    """It has the columns of the stored messages, and is written as its bytes again."""
    rows, names, digits = line.split("\t")
    messages = {line.split("\t")[0]: bytes.fromhex(line.split("\t")[3]) for line in LINES}
    table = Table.from_bytes(bytes.fromhex(digits))
    assert (table.rows, table.names) == (int(rows), names.split(",") if names else [])
    assert all(table[name].storage().to_bytes() == messages[name] for name in table)
    assert table.to_bytes().hex() == digits
    logical_types = {"flat-i32": "tdD", "flat-i64": "tsu:UTC"}
    assert table.logical_types == {name: logical_types[name] for name in table if name in logical_types}


DIFFERENCES = (CORPUS / "differences.txt").read_text(encoding="utf-8").splitlines()


@pytest.mark.parametrize("line", DIFFERENCES, ids=range(len(DIFFERENCES)))
def test_a_stored_table_with_differences(line):
    """It has these columns, and is written as its bytes again, also where it is made anew."""
    count, columns, digits = line.split("\t")
    table, made = Table.from_bytes(bytes.fromhex(digits)), {}
    for words in columns.split(", "):
        name, kind, form, *rows = words.split(" ")
        rows = [value(word, kind) for word in rows]
        made[name] = Column.of(rows, kind) if form == "flat" else Column.of(rows, kind).to_runs()
        found = table[name].storage()
        assert (len(found), found.to_list(), found.type, found.form) == (int(count), rows, kind, form)
        assert found.to_bytes() == made[name].to_bytes()
    assert table.names == list(made) and table.to_bytes(differences=True).hex() == digits
    assert Table(made, table.logical_types).to_bytes(differences=True).hex() == digits
    assert any(words.startswith("at ") for words in columns.split(", ")) == (table.logical_types == {"at": "tss:UTC"})
