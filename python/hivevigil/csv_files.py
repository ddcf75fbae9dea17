"""A CSV file by Python's csv module: the type of each column from all of its fields, then its rows in batches.

The first line has the names, an empty field is null, and every line has as many fields as the first one. There are two
passes over the file, so that its size does not matter.
"""
from __future__ import annotations

import csv
import re
import threading
from collections.abc import Callable, Iterator, Mapping
from itertools import chain, compress, count, islice, repeat
from operator import ne
from typing import Any, Optional

from . import _files, _runs
from ._csv_fields import FieldType, Guess
from ._lists import is_list
from .column import Column
from .errors import HivevigilError, Unsupported, in_words
from .logical import LogicalType

_ROWS_AS_LISTS = 256
_ROWS_OF_A_RUN = 4  # on average, from which on a batch is made as runs


class BadFile(Exception):
    """A file that is not a CSV, in a sentence."""


def lines_of(path: str) -> Iterator[list[str]]:
    """The names, then the fields of each row, as many as there are names; lines without a field are skipped."""
    kind = _files.kind_of(path)
    if kind:
        raise BadFile(f"{path}: the file of a {kind}, which {kind.title()}.load reads, and not a CSV file")
    with open(path, newline="", encoding="utf-8-sig") as file, _AnyLength():
        try:
            first = next((line for line in file if line.strip("\r\n")), "")
            file.seek(0)
            reader = csv.reader(file, delimiter=_separator(first), strict=True)
            names: list[str] = next(filter(None, reader), [])
            if not names:
                raise BadFile(f"{path}: no line of names")
            if len(set(names)) < len(names):
                raise BadFile(f"{path}: two columns have one name")
            yield names
            for fields in filter(None, reader):
                if len(fields) != len(names):
                    raise BadFile(f"{path}: line {reader.line_num} has {len(fields)} fields, the first {len(names)}")
                yield fields
        except csv.Error as error:
            raise BadFile(f"{path}: line {reader.line_num}: {error}") from None
        except UnicodeDecodeError:
            raise BadFile(f"{path}: {_not_utf8(path)}") from None


class _AnyLength:
    """Fields of any length, where csv takes 131,072 characters of each, while a file is read. There is one limit for a
    whole process, and it is as it was when no file is read any more."""

    _lock = threading.Lock()
    _files, _before = 0, 0

    def __enter__(self) -> None:
        with self._lock:
            if not _AnyLength._files:
                _AnyLength._before = csv.field_size_limit(2**31 - 1)
            _AnyLength._files += 1

    def __exit__(self, *_: object) -> None:
        with self._lock:
            _AnyLength._files -= 1
            if not _AnyLength._files:
                csv.field_size_limit(_AnyLength._before)


def _not_utf8(path: str) -> str:
    """The first line whose bytes are not UTF-8, and the byte."""
    with open(path, "rb") as file:
        for number, line in enumerate(file, 1):
            try:
                line.decode()
            except UnicodeDecodeError as error:
                return f"line {number}: not UTF-8: {error.reason} 0x{line[error.start]:02x}"
    return "not UTF-8"


def _separator(names: str) -> str:
    """The mark between the names: a comma where there is one. A mark in a name in quotes is text."""
    plain = _QUOTED.sub(r"\1", names)
    return next((mark for mark in ",;\t|" if mark in plain), ",")


_QUOTED = re.compile(r'(^|[,;\t|])"(?:[^"]|"")*(?:"|$)')  # a field that begins with a quote, as far as it is in quotes


class CsvFile:
    """The columns of a CSV file, or those of these names, each of the type that is asked for, else of that which all of
    its fields have."""

    def __init__(
        self, path: str, batch_rows: int, only: Optional[set[str]] = None, asked: Optional[Mapping[str, Any]] = None
    ) -> None:
        self.path, self.batch_rows = path, batch_rows
        self.names = next(lines_of(path))
        self.kept = [place for place, name in enumerate(self.names) if only is None or name in only]
        self.asked = {name: FieldType.of(type) for name, type in (asked or {}).items()}
        for name in self.asked:
            if name not in self.names:
                raise ValueError(f"a type for column {in_words(name)}, and {path} has no column of this name")
        self.types: dict[str, str] = {}
        self.passes = 2

    def _batches(self) -> Iterator[list[list[str]]]:
        """The fields of each kept column, batch by batch. Few rows at a time are lists, since Python's search for
        unused memory looks through all lists that there are."""
        if not self.kept:
            return
        rows = islice(lines_of(self.path), 1, None)
        at_once = min(_ROWS_AS_LISTS, self.batch_rows)
        fields: list[list[str]] = [[] for _ in self.kept]
        while some := list(islice(rows, min(at_once, self.batch_rows - len(fields[0])))):
            columns = list(zip(*some))
            for texts, place in zip(fields, self.kept):
                texts.extend(columns[place])
            if len(fields[0]) == self.batch_rows:
                yield fields
                fields = [[] for _ in self.kept]
        if fields[0]:
            yield fields

    def batches(self, advance: Callable[[int], None]) -> Iterator[dict[str, Column]]:
        """The columns of each batch; `advance` is called with the number of rows that were read, in each of the two
        passes. BadFile for a field that is not of the type that is asked for."""
        names = [self.names[place] for place in self.kept]
        guesses = {name: Guess() for name in names if name not in self.asked}
        for fields in self._batches():
            for name, texts in zip(names, fields):
                if name in guesses:
                    guesses[name].add(set(texts))
            advance(len(fields[0]))
        types = {name: self.asked.get(name) or FieldType.of(guesses[name].type()) for name in names}
        self.types = {name: type.asked for name, type in types.items()}
        before = 0
        for fields in self._batches():
            yield {name: self._column(name, types[name], texts, before) for name, texts in zip(names, fields)}
            advance(len(fields[0]))
            before += len(fields[0])

    def _column(self, name: str, type: FieldType, texts: list[str], before: int) -> Column:
        """The fields of a batch, after as many rows; each text is read once, and one that comes again and again is one
        run."""
        values: dict[str, Any] = {}
        for text in dict.fromkeys(texts):
            try:
                values[text] = type.value(text) if text else None
            except (ValueError, KeyError):
                raise self._refused(name, type, text, before + texts.index(text)) from None
        stops = [*compress(count(1), map(ne, texts, islice(texts, 1, None))), len(texts)]
        is_in_runs = len(stops) * _ROWS_OF_A_RUN <= len(texts)
        rows = [values[texts[stop - 1]] for stop in stops] if is_in_runs else [values[text] for text in texts]
        try:
            column = Column.of(rows, f"{type.storage}?").cast(type.asked) if type.is_counted else Column.of(rows, type.asked)
        except (HivevigilError, OverflowError, ValueError) as error:
            where = f"a row from {before} to {before + len(texts) - 1}"
            raise BadFile(f"{self.path}: column {in_words(name)}, {where}: {error}") from None
        return Column.from_runs(stops, column) if is_in_runs else column

    def _refused(self, name: str, type: FieldType, text: str, row: int) -> BadFile:
        return BadFile(f"{self.path}: column {in_words(name)}: row {row} is {in_words(text)}, which is not of {type.asked}")


# ---- Written ----

_ROWS_AT_ONCE = 65536


def refuse_lists(column: Column) -> None:
    """Refuses to write a column of lists."""
    if is_list(column):
        raise Unsupported().saying("to_csv: a CSV file has no lists")


def lines_of_columns(columns: Mapping[str, Column], rows: int) -> Iterator[bytes]:
    """The lines of a CSV file, many at a time; without columns there is none."""
    yield _line(map(_name_field, columns)).encode() if columns else b""
    for start in range(0, rows if columns else 0, _ROWS_AT_ONCE):
        stop = min(start + _ROWS_AT_ONCE, rows)
        fields = (_fields(column.slice(start, stop)) for column in columns.values())
        yield "".join(map(_line, zip(*fields))).encode()


def _line(fields: Any) -> str:
    """A line, which has at least a byte: one without is not read as a row."""
    return (",".join(fields) or '""') + "\n"


def _fields(column: Column) -> Iterator[str]:
    """Field by field; of runs each value is put into words once."""
    word = _words_of(column)
    stored = column.storage() if getattr(column.logical_type, "sort", "") == "duration" else column
    if column.form in ("runs", "constant"):
        runs = _runs.stored_runs(stored)
        return chain.from_iterable(repeat(word(run.value), run.stop - run.start) for run in runs)
    return map(word, stored)


def _words_of(column: Column) -> Callable[[Any], str]:
    """How a row of a column is written, null as nothing."""
    name, logical = column.type.rstrip("?").partition("(")[0], column._logical
    writers: dict[str, Callable[[Any], str]] = {
        "utf8": _text_field, "binary": bytes.hex, "bool": lambda row: str(row).lower(), "decimal": lambda row: f"{row:f}",
    }
    write = writers.get(name, str) if logical is None else _writer_of(logical)
    return lambda row: "" if row is None else write(row)


def _writer_of(logical: LogicalType) -> Callable[[Any], str]:
    """How a float, a date or a time is written; a duration by its number of units."""
    if logical.sort == "float":
        return repr
    if logical.sort == "duration":
        return lambda row: _seconds(row * logical.nanoseconds)
    return lambda row: str(row.isoformat())


def _seconds(number: int) -> str:
    """Nanoseconds as seconds."""
    whole, rest = divmod(abs(number), 10**9)
    places = f".{rest:09}".rstrip("0") if rest else ""
    return f"{'-' * (number < 0)}{whole}{places}"


def _text_field(text: str) -> str:
    """A text as a field: in quotes where it is empty or needs them."""
    return text if text and not _NEEDS_QUOTES.search(text) else '"' + text.replace('"', '""') + '"'


def _name_field(name: str) -> str:
    """A name as a field: in quotes also where it has a mark that may be taken for the one between the names."""
    return _text_field(name) if not _MARKS.search(name) else '"' + name.replace('"', '""') + '"'


_MARKS = re.compile("[;\t|]")
_NEEDS_QUOTES = re.compile('[,"\r\n]')
