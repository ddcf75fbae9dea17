"""A CSV of any size through GDAL's Arrow stream into columns, batch by batch: encoded, filtered and summed, with
SQLite's answers next to ours. Ends with 1 where the two differ, and with 2 and one line on standard error where there
is nothing to answer: no such file, no CSV, a broken line, no column that is served, GDAL missing or too old.

    /usr/bin/python3 examples/gdal_csv/summary.py FILE.csv [--where COLUMN OPERATOR VALUE] [--batch ROWS] [--no-sqlite]

Debian: apt-get install gdal-bin python3-gdal.
"""
import argparse
import sys
import time
from dataclasses import dataclass, field
from datetime import date
from pathlib import Path

sys.path.insert(0, str(Path(__file__).resolve().parents[2] / "python"))

import sqlite_answers
from hivevigil import ArrowSchema, Column, HivevigilError
from hivevigil.csv_files import BadFile, lines_of
from hivevigil.progress import Progress

OPERATORS = {"=": "==", "!=": "!=", ">": ">", ">=": ">=", "<": "<", "<=": "<="}
OPTIONS = ["AUTODETECT_TYPE=YES", "AUTODETECT_WIDTH=NO", "EMPTY_STRING_AS_NULL=YES"]
NUMBERS, TEXTS, DAYS = "number", "text", "day"


@dataclass
class Summary:
    """What is known of one column so far; `last` is the last row of the batches before."""

    name: str
    what: str
    rows: int = 0
    present: int = 0
    runs: int = 0
    before: int = 0
    after: int = 0
    total: int = 0
    least: object = None
    greatest: object = None
    last: object = field(default=None, repr=False)
    kept_rows: int = 0
    kept_total: int = 0

    def add(self, flat, runs):
        """One batch, as it came and in runs."""
        if len(flat) == 0:
            return
        joined = self.rows > 0 and runs[0] == self.last
        self.rows += len(flat)
        self.present += len(flat) - flat.null_count
        self.runs += runs.run_count() - joined
        self.last = runs[-1]
        self.before += flat.nbytes
        self.after += runs.nbytes
        least, greatest = runs.min(), runs.max()
        if least is not None:
            self.least = least if self.least is None else min(self.least, least)
            self.greatest = greatest if self.greatest is None else max(self.greatest, greatest)
        if self.what == NUMBERS:
            self.total += sum_of(runs)

    def keep(self, runs):
        """What a filter left of one batch."""
        self.kept_rows += len(runs)
        if self.what == NUMBERS:
            self.kept_total += sum_of(runs)


def sum_of(column):
    try:
        return column.sum()
    except OverflowError as error:
        raise OverflowError(f"{error}; take smaller batches") from None


def address_of(part):
    return int(part._getPtr())


def open_stream(path, batch_rows):
    """GDAL's Arrow stream over the file, and what has to live as long."""
    try:
        from osgeo import gdal
    except ImportError:
        raise BadFile("GDAL for Python is not installed (Debian: apt-get install gdal-bin python3-gdal)") from None
    gdal.UseExceptions()
    data = gdal.OpenEx(path, gdal.OF_VECTOR, allowed_drivers=["CSV"], open_options=OPTIONS)
    layer = data.GetLayer(0)
    if not hasattr(layer, "GetArrowStream"):
        raise BadFile(f"this takes GDAL 3.6 or later, which has a stream of Arrow arrays, and not {gdal.__version__}")
    return data, layer, layer.GetArrowStream([f"MAX_FEATURES_IN_BATCH={batch_rows}", "INCLUDE_FID=NO"])


def what_of(arrow_format):
    """What a column holds, or None where it is not served: floating-point numbers, times, geometry."""
    return {"c": NUMBERS, "s": NUMBERS, "i": NUMBERS, "l": NUMBERS, "u": TEXTS, "tdD": DAYS}.get(arrow_format)


def read(path, batch_rows, where):
    """The summary of each column that is served, the formats of the others, and the seconds that reading and our calls
    took."""
    rows = rows_in(path)
    *_held, stream = open_stream(path, batch_rows)
    schema_part = stream.GetSchema()
    schema = ArrowSchema.from_address(address_of(schema_part))
    names = [schema.children[child].contents.name.decode() for child in range(schema.n_children)]
    formats = [schema.children[child].contents.format.decode() for child in range(schema.n_children)]
    served = {name: Summary(name, what_of(item)) for name, item in zip(names, formats) if what_of(item)}
    others = {name: item for name, item in zip(names, formats) if name not in served}
    if not served:
        found = ", ".join(sorted(set(formats)))
        raise BadFile(f"{path}: no column is served: integers, dates and texts are, and not Arrow's {found}")
    if where:
        where.find(served)
    progress, begin, ours = Progress(rows, "rows"), time.perf_counter(), 0.0
    while (batch := stream.GetNextRecordBatch()) is not None:
        start = time.perf_counter()
        rows = add_batch(schema, address_of(batch), {name: names.index(name) for name in served}, served, where)
        ours += time.perf_counter() - start
        progress.advance(rows)
    progress.end()
    return list(served.values()), others, time.perf_counter() - begin - ours, ours


def add_batch(schema, batch, places, served, where):
    flats = {name: Column.from_arrow_structs(schema, batch, place) for name, place in places.items()}
    runs = {name: flat.to_runs() for name, flat in flats.items()}
    for name, summary in served.items():
        summary.add(flats[name], runs[name])
    if where:
        mask = runs[where.column].compare(OPERATORS[where.operator], where.value)
        for name, summary in served.items():
            summary.keep(runs[name].filter(mask))
    return max((len(flat) for flat in flats.values()), default=0)


def rows_in(path):
    """How many rows there are. GDAL fills a line that is too short and cuts one that is too long: here both are refused,
    and so are bytes that are not UTF-8, and two columns of one name."""
    return sum(1 for _ in lines_of(path)) - 1


def as_written(summary, value):
    """A value as the CSV has it: a day by its date."""
    return value.isoformat() if summary.what == DAYS and value is not None else value


def shown(summary, value):
    """A least or greatest value, cut to fit the table."""
    if value is None:
        return ""
    text = str(as_written(summary, value)).replace("\n", " ")
    return text if len(text) <= 16 else text[:13] + "..."


def print_table(summaries, filtered):
    head = ("column", "rows", "not null", "runs", "bytes before", "bytes after", "sum", "least", "greatest")
    lines = [head] + [
        (it.name, f"{it.rows:,}", f"{it.present:,}", f"{it.runs:,}", f"{it.before:,}", f"{it.after:,}",
         f"{it.total}" if it.what == NUMBERS else "", shown(it, it.least), shown(it, it.greatest))
        for it in summaries
    ]
    if filtered:
        extra = [("kept rows", "kept sum")]
        extra += [(f"{it.kept_rows:,}", f"{it.kept_total}" if it.what == NUMBERS else "") for it in summaries]
        lines = [line + more for line, more in zip(lines, extra)]
    widths = [max(len(line[at]) for line in lines) for at in range(len(lines[0]))]
    for name, *cells in lines:
        print("  ".join([name.ljust(widths[0]), *map(str.rjust, cells, widths[1:])]).rstrip())


def difference(summary, theirs):
    """The names of the answers in which SQLite and we differ."""
    ours = {
        "rows": summary.rows, "not null": summary.present, "runs": summary.runs,
        "least": as_written(summary, summary.least), "greatest": as_written(summary, summary.greatest),
        "sum": summary.total, "kept rows": summary.kept_rows, "kept sum": summary.kept_total,
    }
    return [f"{name}: {ours[name]} ours, {due} SQLite's" for name, due in theirs.items() if ours[name] != due]


def compare_with_sqlite(path, summaries, where):
    begin = time.perf_counter()
    numbers = {it.name for it in summaries if it.what == NUMBERS}
    answers = sqlite_answers.answers(path, [it.name for it in summaries], numbers, where)
    differing = 0
    for summary in summaries:
        found = difference(summary, answers[summary.name])
        differing += bool(found)
        same = f"SQLite gives the same {len(answers[summary.name])} answers"
        print(f"{summary.name}: {'; '.join(found) or same}")
    print(f"SQLite: loaded and asked in {time.perf_counter() - begin:.2f} s")
    return differing


@dataclass
class Where:
    """A filter: the rows at which a column compares so with a value, `text` as it was given."""

    column: str
    operator: str
    text: str
    value: object = None

    def find(self, served):
        """Reads the value as the column's type wants it: a number, a text, or a date."""
        if self.operator not in OPERATORS or self.column not in served:
            raise BadFile(f"--where takes a column of {', '.join(served)} and one of {' '.join(OPERATORS)}")
        what = served[self.column].what
        try:
            self.value = {TEXTS: str, NUMBERS: int, DAYS: date.fromisoformat}[what](self.text)
        except ValueError as error:
            raise BadFile(f"--where: {self.column} is no such {what}: {error}") from None


def arguments():
    parser = argparse.ArgumentParser(description="Summarises a CSV, with SQLite's answers next to ours.")
    parser.add_argument("file")
    parser.add_argument("--where", nargs=3, metavar=("COLUMN", "OPERATOR", "VALUE"))
    parser.add_argument("--batch", type=int, default=65536, metavar="ROWS")
    parser.add_argument("--no-sqlite", action="store_true")
    chosen = parser.parse_args()
    if chosen.batch < 1:
        parser.error("--batch takes a number of rows from 1 on")
    return chosen


def summarise(chosen):
    """Prints the answers, and returns how many columns SQLite answers otherwise."""
    where = Where(*chosen.where) if chosen.where else None
    summaries, others, reading, ours = read(chosen.file, chosen.batch, where)
    print_table(summaries, where)
    for name, item in others.items():
        print(f"{name}: left out, its Arrow format {item} is not served")
    before, after = sum(it.before for it in summaries), sum(it.after for it in summaries)
    print(f"GDAL read for {reading:.2f} s; our calls took {ours:.2f} s; {before:,} bytes before, {after:,} after")
    return 0 if chosen.no_sqlite else compare_with_sqlite(chosen.file, summaries, where)


def main():
    try:
        sys.exit(1 if summarise(arguments()) else 0)
    except (BadFile, HivevigilError, OSError, OverflowError, RuntimeError) as error:
        print(f"summary: {error}", file=sys.stderr)  # GDAL's refusals are RuntimeErrors
        sys.exit(2)


if __name__ == "__main__":
    main()
