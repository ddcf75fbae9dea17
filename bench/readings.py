"""A file of six columns, as sensors write it: times with a zone and gaps between them, floats with NaN, -0.0 and nulls, a
price, a count with nulls, a status and a flag. It goes from CSV and from pandas into runs, to a file and back, and every
row is compared, floats by their bits. Then what it takes, and how long questions take, in pandas, SQLite, PostgreSQL
and here.

    python3 bench/readings.py [--rows 1000000] [--turns 5] >table.md

The library is that of `lib/`, or of HIVEVIGIL_SO. Needs pandas, and NumPy; without the programs of PostgreSQL its
columns are left out, and a line says so. The status is 1 where a row or an answer differs, and never by time or
size."""
import argparse
import csv
import os
import random
import statistics
import struct
import sys
import tempfile
import time
from datetime import datetime, timedelta, timezone
from decimal import Decimal
from pathlib import Path

sys.path.insert(0, str(Path(__file__).parents[1] / "python"))
import hivevigil  # noqa: E402
import pandas  # noqa: E402
from hivevigil import Table  # noqa: E402
from readings_databases import loaded  # noqa: E402

NAMES = ("at", "level", "price", "visits", "status", "open")
STATUSES = ("ok", "low battery", "no signal", 'said "offline", then left')


def made_rows(count):
    """Rows in stretches, as readings come: most columns change every few hundred rows, times each row."""
    choose = random.Random(2026)
    levels = [None, float("nan"), -0.0, 0.0, 1e-7, 1e300, -273.15] + [round(choose.uniform(-20, 40), 2) for _ in range(400)]
    at = datetime(2026, 1, 1, tzinfo=timezone.utc)
    state = {}
    changes = {"level": 60, "price": 900, "visits": 300, "status": 5000, "open": 2000}
    fresh = {
        "level": lambda: choose.choice(levels), "price": lambda: Decimal(choose.randrange(100, 90000)).scaleb(-2),
        "visits": lambda: choose.choice([None, *range(50)]), "status": lambda: choose.choice(STATUSES),
        "open": lambda: choose.random() < 0.7,
    }
    for row in range(count):
        for name, length in changes.items():
            if row == 0 or choose.randrange(length) == 0:
                state[name] = fresh[name]()
        at += timedelta(seconds=10 if choose.randrange(500) else choose.randrange(60, 7200))
        yield (at, *(state[name] for name in NAMES[1:]))


def field(value):
    """A value as a field of a CSV file."""
    if value is None:
        return ""
    if isinstance(value, bool):
        return str(value).lower()
    return value.isoformat() if isinstance(value, datetime) else repr(value) if isinstance(value, float) else str(value)


def compared(value):
    """A value as it is compared: a float by its bits, but one NaN, since a text has no others."""
    if isinstance(value, float):
        return "NaN" if value != value else struct.pack("<d", value)
    return value


class Differs(Exception):
    """Rows or answers that are not those of the list of rows."""


def check(what, found, due):
    for name, rows in due.items():
        given = [compared(row) for row in found[name].to_list()]
        if given != rows:
            place = next((row for row, pair in enumerate(zip(given, rows)) if pair[0] != pair[1]), len(rows))
            raise Differs(f"{what}: column {name}: row {place} of {len(given)} differs")


def median_of(turns, call, clock=time.process_time):
    """The median of processor milliseconds, and the answer."""
    spent = []
    for _ in range(turns):
        begin = clock()
        answer = call()
        spent.append((clock() - begin) * 1000)
    return statistics.median(spent), answer


def line(*cells):
    print("| " + " | ".join(cells) + " |")


def table_of(title, columns, rows):
    print(f"\n## {title}\n")
    line("", *columns)
    line("---", *["---"] * len(columns))
    for name, *cells in rows:
        line(name, *[f"{cell:,.1f}" if isinstance(cell, float) else f"{cell:,}" if cell is not None else "" for cell in cells])


def as_pandas_has_them(due):
    """The rows where NaN is null, as in pandas."""
    return {**due, "level": [None if level == "NaN" else level for level in due["level"]]}


def frame_of(path):
    """The frame that pandas reads: with its types for integers and booleans that may be null, and the prices exact."""
    frame = pandas.read_csv(
        path, dtype={"visits": "Int32", "status": "string", "open": "boolean"}, converters={"price": Decimal},
        parse_dates=["at"], float_precision="round_trip",
    )  # fmt: skip
    return frame


def counts(column):
    """How many rows have each value."""
    return dict(zip(*(found.to_list() for found in column.value_counts())))


def trues(mask):
    return counts(mask).get(True, 0)


def asked(turns, table, frame, databases):
    """Each question to all of them: its name, then milliseconds. A database is asked by one statement each."""
    noon = datetime(2026, 1, 5, 12, tzinfo=timezone.utc)
    questions = (
        ("greatest level, NaN left out", lambda: table["level"].max(), lambda: frame["level"].max(),
         "select max(level) from readings where true{no_nan}"),
        ("rows with a level above 20", lambda: trues(table["level"].gt(20)), lambda: int((frame["level"] > 20).sum()),
         "select count(*) from readings where level > 20{no_nan}"),
        ("sum of visits", lambda: table["visits"].sum(), lambda: int(frame["visits"].sum()),
         "select sum(visits) from readings"),
        ("sum of visits where open", lambda: table["visits"].filter(table["open"]).sum(),
         lambda: int(frame["visits"][frame["open"]].sum()), "select sum(visits) from readings where open"),
        ("rows of each status", lambda: counts(table["status"]), lambda: dict(frame["status"].value_counts()),
         "select status, count(*) from readings group by status"),
        ("rows before a time", lambda: trues(table["at"].lt(noon)), lambda: int((frame["at"] < noon).sum()),
         "select count(*) from readings where at < {noon}"),
    )  # fmt: skip
    for name, ours, pandas_has, sql in questions:
        found = [median_of(turns, call) for call in (ours, pandas_has)]
        for database in databases:
            statement = sql.format(no_nan=database.no_nan, noon=database.literal(noon))
            spent, rows = median_of(turns, lambda: database.rows(statement), database.clock)
            found.append((spent, dict(rows) if len(rows[0]) == 2 else rows[0][0]))
        if any(answer != found[0][1] for _, answer in found):
            raise Differs(f"{name}: {[answer for _, answer in found]}")
        yield (name, *(spent for spent, _ in found))


def main():
    given = argparse.ArgumentParser(description=__doc__)
    given.add_argument("--rows", type=int, default=1_000_000)
    given.add_argument("--turns", type=int, default=5)
    chosen = given.parse_args()
    rows = list(made_rows(chosen.rows))
    due = {name: [compared(value) for value in column] for name, column in zip(NAMES, zip(*rows))}
    with tempfile.TemporaryDirectory() as work:
        at = Path(work)
        with open(at / "rows.csv", "w", newline="", encoding="utf-8") as file:
            csv.writer(file).writerows([NAMES, *(map(field, row) for row in rows)])
        from_csv, table = median_of(1, lambda: Table.from_csv(at / "rows.csv"))
        check("from the CSV file", table, due)
        by_pandas, frame = median_of(1, lambda: frame_of(at / "rows.csv"))
        check("from pandas", Table.from_pandas(frame), as_pandas_has_them(due))
        check("to pandas and back", Table.from_pandas(table.to_pandas()), due)
        check("to Arrow and back", Table.from_arrow(table), due)
        saved, _ = median_of(1, lambda: table.save(at / "rows.hv"))
        apart, _ = median_of(1, lambda: table.save(at / "apart.hv", differences=True))
        read, again = median_of(chosen.turns, lambda: Table.load(at / "rows.hv"))
        read_apart, joined = median_of(chosen.turns, lambda: Table.load(at / "apart.hv"))
        check("from the file", again, due)
        check("from the file of differences", joined, due)
        if not (again.equals(table) and joined.equals(table) and again.types == joined.types == table.types):
            raise Differs("a file is not the table again")
        table.to_csv(at / "again.csv")
        check("from the CSV file that was written", Table.from_csv(at / "again.csv"), due)
        pickled, _ = median_of(1, lambda: frame.to_pickle(at / "rows.pickle"))
        unpickled, _ = median_of(chosen.turns, lambda: pandas.read_pickle(at / "rows.pickle"))
        databases, skipped = loaded(at, rows)
        names = ", ".join(database.name for database in databases)
        print(f"{chosen.rows:,} rows; hivevigil {hivevigil.__version__}, pandas {pandas.__version__}, {names}; "
              f"processor milliseconds, the median of {chosen.turns}")  # fmt: skip
        for name, lack in skipped.items():
            print(f"\nSkipped: {name}, no {lack}.")
        heads = tuple(database.head for database in databases)
        size = lambda name: os.path.getsize(at / name)  # noqa: E731
        table_of("Bytes", ("hivevigil", "with differences", "pandas", *heads, "CSV"), [
            ("in a file", size("rows.hv"), size("apart.hv"), size("rows.pickle"),
             *(database.size() for database in databases), size("rows.csv")),
            ("in memory", table.nbytes, None, int(frame.memory_usage(deep=True).sum()), *[None] * len(heads), None),
        ])  # fmt: skip
        none = [None] * len(heads)
        table_of("Time", ("hivevigil", "with differences", "pandas", *heads), [
            ("the CSV file read (SQLite: rows inserted)", from_csv, None, by_pandas,
             *(database.load_seconds * 1000 for database in databases)),
            ("the file written (pandas: pickled)", saved, apart, pickled, *none),
            ("the file read", read, read_apart, unpickled, *none),
        ])  # fmt: skip
        table_of("Questions", ("hivevigil", "pandas", *heads), asked(chosen.turns, table.to_runs(), frame, databases))
        for database in databases:
            database.close()
    return 0


if __name__ == "__main__":
    try:
        sys.exit(main())
    except Differs as error:
        print(f"readings: {error}", file=sys.stderr)
        sys.exit(1)
