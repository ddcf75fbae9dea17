#!/usr/bin/env python3
"""The same questions to a plain table and to its columns in runs: answers compared, sizes and times as Markdown.

    sh examples/sqlite/build.sh && /usr/bin/python3 examples/sqlite/figures.py [--rows 1000000]

Needs a Python whose sqlite3 loads extensions, as Debian's does. The status is 1 where two answers differ.
"""

import argparse
import os
import sqlite3
import sys
import tempfile
import time
from pathlib import Path

EXTENSION = Path(__file__).resolve().parents[2] / "lib" / "hivevigil_sqlite.so"
TURNS = 5

# ten stations, a level that stays for thirty rows, one row in 97 null, and a state in words that stays for a thousand
FILL = """
    WITH RECURSIVE n(i) AS (SELECT 0 UNION ALL SELECT i + 1 FROM n WHERE i < :rows - 1)
    INSERT INTO readings SELECT i * 10 / :rows, CASE WHEN i % 97 THEN i / 30 END,
        CASE i / 1000 % 3 WHEN 0 THEN 'running' WHEN 1 THEN 'stopped for service' ELSE 'off' END FROM n
"""
PACK = """
    CREATE TABLE packed AS SELECT station, hv_column(level) AS level, hv_column(state) AS state
    FROM (SELECT * FROM readings ORDER BY rowid) GROUP BY station
"""
# a question over rows, and the same over runs
QUESTIONS = {
    "sum": ("SELECT sum(level) FROM readings", "SELECT sum(hv_sum(level)) FROM packed"),
    "count of a column": ("SELECT count(level) FROM readings", "SELECT sum(hv_count(level)) FROM packed"),
    "least and greatest": (
        "SELECT min(level), max(level) FROM readings",
        "SELECT min(hv_min(level)), max(hv_max(level)) FROM packed",
    ),
    "sum of levels above a limit": (
        "SELECT sum(level) FROM readings WHERE level > :rows / 50",
        "SELECT sum(hv_sum(hv_filter(level, '>', :rows / 50))) FROM packed",
    ),
    "rows with a text": (
        "SELECT count(*) FROM readings WHERE state = 'off'",
        "SELECT sum(hv_rows(hv_filter(state, '=', 'off'))) FROM packed",
    ),
    "rows by text": (
        "SELECT state, count(*) FROM readings GROUP BY state ORDER BY state",
        "SELECT value, sum(stop - start) FROM packed, hv_runs(state) GROUP BY value ORDER BY value",
    ),
}


def opened(path: Path) -> sqlite3.Connection:
    db = sqlite3.connect(path)
    db.enable_load_extension(True)
    db.execute("SELECT load_extension(?)", (str(EXTENSION),))
    return db


def bytes_of(make, folder: Path, name: str) -> int:
    """The size of a file in which `make` left a table."""
    path = folder / name
    db = opened(path)
    make(db)
    db.commit()
    db.execute("VACUUM")
    db.close()
    return os.path.getsize(path)


def timed(db: sqlite3.Connection, sql: str, rows: int) -> tuple[list, float]:
    """The answer, and the middle of some turns in milliseconds of the processor."""
    taken = []
    for _ in range(TURNS):
        start = time.process_time()
        answer = db.execute(sql, {"rows": rows} if ":rows" in sql else {}).fetchall()
        taken.append(1000 * (time.process_time() - start))
    return answer, sorted(taken)[TURNS // 2]


def fill(db: sqlite3.Connection, rows: int) -> None:
    db.execute("CREATE TABLE readings(station INT, level INT, state TEXT)")
    db.execute(FILL, {"rows": rows})


def pack_alone(db: sqlite3.Connection, rows: int) -> None:
    fill(db, rows)
    db.execute(PACK)
    db.execute("DROP TABLE readings")


def main() -> int:
    parser = argparse.ArgumentParser(description="times and sizes of a plain table and of its columns in runs")
    parser.add_argument("--rows", type=int, default=1_000_000)
    rows = parser.parse_args().rows
    differ = 0
    with tempfile.TemporaryDirectory() as name:
        folder = Path(name)
        plain = bytes_of(lambda db: fill(db, rows), folder, "plain.db")
        packed = bytes_of(lambda db: pack_alone(db, rows), folder, "packed.db")
        db = opened(folder / "both.db")
        fill(db, rows)
        db.execute("ANALYZE")
        _, packing = timed(db, "SELECT hv_column(level), hv_column(state) FROM readings GROUP BY station", rows)
        db.execute(PACK)
        print(f"{rows} rows, SQLite {sqlite3.sqlite_version}\n")
        print("| | Rows | Runs | Rows / runs |\n|---|---|---|---|")
        print(f"| size of the file | {plain / 1024:.0f} KiB | {packed / 1024:.0f} KiB | {plain / packed:.0f} |")
        for question, (over_rows, over_runs) in QUESTIONS.items():
            wanted, slow = timed(db, over_rows, rows)
            found, fast = timed(db, over_runs, rows)
            differ += found != wanted
            end = "" if found == wanted else " DIFFERS"
            print(f"| {question}{end} | {slow:.1f} ms | {fast:.2f} ms | {slow / fast:.0f} |")
        print(f"\nMaking both columns of all rows takes {packing:.0f} ms. {len(QUESTIONS) - differ} answers agree.")
    return 1 if differ else 0


if __name__ == "__main__":
    sys.exit(main())
