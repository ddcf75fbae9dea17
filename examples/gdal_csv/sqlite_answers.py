"""What SQLite answers about the columns of a CSV, which Python's own reader loads: another way from file to answer."""
import csv
import sqlite3
import tempfile
from pathlib import Path


def quoted(name):
    return '"' + name.replace('"', '""') + '"'


def load(database, path, numbers):
    """The CSV as the table `readings`; an empty field is null, and a column of `numbers` has integers."""
    with open(path, newline="", encoding="utf-8-sig") as file:
        reader = csv.reader(file)
        names = next(reader)
        columns = ", ".join(f"{quoted(name)} {'INTEGER' if name in numbers else 'TEXT'}" for name in names)
        database.execute(f"CREATE TABLE readings ({columns})")
        places = ", ".join("?" for _ in names)
        rows = ([field or None for field in row] for row in reader if row)
        database.executemany(f"INSERT INTO readings VALUES ({places})", rows)


def answers_of(database, name, is_number, where):
    column = quoted(name)

    def ask(query, *values):
        return database.execute(query, values).fetchone()

    rows, present = ask(f"SELECT COUNT(*), COUNT({column}) FROM readings")
    least, greatest = ask(f"SELECT MIN({column}), MAX({column}) FROM readings")
    changes = f"SELECT rowid > 1 AND {column} IS NOT LAG({column}) OVER (ORDER BY rowid) AS changed FROM readings"
    changed = ask(f"SELECT SUM(changed) FROM ({changes})")[0] or 0
    found = {"rows": rows, "not null": present, "least": least, "greatest": greatest, "runs": changed + (rows > 0)}
    if is_number:
        found["sum"] = ask(f"SELECT SUM({column}) FROM readings")[0] or 0
    if where:
        condition = f"FROM readings WHERE {quoted(where.column)} {where.operator} ?"  # by the column's affinity
        found["kept rows"] = ask(f"SELECT COUNT(*) {condition}", where.text)[0]
        if is_number:
            found["kept sum"] = ask(f"SELECT SUM({column}) {condition}", where.text)[0] or 0
    return found


def answers(path, names, numbers, where):
    """For each name its rows, rows that are not null, least, greatest, runs and, of a number, sum; with `where`, which
    has a column, an operator and a text, also how many rows it keeps and their sum."""
    with tempfile.TemporaryDirectory() as folder:
        database = sqlite3.connect(Path(folder) / "readings.sqlite")
        try:
            load(database, path, numbers)
            return {name: answers_of(database, name, name in numbers, where) for name in names}
        finally:
            database.close()
