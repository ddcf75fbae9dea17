"""The rows of readings.py in a plain table of SQLite, in a file, and of PostgreSQL, on a server of its own."""
import os
import sqlite3
import sys
import time
from datetime import datetime, timedelta, timezone
from pathlib import Path

sys.path.insert(0, str(Path(__file__).parent / "columns"))

EPOCH = datetime(1970, 1, 1, tzinfo=timezone.utc)


def micros(at):
    """A time as microseconds since 1970."""
    return (at - EPOCH) // timedelta(microseconds=1)


class SQLite:
    """Times are integers, since SQLite has none, and prices are in cents. It has no NaN: a level that is one is null."""

    name = f"SQLite {sqlite3.sqlite_version}"
    head = "SQLite"
    no_nan = ""

    def __init__(self, folder, rows):
        begin = self.clock()
        self._path = folder / "rows.db"
        self._db = sqlite3.connect(self._path)
        self._db.execute("create table readings (at integer, level real, price integer, visits integer, status text, open)")
        self._db.executemany(
            "insert into readings values (?, ?, ?, ?, ?, ?)",
            ((micros(at), level, int(price * 100), *others) for at, level, price, *others in rows),
        )
        self._db.commit()
        self.load_seconds = self.clock() - begin

    def rows(self, sql):
        return self._db.execute(sql).fetchall()

    @staticmethod
    def literal(at):
        return str(micros(at))

    def size(self):
        return os.path.getsize(self._path)

    clock = staticmethod(time.process_time)

    def close(self):
        self._db.close()


class PostgreSQL:
    """The CSV file copied into an unlogged table of PostgreSQL's own types. NaN is above every number there."""

    head = "PostgreSQL"
    no_nan = " and level <> 'NaN'"

    def __init__(self, folder, _):
        from databases import Server, said

        self.name = " ".join(said(["pg_config", "--version"]).split()[:2])
        self._server = Server()
        self._process = int(self._one("select pg_backend_pid()"))
        self._server.ask("create unlogged table readings (at timestamptz, level double precision, price numeric(12, 2), "
                         "visits integer, status text, open boolean)")  # fmt: skip
        copied = self._server.folder / "rows.csv"
        copied.write_bytes((folder / "rows.csv").read_bytes())
        copied.chmod(0o644)
        begin = self.clock()
        self._server.ask(f"copy readings from '{copied}' (format csv, header)")
        self.load_seconds = self.clock() - begin
        copied.unlink()
        self._server.ask("vacuum analyze readings")

    def _one(self, sql):
        return self._server.ask(sql)[0][0]

    def rows(self, sql):
        """The rows of an answer: numbers, and before the last of them a text, which may have spaces."""
        return [(" ".join(words[:-1]), number(words[-1])) if words[1:] else (number(words[0]),)
                for words in self._server.ask(sql)]  # fmt: skip

    @staticmethod
    def literal(at):
        return f"'{at.isoformat()}'"

    def size(self):
        return int(self._one("select pg_table_size('readings')"))

    def clock(self):
        """The processor time of the server's process that answers, in seconds."""
        return int(Path(f"/proc/{self._process}/schedstat").read_text().split()[0]) / 1e9

    def close(self):
        self._server.end()


def number(word):
    """A number of an answer, whole where it is one."""
    return float(word) if set(word) & set(".eE") else int(word)


def loaded(folder, rows):
    """The databases, loaded, and the names of those that the machine lacks, each with what is missing."""
    from columns import missing

    lack = missing("PostgreSQL")
    kinds = (SQLite, PostgreSQL) if lack is None else (SQLite,)
    return [kind(folder, rows) for kind in kinds], {} if lack is None else {"PostgreSQL": lack}
