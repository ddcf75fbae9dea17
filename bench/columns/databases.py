"""The questions to a plain table of SQLite, in memory, and of PostgreSQL, on a server of its own that ends with this.

    python3 databases.py TOOL TURNS FOLDER..       as columns.py starts it
"""
import atexit
import os
import shutil
import signal
import sqlite3
import subprocess
import sys
import tempfile
import time
from pathlib import Path

import numpy

from asked import LIMIT, Tool, main

TABLE = "readings(place {number} PRIMARY KEY, level {number}, inflow {number}, day {number})"
BLOCK = 100_000  # rows that are inserted at once


class Database(Tool):
    """Each question is one statement, whose answer is small."""

    def rows(self, sql):
        raise NotImplementedError

    def _numbers(self, sql):
        return [number for row in self.rows(sql) for number in row]

    def add(self):
        return self._numbers("SELECT sum(level + inflow) FROM readings")

    def compare(self):
        return self._numbers("SELECT count(*) FROM readings WHERE level < inflow")

    def filter(self):
        return self._numbers(f"SELECT count(*), sum(level) FROM readings WHERE inflow < {LIMIT}")

    def group(self):
        return self._numbers("SELECT day, sum(level) FROM readings GROUP BY day ORDER BY day")

    def counts(self):
        return self._numbers("SELECT level, count(*) FROM readings GROUP BY level ORDER BY level")

    def sort(self):
        return self._at_places("level", "row_number() OVER (ORDER BY level) - 1")

    def running(self):
        return self._at_places("sum(level) OVER (ORDER BY place ROWS UNBOUNDED PRECEDING)", "place")

    def _at_places(self, answer, place):
        places = ", ".join(map(str, self.places))
        inner = f"SELECT {answer} AS answer, {place} AS at FROM readings"
        return self._numbers(f"SELECT answer FROM ({inner}) AS found WHERE at IN ({places}) ORDER BY at")


class SQLite(Database):
    @staticmethod
    def version():
        return f"SQLite {sqlite3.sqlite_version}"

    def __init__(self, rows):
        self._db = sqlite3.connect(":memory:")
        self._db.execute("CREATE TABLE " + TABLE.format(number="INTEGER"))
        count = len(rows.level)
        for start in range(0, count, BLOCK):
            part = slice(start, start + BLOCK)
            columns = (each[part].tolist() for each in (rows.level, rows.inflow, rows.day))
            self._db.executemany("INSERT INTO readings VALUES (?, ?, ?, ?)", zip(range(count)[part], *columns))
        self._db.commit()

    def rows(self, sql):
        return self._db.execute(sql).fetchall()

    def size(self):
        return self._numbers("SELECT page_count * page_size FROM pragma_page_count(), pragma_page_size()")[0]


def said(command):
    return subprocess.run(command, capture_output=True, text=True, check=True).stdout


class Server:
    """A server in a temporary folder, on a socket there, as an ordinary user. One process works each question."""

    SETTINGS = (
        "listen_addresses=", "fsync=off", "shared_buffers=1GB", "work_mem=1GB", "max_parallel_workers_per_gather=0",
        "jit=off", "max_wal_size=8GB",
    )

    def __init__(self):
        self._bin = Path(said(["pg_config", "--bindir"]).strip())
        self.folder, self.psql = Path(tempfile.mkdtemp(prefix="columns-")), None
        atexit.register(self.end)
        self._as = ["runuser", "-u", "nobody", "--"] if os.getuid() == 0 else []
        if self._as:
            shutil.chown(self.folder, "nobody")
        self._run("initdb", "-D", self.folder / "data", "-U", "tester", "-E", "UTF8", "--no-sync", "--auth=trust")
        options = " ".join([f"-k {self.folder}", *(f"-c {setting}" for setting in self.SETTINGS)])
        self._run("pg_ctl", "-D", self.folder / "data", "-w", "-l", self.folder / "log", "-o", options, "start")
        self.psql = subprocess.Popen(
            [*self._as, self._bin / "psql", "-X", "-q", "-A", "-t", "-F", " ", "-v", "ON_ERROR_STOP=1",
             "-h", self.folder, "-U", "tester", "postgres"],
            stdin=subprocess.PIPE, stdout=subprocess.PIPE, text=True, cwd="/",
        )

    def _run(self, program, *words):
        subprocess.run([*self._as, self._bin / program, *words], stdout=subprocess.DEVNULL, check=True, cwd="/",
                       env={**os.environ, "LC_ALL": "C"})

    def ask(self, sql):
        """The lines that a statement answers."""
        self.psql.stdin.write(f"{sql};\n\\echo .\n")
        self.psql.stdin.flush()
        lines = []
        for line in self.psql.stdout:
            if line == ".\n":
                return lines
            lines.append(line.split())
        raise RuntimeError(f"no answer to: {sql}")

    def end(self):
        """Ends the server and removes its folder, once."""
        if self.psql is not None:
            self.psql.stdin.close()
            self.psql.wait()
            self.psql = None
        if (self.folder / "data" / "postmaster.pid").exists():
            self._run("pg_ctl", "-D", self.folder / "data", "-m", "fast", "-w", "stop")
        shutil.rmtree(self.folder, ignore_errors=True)


class PostgreSQL(Database):
    @staticmethod
    def version():
        return " ".join(said(["pg_config", "--version"]).split()[:2])

    def __init__(self, rows):
        self._server = Server()
        ((self._process,),) = self._server.ask("SELECT pg_backend_pid()")
        self._server.ask("CREATE UNLOGGED TABLE " + TABLE.format(number="bigint"))
        copied = self._server.folder / "rows"
        self._write(copied, rows)
        begin = self.clock()
        self._server.ask(f"COPY readings FROM '{copied}' (FORMAT binary)")
        self.load_seconds = self.clock() - begin
        copied.unlink()
        self._server.ask("VACUUM ANALYZE readings")

    @staticmethod
    def _write(path, rows):
        """The rows as COPY reads them: a header, of each row the number of items, and of each item its bytes."""
        items = [(f"{part}_{name}", kind) for name in ("place", "level", "inflow", "day")
                 for part, kind in (("size", ">i4"), ("item", ">i8"))]
        with open(path, "wb") as file:
            file.write(b"PGCOPY\n\xff\r\n\0" + bytes(8))
            for start in range(0, len(rows.level), BLOCK):
                level = rows.level[start : start + BLOCK]
                table = numpy.zeros(len(level), [("items", ">i2"), *items])
                table["items"] = 4
                columns = (numpy.arange(start, start + len(level)), level, rows.inflow[start : start + BLOCK],
                           rows.day[start : start + BLOCK])
                for name, column in zip(("place", "level", "inflow", "day"), columns):
                    table[f"size_{name}"], table[f"item_{name}"] = 8, column
                file.write(table.tobytes())
            file.write(b"\xff\xff")
        path.chmod(0o644)

    def rows(self, sql):
        return self._server.ask(sql)

    def clock(self):
        """The processor time of the server's process that answers, in seconds; the clock where it is not to be had."""
        try:
            return int(Path(f"/proc/{self._process}/schedstat").read_text().split()[0]) / 1e9
        except OSError:
            return time.perf_counter()

    def size(self):
        return int(self.rows("SELECT pg_table_size('readings')")[0][0])

    def close(self):
        self._server.end()


if __name__ == "__main__":
    signal.signal(signal.SIGTERM, lambda *_: sys.exit(143))  # so that the server is ended
    main({"SQLite": SQLite, "PostgreSQL": PostgreSQL})
