"""summary.py on files at the edge: right answers where there are some, else one line and the status 2.

    /usr/bin/python3 examples/gdal_csv/edge_cases.py
"""
from __future__ import annotations

import subprocess
import sys
import tempfile
from dataclasses import dataclass
from pathlib import Path

SUMMARY = Path(__file__).resolve().parent / "summary.py"
NEEDS = "no column is served: integers, dates and texts are, and not Arrow's g"


@dataclass(frozen=True)
class Case:
    """A file, how summary.py is asked, the status that is due, and a line that it says."""

    name: str
    content: bytes | None
    status: int
    line: str
    options: tuple[str, ...] = ()


# a table's cells are column, rows, not null, runs, bytes before, bytes after, sum, least, greatest. A text takes 24 bytes
# and its letters, a number 4, an end of a run 1; bits of validity are there where a row is null and one is not, or where
# they came so
CASES = [
    Case("no file", None, 2, "No such file or directory"),
    Case("empty file", b"", 2, "no line of names"),
    Case("no rows", b"a,b\n", 0, "a 0 0 0 0 0"),
    Case("all null", b"a,b\n,\n,\n", 0, "a 2 0 1 49 25"),
    Case("one row", b"a,b\n7,x\n", 0, "a 1 1 1 4 5 7 7 7"),
    Case("a blank line", b"a,b\n1,2\n\n3,4\n", 0, "b 2 2 2 8 10 6 2 4"),
    Case("a column that is not served", b"a,f\n1,2.5\n2,3.5\n", 0, "f: left out, its Arrow format g is not served"),
    Case("no column that is served", b"f,g\n1.5,2.5\n", 2, NEEDS),
    Case("a line that is too short", b"a,b\n1,2\n3\n", 2, "line 3 has 1 fields, the first 2"),
    Case("a line that is too long", b"a,b\n1,2,3\n", 2, "line 2 has 3 fields, the first 2"),
    Case("a quote that is not closed", b'a,b\n1,"2\n3,4\n', 2, "unexpected end of data"),
    Case("bytes that are no text", b"a,b\n1,\xff\xfe\n", 2, "line 2: not UTF-8: invalid start byte 0xff"),
    Case("two columns of one name", b"a,a\n1,2\n", 2, "two columns have one name"),
    Case("a filter that keeps no row", b"a,b\n1,2\n3,4\n", 0, "b 2 2 2 8 10 6 2 4 0 0", ("--where", "a", ">", "5")),
    Case("a filter by no column", b"a,b\n1,2\n", 2, "--where takes a column of a, b", ("--where", "c", "=", "1")),
    Case("a filter by no number", b"a,b\n1,2\n", 2, "--where: a is no such number", ("--where", "a", "=", "x")),
    Case("batches of no rows", b"a,b\n1,2\n", 2, "--batch takes a number of rows from 1 on", ("--batch", "0")),
]


def fault_of(case, folder):
    """What is wrong with the answer, or None."""
    path = Path(folder) / "rows.csv"
    if case.content is None:
        path.unlink(missing_ok=True)
    else:
        path.write_bytes(case.content)
    command = [sys.executable, SUMMARY, path, *case.options]
    ran = subprocess.run(command, capture_output=True, text=True, timeout=60, stdin=subprocess.DEVNULL)
    said = [" ".join(line.split()) for line in (ran.stderr if case.status else ran.stdout).splitlines()]
    if ran.returncode != case.status:
        return f"the status is {ran.returncode} and not {case.status}: {ran.stderr[-400:]}"
    if "Traceback" in ran.stderr or (case.status and ran.stdout):
        return f"more than one line: {ran.stderr[-400:]}{ran.stdout[-400:]}"
    if not any(case.line == line or (case.status and case.line in line) for line in said):
        return f"no line says '{case.line}': {said}"
    return None


def main():
    faults = 0
    with tempfile.TemporaryDirectory() as folder:
        for case in CASES:
            fault = fault_of(case, folder)
            faults += fault is not None
            if fault:
                print(f"{case.name}: {fault}")
    print(f"{len(CASES)} files at the edge, {faults} answered otherwise")
    sys.exit(1 if faults else 0)


if __name__ == "__main__":
    main()
