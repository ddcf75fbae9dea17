"""Asks columns in runs and other tools the same questions, compares the answers, and prints the times as Markdown.

    sh bench/columns/run.sh [--rows N] [--turns N] [--runs N ..] [--only TOOL,..] [--smoke]

Each tool is a process of its own, one after the other. The status is 1 where an answer differs or is missing.
"""
import argparse
import hashlib
import os
import platform
import shutil
import signal
import statistics
import subprocess
import sys
import tempfile
import textwrap
import time
from pathlib import Path

import numpy

from asked import LIMIT, NAMES, QUESTIONS

HERE = Path(__file__).resolve().parent
TOP = HERE.parents[1]
VALUES, DAYS = 1000, 1000
# by name: what starts a tool, and what has to be there
TOOLS = {
    "hivevigil": ([sys.executable, "-B", HERE / "arrays.py", "hivevigil"], "hivevigil"),
    "NumPy": ([sys.executable, "-B", HERE / "arrays.py", "NumPy"], "numpy"),
    "pandas": ([sys.executable, "-B", HERE / "arrays.py", "pandas"], "pandas"),
    "SQLite": ([sys.executable, "-B", HERE / "databases.py", "SQLite"], "sqlite3"),
    "PostgreSQL": ([sys.executable, "-B", HERE / "databases.py", "PostgreSQL"], None),
    "R Rle": (["Rscript", HERE / "rle.R"], None),
}
NEEDED = ("hivevigil", "NumPy")
ROWS = {
    "load": "made of rows, once",
    "add": "add two columns, and the sum",
    "compare": "compare two columns, and count",
    "filter": "filter by a mask, and the sum",
    "group": "sum for each key",
    "counts": "value counts",
    "sort": "sort",
    "running": "running totals",
}
NOTES = f"""
Three columns of integers of 64 bits: a level and an inflow, each with runs of its own and values from 0 to
{VALUES - 1}, and a day, whose {DAYS} values are sorted. The questions are: the sum of level + inflow; how many levels
are below the inflow; the number and sum of the levels where the inflow is below {LIMIT}; the sum of the levels of each
day; how often each level comes; the levels in order, of which eleven rows are compared; and the running totals of the
levels, of which as many are.

Times are milliseconds of the processor, the median of the turns, with their number where it is less than asked for,
since a question is not asked again after 20 seconds. Each answers on one processor. Memory is what the first turn took
at its peak over what the process had before.

- hivevigil: columns in runs, through Python. Value counts are those of the sorted column. Running totals are those at
  the end of each run, from which that of any row follows.
- NumPy and pandas: arrays of all rows. NumPy finds the days where the key changes, and adds between these.
- SQLite: a plain table in memory. PostgreSQL: an unlogged table, with 1 GB for buffers and for sorting, one process
  and no compiler. A time is that of one statement, which answers in few rows.
- R: class Rle of S4Vectors, with numbers as doubles; sums of days are views of IRanges. Its cumsum writes out all rows.
  R keeps memory that it had before, so that a question may take 0 MiB more.
"""


def missing(name):
    """What a tool needs that the machine lacks, None where nothing."""
    command, module = TOOLS[name]
    if module is not None:
        found = subprocess.run([sys.executable, "-c", f"import {module}"], capture_output=True)
        return None if found.returncode == 0 else f"{module} for Python"
    if name == "R Rle":
        if shutil.which("Rscript") is None:
            return "Rscript"
        there = "stopifnot(length(find.package(c('S4Vectors', 'IRanges'), quiet = TRUE)) == 2)"
        found = subprocess.run(["Rscript", "-e", there], capture_output=True)
        return None if found.returncode == 0 else "S4Vectors and IRanges for R"
    needed = ["pg_config", *(["runuser"] if os.getuid() == 0 else [])]
    lacking = [program for program in needed if shutil.which(program) is None]
    if not lacking:
        folder = subprocess.run(["pg_config", "--bindir"], capture_output=True, text=True).stdout.strip()
        lacking = [program for program in ("initdb", "pg_ctl", "psql") if not Path(folder, program).exists()]
    return " and ".join(lacking) or None


def write_rows(folder, rows, length):
    """The runs of the three columns, whose lengths are geometric with this mean; of the days as long as each other."""
    folder.mkdir()
    random = numpy.random.default_rng([rows, length])
    for name in NAMES:
        if name == "day":
            days = min(DAYS, rows)
            ends, values = numpy.arange(1, days + 1) * rows // days, numpy.arange(days)
        else:
            ends = numpy.cumsum(random.geometric(1 / length, rows // length * 2 + 100))
            while ends[-1] < rows:
                ends = numpy.concatenate((ends, ends[-1] + numpy.cumsum(random.geometric(1 / length, 100))))
            ends = numpy.append(ends[ends < rows], rows)
            values = random.integers(0, VALUES, len(ends))
        values.astype(numpy.int32).tofile(folder / f"{name}.values")
        numpy.diff(ends, prepend=0).astype(numpy.int32).tofile(folder / f"{name}.lengths")


class Found:
    """What a tool answered: by mean length and question its times in milliseconds, memory in KiB and the answer."""

    def __init__(self, name):
        self.name, self.version = name, None
        self.times, self.memory, self.answers = {}, {}, {}

    def take(self, line):
        length, question, *rest = line.rstrip("\n").split("\t")
        if length == "tool":
            self.version = question
            return
        key = int(length), question
        self.times[key] = [float(time) for time in rest[0].split()]
        self.memory[key], self.answers[key] = int(rest[1]), rest[2]


def asked(name, turns, folders):
    """What a tool answers to all questions; as far as it came, where it ended early."""
    found, begin = Found(name), time.perf_counter()
    command = [str(word) for word in (*TOOLS[name][0], turns, *folders)]
    with subprocess.Popen(command, stdout=subprocess.PIPE, text=True) as process:
        for line in process.stdout:
            found.take(line)
    end = "" if process.returncode == 0 else f", and ended with status {process.returncode}"
    print(f"{name}: {time.perf_counter() - begin:.0f} s{end}", file=sys.stderr)
    return found


def differences(tools, lengths):
    """The answers that differ from NumPy's, or that are missing."""
    due = next(found for found in tools if found.name == "NumPy").answers
    said = []
    for found in tools:
        for key in ((length, question) for length in lengths for question in ("load", *QUESTIONS)):
            if key not in found.answers:
                said.append(f"{found.name}, runs of {key[0]}, {key[1]}: no answer")
            elif key not in due or found.answers[key] != due[key]:
                said.append(f"{found.name}, runs of {key[0]}, {key[1]}: another answer than NumPy's")
    return said


def shown(number):
    """A number with three digits, or all before the point."""
    return f"{number:,.0f}" if number >= 100 else f"{number:.1f}" if number >= 10 else f"{number:.2f}"


def time_cell(found, key, turns):
    times = found.times.get(key)
    if times is None:
        return "no answer"
    fewer = f" ({len(times)})" if key[1] != "load" and len(times) < turns else ""
    return shown(statistics.median(times)) + fewer


def memory_cell(found, key):
    if found.name == "PostgreSQL":
        return ""
    return f"{found.memory[key] / 1024:,.0f}" if key in found.memory else "no answer"


def table(tools, length, cell, head):
    """A table of the questions by tools."""
    lines = [f"| {head} | " + " | ".join(found.name for found in tools) + " |", "|---" * (len(tools) + 1) + "|"]
    for question, text in ROWS.items():
        lines.append(f"| {text} | " + " | ".join(cell(found, (length, question)) for found in tools) + " |")
    return lines


def bytes_row(tools, length):
    cells = (found.answers.get((length, "bytes")) for found in tools)
    return "| bytes of the columns | " + " | ".join("" if cell is None else f"{int(cell):,}" for cell in cells) + " |"


def page(tools, chosen, skipped):
    """The page: what was measured and over what, and the tables."""
    yield f"# Columns next to other tools, {time.strftime('%-d %B %Y', time.gmtime())}"
    yield ""
    yield from textwrap.wrap(over_what(tools, chosen), 116)
    yield from (f"Skipped: {name}, no {lack}." for name, lack in skipped.items())
    yield from NOTES.rstrip("\n").split("\n")
    for length in chosen.runs:
        yield from ("", f"## Runs of {length} rows on average", "")
        yield from table(tools, length, lambda found, key: time_cell(found, key, chosen.turns), "Milliseconds")
        yield bytes_row(tools, length)
    for length in chosen.runs:
        yield from ("", f"## Memory, runs of {length} rows", "")
        yield from table(tools, length, memory_cell, "MiB at the peak")


def over_what(tools, chosen):
    library = Path(os.environ["HIVEVIGIL_SO"])
    print(f"library: {library}", file=sys.stderr)
    unproved = (library.parent / "UNPROVED").exists()
    proof = "built without proof, with checks that the proved one does without" if unproved else "proved"
    found = subprocess.run(["git", "-C", TOP, "rev-parse", "--short", "HEAD"], capture_output=True, text=True)
    commit = found.stdout.strip() or "unknown"
    versions = ", ".join(found.version for found in tools if found.version)
    return (
        f"{chosen.rows:,} rows, {chosen.turns} turns; `sh bench/columns/run.sh` of commit {commit}. {processor()}, "
        f"{os.cpu_count()} processors, Python {platform.python_version()}. The library: {proof}, SHA-256 "
        f"{hashlib.sha256(library.read_bytes()).hexdigest()[:12]}... The tools: {versions}."
    )


def processor():
    try:
        lines = Path("/proc/cpuinfo").read_text().splitlines()
    except OSError:
        lines = []
    return next((line.split(": ")[1] for line in lines if line.startswith("model name")), platform.machine())


def parsed():
    parser = argparse.ArgumentParser(description="The same questions to columns in runs and to other tools.")
    parser.add_argument("--rows", type=int, default=10_000_000)
    parser.add_argument("--turns", type=int, default=5)
    parser.add_argument("--runs", type=int, nargs="+", default=[3, 16, 200], help="mean lengths of runs")
    parser.add_argument("--only", help="these tools, and NumPy", metavar="TOOL,..")
    parser.add_argument("--smoke", action="store_true", help="few rows, once")
    chosen = parser.parse_args()
    if chosen.smoke:
        chosen.rows, chosen.turns = 20_000, 1
    if min(chosen.rows, chosen.turns, *chosen.runs) < 1:
        parser.error("numbers are from 1 on")
    wanted = list(TOOLS) if chosen.only is None else [*chosen.only.split(","), "NumPy"]
    for name in wanted:
        if name not in TOOLS:
            parser.error(f"no tool has the name {name}: {', '.join(TOOLS)}")
    chosen.tools = [name for name in TOOLS if name in wanted]
    return chosen


def main():
    chosen = parsed()
    lacks = {name: missing(name) for name in chosen.tools}
    skipped = {name: lack for name, lack in lacks.items() if lack is not None}
    for name, lack in skipped.items():
        print(f"skipped: {name}, no {lack}", file=sys.stderr)
    if any(name in skipped for name in NEEDED):
        return 2
    with tempfile.TemporaryDirectory() as work:
        os.chmod(work, 0o755)
        folders = [Path(work, str(length)) for length in chosen.runs]
        for folder, length in zip(folders, chosen.runs):
            write_rows(folder, chosen.rows, length)
        tools = [asked(name, chosen.turns, folders) for name in chosen.tools if name not in skipped]
    print("\n".join(page(tools, chosen, skipped)))
    wrong = differences(tools, chosen.runs)
    for line in wrong:
        print(line, file=sys.stderr)
    same = len(tools) * len(chosen.runs) * (len(QUESTIONS) + 1) - len(wrong)
    without = f"; skipped: {', '.join(skipped)}" if skipped else ""
    print(f"{same} answers agree, {len(wrong)} differ{without}", file=sys.stderr)
    return 1 if wrong else 0


if __name__ == "__main__":
    signal.signal(signal.SIGTERM, lambda *_: sys.exit(143))  # so that its files are removed
    sys.exit(main())
