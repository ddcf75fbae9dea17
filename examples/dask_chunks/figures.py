"""Files of rows and of the same rows in runs, written and asked by a cluster of this machine (loopback): dask.dataframe
over arrays next to hivevigil.dask_tables over tables. Prints times and the memory of workers as Markdown. The status is
1 where an answer is not that of NumPy, which each file was asked when it was written.

    /usr/bin/python3 examples/dask_chunks/figures.py >page.md                    a billion rows in 100 files
    /usr/bin/python3 examples/dask_chunks/figures.py --rows 10000000 >page.md    [--files N] [--workers N] [--turns N]

Rows take 13 bytes each on the disk, runs some 40 times less. Where the disk has no room for all files of rows, or with
--row-files N, there are fewer of these, and the table says how many rows they have. HIVEVIGIL_LIB names another folder
with a libhivevigil.so than lib/. --memory 2GB is what a worker may take.

Debian: apt-get install python3-dask python3-distributed python3-pandas
"""
import argparse
import hashlib
import os
import platform
import shutil
import statistics
import sys
import tempfile
import textwrap
import time
from collections import Counter
from dataclasses import dataclass
from pathlib import Path

ROOT = Path(__file__).resolve().parents[2]
LIBRARY = Path(os.environ.get("HIVEVIGIL_LIB", ROOT / "lib")).resolve()
os.environ["HIVEVIGIL_SO"] = str(LIBRARY / "libhivevigil.so")  # for the workers too

import dask
import dask.dataframe
import numpy
import pandas
from dask.utils import parse_bytes
from distributed import Client, KilledWorker

from chunks import cluster_of

import hivevigil
from hivevigil import Column, Table
from hivevigil.dask_tables import ChunkedTable

SENSORS, LIMIT, STATUS = 1000, 900, 2
TYPES = {"sensor": numpy.int32, "status": numpy.int8, "level": numpy.int64}
ROW_BYTES = sum(numpy.dtype(kind).itemsize for kind in TYPES.values())


# ---- The files ----


def rows_of(number, size, total):
    """The rows of a file: sensors in order over all files, a status that stays for 500 rows, a level for 30 on
    average."""
    random = numpy.random.default_rng([number, size])
    lengths = random.geometric(1 / 30, size // 15 + 100)
    levels = numpy.repeat(random.integers(-50, 1000, len(lengths)), lengths)[:size]
    if len(levels) < size:
        raise ValueError("fewer levels than rows")
    return {
        "sensor": (numpy.arange(number * size, (number + 1) * size) * SENSORS // total).astype(TYPES["sensor"]),
        "status": numpy.repeat(random.integers(0, 4, size // 500 + 1), 500)[:size].astype(TYPES["status"]),
        "level": levels.astype(TYPES["level"]),
    }


def by_sensor(sensors, levels):
    """The sum and number of the levels of each sensor, whose rows are next to one another."""
    starts = numpy.flatnonzero(numpy.diff(sensors, prepend=-1))
    sums = numpy.add.reduceat(levels, starts) if len(starts) else []
    counts = numpy.diff(starts, append=len(sensors))
    return {int(sensor): (int(total), int(count)) for sensor, total, count in zip(sensors[starts], sums, counts)}


def numpy_answers(rows):
    """What NumPy says of the rows of one file."""
    level, sensor = rows["level"], rows["sensor"]
    kept, chosen = level[level > LIMIT], rows["status"] == STATUS
    return {
        "all": (len(level), int(level.sum()), int(level.min()), int(level.max())),
        "filter": (len(kept), int(kept.sum())),
        "group": by_sensor(sensor, level),
        "filter, group": by_sensor(sensor[chosen], level[chosen]),
    }


def written(number, size, total, folder, with_rows):
    """Writes the runs of a file, and its rows where they are asked for; what NumPy says of it, and how many bytes both
    take."""
    rows = rows_of(number, size, total)
    runs = Path(folder, f"{number:03}.hv")
    Table({name: Column.of(each).to_runs() for name, each in rows.items()}).save(runs)
    paths = [Path(folder, f"{number:03}.{name}.npy") for name in rows] if with_rows else []
    for path, each in zip(paths, rows.values()):
        numpy.save(path, each)
    return numpy_answers(rows), runs.stat().st_size, sum(path.stat().st_size for path in paths)


def joined(answers):
    """What NumPy says of all files."""
    alls = [each["all"] for each in answers]
    due = {
        "all": (sum(each[0] for each in alls), sum(each[1] for each in alls),
                min(each[2] for each in alls), max(each[3] for each in alls)),
        "filter": tuple(sum(each["filter"][place] for each in answers) for place in (0, 1)),
    }
    for name in ("group", "filter, group"):
        sums, counts = Counter(), Counter()
        for each in answers:
            for sensor, (total, count) in each[name].items():
                sums[sensor] += total
                counts[sensor] += count
        due[name] = {sensor: (sums[sensor], counts[sensor]) for sensor in sums}
    return due


# ---- The questions ----


def frame_of(path, columns):
    return pandas.DataFrame({name: numpy.load(f"{path[:-3]}.{name}.npy") for name in columns})


class Rows:
    """dask.dataframe over the files of rows, a partition for each file. Only the columns that a question needs are
    read."""

    def __init__(self, paths):
        self._paths = paths

    def _frame(self, *columns):
        meta = pandas.DataFrame({name: numpy.zeros(0, TYPES[name]) for name in columns})
        return dask.dataframe.from_map(frame_of, self._paths, columns=list(columns), meta=meta)

    def all(self):
        level = self._frame("level")["level"]
        return tuple(map(int, dask.compute(level.count(), level.sum(), level.min(), level.max())))

    def filter(self):
        level = self._frame("level")["level"]
        kept = level[level > LIMIT]
        return tuple(map(int, dask.compute(kept.count(), kept.sum())))

    def group(self):
        return self._grouped(self._frame("sensor", "level"))

    def filter_group(self):
        frame = self._frame("sensor", "status", "level")
        return self._grouped(frame[frame["status"] == STATUS])

    @staticmethod
    def _grouped(frame):
        found = frame.groupby("sensor")["level"].agg(["sum", "count"]).compute()
        return {int(sensor): (int(total), int(count)) for sensor, total, count in found.itertuples()}


class Runs:
    """The files of tables in runs, a chunk for each."""

    def __init__(self, paths):
        self._paths = paths

    def all(self):
        whole = ChunkedTable.from_files(self._paths)["level"].aggregate().compute()
        return whole.rows, whole.sum(), whole.least, whole.greatest

    def filter(self):
        level = ChunkedTable.from_files(self._paths)["level"]
        kept = level.filter(level.gt(LIMIT)).aggregate().compute()
        return kept.rows, kept.sum()

    def group(self):
        return self._grouped(ChunkedTable.from_files(self._paths, ["sensor", "level"]))

    def filter_group(self):
        chosen = ChunkedTable.from_files(self._paths).filter_by("status", "==", STATUS)
        return self._grouped(chosen.select("sensor", "level"))

    @staticmethod
    def _grouped(table):
        found = table.group_by("sensor").agg(total=("level", "sum"), rows="size").compute().to_dict()
        return {sensor: (total, rows) for sensor, total, rows in zip(found["sensor"], found["total"], found["rows"])}


QUESTIONS = {
    "all": ("number of rows, sum, least, greatest", "all"),
    "filter": (f"number and sum of levels above {LIMIT}", "filter"),
    "group": ("sum and number by sensor", "group"),
    "filter, group": (f"the same where the status is {STATUS}", "filter_group"),
}


# ---- How they are asked ----


def forget_peak():
    try:
        Path("/proc/self/clear_refs").write_text("5")
    except OSError:
        pass


def peak():
    """The most memory that this process had since then, in MiB; 0 where the system does not say."""
    try:
        lines = Path("/proc/self/status").read_text().splitlines()
    except OSError:
        return 0
    return next((int(line.split()[1]) // 1024 for line in lines if line.startswith("VmHWM")), 0)


@dataclass
class Answered:
    """A cell of the table, and whether the answer is NumPy's."""

    text: str
    holds: bool


def asked(client, call, due, turns):
    """The middle of the times, and the most memory of a worker."""
    client.run(forget_peak)
    taken, holds = [], True
    try:
        for _ in range(turns):
            begin = time.perf_counter()
            answer = call()
            taken.append(time.perf_counter() - begin)
            holds = holds and answer == due
    except (KilledWorker, MemoryError) as error:
        return Answered(f"no answer: {type(error).__name__}", False)
    memory = max(client.run(peak).values())
    return Answered(f"{statistics.median(taken):.2f} s, {memory:,} MiB" + ("" if holds else " DIFFERS"), holds)


def run(chosen, folder):
    """Prints the page. How many answers are NumPy's, and how many differ, or are missing where they are of runs."""
    size, total = chosen.rows // chosen.files, chosen.rows // chosen.files * chosen.files
    with cluster_of(chosen.workers, chosen.memory) as cluster, Client(cluster) as client:
        begin = time.perf_counter()
        tasks = [client.submit(written, number, size, total, folder, number < chosen.row_files, pure=False)
                 for number in range(chosen.files)]
        found = client.gather(tasks)
        del tasks
        writing = time.perf_counter() - begin
        answers, run_bytes, row_bytes = zip(*found)
        paths = [str(Path(folder, f"{number:03}.hv")) for number in range(chosen.files)]
        sides = {f"Runs, {total:,} rows": (Runs(paths), joined(answers))}
        few = chosen.row_files
        if 0 < few < chosen.files:
            sides = {f"Runs, {few * size:,} rows": (Runs(paths[:few]), joined(answers[:few])), **sides}
        if few:
            sides = {f"Rows, {few * size:,} rows": (Rows(paths[:few]), joined(answers[:few])), **sides}
        print("\n".join(over_what(chosen, total, writing, sum(run_bytes), sum(row_bytes))))
        print("\n| | " + " | ".join(sides) + " |\n" + "|---" * (len(sides) + 1) + "|", flush=True)
        agree = differ = 0
        for name, (text, method) in QUESTIONS.items():
            cells = []
            for tool, due in sides.values():
                answered = asked(client, getattr(tool, method), due[name], chosen.turns)
                agree += answered.holds
                differ += not (answered.holds or answered.text.startswith("no answer") and isinstance(tool, Rows))
                cells.append(answered.text)
            print(f"| {text} | " + " | ".join(cells) + " |", flush=True)
    return agree, differ


def over_what(chosen, total, writing, run_bytes, row_bytes):
    print(f"library: {LIBRARY}", file=sys.stderr)
    unproved = (LIBRARY / "UNPROVED").exists()
    digest = hashlib.sha256((LIBRARY / "libhivevigil.so").read_bytes()).hexdigest()[:12]
    proof = "built without proof, with checks that the proved one does without" if unproved else "proved"
    yield f"# Files asked by Dask, {time.strftime('%-d %B %Y', time.gmtime())}"
    yield ""
    yield from textwrap.wrap(
        f"{total:,} rows in {chosen.files} files, {chosen.workers} workers of one thread, {chosen.turns} turns. Python "
        f"{platform.python_version()}, Dask {dask.__version__}, pandas {pandas.__version__}. The library: version "
        f"{hivevigil.__version__}, {proof}, SHA-256 {digest}... Writing took {writing:.0f} s: "
        f"{run_bytes:,} bytes of runs; {row_bytes:,} bytes of rows, in {chosen.row_files} files. A cell has the middle "
        "of the times by the clock, and the most memory that a worker had.", 116
    )


def room_for(chosen, folder):
    """How many files of rows there are: as many as asked, or as the disk has room for."""
    size = chosen.rows // chosen.files * ROW_BYTES
    wanted = chosen.files if chosen.row_files is None else min(chosen.row_files, chosen.files)
    fit = min(wanted, int(shutil.disk_usage(folder).free * 0.8) // max(size, 1))
    if fit < wanted:
        print(f"figures: the disk has room for rows of {fit} files, not of {wanted}", file=sys.stderr)
    return fit


def main():
    parser = argparse.ArgumentParser(description="Asks files of rows and of runs by Dask.")
    parser.add_argument("--rows", type=int, default=1_000_000_000)
    parser.add_argument("--files", type=int, default=100)
    parser.add_argument("--row-files", type=int, help="how many of the files are there as rows too")
    parser.add_argument("--workers", type=int, default=2)
    parser.add_argument("--turns", type=int, default=3)
    parser.add_argument("--memory", type=parse_bytes, metavar="BYTES", help="for each worker, as 2GB")
    parser.add_argument("--folder", help="where the files are written, and removed at the end")
    chosen = parser.parse_args()
    if min(chosen.files, chosen.workers, chosen.turns) < 1 or chosen.rows < chosen.files:
        parser.error("a file has at least one row; numbers are from 1 on")
    with tempfile.TemporaryDirectory(dir=chosen.folder) as folder:
        chosen.row_files = room_for(chosen, folder)
        agree, differ = run(chosen, folder)
    print(f"{agree} answers agree, {differ} differ or are missing", file=sys.stderr)
    sys.exit(1 if differ else 0)


if __name__ == "__main__":
    main()
