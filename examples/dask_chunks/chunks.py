"""One operation over the chunks of a Dask array, each chunk a column, on a cluster of this machine (loopback); the
answers are joined, and held against NumPy's over all rows at once. Ends with 1 where the two differ, and with 2 and one
line on standard error where the answer is missing. A worker that dies is started anew and its chunks are worked again; the
line names a chunk whose worker dies each time.

    /usr/bin/python3 examples/dask_chunks/chunks.py [--rows N] [--chunks N ..] [--workers N] [--memory 500MB]

The rows are made chunk by chunk where they are worked, so that they may be more than memory holds.

Debian: apt-get install python3-dask python3-distributed python3-numpy
"""
import argparse
import os
import sys
import time
from contextlib import contextmanager
from pathlib import Path

import dask
import dask.array
import numpy
from dask.utils import parse_bytes
from distributed import Client, KilledWorker, LocalCluster

PACKAGE = str(Path(__file__).resolve().parents[2] / "python")
sys.path.insert(0, PACKAGE)
# the workers find the package as this program does
os.environ["PYTHONPATH"] = os.pathsep.join(filter(None, (PACKAGE, os.environ.get("PYTHONPATH"))))

from hivevigil import HivevigilError
from hivevigil.dask import ChunkedColumn

THRESHOLD = 40


def rows_of(numbers):
    """The rows of these numbers, an array of NumPy or Dask: stretches of 29 equal rows, with gaps of 3 rows without a
    value."""
    library = dask.array if isinstance(numbers, dask.array.Array) else numpy
    return library.ma.masked_array((numbers // 29 * 37) % 101 - 20, mask=numbers % 211 < 3)


def in_chunks(count, chunks):
    """The first rows, in this many chunks or fewer."""
    return ChunkedColumn.from_array(
        rows_of(dask.array.arange(count, chunks=max(-(-count // chunks), 1), dtype=numpy.int64))
    )


class ChunkFailed(Exception):
    """No answer about a chunk, which its number identifies."""


def over_chunks(column):
    """What is known of a chunked column, and of its rows from the threshold on."""
    kept = column.filter(column.ge(THRESHOLD))
    try:
        return dask.compute(column.aggregate(), kept.aggregate())
    except KilledWorker as error:
        raise ChunkFailed(named(column) or str(error).split(". ")[0]) from None


def named(column):
    """The first chunk that ends its worker each time, asked for while no other is worked: a worker that dies takes the
    chunks that wait for it with it, so that not each of them is to blame."""
    for number in range(column.chunk_count):
        try:
            column.chunk(number).rows().compute()
        except KilledWorker:
            return f"chunk {number} of {column.chunk_count}: its worker dies each time"
    return None


def over_all(rows):
    """The same answers by NumPy, without columns and without chunks."""
    present = rows.compressed()
    missing = numpy.ma.getmaskarray(rows)
    changed = (missing[1:] != missing[:-1]) | (~missing[1:] & ~missing[:-1] & (rows.data[1:] != rows.data[:-1]))
    kept = present[present >= THRESHOLD]
    order = numpy.where(missing, numpy.iinfo(numpy.int64).min, rows.data)
    return {
        "rows": len(rows), "null_count": int(missing.sum()), "runs": int(changed.sum()) + (len(rows) > 0),
        "sum": int(present.sum()), "least": int(present.min()) if len(present) else None,
        "greatest": int(present.max()) if len(present) else None,
        "is_sorted": bool((order[1:] >= order[:-1]).all()), "kept": len(kept), "kept sum": int(kept.sum()),
    }


def found(whole, kept):
    """The answers over chunks under the same names."""
    fields = ("rows", "null_count", "runs", "least", "greatest", "is_sorted")
    answers = {name: getattr(whole, name) for name in fields}
    return {**answers, "sum": whole.sum(), "kept": kept.rows, "kept sum": kept.sum()}


def run(count, chunk_counts, workers, memory):
    """Whether every number of chunks gives NumPy's answers."""
    due, agree = over_all(rows_of(numpy.arange(count, dtype=numpy.int64))), True
    with cluster_of(workers, memory) as cluster, Client(cluster):
        for chunks in chunk_counts:
            begin = time.perf_counter()
            answers = found(*over_chunks(in_chunks(count, chunks)))
            print(f"chunks: {chunks}, {time.perf_counter() - begin:.2f} s; {answers}")
            print("as NumPy says" if answers == due else f"NumPy says {due}")
            agree = agree and answers == due
    return agree


@contextmanager
def cluster_of(workers, memory=None):
    """Processes of this machine, each with this much memory. One that dies has an hour to be back: as Dask comes, a
    LocalCluster gives up for good each that is not back after 15 s, as on a busy machine, and where it has given up all
    of them no answer comes."""
    with dask.config.set({"distributed.deploy.lost-worker-timeout": "1h"}), LocalCluster(
        n_workers=workers, threads_per_worker=1, host="127.0.0.1", dashboard_address=None,
        memory_limit=memory or "auto",
    ) as cluster:
        yield cluster


def main():
    parser = argparse.ArgumentParser(description="Asks chunks of rows, and joins the answers.")
    parser.add_argument("--rows", type=int, default=1_000_000)
    parser.add_argument("--chunks", type=int, nargs="+", default=[1, 100])
    parser.add_argument("--workers", type=int, default=2)
    parser.add_argument("--memory", type=parse_bytes, metavar="BYTES", help="for each worker, as 500MB")
    chosen = parser.parse_args()
    if chosen.rows < 0 or min(*chosen.chunks, chosen.workers) < 1:
        parser.error("--rows takes a number from 0 on, --chunks and --workers from 1 on")
    try:
        agree = run(chosen.rows, chosen.chunks, chosen.workers, chosen.memory)
    except (ChunkFailed, HivevigilError, MemoryError, OSError) as error:
        print(f"chunks: {error}", file=sys.stderr)
        sys.exit(2)
    sys.exit(0 if agree else 1)


if __name__ == "__main__":
    main()
