"""The two workers of a cluster die while chunks are worked on, the second while the first is started anew: columns in
chunks have an answer where plain Dask has one of the same graph. test_dask_workers.py runs it, with a limit of time.

A LocalCluster gives up each worker that is not back after `distributed.deploy.lost-worker-timeout`, 15 s as Dask comes.
Where it has given up both, no answer comes, whoever made the graph.

    /usr/bin/python3 python/tests/dask_deaths.py [--turns N [--wait 15s]]     how often each has an answer
"""
import argparse
import os
import tempfile
import time
from contextlib import contextmanager
from pathlib import Path

import dask
import dask.array
import numpy
from distributed import Client, LocalCluster

from hivevigil import Column
from hivevigil.dask import ChunkedColumn

ROWS, CHUNKS, DEATHS = 1000, 4, 2
NO_WORKER = "no worker is left"


def dies(chunk, folder):
    """The chunk as it is, but the first workers that begin end their processes."""
    for number in range(DEATHS):
        try:
            os.close(os.open(Path(folder) / str(number), os.O_CREAT | os.O_EXCL))
        except FileExistsError:
            continue
        time.sleep(0.3 * number)
        os._exit(1)
    return chunk


def plain_dask(folder):
    """The sum of the blocks of an array: of each the block, a task that dies, and its sum; then the sum of all."""
    blocks = dask.array.arange(ROWS, chunks=ROWS // CHUNKS, dtype=numpy.int64).to_delayed().ravel()
    return dask.delayed(sum)([dask.delayed(numpy.sum)(dask.delayed(dies)(block, folder)) for block in blocks])


def columns(folder):
    """The same of columns."""
    blocks = dask.array.arange(ROWS, chunks=ROWS // CHUNKS, dtype=numpy.int64)
    return ChunkedColumn.from_array(blocks).map_chunks(dies, folder).sum()


def kept_columns(folder):
    """The same of columns that are kept on the workers, and so are lost with them."""
    return ChunkedColumn.from_columns(Column.of(range(ROWS)).split(CHUNKS)).persist().map_chunks(dies, folder).sum()


GRAPHS = (plain_dask, columns, kept_columns)


@contextmanager
def cluster_that_waits(wait):
    """Two processes, each of which has so long to be back after it died."""
    with dask.config.set({"distributed.deploy.lost-worker-timeout": wait}), LocalCluster(
        n_workers=2, threads_per_worker=1, host="127.0.0.1", dashboard_address=None
    ) as cluster:
        yield cluster


def answer_of(graph, cluster):
    """The answer, or that none can come."""
    with tempfile.TemporaryDirectory() as folder, Client(cluster) as client:
        answer = client.compute(graph(folder))
        while not answer.done() and cluster.workers:
            time.sleep(0.05)
        found = answer.result() if answer.done() else NO_WORKER
        return found if len(os.listdir(folder)) == DEATHS else f"{found}, and too few died"


def check(found, due, what):
    if found != due:
        raise SystemExit(f"{what}: {found}")


def count(turns, wait):
    """Prints how often each graph has an answer, each time on a cluster of its own."""
    for turn in range(turns):
        for graph in GRAPHS:
            begin = time.monotonic()
            with cluster_that_waits(wait) as cluster:
                found = answer_of(graph, cluster)
            print(f"{turn}, {graph.__name__}: {found}, {time.monotonic() - begin:.0f} s", flush=True)


def main():
    parser = argparse.ArgumentParser(description="Asks chunks whose workers die.")
    parser.add_argument("--turns", type=int, default=0)
    parser.add_argument("--wait", default="15s")
    chosen = parser.parse_args()
    if chosen.turns:
        return count(chosen.turns, chosen.wait)
    for graph in (plain_dask, columns):
        with cluster_that_waits("50ms") as cluster:  # no process is back so soon
            check(answer_of(graph, cluster), NO_WORKER, f"{graph.__name__}, which have lost all workers")
    with cluster_that_waits("1h") as cluster:
        for graph in GRAPHS:
            check(answer_of(graph, cluster), sum(range(ROWS)), graph.__name__)
    print("all hold")


if __name__ == "__main__":
    main()
