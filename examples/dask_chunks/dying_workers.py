"""What chunks.py does where workers die: they are started anew, also where all die at once and are long in coming back,
and the answer is NumPy's; a chunk whose worker dies each time is named.

    /usr/bin/python3 examples/dask_chunks/dying_workers.py
"""
import os
import tempfile
import time
from pathlib import Path

import dask
import numpy
from distributed import Client

from chunks import ChunkFailed, cluster_of, found, in_chunks, over_all, over_chunks, rows_of

ROWS, CHUNKS = 1000, 4


def dies(column, folder, deaths):
    """The chunk as it is, but the first workers that begin end their processes, one while the other starts anew."""
    for number in range(deaths):
        try:
            os.close(os.open(Path(folder) / str(number), os.O_CREAT | os.O_EXCL))
        except FileExistsError:
            continue
        time.sleep(0.3 * number)
        os._exit(1)
    return column


def dies_always(column, rows):
    """The chunk as it is, but that of these rows ends its worker each time."""
    if column.to_list() == rows:
        os._exit(1)
    return column


def check(holds, what):
    if not holds:
        raise SystemExit(f"does not hold: {what}")


def check_deaths(column, deaths):
    """On a cluster of which so many workers die, the answers are NumPy's."""
    with tempfile.TemporaryDirectory() as folder:
        answers = found(*over_chunks(column.map_chunks(dies, folder, deaths)))
        check(len(os.listdir(folder)) == deaths, f"{deaths} workers died")
        check(answers == over_all(rows_of(numpy.arange(ROWS))), f"{deaths} workers died, and the answer is NumPy's")


def chunk_that_kills(column):
    """What is said of a chunk whose worker dies each time."""
    size = ROWS // CHUNKS
    try:
        over_chunks(column.map_chunks(dies_always, rows_of(numpy.arange(2 * size, 3 * size)).tolist()))
    except ChunkFailed as error:
        return str(error)
    return "no chunk failed"


def main():
    column = in_chunks(ROWS, CHUNKS)
    # no process is back so soon: a LocalCluster by itself gives up both workers, and no answer comes
    with dask.config.set({"distributed.deploy.lost-worker-timeout": "50ms"}), cluster_of(2) as cluster, Client(cluster):
        check_deaths(column, 2)
    with dask.config.set({"distributed.scheduler.allowed-failures": 1}), cluster_of(2) as cluster, Client(cluster):
        check_deaths(column, 1)
        named = chunk_that_kills(column)
    check(named == "chunk 2 of 4: its worker dies each time", named)
    print(f"both workers died, and one, and the answer is NumPy's; {named}")


if __name__ == "__main__":
    main()
