"""Chunked columns and tables on two processes; test_dask_workers.py runs it, with a limit of time."""
import os
import tempfile
from pathlib import Path

import numpy
from distributed import Client, LocalCluster, futures_of, wait

from hivevigil import Column, Table
from hivevigil.chunks import Partial
from hivevigil.dask import ChunkedColumn
from hivevigil.dask_tables import ChunkedTable


def check(holds, what):
    if not holds:
        raise SystemExit(f"does not hold: {what}")


def dies_once(table, folder):
    """The chunk as it is, but the first worker that begins ends its process."""
    try:
        os.close(os.open(Path(folder) / "died", os.O_CREAT | os.O_EXCL))
    except FileExistsError:
        return table
    os._exit(1)


def check_tables(folder):
    """A table over files, of which most are left out; groups that go on from file to file; a worker that dies."""
    parts = [Table({"key": [part // 4] * 1000, "level": Column.of([part, None] * 500)}) for part in range(12)]
    paths = [Path(folder) / f"{part}.hv" for part in range(12)]
    for part, path in zip(parts, paths):
        part.to_runs().save(path)
    table = ChunkedTable.from_files(paths)
    due = [part for part in range(12) if part >= 9]
    high = table.filter_by("level", ">=", 9)
    check((high.skipped, high["level"].sum().compute()) == (9, 500 * sum(due)), "files are left out")
    groups = table.group_by("key").agg(rows="size", level=("level", "sum"), most=("level", "max"))
    sums = [500 * sum(range(4 * key, 4 * key + 4)) for key in range(3)]
    answers = {"key": [0, 1, 2], "rows": [4000] * 3, "level": sums, "most": [3, 7, 11]}
    check(groups.compute().to_dict() == answers, "groups go on from file to file")
    kept = table.map_chunks(dies_once, folder).persist()
    wait(kept)
    check((Path(folder) / "died").exists(), "a worker died")
    check(kept.group_by("key").agg(rows="size", level=("level", "sum"), most=("level", "max")).compute().to_dict()
          == answers, "after a worker died")
    check(kept.rechunk(10_000).persist().compute().rows == 12_000, "tables are joined on workers")


def main():
    rows = [None if row % 211 < 3 else row // 29 * 37 % 101 - 20 for row in range(50_000)]
    column = Column.of(rows)
    with tempfile.TemporaryDirectory() as folder, LocalCluster(
        n_workers=2, threads_per_worker=2, host="127.0.0.1", dashboard_address=None
    ) as cluster, Client(cluster) as client:
        paths = [Path(folder) / str(number) for number in range(20)]
        for part, path in zip(column.split(20), paths):
            part.to_runs().save(path)
        chunks = ChunkedColumn.from_files(paths)
        check(chunks.aggregate().compute() == Partial.of(column), "the answers are those of the whole column")
        kept = chunks.filter(chunks.gt(40)).persist()
        wait(kept)
        for path in paths:
            path.unlink()
        check(len(futures_of(kept)) == 20, "the chunks are on the cluster")
        check(kept.sum().compute() == column[column.gt(40)].sum(), "persisted chunks answer, without their files")
        check(kept.compute().to_list() == [row for row in rows if row is not None and row > 40], "all rows are there")
        few = kept.rechunk(300).persist()
        check(few.aggregate().compute() == kept.aggregate().compute() and few.chunk_count < 10, "rechunked rows stay")
        check(client.compute(kept.max()).result() == column.max(), "the client takes an answer")
        made = client.map(numpy.arange, range(10, 15), pure=False)
        check(ChunkedColumn.from_delayed(made).rows().compute() == 60, "futures are chunks")
        pids = set(client.run(os.getpid).values())
        check(len(pids) == 2 and os.getpid() not in pids, "workers are processes of their own")
        try:
            ChunkedColumn.from_columns([Column.of([1]), Column.of([300])]).cast("i8").compute()
            check(False, "a row does not fit")
        except OverflowError as error:
            check("chunk 1 of 2: cast to i8: row 0 is 300" in str(error), str(error))
        del chunks, kept, few, made
        check_tables(folder)
    print("all hold")


if __name__ == "__main__":
    main()
