"""Columns in chunks of Dask answer as the whole column, on threads of this process; test_dask_workers.py has processes.
What does not end is ended, and fails."""
import signal

import numpy
import pandas
import pytest
from hypothesis import given
from hypothesis import strategies as st
from rows import samples

dask = pytest.importorskip("dask")
pytest.importorskip("dask.array")

import dask.array  # noqa: E402
from dask.base import tokenize  # noqa: E402
from dask.sizeof import sizeof  # noqa: E402

from hivevigil import Column, Table, errors  # noqa: E402
from hivevigil.chunks import Partial  # noqa: E402
from hivevigil.dask import Answer, ChunkedColumn  # noqa: E402

@pytest.fixture(autouse=True)
def in_time():
    def ended(*_):
        raise TimeoutError("no answer in 120 s")

    before = signal.signal(signal.SIGALRM, ended)
    signal.alarm(120)
    yield
    signal.alarm(0)
    signal.signal(signal.SIGALRM, before)


def in_chunks(data, column):
    places = sorted(data.draw(st.lists(st.integers(0, len(column)), max_size=12)))
    bounds = [0, *places, len(column)]
    return ChunkedColumn.from_columns([column.slice(start, stop) for start, stop in zip(bounds, bounds[1:])])


@given(st.data(), samples())
def test_answers_are_those_of_the_whole(data, sample):
    chunks = in_chunks(data, sample.column)
    assert chunks.aggregate().compute() == Partial.of(sample.column)
    assert chunks.rows().compute() == len(sample.rows)
    assert chunks.compute().to_list() == sample.rows == chunks.encode().persist().compute().to_list()
    assert dask.compute(chunks.min(), chunks.max()) == sample.column.min_max()


@given(st.data(), samples(types=("i64", "u8", "i32")))
def test_commands_are_those_of_the_whole(data, sample):
    chunks, column = in_chunks(data, sample.column), sample.column
    value = data.draw(st.sampled_from([0, 1, 2, 300]))
    mask, due = chunks.ge(value), column.ge(value)
    assert mask.compute().to_list() == due.to_list()
    assert chunks.filter(mask).compute().to_list() == column.filter(due).to_list()
    assert chunks.fill(1).compute().to_list() == column.fill(1).to_list()
    assert chunks.cast("i64?").compute().to_list() == column.cast("i64?").to_list()
    assert chunks.compare("==", chunks).compute().to_list() == column.eq(column).to_list()
    assert chunks.map_chunks(Column.fill, 2).filter(chunks.fill(2).lt(2)).rows().compute() == sum(
        (2 if row is None else row) < 2 for row in sample.rows
    )


@given(st.data(), samples(), st.integers(1, 5))
def test_rechunk(data, sample, runs):
    chunks = in_chunks(data, sample.column)
    again = chunks.rechunk(runs)
    parts = dask.compute(*(again.chunk(number) for number in range(again.chunk_count)))
    assert [row for part in parts for row in part] == sample.rows
    assert max(part.run_count() for part in parts) <= runs


def test_many_small_chunks_become_few():
    small = ChunkedColumn.from_columns([Column.constant(number % 7, 10, "i64") for number in range(100)])
    few = small.rechunk(40)
    assert (small.chunk_count, few.chunk_count, few.rows().compute()) == (100, 3, 1000)


def test_codes():
    names, codes = Column.of(["a", "b", None]), [Column.of([0, 1, 1]), Column.of([2, 0])]
    assert ChunkedColumn.from_columns(codes).take_from(names).compute().to_list() == ["a", "b", "b", None, "a"]


def test_files(tmp_path):
    columns = [Column.of([number, None, 7]).to_runs() for number in range(10)]
    paths = [tmp_path / f"{number}" for number in range(10)]
    for column, path in zip(columns, paths):
        column.save(path)
    chunks = ChunkedColumn.from_files(paths)
    assert chunks.sum().compute() == 45 + 70 and len(chunks.compute()) == 30
    before = chunks.__dask_keys__()
    Column.of([1000]).save(paths[3])
    assert ChunkedColumn.from_files(paths).__dask_keys__() != before
    assert ChunkedColumn.from_files(paths).sum().compute() == 45 - 3 + 63 + 1000
    paths[5].write_bytes(b"no column")
    with pytest.raises(errors.BadMetadata, match=f"load: {paths[5]}, of 9 bytes, is not a file that save wrote"):
        ChunkedColumn.from_files(paths).sum().compute()
    with pytest.raises(FileNotFoundError):
        ChunkedColumn.from_files([tmp_path / "none"])
    with pytest.raises(TypeError, match="from_files takes the names of several files, not "):
        ChunkedColumn.from_files(str(paths[0]))


def test_tables(tmp_path):
    paths = [tmp_path / f"{number}" for number in range(6)]
    for number, path in enumerate(paths):
        Table({"day": [number] * 4, "level": [number, None, 10 * number, 7], "other": ["x"] * 4}).save(path)
    levels = ChunkedColumn.from_tables(paths, "level")
    assert levels.chunk_count == 6 and levels.sum().compute() == 15 + 150 + 42
    some = ChunkedColumn.from_tables(paths, "level", where=("day", ">=", 4))
    assert some.chunk_count == 2 and some.compute().to_list() == [4, None, 40, 7, 5, None, 50, 7]
    # files 0 and 1 have no level above 10; where the footer does not say so, the rows do
    high = ChunkedColumn.from_tables(paths, "day", where=("level", ">", 10))
    assert high.chunk_count == 4 and high.compute().to_list() == [2, 3, 4, 5]
    none = ChunkedColumn.from_tables(paths, "day", where=("level", ">", 50))
    assert none.chunk_count == 1 and none.compute().to_list() == []
    assert ChunkedColumn.from_tables(paths, "level", ("level", "==", 7)).rows().compute() == 6
    paths[5].write_bytes(b"no table")
    with pytest.raises(errors.BadMetadata, match="of 8 bytes, is not a file that Table.save wrote"):
        ChunkedColumn.from_tables(paths, "level").sum().compute()
    for call, kind, said in (
        (lambda: ChunkedColumn.from_tables(str(paths[0]), "day"), TypeError, "from_tables takes the names of several "),
        (lambda: ChunkedColumn.from_tables(paths, "day", "level"), TypeError, "where is a name, an operator and a v"),
        (lambda: ChunkedColumn.from_tables(paths[:2], "day", ("x", "==", 1)), KeyError, "no column has the name 'x'"),
        (lambda: ChunkedColumn.from_tables(paths[:2], "x").compute(), KeyError, "no column has the name 'x'"),
    ):
        with pytest.raises(kind, match=said):
            call()


def test_arrays_and_delayed():
    rows = dask.array.arange(1000, chunks=100) // 7
    assert ChunkedColumn.from_array(rows).sum().compute() == rows.sum().compute()
    masked = dask.array.ma.masked_array(rows, mask=rows % 3 == 0)
    chunks = ChunkedColumn.from_array(masked)
    assert chunks.sum().compute() == masked.sum().compute()
    assert chunks.aggregate().compute().null_count == int((rows % 3 == 0).sum().compute())
    parts = [dask.delayed(numpy.arange)(5), dask.delayed(Column.of)([7, 7])]
    assert ChunkedColumn.from_delayed(parts, "i64?").compute().to_list() == [0, 1, 2, 3, 4, 7, 7]
    with pytest.raises(ValueError, match="a column has one dimension, and the array has 2"):
        ChunkedColumn.from_array(dask.array.ones((2, 2), dtype="i8"))


def test_a_series_of_dask():
    frames = pytest.importorskip("dask.dataframe")
    rows = pandas.Series([2**53 + 1, None, 4, 4], dtype="Int64")
    chunks = ChunkedColumn.from_delayed(frames.from_pandas(rows, npartitions=2).to_delayed())
    assert chunks.chunk_count == 2 and chunks.compute().to_list() == [2**53 + 1, None, 4, 4]


def test_an_aggregate_of_ones_own():
    chunks = ChunkedColumn.from_columns([Column.of([1, 2]), Column.of([None], "i64"), Column.of([3])])
    found = chunks.aggregate(Column.to_list, lambda parts: [row for part in parts for row in part])
    assert isinstance(found, Answer) and found.compute() == [1, 2, None, 3]
    assert found.then(len).compute() == 4


def test_nothing_is_done_before_it_is_asked_for():
    called = []

    def work(column):
        called.append(len(column))
        return column

    chunks = ChunkedColumn.from_columns([Column.of([1, 2]), Column.of([3])]).map_chunks(work)
    answer = chunks.sum()
    assert called == []
    assert answer.compute(scheduler="sync") == 6 and called == [2, 1]
    kept = chunks.persist(scheduler="sync")
    assert (kept.sum().compute(), kept.max().compute(), sorted(called)) == (6, 3, [1, 1, 2, 2])


def test_tasks_in_a_row_are_one():
    chunks = ChunkedColumn.from_columns([Column.of([number]) for number in range(20)])
    answer = chunks.fill(3).cast("i32").encode().sum()
    graph = answer.__dask_optimize__(answer.__dask_graph__(), answer.__dask_keys__())
    assert len(graph) <= 20 + 3 + 2  # a chunk each, then three joins, one join, the sum


def test_names_by_content_and_sizes():
    column = Column.of([1, 1, None]).to_runs()
    assert tokenize(column) == tokenize(column.copy()) != tokenize(Column.of([1, 2, None]).to_runs())
    assert tokenize(Column.of(["a"])) != tokenize(Column.of([b"a"]))
    assert sizeof(Column.of(numpy.arange(100_000))) >= 800_000
    one, other = (ChunkedColumn.from_columns([column]).fill(number) for number in (1, 2))
    assert one.__dask_keys__() == ChunkedColumn.from_columns([column.copy()]).fill(1).__dask_keys__()
    assert one.__dask_keys__() != other.__dask_keys__()


def test_a_sum_that_leaves_64_bits():
    chunks = ChunkedColumn.from_columns([Column.of([2**63 - 1]), Column.of([1, -5])])
    with pytest.raises(OverflowError, match="sum: it leaves i64 on the way from row to row"):
        chunks.sum().compute()
    assert ChunkedColumn.from_columns([Column.of([1, -5]), Column.of([2**63 - 1])]).sum().compute() == 2**63 - 5


CHUNKS = ChunkedColumn.from_columns([Column.of([1, 2]), Column.of([3, 300])])


@pytest.mark.parametrize("call, kind, said", [
    (lambda: CHUNKS.cast("i8").compute(), OverflowError,
     "chunk 1 of 2: cast to i8: row 1 is 300, which does not fit i8"),
    (lambda: CHUNKS.filter(CHUNKS.chunk(0)), ValueError, "columns of 2 and of 1 chunks do not go together"),
    (lambda: CHUNKS.filter(CHUNKS.map_chunks(lambda column: column[:1].eq(1))).compute(), ValueError,
     "chunk 0 of 2: a mask of 1 rows over a column of 2 rows"),
    (lambda: CHUNKS.filter([True]), TypeError, r"a mask of chunks is a ChunkedColumn, as column.gt\(3\) is, not "),
    (lambda: CHUNKS.cast("f64"), TypeError, "'f64' is not a type of columns"),
    (lambda: CHUNKS.chunk(2), IndexError, "chunk 2 is not among 2 chunks"),
    (lambda: CHUNKS.rechunk(0), ValueError, "a chunk has at least one run"),
    (lambda: ChunkedColumn.from_columns([]), ValueError, "a chunked column has at least one chunk"),
    (lambda: ChunkedColumn.from_columns([Column.of([1]), [2]]), TypeError, r"chunk 1 is \[2\], not a Column"),
    (lambda: ChunkedColumn.from_columns([Column.of([1]), Column.of(["a"])]).aggregate().compute(), TypeError,
     r"join: i64 \(chunk 0 of 2\) and utf8 \(chunk 1 of 2\) are two types"),
])
def test_refusals(call, kind, said):
    with pytest.raises(kind, match=said):
        call()
