"""One column that several threads read at once answers each as it answers one by itself."""
import sys
import threading
import time
from concurrent.futures import ThreadPoolExecutor
from itertools import repeat

import pytest
from hypothesis import given
from hypothesis import strategies as st
from rows import samples
from tables import tables

from hivevigil import Column, Table, _library, concat, errors
from hivevigil._calls import CALLS
from hivevigil.chunks import Partial, joined

ROWS = [None if row % 211 < 3 else row // 29 * 37 % 101 - 20 for row in range(200_000)]
FORMS = {"flat": Column.of(ROWS), "runs": Column.of(ROWS).to_runs(), "window": Column.of([9, *ROWS, 9]).to_runs()[1:-1]}
TEXTS = Column.of([None if row is None else f"row {row}" for row in ROWS])


def asked(column, number):
    """What a thread asks of a column that all have."""
    mask, part = column.gt(40), column[number * 1000 :]
    return (
        column.sum(), column.min_max(), column.null_count, column.is_sorted(), mask.to_bytes(),
        column.filter(mask).to_bytes(), column.take([number, -1, 3]).to_list(), part.sum(), part.to_runs().to_bytes(),
        column.cast("i8?").to_bytes(), column.fill(0).sum(), column.decode().to_bytes(), column[number],
        column.compact().sum(), concat([part, column]).sum(),
    )


@pytest.mark.parametrize("form", FORMS)
def test_a_pool_over_one_column(form):
    column = FORMS[form]
    due = [asked(column, number) for number in range(4)]
    with ThreadPoolExecutor(8) as pool:
        found = list(pool.map(asked, repeat(column), [number % 4 for number in range(32)]))
    assert found == due * 8


def test_a_pool_over_texts():
    due = TEXTS.to_runs().to_bytes(), TEXTS.filter(TEXTS.eq("row 7")).to_list(), TEXTS.min_max(), TEXTS.to_list()

    def work(_):
        return TEXTS.to_runs().to_bytes(), TEXTS.filter(TEXTS.eq("row 7")).to_list(), TEXTS.min_max(), TEXTS.to_list()

    with ThreadPoolExecutor(4) as pool:
        assert list(pool.map(work, range(8))) == [due] * 8


def test_a_pool_over_lists():
    count = 20_000
    lists = Column.from_lists(Column.of(list(range(count))), range(count), [1] * count)

    def work(number):
        part = lists[number:]
        return part.take([0, -1]).to_list(), part.filter([True] + [False] * (count - number - 1)).to_list()

    with ThreadPoolExecutor(4) as pool:
        found = list(pool.map(work, range(32)))
    assert found == [([[number], [count - 1]], [[number]]) for number in range(32)]


def of_a_table(table, number):
    """What a thread asks of a table that all have."""
    at = Column.of(array_of(table.rows)).gt(number)
    found = (
        table.filter(at), table.take([number, -1, 3]), table.append(table), table.drop_null(), table.slice(number, table.rows),
        table.sort(["a", "b"], [True, False], ["last", "first"]), table.select("b"), table.rename({"a": "c"}),
    )
    return [each.to_bytes() for each in found], table["a"].null_count, table.names, table.rows


@pytest.mark.parametrize("form", FORMS)
def test_a_pool_over_one_table(form):
    table = Table({"a": FORMS[form][:20_000], "b": TEXTS[:20_000]})
    due = [of_a_table(table.slice(0, table.rows), number) for number in range(2)]
    with ThreadPoolExecutor(4) as pool:
        assert list(pool.map(of_a_table, repeat(table), [number % 2 for number in range(8)])) == due * 4


def test_a_pool_over_a_table_with_lists():
    count = 20_000
    lists = Column.from_lists(Column.of(list(range(count))), range(count), [1] * count)
    table = Table({"a": lists, "b": list(range(count))})

    def work(number):
        return table.filter(table["b"].eq(number)).to_dict(), table.sort("b", True).row(number)

    with ThreadPoolExecutor(4) as pool:
        found = list(pool.map(work, range(32)))
    assert found == [({"a": [[at]], "b": [at]}, {"a": [count - 1 - at], "b": count - 1 - at}) for at in range(32)]


def test_a_column_that_is_freed_while_others_read_it():
    due, found = FORMS["runs"].sum(), []

    def work(column):
        try:
            while True:
                found.append(column.sum() == due)
        except errors.NoColumn:
            found.append(True)

    for _ in range(20):
        column = FORMS["runs"].copy()
        threads = [threading.Thread(target=work, args=(column,)) for _ in range(4)]
        for thread in threads:
            thread.start()
        column.free()
        for thread in threads:
            thread.join(60)
    assert len(found) >= 80 and all(found)


def shares_in_time(call, times=20):
    """In how many tenths of the time that a call takes another thread worked, each time."""
    ticks, over, found = [], threading.Event(), []

    def tick():
        while not over.is_set():
            ticks.append(time.perf_counter())
            time.sleep(0.0002)

    ticker = threading.Thread(target=tick)
    ticker.start()
    try:
        for _ in range(times):
            begin = time.perf_counter()
            call()
            end = time.perf_counter()
            found.append(len({int(10 * (at - begin) / (end - begin)) for at in ticks if begin <= at < end}))
    finally:
        over.set()
        ticker.join(60)
    return found


def test_others_work_while_a_long_call_runs():
    column = Column.of(array_of(10_000_000))
    assert max(shares_in_time(column.to_runs)) >= 7
    table = Table({"a": column[:3_000_000]})
    assert max(shares_in_time(lambda: table.append(table), 5)) >= 7
    many, _library._MANY = _library._MANY, 2**70  # as it was with the lock
    try:
        assert min(shares_in_time(column.to_runs, 5)) <= 4
    finally:
        _library._MANY = many


def array_of(rows):
    import numpy

    return numpy.arange(rows) // 3


@given(st.data(), samples())
def test_without_the_lock_calls_answer_as_with_it(data, sample):
    """Short columns too, for which calls keep the lock."""
    column = sample.column
    at = data.draw(st.integers(0, len(sample.rows)))

    def answers():
        part = column[at:]
        return (
            column.to_list(), part.to_list(), column.to_runs().to_bytes(), column.min_max(), column.null_count,
            part.compact().to_list(), column.eq(column).to_list(), column.take([0] * min(1, len(column))).to_list(),
            column.filter([True] * len(column)).to_list(), column.is_constant(), column.is_sorted(), column.to_bytes(),
            Column.from_bytes(column.to_bytes()).to_list(), list(part.runs()),
        )

    due, many = answers(), _library._MANY
    _library._MANY = 0
    try:
        assert answers() == due
    finally:
        _library._MANY = many


def test_calls_that_release_the_lock_exist():
    assert _library._LONG <= set(CALLS)
    assert not _library._LONG & {name for name in CALLS if name.startswith(("hv_builder", "hv_append", "hv_list"))}


@pytest.mark.parametrize("column, size", [
    (Column.of(array_of(30_000)), 30_000), (Column.of(array_of(30_000)).to_runs(), 10_000),
    (Column.constant(4, 2**60), 1), (Column.from_runs([2**60], [4]), 1), (Column.of([1, 2]), 2),
])
def test_the_size_of_a_call_is_that_of_its_work(column, size):
    assert _library._size(column, False) == size and _library._size(column, True) == len(column)


@given(st.data(), tables())
def test_without_the_lock_tables_answer_as_with_it(data, sample):
    table, names = sample.table, sample.names
    flags = data.draw(st.lists(st.booleans(), min_size=sample.count, max_size=sample.count))

    def answers():
        found = [table.filter(flags), table.take([0] * min(1, sample.count)), table.append(table), table.drop_null()]
        return [each.to_dict() for each in [*found, *([table.sort(names)] if names else [])]]

    due, many = answers(), _library._MANY
    _library._MANY = 0
    try:
        assert answers() == due
        with pytest.raises(errors.MaskLength, match=f"a mask of {sample.count + 1} rows over a column of {sample.count} "):
            table.filter([*flags, True])
        with pytest.raises(errors.OutOfBounds):
            table.take([sample.count])
    finally:
        _library._MANY = many


def test_refusals_without_the_lock():
    many, rows = _library._MANY, Column.of([300, 1])
    freed = Column.of([1])
    freed.free()
    _library._MANY = 0
    try:
        with pytest.raises(OverflowError, match="cast to i8: row 0 is 300, which does not fit i8"):
            rows.cast("i8")
        with pytest.raises(errors.NoColumn):
            freed.sum()
        with pytest.raises(errors.NoColumn):
            rows.take(freed)
        with pytest.raises(errors.MaskLength, match="a mask of 1 rows over a column of 2 rows"):
            rows.filter([True])
    finally:
        _library._MANY = many


# ---- Windows ----


@given(samples(), st.integers(1, 9), st.sampled_from(["rows", "runs"]))
def test_split(sample, parts, by):
    windows = sample.column.split(parts, by)
    assert len(windows) == parts and [row for window in windows for row in window] == sample.rows
    counts = [len(window) if by == "rows" else window.to_runs().run_count() for window in windows]
    if by == "rows":
        assert max(counts) - min(counts) <= 1


def test_split_by_runs():
    column = Column.from_runs([1000, 1001, 1002, 1003], [7, 8, 9, 8])
    assert [len(window) for window in column.split(2)] == [501, 502]
    assert [list(window.runs()) for window in column.split(2, by="runs")] == [
        [(0, 1000, 7), (1000, 1001, 8)], [(0, 1, 9), (1, 2, 8)],
    ]
    assert [len(window) for window in Column.constant(1, 9).split(2, by="runs")] == [4, 5]


def test_windows_share_buffers():
    column = Column.of(array_of(2_000_000))
    windows = column.split(1000)
    assert sum(window.nbytes for window in windows) == column.nbytes
    assert sys.getsizeof(windows) < 20_000


def test_a_pool_over_windows():
    column = FORMS["runs"]
    with ThreadPoolExecutor(4) as pool:
        assert joined(pool.map(Partial.of, column.split(16, by="runs"))) == Partial.of(column)


@pytest.mark.parametrize(
    "parts, by, kind, said",
    [
        (0, "rows", ValueError, "a column is split into at least one part"),
        (-1, "rows", ValueError, "the number of parts is negative: -1"),
        (2.5, "rows", TypeError, "the number of parts is an integer, not 2.5"),
        (2, "pages", ValueError, "a column is split by 'rows' or by 'runs', not by 'pages'"),
    ],
)
def test_refusals_of_split(parts, by, kind, said):
    with pytest.raises(kind, match=said):
        FORMS["runs"].split(parts, by)
