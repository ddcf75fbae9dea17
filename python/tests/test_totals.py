"""Running totals at the ends of runs, and of each row, answer as itertools.accumulate over the rows has them."""
from datetime import date, timedelta
from itertools import accumulate

import pytest
from hivevigil import Column, errors
from hypothesis import given
from rows import BITS, runs_of, samples

SMALL = ("u8", "u16", "u32", "i8", "i16", "i32")  # of which no short column leaves 64 bits


def so_far(rows):
    """For each row the sum of the rows up to it that are not null, None where all of them are."""
    return list(accumulate(rows, lambda total, row: total if row is None else (total or 0) + row))


def range_of_sums(name):
    return range(2**64) if name[0] == "u" else range(-(2**63), 2**63)


def sum_type(name):
    return "u64" if name[0] == "u" else "i64"


@given(samples(types=tuple(BITS)))
def test_totals_at_ends(sample):
    column, totals = sample.column, so_far(sample.rows)
    stops = [stop for _, stop, _ in runs_of(sample.rows)]
    due = [totals[stop - 1] for stop in stops]
    past = [run for run, total in enumerate(due) if total is not None and total not in range_of_sums(sample.type)]
    if past:
        said = f"^running_totals: the total at the end of run {past[0]} does not fit {sum_type(sample.type)}$"
        with pytest.raises(errors.CastOutOfRange, match=said) as refused:
            column.running_totals()
        assert refused.value.fields == (past[0], 0, 0) and isinstance(refused.value, OverflowError)
    else:
        ends, found = column.running_totals()
        assert (ends.to_list(), found.to_list()) == (stops, due)
        assert (ends.type, found.type) == ("u8", sum_type(sample.type) + "?") and ends.form == found.form == "flat"
    assert column.to_list() == list(sample.rows)


@given(samples(types=tuple(BITS)))
def test_totals_of_rows(sample):
    column, name = sample.column, sum_type(sample.type)
    totals = so_far(sample.rows)
    past = [at for at, total in enumerate(totals) if total is not None and total not in range_of_sums(sample.type)]
    if past:
        row, before = past[0], totals[past[0] - 1] if past[0] else 0
        said = f"^cumsum: it leaves {name} at row {row}, which is {sample.rows[row]}: the rows before it make {before}$"
        with pytest.raises(OverflowError, match=said):
            column.cumsum()
        return
    found = column.cumsum()
    assert found.to_list() == [None if row is None else total for row, total in zip(sample.rows, totals)]
    assert found.type == name + "?" * column.nullable and found.form in ("flat", "runs")
    if found.form == "runs":
        assert found.run_count() == len(runs_of(found.to_list()))


@given(samples(types=SMALL))
def test_the_total_of_a_row_follows_from_those_at_ends(sample):
    column = sample.column
    ends, totals = column.running_totals()
    totals_of_rows = so_far(sample.rows)
    for total, (start, stop, value), end in zip(totals, column.to_runs().runs(), ends):
        for row in range(start, stop):
            assert totals_of_rows[row] == (total if value is None else total - (end - 1 - row) * value)


def test_many_rows():
    sevens = Column.constant(7, 2**60, "u8")
    ends, totals = sevens.running_totals()
    assert (ends.to_list(), totals.to_list(), ends.type) == ([2**60], [7 * 2**60], "u64")
    with pytest.raises(MemoryError):
        sevens.cumsum()
    zeros = Column.constant(0, 2**60, "i8")
    assert (zeros.cumsum().run_count(), zeros.cumsum()[2**60 - 1], zeros.cumsum().type) == (1, 0, "i64")
    few = Column.from_runs([2**40, 2**40 + 3, 2**41], [0, 5, 0]).cumsum()
    assert (few.form, few.run_count(), few[2**40 + 1], few[-1]) == ("runs", 4, 10, 15)


def test_nulls_are_skipped():
    column = Column.of([None, None, 4, 4, None, -3, None])
    ends, totals = column.running_totals()
    assert (ends.to_list(), totals.to_list()) == ([2, 4, 5, 6, 7], [None, 8, 8, 5, 5])
    assert column.cumsum().to_list() == [None, None, 4, 8, None, 5, None]
    assert column.fill(0).cumsum().to_list() == [0, 0, 4, 8, 8, 5, 5]
    none = Column.of([], "u16?")
    assert [part.to_list() for part in none.running_totals()] == [[], []] and none.cumsum().type == "u64?"
    assert Column.of([None] * 3, "i8?").cumsum().to_list() == [None] * 3


def test_durations():
    hour = timedelta(hours=1)
    column = Column.of([hour, hour, None, -hour])
    ends, totals = column.running_totals()
    assert (ends.to_list(), totals.to_list()) == ([2, 3, 4], [2 * hour, 2 * hour, hour])
    assert column.cumsum().to_list() == [hour, 2 * hour, None, hour]
    assert totals.logical_type == column.logical_type == column.cumsum().logical_type


@pytest.mark.parametrize("call", ["running_totals", "cumsum"])
def test_refusals(call):
    with pytest.raises(TypeError, match=f"^{call}: rows of type date have no sum; column.storage\\(\\).{call}\\(\\) is"):
        getattr(Column.of([date(2026, 11, 29)]), call)()
    with pytest.raises(errors.Unsupported, match=f"^{call} does not serve columns of type float64$"):
        getattr(Column.of([0.5]), call)()
    for rows in (["a"], [True], [b"a"]):
        with pytest.raises(errors.Unsupported) as refused:
            getattr(Column.of(rows), call)()
        assert refused.value.call == call
    with pytest.raises(errors.Unsupported):
        getattr(Column.from_lists([1], [0], [1]), call)()
    freed = Column.of([1])
    freed.free()
    with pytest.raises(errors.NoColumn):
        getattr(freed, call)()


def test_as_numpy_and_pandas_have_them():
    pandas = pytest.importorskip("pandas")
    rows = [None, 3, 3, None, 0, 0, -9, None]
    for column in (Column.of(rows), Column.of(rows).encode()):
        found = column.cumsum().to_list()
        assert found == column.to_numpy().cumsum().tolist()
        due = pandas.Series(rows, dtype="float64").cumsum()
        assert found == [None if pandas.isna(total) else total for total in due]
