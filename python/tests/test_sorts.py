"""Rows sorted, reversed and counted answer as Python's own lists."""
import datetime
import math

import pytest
from hivevigil import Column, errors
from hypothesis import given
from rows import samples


def in_order(rows):
    """None first, then by value: texts by the bytes of their UTF-8."""
    key = lambda row: row.encode() if isinstance(row, str) else row
    return [row for row in rows if row is None] + sorted((row for row in rows if row is not None), key=key)


def runs_in(rows):
    return sum(at == 0 or row != rows[at - 1] for at, row in enumerate(rows))


@given(samples())
def test_orders(sample):
    column, rows = sample.column, list(sample.rows)
    for made, due in ((column.sort(), in_order(rows)), (column.reverse(), rows[::-1])):
        assert made.to_list() == due and made.type == column.type
        assert made.form == ("constant" if column.form == "constant" else "runs")
        if made.form == "runs":
            assert made.run_count() == runs_in(due)
    assert column.sort().is_sorted() and column.to_list() == rows
    assert column[::-1].to_list() == rows[::-1] and column[-2:0:-1].to_list() == rows[-2:0:-1]


def test_a_slice_backwards_keeps_its_form():
    flat = Column.of([4, 4, 9])
    runs, constant = flat.to_runs(), Column.constant(7, 2**60, "u8")
    assert (flat[::-1].form, runs[::-1].form, constant[::-1].form) == ("flat", "runs", "constant")
    assert len(constant[::-1]) == 2**60 and runs[::-1].to_list() == [9, 4, 4]
    assert runs[5:2:-1].to_list() == [] == flat[0:2:-1].to_list()


def test_lists_have_no_order():
    lists = Column.from_lists([4, 5], [0, 1], [1, 1])
    for refused in (lists.sort, lists.reverse):
        with pytest.raises(errors.Unsupported):
            refused()


def test_counts_in_order():
    values, counts = Column.of([9, None, 4, 9]).sort().value_counts()
    assert (values.to_list(), counts.to_list()) == ([None, 4, 9], [1, 1, 2])


def test_counts_in_the_order_of_first_rows():
    rows = [5, 5, None, *([1, 2] * 3000), 0]
    due = [5, None, 1, 2, 0]
    for column in (Column.of(rows), Column.of(rows).encode(), Column.of([9, *rows, 9]).encode()[1:-1]):
        values, counts = column.value_counts()
        assert values.to_list() == due == column.unique().to_list() and counts.to_list() == [2, 1, 3000, 3000, 1]
        assert (values.type, counts.type) == ("i64?", "u64")
    assert [part.to_list() for part in Column.of([], "utf8").value_counts()] == [[], []]


def test_counts_of_numbers_far_apart():
    rows = [row for row in (-(2**63), 2**63 - 1, 0, None, 7) for _ in range(3)] * 20
    for column in (Column.of(rows), Column.of(rows).encode()):
        assert column.sort().to_list() == in_order(rows)
        assert [part.to_list() for part in column.value_counts()] == [[-(2**63), 2**63 - 1, 0, None, 7], [60] * 5]


def test_floats_and_dates_keep_their_type():
    floats = Column.of([1.5, None, math.inf, 0.0, -0.0, -2.5, -math.inf])
    assert floats.sort().to_list() == [None, -math.inf, -2.5, -0.0, 0.0, 1.5, math.inf]
    assert [math.copysign(1, row) for row in floats.sort().to_list()[3:5]] == [-1, 1]
    assert floats.reverse().to_list() == floats.to_list()[::-1]
    days = [datetime.date(2020, 2, 29), None, datetime.date(1969, 12, 31), datetime.date(2020, 2, 29)]
    assert Column.of(days).sort().to_list() == [None, days[2], days[0], days[0]]
