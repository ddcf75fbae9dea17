"""Columns of lists against lists of Python, in each form, through Arrow and refused; bytes worked out by hand."""
import copy
import pickle

import pytest
from hivevigil import Column, concat, errors
from hypothesis import given
from hypothesis import strategies as st

ITEMS = [10, 20, None, 40, 50]
spans = st.lists(st.tuples(st.integers(0, 5), st.integers(0, 5), st.booleans()), max_size=12)


def within(span):
    """A span that lies within the items, or that of a null row, which may lie anywhere."""
    start, size, valid = span
    return (start, min(size, len(ITEMS) - start), True) if valid else (start * 1000, size, False)


@given(spans)
def test_rows_of_lists(given_spans):
    parts = [within(span) for span in given_spans]
    starts, sizes, flags = ([part[at] for part in parts] for at in range(3))
    column = Column.from_lists(ITEMS, starts, sizes, flags)
    rows = [ITEMS[start : start + size] if valid else None for start, size, valid in parts]
    assert (column.form, column.type, len(column)) == ("lists", "list?", len(rows))
    assert column.to_list() == rows and column.null_count == rows.count(None)
    assert column[::-1].to_list() == rows[::-1] and column[1:].to_list() == rows[1:]
    assert Column.from_arrow(column).to_list() == rows
    kept_as_bytes(column, rows)
    if rows:
        runs = Column.from_runs([2 * (run + 1) for run in range(len(rows))], column)
        twice = [row for row in rows for _ in range(2)]
        assert runs.form == "runs" and runs.to_list() == twice
        assert runs[-1] == rows[-1] and Column.from_arrow(runs).to_list() == twice
        kept_as_bytes(runs, twice)
        kept_as_bytes(runs.decode(), twice)


def kept_as_bytes(column, rows):
    """By to_bytes, pickle and copy: the same form with the same rows."""
    message = column.to_bytes()
    again = Column.from_bytes(message)
    assert again.to_bytes() == message
    for one in (again, pickle.loads(pickle.dumps(column)), copy.deepcopy(column)):
        assert (one.form, one.type, one.to_list()) == (column.form, column.type, rows)
    for kept in (0, len(message) // 2, len(message) - 1):
        with pytest.raises(errors.BadMetadata):
            Column.from_bytes(message[:kept])


def test_bytes_of_lists():
    """The message, byte by byte: [1 2] and null from item 9 on, over items of i8, with a bit for each list."""
    column = Column.from_lists(Column.of([1, 2], "i8"), [0, 9], [2, 5], [True, False])
    elements = bytes([8, 1, 16, 5, 24, 1, 32, 2, 40, 1, 58, 2, 1, 2])
    numbers = bytes([8, 1, 16, 4, 24, 1, 32, 2, 40, 1, 58, 16])
    offsets, sizes = (numbers + b"".join(number.to_bytes(8, "little") for number in two) for two in ((0, 9), (2, 5)))
    parts = b"\x8a\1\x0e" + elements + b"\x92\1\x1c" + offsets + b"\x9a\1\x1c" + sizes
    assert column.to_bytes() == bytes([8, 1, 16, 13, 24, 4, 32, 2, 40, 4, 50, 1, 1]) + parts
    # the same elements where no list may be null: the second leaves them
    with pytest.raises(errors.BadMetadata):
        Column.from_bytes(bytes([8, 1, 16, 13, 24, 4, 32, 2, 40, 1]) + parts)


def test_bytes_of_null_lists():
    """Rows that no index names are a constant, null: its message, byte by byte, has the type of the elements."""
    lists = Column.from_lists(Column.of([1, 2], "i8"), [0], [2])
    nulls = Column.from_runs([1], lists).take([None, None])
    assert (nulls.form, nulls.type) == ("constant", "list?")
    assert nulls.to_bytes() == bytes([8, 1, 16, 13, 24, 3, 32, 2, 40, 3, 58, 0, 160, 1, 5, 168, 1, 1])
    kept_as_bytes(nulls, [None, None])
    kept_as_bytes(Column.from_runs([3, 5], nulls), [None] * 5)
    large = [8, 1, 16, 13, 24, 3, 32, *[128] * 8, 16, 40, 3, 58, 0, 160, 1, 6, 168, 1, 2]  # 2^60 rows
    column = Column.from_bytes(bytes(large))
    assert len(column) == 2**60 and column[2**59] is None and column[:2].to_list() == [None, None]
    for wrong in (13, 0):  # lists of lists, and no type
        large[-4] = wrong
        with pytest.raises(errors.BadMetadata):
            Column.from_bytes(bytes(large))


def test_each_row_is_a_list_of_its_own():
    rows = Column.from_runs([2], Column.from_lists([1, 2], [0], [2])).to_list()
    rows[0].append(3)
    assert rows == [[1, 2, 3], [1, 2]]


def test_lists_that_are_refused():
    with pytest.raises(errors.OutOfBounds) as refused:
        Column.from_lists(ITEMS, [0, 3], [2, 3])
    assert refused.value.fields[:2] == (1, 5)
    with pytest.raises(errors.Unsupported):
        Column.from_lists(Column.from_lists(ITEMS, [0], [2]), [0], [1])
    with pytest.raises(errors.ColumnLength):
        Column.from_lists(ITEMS, [0, 1], [2])


def test_bytes():
    assert Column.of(range(1000), "i32").nbytes == 4000
    assert Column.of([7] * 1000, "i32").encode().nbytes == 2 + 4  # an end of 16 bits and a value
    assert Column.of(["abc", None, "de"]).nbytes == 3 * 24 + 5 + 1
    assert Column.of(["abc", None, "de"])[1:].nbytes == 2 * 24 + 2 + 1
    assert Column.of([True] * 17).nbytes == 3
    assert Column.constant("abcd", 10**9).nbytes == 4
    assert Column.from_lists([1, 2], [0, 1], [2, 1]).nbytes == 2 * 8 + 2 * (8 + 8)


def test_lists_one_after_the_other():
    first = Column.from_lists([1, 2], [1, 0], [1, 2])
    second = Column.from_lists([3, None], [0, 0], [2, 0], [True, False])
    assert concat([first, second, first]).to_list() == [[2], [1, 2], [3, None], None, [2], [1, 2]]
    assert concat([first, second]).type == "list?" and concat([first]).to_list() == first.to_list()
    with pytest.raises(errors.TypeMismatch) as refused:
        concat([first, Column.from_lists(["a"], [0], [1])])
    assert str(refused.value) == "concat: the elements are of two types; columns of one type are joined"
