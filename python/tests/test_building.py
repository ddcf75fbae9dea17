"""Encodings of columns of every type, and builders, against lists of Python."""
from decimal import Decimal
from itertools import groupby

import pandas
import pytest
from hivevigil import Builder, Column, errors
from hypothesis import given
from hypothesis import strategies as st

TYPES = {
    "i8?": st.none() | st.integers(-2, 1),
    "u64": st.integers(2**64 - 3, 2**64 - 1),
    "bool?": st.none() | st.booleans(),
    "decimal(5, 2)": st.sampled_from([Decimal("1.50"), Decimal("-1.50"), Decimal(0)]),
    "utf8?": st.sampled_from([None, "", "oak", "elm", "Ünder"]),
    "binary": st.sampled_from([b"", b"\0", b"\xff\xfe"]),
}


@st.composite
def batches(draw):
    """A type, and batches of rows of it."""
    type_of_rows = draw(st.sampled_from(sorted(TYPES)))
    return type_of_rows, draw(st.lists(st.lists(TYPES[type_of_rows], max_size=6), max_size=6))


def runs_of(rows):
    """The rows in as few runs as there can be: where each ends, and its value."""
    stop, runs = 0, []
    for value, group in groupby(rows):
        stop += len(list(group))
        runs.append((stop, value))
    return runs


def check_encoding(column, rows):
    found = [(run.stop, run.value) for run in column.runs()]
    assert (column.form, column.to_list(), found) == ("runs", rows, runs_of(rows))
    assert column.run_count() == len(found)


def in_form(column, form):
    """The same rows in another form, a window of hidden ones around."""
    return column if form == 0 else column.to_runs() if form == 1 else column[[0] + list(range(len(column)))][1:]


@given(batches(), st.data())
def test_batches(typed, data):
    type_of_rows, parts = typed
    builder, rows = Builder(type_of_rows), []
    for part in parts:
        if part and data.draw(st.booleans()):
            count = data.draw(st.integers(0, 3))
            builder.append_value(part[0], count)
            rows += part[:1] * count
        column = Column.of(part, type_of_rows)
        builder.append(in_form(column, data.draw(st.integers(0, 2))) if part else column)
        rows += part
        assert (len(builder), builder.runs) == (len(rows), len(runs_of(rows)))
    encoding = builder.encoding()
    check_encoding(encoding, rows)
    check_encoding(Column.of(rows, type_of_rows).to_runs(), rows)
    assert encoding.type == builder.type == type_of_rows
    finished = builder.finish()
    assert (builder.rows, builder.runs, builder.type) == (0, 0, type_of_rows)
    assert finished.to_bytes() == encoding.to_bytes()
    for part in reversed(parts):
        builder.append(Column.of(part, type_of_rows))
    check_encoding(builder.finish(), [row for part in reversed(parts) for row in part])
    check_encoding(finished, rows)


def test_a_finished_builder_begins_anew():
    builder = Builder("i64?")
    builder.append([7, 7, None])
    first = builder.finish()
    assert (len(builder), builder.runs, repr(builder)) == (0, 0, "<Builder i64?: 0 rows in 0 runs>")
    check_encoding(builder.finish(), [])
    builder.append_value(None, 2)
    builder.append([4])
    check_encoding(builder.finish(), [None, None, 4])
    del builder
    check_encoding(first, [7, 7, None])


def test_many_rows_take_no_memory():
    builder = Builder("i64")
    builder.append_value(7, 2**40)
    builder.append(Column.constant(7, 2**41))
    builder.append_value(8, 2**40)
    assert (builder.rows, builder.runs, builder.encoding()[-1]) == (2**42, 2, 8)
    assert repr(builder) == "<Builder i64: 4398046511104 rows in 2 runs>"
    assert Column.constant("oak", 2**60).to_runs().nbytes < 64


def test_refused_batches_change_nothing():
    builder = Builder("i32")
    builder.append([1, 1, 2])
    with pytest.raises(errors.TypeMismatch) as refused:
        builder.append(Column.of([1, None], "i32?"))
    assert str(refused.value) == "append: columns of i32 (builder) and of i32? (flat) do not go together"
    due = [
        (lambda: builder.append([None]), "append: row 0 is null, and i32 has no null; 'i32?' has"),
        (lambda: builder.append(pandas.Series([1, None], dtype="Int64")), "append: row 1 is null"),
        (lambda: builder.append_value(None), "append_value: the value is null, and i32 has no null"),
    ]
    for call, said in due:
        with pytest.raises(errors.NullNotAllowed) as refused:
            call()
        assert str(refused.value).startswith(said)
    with pytest.raises(OverflowError):
        builder.append_value(2**31)
    with pytest.raises(errors.WindowOverflow, match="all rows together, are 2\\*\\*64 or more"):
        builder.append_value(2, 2**64 - 3)
    check_encoding(builder.encoding(), [1, 1, 2])
    builder.append(pandas.Series([2, 3], dtype="Int32"))  # a type with null, and no row is null
    check_encoding(builder.encoding(), [1, 1, 2, 2, 3])
    with pytest.raises(errors.Unsupported):
        Column.from_lists([1, 2], [0, 1], [1, 1]).to_runs()
