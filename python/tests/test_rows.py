"""A column in any form reads as its rows do: in lists, by index, in slices, as arrays, copied and pickled."""
import copy
import pickle

import numpy
import pandas
import pytest
from hivevigil import Column, errors
from hypothesis import given
from hypothesis import strategies as st
from rows import BITS, TYPES, runs_of, samples

DTYPES = {
    "u8": "uint8", "u16": "uint16", "u32": "uint32", "u64": "uint64",
    "i8": "int8", "i16": "int16", "i32": "int32", "i64": "int64", "bool": "bool",
}


@given(samples())
def test_reads_as_a_list(sample):
    column, rows = sample.column, sample.rows
    assert column.to_list() == rows and list(column) == rows and len(column) == len(rows)
    assert [type(row) for row in column] == [type(row) for row in rows]
    assert column.type.rstrip("?") == sample.type
    assert column.null_count == rows.count(None)
    assert column.nullable or None not in rows
    assert [value for value in column.decode()] == rows and column.decode().form == "flat"


@given(samples(), st.integers(-60, 60))
def test_a_row(sample, row):
    if -len(sample.rows) <= row < len(sample.rows):
        assert sample.column[row] == sample.rows[row] == sample.column.at(row) == sample.column[numpy.int64(row)]
    else:
        with pytest.raises(IndexError):
            sample.column[row]


@given(samples(), st.none() | st.integers(-60, 60), st.none() | st.integers(-60, 60), st.integers(-5, 5))
def test_a_slice(sample, start, stop, step):
    cut = slice(start, stop, step or None)
    part = sample.column[cut]
    assert part.to_list() == sample.rows[cut] and part.type.rstrip("?") == sample.type


@given(samples())
def test_runs(sample):
    fewest = runs_of(sample.rows)
    assert list(sample.column.to_runs().runs()) == fewest
    assert sample.column.to_runs().run_count() == len(fewest)
    stored = list(sample.column.runs())
    assert sample.column.run_count() == len(stored) >= len(fewest)
    assert [run.start for run in stored[1:]] == [run.stop for run in stored[:-1]]
    assert [run.value for run in stored for _ in range(run.stop - run.start)] == sample.rows


def test_more_rows_than_len_can_answer():
    rows = 2**64 - 1
    for column in (Column.from_runs([3, rows], ["a", "b"]), Column.from_runs([rows], ["b"])[:rows]):
        assert column[rows - 1] == column[-1] == "b" and column[10:12].to_list() == ["b", "b"]
        assert column[-2:].to_list() == ["b", "b"]
        assert list(column.runs())[-1][1:] == (rows, "b") and column.run_count() in (1, 2)
        assert f"{rows:,} rows" in repr(column) and f"{rows:,} rows" in column._repr_html_()
        assert pickle.loads(pickle.dumps(column))[rows - 1] == "b" and next(iter(column)) in ("a", "b")
        with pytest.raises(IndexError):
            column[rows]
        with pytest.raises(OverflowError):
            len(column)
    assert Column.from_runs([3, rows], ["a", "b"])[[rows - 1, -1, 0]].to_list() == ["b", "b", "a"]


@given(samples(), st.integers(1, 20))
def test_blocks(sample, size):
    pieces = [piece.to_list() for piece in sample.column.blocks(size)]
    assert pieces == [sample.rows[at : at + size] for at in range(0, len(sample.rows), size)]


@given(samples())
def test_copies_are_columns_of_their_own(sample):
    copies = [copy.copy(sample.column), copy.deepcopy(sample.column), sample.column.copy(), sample.column.compact()]
    copies += [pickle.loads(pickle.dumps(sample.column, protocol)) for protocol in (2, 4, 5)]
    assert {(one.type, one.form) for one in copies} == {(sample.column.type, sample.column.form)}
    sample.column.free()
    assert all(one.to_list() == sample.rows for one in copies)


def test_more_levels_of_runs_than_bytes_have_are_pickled():
    column = Column.of(["a", None])
    for _ in range(40):
        column = Column.from_runs([1, 2], column)
    with pytest.raises(errors.Unsupported) as refused:
        column.to_bytes()
    assert str(refused.value) == "to_bytes (at most 16 levels of runs) does not serve columns of utf8? (runs)"
    again, levels = pickle.loads(pickle.dumps(column)), 0
    assert again.to_list() == ["a", None]
    while again.form == "runs":
        again, levels = again.values(), levels + 1
    assert levels == 40


def test_runs_have_at_most_64_levels():
    column = Column.of([7, None])
    for _ in range(64):
        column = Column.from_runs([1, 3], column, rows=2)
    assert column.to_list() == column[:].copy().to_list() == [7, None]
    ends, record = Column.of([1, 3], "u64"), Column.from_runs([1, 3], [7, 8]).record()
    for call, again in (
        ("from_runs", lambda: Column.from_runs(ends, column, rows=2)),
        ("from_record", lambda: Column.from_record(column.type, 2, record, ends, column)),
        ("from_runs", lambda: Column.from_runs([5, 4], column)),  # before what is wrong with the ends
    ):
        with pytest.raises(errors.Unsupported) as refused:
            again()
        assert str(refused.value) == (
            f"{call} (at most 64 levels of runs) does not serve columns of u64 (flat) and of i64? (runs)"
        )
    assert column.to_list() == [7, None] and ends.to_list() == [1, 3]
    below = column.values()
    assert Column.from_record(below.type, 2, record, ends, below).to_list() == [7, None]


@given(samples(types=tuple(TYPES[:9])))
def test_numpy_of_numbers_and_truths(sample):
    items = sample.column.to_numpy()
    assert items.tolist() == sample.rows
    assert isinstance(items, numpy.ma.MaskedArray) == sample.column.nullable
    assert items.dtype.name == DTYPES[sample.type]
    null = True if sample.type == "bool" else 1
    plain = sample.column.to_numpy(null=null)
    filled = [null if row is None else row for row in sample.rows]
    assert plain.tolist() == filled and not isinstance(plain, numpy.ma.MaskedArray)
    asked, missing = numpy.asarray(sample.column).tolist(), pandas.NA if sample.type in BITS else None
    assert asked == [missing if row is None else row for row in sample.rows]
    assert Column.of(items).to_list() == sample.rows and Column.of(items).type.rstrip("?") == sample.type


@given(samples(types=tuple(TYPES[9:])))
def test_numpy_of_objects(sample):
    items = sample.column.to_numpy()
    assert items.dtype == object and items.tolist() == sample.rows == numpy.asarray(sample.column).tolist()
    assert sample.column.to_numpy(null="none").tolist() == ["none" if row is None else row for row in sample.rows]


@given(samples())
def test_bitmaps_and_numbers_of_any_form(sample):
    column, rows = sample.column, sample.rows
    valid = column.validity()
    assert [bool(valid[row // 8] >> row % 8 & 1) for row in range(len(rows))] == [row is not None for row in rows]
    if sample.type in DTYPES and sample.type != "bool":
        numbers = column.to_array()
        assert [number if row is not None else None for number, row in zip(numbers, rows)] == rows
    if sample.type == "bool":
        truths = column.truths()
        assert all(bool(truths[at // 8] >> at % 8 & 1) == row for at, row in enumerate(rows) if row is not None)


@given(samples())
def test_least_and_greatest_at_once(sample):
    present = [row.encode() if isinstance(row, str) else row for row in sample.rows if row is not None]
    wanted = (min(present), max(present)) if present else (None, None)
    found = sample.column.min_max()
    assert tuple(row.encode() if isinstance(row, str) else row for row in found) == wanted
    assert found == (sample.column.min(), sample.column.max())


def test_least_and_greatest_of_long_texts():
    long = "b" * 5000
    assert Column.of(["c", long, "a" * 70, None]).min_max() == ("a" * 70, "c")
    assert Column.of([long]).min_max() == (long, long)
