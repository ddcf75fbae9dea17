"""Columns of 2^40 rows in a few runs: what they are asked takes a step for each run, and no row is written or read.
Each answer is held against the stretches of equal rows."""
import operator
from decimal import Decimal

import pytest
from hivevigil import Column, Table, concat
from hypothesis import given
from hypothesis import strategies as st
from long_rows import FAR, SIGNS, beside, held, joined, kept, longs, masks, nothing_or, parts_of, totals, worked
from rows import BITS, values

LONG_FORMS = ("runs", "constant")


@given(st.data(), totals(), st.sampled_from(list(SIGNS)))
def test_rows_are_compared_with_a_value_and_kept(data, total, sign):
    sample = data.draw(longs(total))
    value = data.draw(st.sampled_from([value for _, value in sample.parts] + [None]))
    mask = sample.column.compare(sign, value)
    due = worked(lambda row: held(sign)(row, value), sample.parts)
    assert mask.form in LONG_FORMS and parts_of(mask) == due
    found = sample.column[mask]
    assert parts_of(found) == kept(sample.parts, due) and len(found) == sum(rows for rows, flag in due if flag)
    table = Table({"asked": sample.column, "row": mask})
    chosen = table.filter_by("asked", sign, value)
    assert parts_of(chosen["asked"]) == parts_of(found)
    assert parts_of(chosen["row"]) == kept(due, due)


@given(st.data(), totals(), st.sampled_from(list(SIGNS)), st.sampled_from([0, 300, -1, 2**70, Decimal("0.5")]))
def test_numbers_of_other_types_have_a_place(data, total, sign, number):
    sample = data.draw(longs(total, types=(*BITS, "decimal(20, 3)", "float64")))
    mask = sample.column.compare(sign, number)
    assert mask.form in LONG_FORMS and parts_of(mask) == worked(lambda row: held(sign)(row, number), sample.parts)


@given(st.data(), totals(), st.sampled_from(list(SIGNS)))
def test_two_columns_are_compared(data, total, sign):
    left = data.draw(longs(total))
    right = data.draw(longs(total, types=(left.type,)))
    mask = left.column.compare(sign, right.column)
    assert mask.form in LONG_FORMS and parts_of(mask) == worked(held(sign), left.parts, right.parts)


@given(st.data(), totals())
def test_masks_keep_rows_of_columns_and_tables(data, total):
    sample, other, mask = data.draw(longs(total)), data.draw(longs(total)), data.draw(masks(total))
    due = kept(sample.parts, mask.parts)
    assert parts_of(sample.column.filter(mask.column)) == due
    table = Table({"a": sample.column, "b": other.column}).filter(mask.column)
    assert parts_of(table["a"]) == due and parts_of(table["b"]) == kept(other.parts, mask.parts)


@given(st.data(), totals())
def test_rows_that_are_null(data, total):
    sample, other = data.draw(longs(total)), data.draw(longs(total))
    missing = worked(lambda row: row is None, sample.parts)
    assert parts_of(sample.column.is_null()) == missing
    assert sample.column.null_count == sum(rows for rows, is_null in missing if is_null)
    assert parts_of(sample.column.drop_null()) == joined(part for part in sample.parts if part[1] is not None)
    table = Table({"a": sample.column, "b": other.column})
    there = worked(lambda left, right: left is not None and right is not None, sample.parts, other.parts)
    for found, flags in (
        (table.drop_null(), there),
        (table.drop_null("b"), worked(lambda row: row is not None, other.parts)),
    ):
        assert parts_of(found["a"]) == kept(sample.parts, flags) and parts_of(found["b"]) == kept(other.parts, flags)


@given(st.data(), totals())
def test_conditions_are_connected(data, total):
    left, right = data.draw(masks(total)), data.draw(masks(total))
    either = worked(lambda a, b: True if True in (a, b) else None if None in (a, b) else False, left.parts, right.parts)
    both = worked(lambda a, b: False if False in (a, b) else None if None in (a, b) else True, left.parts, right.parts)
    assert parts_of(left.column | right.column) == either and parts_of(left.column & right.column) == both
    assert parts_of(~left.column) == worked(nothing_or(operator.not_), left.parts)
    assert left.column.any() == (any(flag for _, flag in left.parts))


@given(st.data(), totals())
def test_rows_are_replaced(data, total):
    sample, mask = data.draw(longs(total)), data.draw(masks(total))
    other = data.draw(longs(total, types=(sample.type,)))
    found = sample.column.where(mask.column, other.column)
    due = worked(lambda flag, row, beside: row if flag is True else beside, mask.parts, sample.parts, other.parts)
    assert parts_of(found) == due
    fill = data.draw(values(sample.type)) if sample.type != "float64" else 0.25
    filled = worked(lambda row: fill if row is None else row, sample.parts)
    assert parts_of(sample.column.fill(fill)) == filled
    among = [value for _, value in sample.parts[:2] if value == value]
    assert parts_of(sample.column.isin(among)) == worked(lambda row: row in among, sample.parts)


@given(st.data(), totals())
def test_rows_are_cut_and_joined(data, total):
    sample = data.draw(longs(total))
    places = st.integers(0, total) | st.integers(0, 130) | st.integers(total - 130, total)
    start, stop = sorted([data.draw(places), data.draw(places)])
    cut = joined([(start, False), (stop - start, True), (total - stop, False)])
    window = sample.column.slice(start, stop)
    assert parts_of(window) == kept(sample.parts, cut)
    due = joined([*kept(sample.parts, cut), *sample.parts])
    assert parts_of(concat([window, sample.column])) == due
    assert parts_of(Table({"a": window}).append(Table({"a": sample.column}))["a"]) == due
    few = data.draw(st.lists(st.none() | values(sample.type) if sample.type != "float64" else st.none(), max_size=30))
    flat = Column.of(few, f"{sample.type}?")
    assert parts_of(concat([sample.column, flat])) == joined([*sample.parts, *((1, row) for row in few)])
    assert parts_of(concat([flat, sample.column])) == joined([*((1, row) for row in few), *sample.parts])


@given(st.data(), totals())
def test_rows_in_order(data, total):
    sample = data.draw(longs(total, types=(*BITS, "bool", "utf8", "binary", "decimal(20, 3)")))
    ordered = sorted((part for part in sample.parts if part[1] is not None), key=lambda part: _key(part[1]))
    nulls = [part for part in sample.parts if part[1] is None]
    assert parts_of(sample.column.sort()) == joined([*nulls, *ordered])
    assert parts_of(sample.column.reverse()) == joined(reversed(sample.parts))
    found, counts = sample.column.value_counts()
    due = [(value, rows) for rows, value in joined([*nulls, *ordered])]
    assert sorted(zip(found, counts), key=repr) == sorted(due, key=repr)
    assert parts_of(Table({"a": sample.column}).sort("a")["a"]) == joined([*nulls, *ordered])


def _key(value):
    return b"" if value is None else value.encode() if isinstance(value, str) else value


@given(st.data(), totals())
def test_rows_are_added_and_grouped(data, total):
    keys, sample = data.draw(longs(total, types=("bool", "utf8", "i32"))), data.draw(longs(total, types=("u8", "i16")))
    assert sample.column.sum() == sum(rows * value for rows, value in sample.parts if value is not None)
    groups = joined((rows, key) for rows, (key, _) in beside(keys.parts, sample.parts))
    marks = joined((rows, number) for number, (rows, _) in enumerate(groups))
    due = [0] * len(groups)
    for rows, (number, value) in beside(marks, sample.parts):
        due[number] += rows * (value or 0)
    found, sums = sample.column.group_by(keys.column).sum()
    assert found.to_list() == [key for _, key in groups]
    assert [value or 0 for value in sums] == due
    sizes = sample.column.group_by(keys.column).size()[1]
    assert sizes.to_list() == [rows for rows, _ in groups]


def test_lists_that_are_null_are_dropped_by_runs():
    flat = Column.from_lists([1, 2, 3], [0, 1, 0], [1, 2, 0], [True, True, False])
    lists = Column.from_runs([FAR, 2 * FAR, 3 * FAR], flat)
    assert lists.is_valid().form == "runs" and parts_of(lists.is_valid()) == [(2 * FAR, True), (FAR, False)]
    found = lists.drop_null()
    assert len(found) == 2 * FAR and found.form == "runs" and found[0] == [1] and found[2 * FAR - 1] == [2, 3]
    assert lists[lists.is_null()][FAR - 1] is None
    assert Table({"a": lists, "b": Column.constant(7, 3 * FAR)}).drop_null()["b"].form == "constant"


def test_chunks_of_dask():
    dask = pytest.importorskip("hivevigil.dask")
    pytest.importorskip("distributed")
    tables = pytest.importorskip("hivevigil.dask_tables")
    column = Column.from_runs([FAR, FAR + 5, 3 * FAR], Column.of([1, None, 7]))
    chunks = dask.ChunkedColumn.from_columns(column.split(3, by="rows"))
    mask = chunks.gt(1)
    assert parts_of(chunks.filter(mask).compute(scheduler="sync")) == [(2 * FAR - 5, 7)]
    assert parts_of(mask.compute(scheduler="sync")) == [(FAR, False), (5, None), (2 * FAR - 5, True)]
    rare = Column.from_runs([FAR - 3, 3 * FAR], Column.of([0, 9]))
    few = dask.ChunkedColumn.from_columns(rare.split(3, by="rows"))  # of the first chunk three rows are kept, flat
    assert parts_of(few.filter(few.eq(9)).compute(scheduler="sync")) == [(2 * FAR + 3, 9)]
    table = tables.ChunkedTable.from_columns({"a": chunks, "b": chunks.fill(0)})
    kept_rows = table.filter_by("a", "<=", 7).compute(scheduler="sync")
    assert parts_of(kept_rows["b"]) == [(FAR, 1), (2 * FAR - 5, 7)]
    dropped = table.map_chunks(Table.drop_null).compute(scheduler="sync")
    assert parts_of(dropped["a"]) == [(FAR, 1), (2 * FAR - 5, 7)]
