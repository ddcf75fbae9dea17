"""Columns in a Series: rows stay in runs and exact, and pandas' operations answer as over the rows."""
import operator
import pickle
from decimal import Decimal

import numpy
import pandas
import pytest
from hypothesis import given
from hypothesis import strategies as st
from rows import samples

from hivevigil import Column, _copying
from hivevigil.pandas import RunEndArray, RunEndDtype

BIG = 2**53 + 1  # the least integer above 0 that no float64 is
NA = pandas.NA
SIGNS = (operator.eq, operator.ne, operator.lt, operator.le, operator.gt, operator.ge)


def shown(rows):
    return [NA if row is None else row for row in rows]


def same(left, right):
    return len(left) == len(right) and all(
        (one is NA) == (other is NA) and (one is NA or one == other) for one, other in zip(left, right)
    )


def test_a_series_of_a_column_is_exact():
    column = Column.of([BIG, None, -BIG]).to_runs()
    assert same(pandas.Series(column).tolist(), [BIG, NA, -BIG])
    assert same(pandas.DataFrame({"a": column})["a"].tolist(), [BIG, NA, -BIG])
    assert same(pandas.Series(column, dtype="runend[i64]").tolist(), [BIG, NA, -BIG])
    series = pandas.Series(RunEndArray(column))
    assert str(series.dtype) == "runend[i64]" and (series.sum(), series.max()) == (0, BIG)
    assert same(series.astype("Int64").tolist(), [BIG, NA, -BIG])
    assert numpy.asarray(column, dtype=float).tolist()[::2] == [2.0**53, -(2.0**53)]


@given(samples())
def test_a_series_has_the_rows(sample):
    series = pandas.Series(RunEndArray(sample.column))
    assert same(series.tolist(), shown(sample.rows)) and series.dtype == RunEndDtype(sample.type)
    assert series.isna().tolist() == [row is None for row in sample.rows]
    assert series.array.column.to_list() == sample.rows and len(series) == len(sample.rows)
    assert same(pickle.loads(pickle.dumps(series)).tolist(), shown(sample.rows))


@given(st.data(), samples())
def test_slices_and_takes(data, sample):
    rows, array = shown(sample.rows), RunEndArray(sample.column)
    place = st.none() | st.integers(-len(rows) - 1, len(rows) + 1)
    cut = slice(data.draw(place), data.draw(place), data.draw(st.sampled_from([None, 1, -1, 2])))
    assert same(list(array[cut]), rows[cut])
    flags = data.draw(st.lists(st.booleans(), min_size=len(rows), max_size=len(rows)))
    assert same(list(array[numpy.array(flags, bool)]), [row for row, flag in zip(rows, flags) if flag])
    if rows:
        places = data.draw(st.lists(st.integers(-1, len(rows) - 1), min_size=1))
        assert same(list(array.take(places)), [rows[place] for place in places])
        assert same(list(array.take(places, allow_fill=True)), [NA if at < 0 else rows[at] for at in places])


@given(samples(), samples())
def test_concat(left, right):
    parts = [pandas.Series(RunEndArray(part.column)) for part in (left, right)]
    if left.type == right.type:
        both = pandas.concat(parts, ignore_index=True)
        assert both.dtype == RunEndDtype(left.type) and same(both.tolist(), shown(left.rows + right.rows))


@given(st.data(), samples(), st.sampled_from(SIGNS))
def test_comparisons_are_masks(data, sample, sign):
    rows, array = sample.rows, RunEndArray(sample.column)
    other = next((row for row in rows if row is not None), None)
    if other is not None:
        due = [NA if row is None else sign(row, other) for row in rows]
        mask = sign(pandas.Series(array), other)
        assert mask.dtype == "boolean" and same(mask.tolist(), due)
        kept = pandas.Series(array)[mask]
        assert same(kept.tolist(), [row for row, flag in zip(rows, due) if flag is True])
        assert same((mask & mask).tolist(), due)
    due = [NA if row is None else sign(row, row) for row in rows]
    assert same(list(sign(array, array)), due) and same(list(sign(array, list(array))), due)


@pytest.mark.parametrize("rows, sign, other, due", [
    (RunEndArray([1, None, 2]), operator.eq, [1.0, 1.5, 1.5], [True, NA, False]),
    (RunEndArray([1, 2, 255], "u8"), operator.lt, [300, -1, None], [True, False, NA]),
    (RunEndArray([BIG, BIG]), operator.eq, [float(BIG), BIG], [False, True]),
    (RunEndArray([BIG, BIG]), operator.gt, pandas.Series([float(BIG), float(BIG)]), [True, True]),
    (RunEndArray([Decimal("1.50")]), operator.le, [1.4], [False]),
    (RunEndArray([1, 0, None]), operator.eq, True, [True, False, NA]),
    (RunEndArray(["a", None]), operator.ne, 3, [True, NA]), (RunEndArray(["a"]), operator.eq, ["b"], [False]),
    (RunEndArray([1, 2]), operator.eq, ["a", 2], [False, True]), (RunEndArray([1]), operator.eq, NA, [NA]),
    (RunEndArray([BIG]), operator.eq, numpy.array([float(BIG)]), [False]),
    (RunEndArray([3, 4]), operator.lt, 3.5, [True, False]), (RunEndArray([1], "u8"), operator.lt, 10**30, [True]),
])
def test_comparisons_with_what_the_type_does_not_have(rows, sign, other, due):
    left = rows if isinstance(other, list) else pandas.Series(rows)  # a Series makes a NumPy array of a list first
    assert same(list(sign(left, other)), due)


@given(samples())
def test_reductions(sample):
    series, present = pandas.Series(RunEndArray(sample.column)), [row for row in sample.rows if row is not None]
    assert (series.min(), series.max()) == (min(present), max(present)) if present else series.min() is NA
    assert series.count() == len(present)
    if series.dtype._is_numeric:
        if -(2**63) <= sum(present) < 2**63 and abs(sum(map(abs, present))) < 2**63:
            assert series.sum() == sum(present)
    else:
        with pytest.raises(TypeError, match="does not support reduction 'sum'"):
            series.sum()


@given(st.data(), samples())
def test_fillna(data, sample):
    present = [row for row in sample.rows if row is not None]
    if present:
        filled = pandas.Series(RunEndArray(sample.column)).fillna(present[0])
        assert filled.tolist() == [present[0] if row is None else row for row in sample.rows]
        assert filled.dtype == RunEndDtype(sample.type)


@given(samples())
def test_counts_and_unique(sample):
    series = pandas.Series(RunEndArray(sample.column))
    counts = series.value_counts(dropna=False)
    assert {None if key is NA else key: count for key, count in counts.items()} == {
        row: sample.rows.count(row) for row in sample.rows
    }
    assert same(list(series.unique()), shown(dict.fromkeys(sample.rows)))


def test_a_sum_past_64_bits_names_the_row():
    with pytest.raises(OverflowError, match="sum: it leaves i64 at row 1, which is 1"):
        pandas.Series(RunEndArray([2**63 - 1, 1])).sum()


def test_running_totals():
    array = RunEndArray([4, 4, None, -3], "i16")
    assert same(list(array._accumulate("cumsum")), [4, 8, NA, 5])  # as pandas 2 asks
    assert same(list(array._accumulate("cumsum", skipna=False)), [4, 8, NA, NA])
    assert same(list(RunEndArray([4, 9], "u8")._accumulate("cumsum", skipna=False)), [4, 13])
    for refused in (lambda: array._accumulate("cumprod"), lambda: RunEndArray(["a"])._accumulate("cumsum")):
        with pytest.raises(NotImplementedError):
            refused()


def test_sum_of_no_row_and_of_few():
    series = pandas.Series(RunEndArray([None, 4], "i64"))
    assert (series.sum(), series.sum(min_count=2), series.sum(skipna=False)) == (4, NA, NA)
    assert pandas.Series(RunEndArray([], "i64")).sum() == 0
    assert same(list(series.array._reduce("sum", keepdims=True)), [4])  # as pandas 2 asks


@pytest.mark.parametrize("rows, skipna, any_row, all_rows", [
    ([True, None, False], True, True, False), ([True, None, False], False, True, False),
    ([True, None], True, True, True), ([True, None], False, True, NA), ([False, None], True, False, False),
    ([False, None], False, NA, False), ([None], True, False, True), ([None], False, NA, NA), ([], False, False, True),
])
def test_any_and_all(rows, skipna, any_row, all_rows):
    """As pandas' own boolean array has them."""
    for array in (RunEndArray(rows, "bool"), pandas.array(rows, dtype="boolean")):
        series = pandas.Series(array)
        assert same([series.any(skipna=skipna), series.all(skipna=skipna)], [any_row, all_rows])


def test_rows_are_set():
    series = pandas.Series(RunEndArray([1, 1, 2, 2], "i64"))
    copy = series.copy()
    series[1] = BIG
    series.iloc[2:] = [None, 5]
    series.loc[series == 5] = 6
    assert same(series.tolist(), [1, BIG, NA, 6]) and copy.tolist() == [1, 1, 2, 2]
    with pytest.raises(TypeError, match="row 0 is 'a', not an integer"):
        series.array[0] = "a"
    with pytest.raises(ValueError, match="2 rows are set to 3 values"):
        series.array[[0, 1]] = [1, 2, 3]


def test_a_frame():
    frame = pandas.DataFrame({"day": [1, 1, 2], "level": RunEndArray([BIG, 1, None])})
    assert frame.groupby("day")["level"].sum().tolist() == [BIG + 1, 0]
    joined = frame.merge(pandas.DataFrame({"day": [2, 1]}), how="right")
    assert same(joined.level.tolist(), [NA, BIG, 1]) and joined.level.dtype == "runend[i64]"
    assert same(frame.sort_values("level").level.tolist(), [1, BIG, NA])
    assert same(frame.reindex([2, 5]).level.tolist(), [NA, NA])
    assert same(frame.level.shift(1).tolist(), [NA, BIG, 1])


def test_repr():
    assert repr(pandas.Series(RunEndArray([BIG, None]))) == (
        "0    9007199254740993\n1                <NA>\ndtype: runend[i64]"
    )
    assert repr(RunEndArray(["a"])) == "<RunEndArray>\n['a']\nLength: 1, dtype: runend[utf8]"


def test_to_numpy():
    array = RunEndArray([BIG, None])
    assert array.to_numpy().tolist() == [BIG, NA] and array.to_numpy(na_value=0, dtype="int64").tolist() == [BIG, 0]
    assert RunEndArray([1, 2], "u8").to_numpy().dtype == "uint8"
    assert RunEndArray(["a", None]).to_numpy(na_value=None).tolist() == ["a", None]


def test_many_rows_cost_runs():
    series = pandas.Series(RunEndArray(Column.constant(3, 2_000_000)))
    assert series.memory_usage(index=False) < 100 and series.sum() == 6_000_000
    assert series.value_counts().tolist() == [2_000_000] and len(series[5:]) == 1_999_995


@pytest.mark.parametrize("given, dtype, due", [
    ([1, NA, None, numpy.nan], "i8", [1, NA, NA, NA]), (pandas.Series([1, None], dtype="Int64"), None, [1, NA]),
    (numpy.array([1, 2], "u2"), None, [1, 2]), (["a", None], None, ["a", NA]), ([], "utf8", []),
    (RunEndArray([1, 2]), "u8", [1, 2]), ([Decimal("1.5"), 2], "decimal(5, 2)", [Decimal("1.50"), 2]),
    (Column.of([True, None]), None, [True, NA]), ([None], "binary", [NA]),
    (numpy.ma.masked_array([1, BIG], [True, False]), None, [NA, BIG]), (pandas.Series([1, 2]), "u8", [1, 2]),
    (pandas.Series([True, None], dtype="boolean"), None, [True, NA]), (pandas.Index(["a", "b"]), None, ["a", "b"]),
    (pandas.array([BIG, None], dtype="Int64"), "i64", [BIG, NA]), (range(3), None, [0, 1, 2]),
])
def test_rows_of_every_sort(given, dtype, due):
    assert same(list(RunEndArray(given, dtype)), due)


@pytest.mark.parametrize("call, kind, said", [
    (lambda: RunEndArray([1.5]), TypeError, "RunEndArray does not serve float64"),
    (lambda: RunEndArray([300], "u8"), OverflowError, "row 0 is 300, which does not fit u8"),
    (lambda: RunEndArray(3), TypeError, "RunEndArray takes rows or a Column, not 3"),
    (lambda: RunEndArray([None]), ValueError, r"no row shows a type: name one, as RunEndArray\(rows, 'i64'\)"),
    (lambda: RunEndArray(Column.from_lists([1], [0], [1])), TypeError, "RunEndArray does not serve columns of lists"),
    (lambda: RunEndDtype("f64"), TypeError, "'f64' is not a type of columns"),
    (lambda: pandas.Series([1], dtype="runend[f64]"), TypeError, "data type 'runend.f64.' not understood"),
    (lambda: RunEndArray([1]) < "a", TypeError, "a value of type i64.* is an integer, not 'a'"),
    (lambda: RunEndArray([1]) == [1, 2], ValueError, "Lengths must match to compare"),
    (lambda: RunEndArray(["a"]).astype("runend[i64]"), TypeError, "row 0 is 'a', not an integer"),
])
def test_refusals(call, kind, said):
    with pytest.raises(kind, match=said):
        call()


def test_without_pandas_null_is_none(monkeypatch):
    monkeypatch.delitem(_copying.sys.modules, "pandas")
    assert numpy.asarray(Column.of([1, None])).tolist() == [1, None]
