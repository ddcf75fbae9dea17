"""Rows are sorted as Python sorts a list of them with a key for each column, and as pandas does by kind="stable"."""
import struct
from datetime import date, datetime, time, timedelta, timezone
from functools import cmp_to_key

import pytest
from hivevigil import Column, Table, errors
from hypothesis import given
from hypothesis import strategies as st
from rows import runs_of, samples
from tables import of_lines, tables
from test_tables import _ordered

UTC = timezone.utc
TIMES = {
    "date": st.dates(date(1901, 1, 1), date(2100, 1, 1)),
    "time[us]": st.times(),
    "timestamp[us, UTC]": st.datetimes(datetime(1901, 1, 1), datetime(2100, 1, 1)).map(lambda at: at.replace(tzinfo=UTC)),
    "timestamp[s]": st.integers(-(10**9), 10**9).map(lambda at: datetime(1970, 1, 1) + timedelta(seconds=at)),
    "duration[us]": st.timedeltas(timedelta(days=-(10**5)), timedelta(days=10**5)),
}
SOME_FLOATS = [0.0, -0.0, 1.5, -1.5, float("inf"), -float("inf"), float("nan"), -float("nan")]


def in_order(rows, keys, descending, nulls):
    """Rows, each a list, in order by those of their items that are numbered, of which the first counts most; `nulls` is
    the place of the nulls of all keys, or of those of each."""
    places = [nulls] * len(keys) if isinstance(nulls, str) else nulls

    def compare(left, right):
        for at, turned, nulls in zip(keys, descending, places):
            values = left[at], right[at]
            if None in values:
                if values[0] is values[1]:
                    continue
                return (-1 if values[0] is None else 1) * (1 if nulls == "first" else -1)
            low, high = map(_ordered, values)
            if low != high:
                return (-1 if low < high else 1) * (-1 if turned else 1)
        return 0

    return sorted(rows, key=cmp_to_key(compare))


PLACES = st.sampled_from(["first", "last"])


@given(tables(least_columns=1), st.data(), PLACES | st.lists(PLACES, min_size=4, max_size=4))
def test_a_table_by_some_columns(sample, data, nulls):
    names = sample.names
    by = data.draw(st.lists(st.sampled_from(names), min_size=1, unique=True))
    flags = data.draw(st.lists(st.booleans(), min_size=len(by), max_size=len(by)))
    nulls = nulls if isinstance(nulls, str) else nulls[: len(by)]
    # numbers of rows say whether equal ones stay in their order
    table = sample.table.with_column("number of the row", Column.of(list(range(sample.count)), "i64"))
    lines = [[*line, number] for number, line in enumerate(sample.lines())]
    due = in_order(lines, [names.index(name) for name in by], flags, nulls)
    found = table.sort(by, flags, nulls)
    assert found.to_dict() == of_lines([*names, "number of the row"], due)
    assert found.types == table.types and found.logical_types == table.logical_types
    for name in names:
        # runs that show fewer than two rows each are written out
        assert found[name].form == table[name].form or (table[name].form, found[name].form) == ("runs", "flat")
        if table[name].form == "runs":
            assert found[name].run_count() <= max(table[name].run_count(), len(runs_of(found[name].to_list())))
    assert sample.table.to_dict() == sample.rows
    if len(set(flags)) == 1:
        assert table.sort(by, flags[0], nulls).equals(found)
    if len(by) == 1:
        assert table.sort(by[0], flags, nulls).equals(found)


@given(st.lists(samples(), min_size=2, max_size=3), st.lists(st.booleans(), min_size=3, max_size=3), st.data())
def test_long_runs(drawn, flags, data):
    """Columns whose runs have many rows, so that they are taken by their runs."""
    columns, lines = {}, []
    for at, sample in enumerate(drawn):
        rows = sample.rows[:8]
        ends = [0]
        for _ in rows:
            ends.append(ends[-1] + data.draw(st.integers(40, 60)))
        columns[f"column {at}"] = Column.from_runs(ends[1:], Column.of(rows, sample.type + "?"))
        lines.append([row for row, start, stop in zip(rows, ends, ends[1:]) for _ in range(stop - start)])
    count = min(map(len, lines))
    table = Table({name: column[:count] for name, column in columns.items()})
    rows = [list(row) for row in zip(*(line[:count] for line in lines))]
    for keys in ([0], [1, 0]):
        due = in_order(rows, keys, flags, "first")
        found = table.sort([f"column {at}" for at in keys], flags[: len(keys)])
        assert found.to_dict() == of_lines(list(columns), due)
        # one run that is taken whole is a constant, and rows that are in order stay in the runs that they have
        for name, column in found.items():
            is_same = column.run_count() == table[name].run_count()
            assert column.form != "flat" and (is_same or column.run_count() == len(runs_of(column.to_list())))


def test_equal_rows_stay_in_their_order():
    table = Table({"key": [2, 1, 2, None, 1, 2, None], "number": list(range(7))})
    for form in (table, table.to_runs()):
        assert form.sort("key")["number"].to_list() == [3, 6, 1, 4, 0, 2, 5]
        assert form.sort("key", True)["number"].to_list() == [3, 6, 0, 2, 5, 1, 4]
        assert form.sort("key", True, "last")["number"].to_list() == [0, 2, 5, 1, 4, 3, 6]


@given(samples(), st.booleans(), st.sampled_from(["first", "last"]))
def test_a_column(sample, descending, nulls):
    found = sample.column.sort(descending, nulls)
    due = [row for (row,) in in_order([[row] for row in sample.rows], [0], [descending], nulls)]
    assert found.to_list() == due and found.type == sample.column.type
    assert [(run.start, run.stop, run.value) for run in found.runs()] == runs_of(due)
    assert found.form == ("constant" if sample.column.form == "constant" else "runs")
    if not descending and nulls == "first":
        assert found.is_sorted()
    assert sample.column.to_list() == sample.rows


@given(st.data(), st.sampled_from([*TIMES]), st.booleans(), st.sampled_from(["first", "last"]))
def test_times(data, kind, descending, nulls):
    rows = data.draw(st.lists(st.none() | TIMES[kind], max_size=12))
    rows += data.draw(st.lists(st.sampled_from(rows), max_size=6)) if rows else []
    column = Column.of(rows, kind + "?")
    due = in_order([[row, number] for number, row in enumerate(rows)], [0], [descending], nulls)
    for form in (column, column.to_runs()):
        found = form.sort(descending, nulls)
        assert found.to_list() == [row for row, _ in due] and str(found.logical_type) == kind
        table = Table({"at": form, "number": list(range(len(rows)))} if rows else {"at": form})
        sorted_table = table.sort("at", descending, nulls)
        assert sorted_table["at"].to_list() == [row for row, _ in due]
        assert not rows or sorted_table["number"].to_list() == [number for _, number in due]
        assert sorted_table.logical_types == table.logical_types


def place_of(value):
    """The place of a float in the total order of IEEE 754, by its bits."""
    (bits,) = struct.unpack("<q", struct.pack("<d", value))
    return bits if bits >= 0 else -(bits & (2**63 - 1)) - 1


@given(st.lists(st.none() | st.sampled_from(SOME_FLOATS) | st.floats()), st.booleans(), st.sampled_from(["first", "last"]))
def test_floats(rows, descending, nulls):
    places = [[None if row is None else place_of(row), number] for number, row in enumerate(rows)]
    due = in_order(places, [0], [descending], nulls)
    column = Column.of(rows, "float64?")
    found = [None if row is None else place_of(row) for row in column.sort(descending, nulls)]
    assert found == [place for place, _ in due]
    if rows:
        table = Table({"level": column.to_runs(), "number": list(range(len(rows)))}).sort("level", descending, nulls)
        assert table["number"].to_list() == [number for _, number in due]


def test_where_nan_goes():
    column = Column.of([1.0, float("nan"), None, float("inf"), -0.0, 0.0, -float("inf")])
    assert str(column.sort().to_list()) == "[None, -inf, -0.0, 0.0, 1.0, inf, nan]"
    assert str(column.sort(True, "last").to_list()) == "[nan, inf, 1.0, 0.0, -0.0, -inf, None]"


@given(tables(least_columns=1), st.data(), st.sampled_from(["first", "last"]))
def test_as_pandas_has_it(sample, data, nulls):
    pandas = pytest.importorskip("pandas")
    by = data.draw(st.lists(st.sampled_from(sample.names), min_size=1, unique=True))
    flags = data.draw(st.lists(st.booleans(), min_size=len(by), max_size=len(by)))
    frame = pandas.DataFrame({name: pandas.Series(rows, dtype=object) for name, rows in sample.rows.items()})
    due = frame.sort_values(by, ascending=[not flag for flag in flags], kind="stable", na_position=nulls)
    found = sample.table.sort(by, flags, nulls)
    assert found.to_dict() == {name: due[name].tolist() for name in sample.names}


def test_numbers_as_pandas_has_them():
    pandas = pytest.importorskip("pandas")
    frame = pandas.DataFrame({
        "day": pandas.to_datetime(["2024-03-02", "2024-03-01", None, "2024-03-02"]),
        "level": pandas.Series([3, None, 1, 2], dtype="Int64"), "price": [1.5, -2.5, 0.25, 1e300],
    })
    table = Table.from_pandas(frame)
    for by, ascending in (["day", "level"], True), (["price"], False), (["level", "day"], [False, True]):
        descending = [not flag for flag in ascending] if isinstance(ascending, list) else not ascending
        for nulls in ("first", "last"):
            due = frame.sort_values(by, ascending=ascending, kind="stable", na_position=nulls).reset_index(drop=True)
            found = table.sort(by, descending, nulls).to_pandas()
            assert all(found[name].equals(due[name].astype(found[name].dtype)) for name in frame)


def test_many_rows_in_few_runs():
    """Time and memory go by runs: nothing here could be done row by row."""
    half = 2**60
    keys = Column.from_runs([half, half + 1, 2 * half], Column.of([7, None, 3]))
    values = Column.from_runs([half - 5, 2 * half - 1, 2 * half], Column.of(["a", "b", "c"]))
    table = Table({"key": keys, "value": values, "same": Column.constant(True, 2 * half)}).sort("key")
    assert [tuple(run) for run in table["key"].runs()] == [(0, 1, None), (1, half, 3), (half, 2 * half, 7)]
    assert [tuple(run) for run in table["value"].runs()] == [
        (0, half - 1, "b"), (half - 1, half, "c"), (half, 2 * half - 5, "a"), (2 * half - 5, 2 * half, "b"),
    ]
    assert table["same"].form == "constant"
    assert [tuple(run) for run in keys.sort(True).runs()] == [(0, 1, None), (1, half + 1, 7), (half + 1, 2 * half, 3)]


def test_lists_are_carried_along():
    lists = Column.from_lists([1, 2, 3], [0, 1, 1], [1, 2, 0], [True, True, False])
    in_runs = Column.from_runs([1, 2, 3], lists)
    table = Table({"key": [2, 3, 1], "flat": lists, "runs": in_runs}).sort("key")
    due = [None, [1], [2, 3]]
    assert table.to_dict() == {"key": [1, 2, 3], "flat": due, "runs": due}
    assert table["flat"].form == "lists" and table["runs"].form == "lists"  # written out, as it has a run for each row
    long_runs = Column.from_runs([20, 40, 60], lists)
    by_runs = Table({"key": [2] * 20 + [3] * 20 + [1] * 20, "runs": long_runs}).sort("key")["runs"]
    assert by_runs.form == "runs" and by_runs.to_list() == [each for each in due for _ in range(20)]
    with pytest.raises(errors.Unsupported, match="^column 'flat': sort: lists have no order$"):
        table.sort(["key", "flat"])
    with pytest.raises(errors.Unsupported, match="^sort: lists have no order$"):
        lists.sort()


T = Table({"a": [2, 1, None], "b": ["x", "y", "z"]})


@pytest.mark.parametrize(
    "call, kind, said",
    [
        (lambda: T.sort("c"), KeyError, "no column has the name 'c': the names are 'a', 'b'"),
        (lambda: T.sort(["a", "c"]), KeyError, "no column has the name 'c': the names are 'a', 'b'"),
        (lambda: T.sort(["a", "a"]), ValueError, "sort: column 'a' is named twice"),
        (lambda: T.sort([]), ValueError, "sort: at least one column says the order"),
        (lambda: T.sort(3), TypeError, "sort: rows are sorted by a name or a list of names, not by 3"),
        (lambda: T.sort([3]), TypeError, "a column of a table is named by a text, not by 3"),
        (lambda: T.sort("a", 3), TypeError, "sort: descending is True, False or a list of these, not 3"),
        (lambda: T.sort("a", [3]), TypeError, r"sort: descending is True, False or a list of these, not \[3\]"),
        (lambda: T.sort(["a", "b"], [True]), ValueError,
         "sort: the number of flags in descending is 1, and that of columns 2"),
        (lambda: T.sort("a", nulls="middle"), ValueError, "sort: nulls come 'first' or 'last', not 'middle'"),
        (lambda: T.sort("a", nulls=["last", 3]), ValueError, "sort: nulls come 'first' or 'last', not 3"),
        (lambda: T.sort(["a", "b"], nulls=["last"]), ValueError,
         "sort: the number of places of nulls is 1, and that of columns 2"),
        (lambda: T.sort(["c", "a", "a"]), ValueError, "sort: column 'a' is named twice"),
        (lambda: T["a"].sort("yes"), TypeError, "sort: descending is True, False or a list of these, not 'yes'"),
        (lambda: T["a"].sort(nulls=None), ValueError, "sort: nulls come 'first' or 'last', not None"),
    ],
)
def test_refusals(call, kind, said):
    with pytest.raises(kind, match=f"^{said}$"):
        call()
    assert T.to_dict() == {"a": [2, 1, None], "b": ["x", "y", "z"]}
