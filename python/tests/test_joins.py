"""Tables that are joined by a column have the rows of two nested loops over lists, and of pandas."""
from datetime import datetime, timezone
from decimal import Decimal

import pytest
from hivevigil import Column, Table, errors
from hypothesis import given
from hypothesis import strategies as st
from rows import TYPES, samples
from tables import of_lines
from test_tables import _ordered


@st.composite
def sides(draw):
    """Two tables with a key of one type, each sorted by it, in whichever form, and the rows of both."""
    kind = draw(st.sampled_from(TYPES))
    found = []
    for names in (["key", "mine", "number"], ["theirs", "key", "other number"]):
        key, value = draw(samples((kind,))), draw(samples())
        count = min(len(key.rows), len(value.rows))
        columns = {"key": key.column[:count], names[1] if names[0] == "key" else names[0]: value.column[:count],
                   names[2]: Column.of(list(range(count)), "i32")}
        found.append(Table({name: columns[name] for name in names}).sort("key"))
    return found


def nested(left, right, on, how):
    """The rows of a join, by name."""
    mine, theirs = left.to_dict(), right.to_dict()
    others = [name for name in theirs if name != on]
    lines = []
    for at in range(left.rows):
        meets = [to for to in range(right.rows) if mine[on][at] is not None and mine[on][at] == theirs[on][to]]
        if not meets and how == "left":
            lines.append([*(mine[name][at] for name in mine), *[None] * len(others)])
        lines += [[*(mine[name][at] for name in mine), *(theirs[name][to] for name in others)] for to in meets]
    return of_lines([*mine, *others], lines)


@given(sides(), st.sampled_from(["inner", "left"]))
def test_rows_that_meet(tables, how):
    left, right = tables
    before = left.to_dict(), right.to_dict()
    found = left.join(right, "key", how=how)
    assert found.to_dict() == nested(left, right, "key", how)
    assert {name: found.types[name] for name in left} == left.types
    for name in ("theirs", "other number"):
        assert found.types[name] == right.types[name].rstrip("?") + "?" * (right[name].nullable or how == "left")
    assert (left.to_dict(), right.to_dict()) == before
    keys = left["key"].to_list()
    assert keys == sorted(keys, key=lambda row: (row is not None, _ordered(row) if row is not None else 0))


@given(sides(), st.sampled_from(["inner", "left"]))
def test_as_pandas_has_it(tables, how):
    pandas = pytest.importorskip("pandas")
    left, right = (table.drop_null("key") for table in tables)  # pandas takes nulls for equal
    found = left.join(right, "key", how)
    frames = [
        pandas.DataFrame({name: pandas.Series(rows, dtype=object) for name, rows in table.to_dict().items()})
        for table in (left, right)
    ]
    due = frames[0].merge(frames[1], on="key", how=how)
    rows = {name: [None if row is None or row != row else row for row in due[name]] for name in due}
    assert found.to_dict() == {name: rows[name] for name in found}


def test_a_table_with_what_is_known_of_its_keys():
    readings = Table({"station": Column.from_runs([3, 5, 9], ["a", "b", "d"]), "level": list(range(9))}, {"level": "tss:"})
    stations = Table({"station": ["a", "b", "c"], "place": Column.of(["Oslo", None, "Bergen"]), "since": Column.of([1, 2, 3], "i32")},
                     {"since": "tdD"})
    found = readings.join(stations, "station", how="left")
    assert found.names == ["station", "level", "place", "since"] and found.rows == 9
    assert found["place"].to_list() == ["Oslo"] * 3 + [None] * 6 and found.logical_types["since"] == "tdD"
    assert found["since"].null_count == 4 and found["level"].equals(readings["level"])
    assert readings.join(stations, "station").to_dict()["level"] == readings["level"].to_list()[:5]
    assert stations.join(readings, "station").rows == 5


def test_null_equals_nothing():
    left, right = Table({"key": [None, None, 1], "a": [1, 2, 3]}), Table({"key": [None, 1, 1], "b": [4, 5, 6]})
    assert left.join(right, "key").to_dict() == {"key": [1, 1], "a": [3, 3], "b": [5, 6]}
    assert left.join(right, "key", how="left").to_dict() == {
        "key": [None, None, 1, 1], "a": [1, 2, 3, 3], "b": [None, None, 5, 6],
    }  # fmt: skip
    nothing = Table({"key": Column.of([None], "i64?"), "b": [4]})
    assert left.join(nothing, "key").rows == 0 and left.join(nothing, "key", how="left")["b"].to_list() == [None] * 3
    floats = Table({"key": [-0.0, 0.0], "a": [1, 2]})
    assert floats.join(Table({"key": [0.0, float("nan")], "b": [3, 4]}), "key").to_dict()["a"] == [2]


def test_many_rows_in_few_runs():
    """Time and memory go by runs: nothing here could be done row by row."""
    half = 2**30
    left = Table({"key": Column.from_runs([half, 2 * half], [1, 2]), "a": Column.from_runs([half + 5, 2 * half], ["x", "y"])})
    right = Table({"key": Column.from_runs([half, half + 2], [2, 3]), "b": Column.constant(True, half + 2)})
    found = left.join(right, "key")
    assert found.rows == half * half and [run[1:] for run in found["a"].runs()] == [(5 * half, "x"), (half * half, "y")]
    assert [tuple(run) for run in found["key"].runs()] == [(0, half * half, 2)] and found["b"].form == "constant"
    wide = left.join(right, "key", how="left")
    assert wide.rows == half * half + half and [run[1:] for run in wide["b"].runs()] == [
        (half, None), (half * half + half, True),
    ]  # fmt: skip
    far = Table({"key": Column.constant(1, 2**40), "a": Column.constant(2, 2**40)})
    with pytest.raises(OverflowError, match=f"^join: the answer has {2**80} rows, and a column has less than 2\\*\\*64$"):
        far.join(far.rename({"a": "b"}), "key")


def test_lists_are_carried_along():
    lists = Column.from_lists([1, 2, 3], [0, 1, 1], [1, 2, 0], [True, True, False])
    left = Table({"key": [1, 2, 3], "a": lists})
    right = Table({"key": [2, 2, 4], "b": Column.from_runs([1, 3], lists[:2])})
    assert left.join(right, "key").to_dict() == {"key": [2, 2], "a": [[2, 3], [2, 3]], "b": [[1], [2, 3]]}
    assert left.join(right, "key", how="left").to_dict()["b"] == [None, [1], [2, 3], None]


@pytest.mark.parametrize("same", [Column.constant(0, 1, "u8"), Column.constant("x", 1), Column.of([1]).to_runs()])
def test_types_of_no_rows(same):
    """The other table's columns may be null in a left join, also where it has no rows."""
    left, right = Table({"key": Column.of([], "i64")}), Table({"key": [1], "same": same})
    assert left.join(right, "key", how="left").types["same"] == same.type + "?"
    assert left.join(right, "key").types["same"] == same.type


LEFT, RIGHT = Table({"key": [1, 2], "a": ["x", "y"]}), Table({"key": [2, 3], "b": [5, 6]})


@pytest.mark.parametrize(
    "call, kind, said",
    [
        (lambda: LEFT.join(RIGHT, "b"), KeyError, "no column has the name 'b': the names are 'key', 'a'"),
        (lambda: LEFT.join(RIGHT, "a"), KeyError, "no column has the name 'a': the names are 'key', 'b'"),
        (lambda: LEFT.join(RIGHT, 3), TypeError, "a column of a table is named by a text, not by 3"),
        (lambda: LEFT.join(3, "key"), TypeError, "a table is joined with a Table, not with 3"),
        (lambda: LEFT.join(RIGHT, "key", "outer"), ValueError,
         "join: rows are kept as 'inner' or 'left' says it, not 'outer'"),
        (lambda: LEFT[::-1].join(RIGHT, "key"), ValueError,
         r"column 'key': join: the rows of the first table are not in its order; table.sort\('key'\) sorts it"),
        (lambda: LEFT.join(RIGHT[::-1], "key"), ValueError,
         r"column 'key': join: the rows of the other table are not in its order; table.sort\('key'\) sorts it"),
        (lambda: LEFT.join(RIGHT.with_column("key", ["a", "b"]), "key"), errors.TypeMismatch,
         "join: the keys are i64 and utf8; rows of one type are joined"),
        (lambda: LEFT.join(RIGHT.rename({"b": "a"}), "key"), ValueError,
         "join: both tables have a column 'a': rename or drop it in one of them"),
        (lambda: Table({"key": Column.from_lists([1], [0], [1])}).join(RIGHT, "key"), errors.Unsupported,
         "column 'key': join: lists have no order"),
    ],
)
def test_refusals(call, kind, said):
    with pytest.raises(kind, match=f"^{said}$"):
        call()
    assert LEFT.to_dict() == {"key": [1, 2], "a": ["x", "y"]}


NOON = datetime(2024, 7, 1, 12, tzinfo=timezone.utc)


@pytest.mark.parametrize("left, right", [
    (Column.of([NOON]), Column.of([NOON, None]).cast("timestamp[us, Europe/Berlin]?")),
    (Column.of([NOON]).cast("timestamp[s, Asia/Tokyo]"), Column.of([NOON])),
    (Column.of([Decimal("1.50")], "decimal(9, 2)"), Column.of([Decimal("1.5")], "decimal(5, 1)")),
    (Column.of([Decimal("7.00")], "decimal(9, 2)"), Column.of([7], "i8")),
    (Column.of([7], "i64?"), Column.of([7], "u8")), (Column.of([0.5]), Column.of([0.5], "float32")),
])  # fmt: skip
def test_the_hint_of_a_refusal_joins(left, right):
    right = right.sort()
    first, other = Table({"key": left, "a": ["x"]}), Table({"key": right, "b": range(len(right))})
    with pytest.raises(errors.TypeMismatch) as refused:
        first.join(other, "key")
    hint = str(refused.value).partition("rows of one type are joined: ")[2]
    joined = first.join(eval(hint, {"other": other}), "key")
    pandas = pytest.importorskip("pandas")
    frames = [pandas.DataFrame({"key": column.to_list(), name: table[name].to_list()}, dtype=object)
              for column, name, table in ((left, "a", first), (right, "b", other))]
    due = frames[0].merge(frames[1], on="key")
    assert len(due) == 1 and joined.drop("key").to_dict() == due.drop(columns="key").to_dict("list")


def test_other_types_have_no_hint():
    for left, right in (([1], ["1"]), ([1.5], [1]), ([NOON], [NOON.replace(tzinfo=None)]), ([True], [1])):
        with pytest.raises(errors.TypeMismatch, match="; rows of one type are joined$"):
            Table({"key": left}).join(Table({"key": right}), "key")
