"""The tables that the library holds: what several tables of Python share, names of any length, and what stays after a
refusal."""
import gc
import weakref

import pytest
from hivevigil import Column, Table, _handles, errors
from hypothesis import given
from hypothesis import strategies as st
from tables import tables

NAMES = st.text(st.characters(blacklist_categories=["Cs"]), max_size=90)


@given(st.lists(NAMES, unique=True, max_size=5))
def test_names_of_any_text(names):
    """Zero bytes too, and names of more bytes than are read at first."""
    rows = {name: [at, None] for at, name in enumerate(names)}
    table = Table(rows)
    assert table.names == names and table.to_dict() == rows and [*table] == names
    assert table.select(*names[::-1]).names == names[::-1]
    assert table.rename({name: f"{name}\0" for name in names}).names == [f"{name}\0" for name in names]
    assert table.drop_null(*names[:1]).rows == len(names[:1]) or not names
    assert all(name in table and table.with_column(name, [7, 7])[name].to_list() == [7, 7] for name in names)
    for other in "a name that no text above has" + "s" * 90, 3, ["a"], Column.of([1]):
        assert other not in table


def test_names_that_are_not_utf8():
    table = Table({"?": [1]})
    for call in table.select, table.drop, table.drop_null, table.sort, table.__getitem__:
        with pytest.raises(errors.NoName, match="the names are '[?]'$"):
            call("\ud800")
    with pytest.raises(ValueError, match="is not UTF-8: U[+]D800 is half of a surrogate pair$"):
        table.rename({"?": "\ud800"})
    assert "\ud800" not in table


def test_a_name_twice_comes_before_one_that_is_not_there():
    table = Table({"a": [1], "b": [2]})
    for call in table.select, lambda *names: table.sort(names):
        with pytest.raises(ValueError, match="'a'"):
            call("c", "a", "a")
    assert table.drop("a", "a").names == ["b"] and table.drop_null("a", "a").to_dict() == {"a": [1], "b": [2]}
    with pytest.raises(TypeError, match="named by a text, not by 3$"):
        table.rename({"c": 3})


def test_columns_are_made_when_they_are_asked_for():
    table = Table({"a": [1, 2], "b": ["x", "y"]}).filter([True, False])
    assert not table._held._found
    assert table["b"].to_list() == ["x"] and [*table._held._found] == ["b"]
    with table["b"] as own:
        own.free()
    assert table["b"].to_list() == ["x"] and table._column("b") is table._column("b")


@given(tables(), tables())
def test_a_refusal_leaves_both_tables(sample, other):
    """Also one that is refused after some of the rows were joined."""
    table = sample.table
    wrong = table.with_column("another", Column.of([None] * sample.count, "i64")) if sample.names else other.table
    for call in (
        lambda: table.append(table, wrong), lambda: table.filter([True] * (sample.count + 1)),
        lambda: table.take([sample.count]), lambda: table.slice(0, sample.count + 1), lambda: table.select("no", "no"),
        lambda: table.rename({"no name has": "x"}), lambda: table.sort([]), lambda: table.drop_null("no name has"),
        lambda: table.with_column("more", [1] * (sample.count + 1)) if sample.names or sample.count else table.sort([]),
    ):
        before = table.to_bytes(), wrong.to_bytes()
        try:
            call()
        except (errors.HivevigilError, errors.NoName, ValueError):
            pass
        else:
            assert wrong is other.table and table.names == wrong.names
        assert (table.to_bytes(), wrong.to_bytes()) == before


def test_a_table_that_is_put_into_itself():
    table = Table({"a": [1, 1], "b": Column.from_lists([5], [0, 0], [1, 0])})
    assert table.append(table, table).to_dict() == {"a": [1] * 6, "b": [[5], []] * 3}
    assert table.drop("b").append(table.drop("b"))["a"].run_count() == 1
    assert table.with_column("c", table["a"]).append(table.with_column("c", table["a"]))["c"].to_list() == [1] * 4


def test_rows_of_empty_tables():
    assert Table(rows=2**64 - 1).append(Table()).shape == (2**64 - 1, 0)
    with pytest.raises(errors.WindowOverflow, match=r"^append: 18446744073709551616 rows are past 2\*\*64 - 1$"):
        Table(rows=2**64 - 1).append(Table(rows=1))
    assert Table().with_column("a", [1, 2]).shape == (2, 1) and Table(rows=2).with_column("a", [1, 2]).rows == 2
    with pytest.raises(errors.ColumnLength, match="^column 'a' has 1 rows, and the table 0$"):
        Table({"a": [1], "b": [1, 2]}, rows=0)
    with pytest.raises(errors.ColumnLength, match="^column 'a' has 2 rows, and the table 3$") as refused:
        Table(rows=3).with_column("a", [1, 2])
    assert refused.value.fields == (3, 2, 0)
    assert Table(rows=3).filter([True, False, None]).rows == 1 and Table(rows=3).drop_null().rows == 3
    assert Table(rows=3)[::2].rows == 2 and Table(rows=3).take([0, None]).rows == 2


def test_many_tables_one_after_the_other():
    """Each row is joined a few times, however many tables there are."""
    parts = [Table({"a": [at, at], "b": ["x", None]}) for at in range(1000)]
    whole = parts[0].append(*parts[1:])
    assert whole.to_dict() == {"a": [at for at in range(1000) for _ in "ab"], "b": ["x", None] * 1000}
    assert whole["a"].form == "runs" and whole["a"].run_count() == 1000
    assert parts[0].append().to_dict() == {"a": [0, 0], "b": ["x", None]}


def test_what_is_held_is_freed():
    held = _handles.Held.of({"a": Column.of([1])})
    assert held._handle.at and held.place("a") == 0

    class Watched(Table):
        pass

    table = Watched({"a": [1]})
    gone = weakref.ref(table)
    again = table.append()
    assert again._held is table._held and type(again) is Watched
    del table
    gc.collect()
    assert gone() is None and again.to_dict() == {"a": [1]}
