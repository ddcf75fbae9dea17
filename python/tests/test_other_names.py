"""What is asked by the name that pandas has for it, or in a way of pandas, is answered by a sentence that says what to
ask."""
from datetime import date, timedelta

import pandas
import pytest
from hivevigil import Column, Table, _other_names
from hivevigil.pandas import RunEndArray
from hypothesis import given
from hypothesis import strategies as st

TABLE = Table({"v": [1, 2, 3], "s": ["a", "b", "c"], "day": [date(2024, 1, 1)] * 3})
THINGS = {"column": (TABLE["v"], _other_names.OF_COLUMNS), "table": (TABLE, _other_names.OF_TABLES)}


@pytest.mark.parametrize("thing, name", [(thing, name) for thing, (_, names) in THINGS.items() for name in names])
def test_each_name_says_what_it_is_here(thing, name):
    """And what it says is a name that there is."""
    found, names = THINGS[thing]
    assert not hasattr(found, name) and getattr(found, name, 3) == 3
    with pytest.raises(AttributeError) as refused:
        getattr(found, name)
    assert str(refused.value) == f"'{type(found).__name__}' object has no attribute '{name}': it is {names[name]} here"
    given = {"table": TABLE, "column": TABLE["v"], "values": TABLE["v"], "concat": pandas.concat}
    for word in names[name].replace("[name]", "['v']").split():
        head, _, rest = word.lstrip("(").partition(".")
        if head in given and rest:
            assert hasattr(given[head], rest.partition("(")[0]), word


def test_other_names_have_no_hint():
    for thing, _ in THINGS.values():
        with pytest.raises(AttributeError, match=f"^'{type(thing).__name__}' object has no attribute 'nothing'$"):
            thing.nothing
    assert {"iloc", "isna", "dtypes"} & set(dir(TABLE)) == set()


@pytest.mark.parametrize("call, kind, said", [
    (lambda: TABLE["v"] > 1 & TABLE["v"], TypeError, "parentheses, as (column > 1) & (column < 5)"),
    (lambda: TABLE["v"] > 1 | TABLE["v"] < 5, TypeError, "parentheses, as (column > 1) | (column < 5)"),
    (lambda: 1 < TABLE["v"] < 5, ValueError, "two conditions are (a > 1) & (a < 5)"),
    (lambda: TABLE["day"].cast(str), TypeError, "Column.of([str(row) for row in column]) has their texts"),
    (lambda: TABLE["day"] + timedelta(1), TypeError, ".cast('date') makes times again"),
    (lambda: timedelta(1) + Column.of([timedelta(2)]), TypeError, ".cast('duration[us]') makes times again"),
    (lambda: TABLE.join(TABLE.to_pandas(), "v"), TypeError, "not with a DataFrame: Table.from_pandas(frame) makes one"),
    (lambda: TABLE.append(TABLE.to_pandas()), TypeError, "not a DataFrame: Table.from_pandas(frame) makes one"),
    (lambda: TABLE.group_by("v").agg(n=("s", "sum")), TypeError,
     "column 's': sum: rows of type utf8 have no sum; ask min, max, first, last, count or size"),
    (lambda: Column.of([True]).group_by([1]).sum(), TypeError, "sum: rows of type bool have no sum"),
])
def test_sentences(call, kind, said):
    with pytest.raises(kind) as refused:
        call()
    assert said in str(refused.value)


def test_no_code_of_arrow_is_shown():
    table = Table({"at": Column.of([0]).cast("timestamp[s]"), "level": [1.5], "day": [date(2024, 1, 1)]})
    for text in (repr(table), table._repr_html_(), *map(repr, table.values())):
        assert not {"tss:", "tdD", " g"} & set(text.replace("<", " ").split()) and "i64" not in text
    assert [line.split()[1] for line in repr(table).splitlines()[1:]] == ["timestamp[s]", "float64", "date"]


ROWS = {
    "bool": st.booleans(), "i64": st.integers(-3, 3), "utf8": st.sampled_from(["", "a", "b"]),
}


@pytest.mark.filterwarnings("ignore:Unable to sort modes")
@pytest.mark.parametrize("name", list(ROWS))
@given(st.data())
def test_pandas_finds_rows_that_come_twice(name, data):
    """As it does in its own arrays with a mask."""
    rows = data.draw(st.lists(st.none() | ROWS[name], max_size=9))
    own = pandas.Series(rows, dtype={"bool": "boolean", "i64": "Int64", "utf8": "string"}[name])
    ours = pandas.Series(RunEndArray(rows, name))
    for keep in ("first", "last", False):
        assert ours.duplicated(keep).tolist() == own.duplicated(keep).tolist()
        assert repr(ours.drop_duplicates(keep=keep).tolist()) == repr(own.drop_duplicates(keep=keep).tolist())
    assert sorted(map(repr, ours.mode().tolist())) == sorted(map(repr, own.mode().tolist()))
    assert ours.isna().tolist() == own.isna().tolist() and (ours.dtype == f"runend[{name}]")
    if name == "bool":
        assert (repr(ours.any()), repr(ours.all())) == (repr(own.any()), repr(own.all()))
