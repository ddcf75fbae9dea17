"""A table answers as plain lists by name do, whatever its columns' forms, and a refused call leaves it as it was."""
import copy
import operator
import pickle
from itertools import compress, groupby

import numpy
import pytest
from hivevigil import Column, Table, errors
from hypothesis import given
from hypothesis import strategies as st
from rows import BITS, least_and_greatest, values
from tables import of_lines, tables

SIGNS = {
    "==": operator.eq, "!=": operator.ne, "<": operator.lt, "<=": operator.le, ">": operator.gt, ">=": operator.ge,
}


def check(table, names, lines):
    """The table has these names, and these rows."""
    assert table.names == list(table) == names and table.shape == (table.rows, len(table))
    assert table.to_dict() == of_lines(names, lines) and table.rows == len(lines)


@given(tables())
def test_names_types_and_rows(sample):
    table = sample.table
    check(table, sample.names, sample.lines())
    assert {name: kind.rstrip("?") for name, kind in table.types.items()} == sample.types
    assert table.nbytes == sum(column.nbytes for column in table.values())
    assert [table.row(at) for at in range(sample.count)] == [dict(zip(sample.names, line)) for line in sample.lines()]
    assert {name: column.to_list() for name, column in table.items()} == sample.rows
    assert "none of these names" not in table and all(name in table for name in sample.names)
    assert repr(table).startswith(f"<Table: {sample.count} row") and table._repr_html_().startswith("<div><b>Table: ")


@given(tables(), st.data())
def test_masks(sample, data):
    flags = data.draw(st.lists(st.sampled_from([True, False, None]), min_size=sample.count, max_size=sample.count))
    due = [line for line, flag in zip(sample.lines(), flags) if flag]
    mask = Column.of(flags, "bool?")
    for given_mask in (flags, mask, mask.to_runs(), numpy.array([bool(flag) for flag in flags], dtype=bool)):
        check(sample.table.filter(given_mask), sample.names, due)
    check(sample.table[mask], sample.names, due)
    check(sample.table, sample.names, sample.lines())


@given(tables(), st.data())
def test_indices(sample, data):
    count = sample.count
    rows = data.draw(st.lists(st.integers(-count, count - 1), max_size=8)) if count else []
    due = [sample.lines()[row] for row in rows]
    check(sample.table.take(rows), sample.names, due)
    check(sample.table.take(numpy.array(rows, dtype="i8")), sample.names, due)
    check(sample.table[numpy.array(rows, dtype="i8")], sample.names, due)
    from_start = Column.of([row + count if row < 0 else row for row in rows], "u64")
    check(sample.table.take(from_start.to_runs()), sample.names, due)
    nulls = sample.table.take([*rows, None])
    check(nulls, sample.names, [*due, tuple([None] * len(sample.names))])


@given(tables(), st.data())
def test_slices(sample, data):
    count, place = sample.count, st.none() | st.integers(-9, 9)
    cut = slice(data.draw(place), data.draw(place), data.draw(st.sampled_from([None, 1, 2, -1, -3])))
    check(sample.table[cut], sample.names, sample.lines()[cut])
    start = data.draw(st.integers(0, count))
    stop = data.draw(st.integers(start, count))
    check(sample.table.slice(start, stop), sample.names, sample.lines()[start:stop])


@given(tables(least_columns=1), st.data())
def test_filters_by_a_value(sample, data):
    name = data.draw(st.sampled_from(sample.names))
    sign, at = data.draw(st.sampled_from([*SIGNS])), sample.names.index(name)
    some = [row for row in sample.rows[name] if row is not None]
    value = data.draw(st.sampled_from(some) if some else values(sample.types[name]))
    due = [line for line in sample.lines() if line[at] is not None and SIGNS[sign](*map(_ordered, (line[at], value)))]
    check(sample.table.filter_by(name, sign, value), sample.names, due)


def _ordered(value):
    """Texts are ordered by their bytes."""
    return value.encode() if isinstance(value, str) else value


@given(tables(), st.data())
def test_tables_one_after_the_other(sample, data):
    names, lines = sample.names, sample.lines()
    first, second = (data.draw(st.integers(0, sample.count)) for _ in range(2))
    left, right = sample.table[:first], sample.table[second:]
    check(left.append(right), names, lines[:first] + lines[second:])
    turned = right.select(*data.draw(st.permutations(names)))
    check(left.append(turned, right), names, lines[:first] + lines[second:] * 2)
    check(left.append(), names, lines[:first])


@given(tables(), st.data())
def test_columns_in_and_out(sample, data):
    names, table = sample.names, sample.table
    chosen = data.draw(st.lists(st.sampled_from(names), unique=True)) if names else []
    assert table.select(*chosen).to_dict() == {name: sample.rows[name] for name in chosen}
    left = [name for name in names if name not in chosen]
    assert table.drop(*chosen).to_dict() == {name: sample.rows[name] for name in left}
    assert table.drop(*chosen).names == left and table.select(*chosen).rows == sample.count
    if chosen:
        assert table[chosen].names == chosen and table[chosen[0]].to_list() == sample.rows[chosen[0]]
    changed = {name: f"{name} anew {at}" for at, name in enumerate(chosen)}
    check(table.rename(changed), [changed.get(name, name) for name in names], sample.lines())
    more = Column.of(list(range(sample.count)), "i64")
    assert table.with_column("one more", more).to_dict() == {**sample.rows, "one more": more.to_list()}
    for name in chosen[:1]:
        again = table.with_column(name, more.cast("i32"))
        assert again.names == names and again[name].to_list() == more.to_list() and again[name].type == "i32"


@given(tables())
def test_equal_tables(sample):
    table, names = sample.table, sample.names
    assert table.equals(table) and table.equals(table.to_runs()) and table.to_runs().equals(table)
    assert table == table and table != table.to_runs() and hash(table) == hash(table)
    for again in (pickle.loads(pickle.dumps(table)), copy.copy(table), copy.deepcopy(table), Table(table)):
        assert again.equals(table) or not names
    if names and sample.count:
        assert not table.equals(table[1:]) and not table.equals(table.drop(names[0]))
        assert not table.equals(table.with_column(names[0], Column.constant(0, sample.count), "tdm"))
        changed = table.rename({names[-1]: "another name"})
        assert not table.equals(changed) and changed.rename({"another name": names[-1]}).equals(table)
    if len(names) > 1:
        assert not table.equals(table.select(*names[::-1]))


def test_rows_that_differ_in_one_place():
    table = Table({"a": [1, 2, 3], "b": ["x", None, "z"]})
    assert table.equals(Table({"a": [1, 2, 3], "b": ["x", None, "z"]}))
    assert not table.equals(Table({"a": [1, 2, 4], "b": ["x", None, "z"]}))
    assert not table.equals(Table({"a": [1, 2, 3], "b": ["x", "", "z"]}))
    assert not table.equals(Table({"a": Column.of([1, 2, 3], "i32"), "b": ["x", None, "z"]}))


# ---- Groups


def of_valid(fold, rows):
    valid = [row for row in rows if row is not None]
    if fold in ("size", "count"):
        return len(rows if fold == "size" else valid)
    answers = {"sum": sum, "min": min, "max": max, "first": lambda rows: rows[0], "last": lambda rows: rows[-1]}
    return answers[fold](valid) if valid else None


@given(tables(least_columns=1), tables(types=tuple(BITS), least_columns=1, most_columns=1), st.data())
def test_groups(sample, numbers, data):
    rows = min(sample.count, numbers.count)
    key = data.draw(st.sampled_from(sample.names))
    (given_values,) = numbers.rows.values()
    table = sample.table[:rows].with_column("the numbers", numbers.table[:rows][numbers.names[0]])
    lines = zip(sample.rows[key][:rows] if key != "the numbers" else given_values, given_values)
    due = [(key, [row for _, row in part]) for key, part in groupby(lines, key=lambda line: line[0])]
    asked = {fold: ("the numbers", fold) for fold in ("size", "count", "min", "max", "first", "last") if fold != key}
    wide = "u64" if numbers.types[numbers.names[0]][0] == "u" else "i64"
    low, high = least_and_greatest(wide)
    if key != "sum" and all(low <= (of_valid("sum", part) or 0) <= high for _, part in due):
        asked["sum"] = ("the numbers", "sum")
    found = table.group_by(key).agg({**asked, **({} if key == "rows" else {"rows": "size"})})
    assert found[key].to_list() == [key for key, _ in due]
    for fold in asked:
        assert found[fold].to_list() == [of_valid(fold, part) for _, part in due]
    assert key == "rows" or found["rows"].to_list() == [len(part) for _, part in due]
    assert table.group_by(key).agg().to_dict() == {key: [key for key, _ in due]}


@given(tables(least_columns=2), tables(types=tuple(BITS), least_columns=1, most_columns=1), st.data())
def test_groups_by_several_columns(sample, numbers, data):
    rows = min(sample.count, numbers.count)
    (given_values,) = numbers.rows.values()
    by = data.draw(st.lists(st.sampled_from(sample.names), min_size=1, unique=True))
    table = sample.table[:rows].with_column("the numbers", numbers.table[:rows][numbers.names[0]])
    lines = list(zip(zip(*(sample.rows[name][:rows] for name in by)), given_values))
    due = [(key, [row for _, row in part]) for key, part in groupby(lines, key=lambda line: line[0])]
    found = table.group_by(*by).agg({"least of all": ("the numbers", "min"), "rows of it": "size"})
    assert found.names == [*by, "least of all", "rows of it"] and found.rows == len(due)
    for at, name in enumerate(by):
        assert found[name].to_list() == [key[at] for key, _ in due] and found[name].type == table[name].type
    assert found["least of all"].to_list() == [of_valid("min", part) for _, part in due]
    assert found["rows of it"].to_list() == [len(part) for _, part in due]
    assert table.group_by(*by).agg().to_dict() == {name: [key[at] for key, _ in due] for at, name in enumerate(by)}


def test_groups_by_two_columns():
    table = Table({"place": ["a", "a", "a", "b", "b"], "day": [1, 1, 2, 2, 2], "level": [5, None, 7, 1, 2**63 - 1]},
                  {"day": "tss:"})
    found = table.group_by("place", "day").agg(total=("level", "count"), last=("day", "last"))
    assert found.select("place", "total").to_dict() == {"place": ["a", "a", "b"], "total": [1, 1, 2]}
    assert found.logical_types == {"day": "tss:", "last": "tss:"} and found["last"].to_list() == found["day"].to_list()
    assert repr(table.group_by("place", "day")) == "<groups of 5 rows by 'place', 'day'>"
    with pytest.raises(OverflowError, match="^column 'level': sum: group 2 does not fit i64$"):
        table.group_by("place", "day").agg(total=("level", "sum"))


@given(tables(), st.data())
def test_rows_without_null(sample, data):
    names = data.draw(st.lists(st.sampled_from(sample.names), unique=True)) if sample.names else []
    places = [sample.names.index(name) for name in names or sample.names]
    due = [line for line in sample.lines() if all(line[at] is not None for at in places)]
    check(sample.table.drop_null(*names), sample.names, due)
    check(sample.table, sample.names, sample.lines())


def test_rows_without_null_in_lists():
    lists = Column.from_lists([1, 2], [0, 1, 1], [1, 1, 0], [True, False, True])
    table = Table({"a": lists, "b": [None, 2, 3]})
    assert table.drop_null().to_dict() == {"a": [[]], "b": [3]} and table.drop_null("a")["b"].to_list() == [None, 3]


def test_groups_of_a_table():
    table = Table(
        {"station": ["a", "a", "b", "a"], "day": Column.of([1, 2, 2, 3], "i32"), "level": [5, None, 7, 2**63 - 1]},
        {"day": "tiM"},
    )
    found = table.group_by("station").agg({"total level": ("level", "sum")}, days="size", since=("day", "first"))
    assert found.to_dict() == {
        "station": ["a", "b", "a"], "total level": [5, 7, 2**63 - 1], "days": [2, 1, 1], "since": [1, 2, 3],
    }
    assert found.logical_types == {"since": "tiM"}
    assert table.group_by("day").agg(n="size").logical_types == {"day": "tiM"}
    by_day = table.with_column("day", [1, 1, 1, 1]).group_by("day")
    with pytest.raises(OverflowError, match="^column 'level': sum: group 0 does not fit i64$"):
        by_day.agg(total=("level", "sum"))
    assert repr(by_day) == "<groups of 4 rows by 'day'>"


# ---- Values that nobody changes


def test_what_a_caller_frees_stays():
    column = Column.of([4, 4, 7])
    table = Table({"a": column})
    column.free()
    with table["a"] as own:
        assert own.to_list() == [4, 4, 7]
    assert table.to_dict() == {"a": [4, 4, 7]}
    with pytest.raises(errors.NoColumn):
        table.with_column("b", column)
    with pytest.raises(TypeError):
        table["a"] = [1, 2, 3]


def test_many_rows_in_few_runs():
    table = Table({"a": Column.constant("x", 2**61), "b": Column.from_runs([2**60, 2**61], [1, 2])})
    assert table.rows == 2**61 and table[-1] == {"a": "x", "b": 2} and table[2**60 - 1 :].rows == 2**60 + 1
    assert table.append(table).rows == 2**62 and table.equals(table.to_runs())


def test_lists():
    lists = Column.from_lists([1, 2, 3], [0, 1, 1], [1, 2, 0], [True, True, False])
    table = Table({"a": lists, "b": [1, 2, 3]})
    assert table[::-1].to_dict() == {"a": [None, [2, 3], [1]], "b": [3, 2, 1]}
    assert table.equals(table.to_runs()) and not table.equals(table.append(table)[3:][::-1])
    assert repr(table).splitlines()[1] == "  a  list?  lists  [1], [2, 3], None"
    assert table.equals(table.append(table)[3:])
    assert table.filter_by("b", "<", 3).append(table[2:]).equals(table) and "lists" in table._repr_html_()


T = Table({"a": [1, 2, None], "b": ["x", "y", "z"]}, {"a": "tiM"})
LISTS = Column.from_lists([1, 2, 3], [0, 1, 2], [1, 1, 1])


@pytest.mark.parametrize(
    "call, kind, said",
    [
        (lambda: Table({"a": [1], "b": [1, 2]}), errors.ColumnLength, "column 'b' has 2 rows, and column 'a' 1"),
        (lambda: Table({"a": [1]}, rows=2), errors.ColumnLength, "column 'a' has 1 rows, and the table 2"),
        (lambda: Table([("a", [1]), ("a", [2])]), ValueError, "two columns have the name 'a'"),
        (lambda: Table({3: [1]}), TypeError, "a column of a table is named by a text, not by 3"),
        (lambda: Table({"\ud800": [1]}), ValueError,
         r"the name of a column: '\ud800' is not UTF-8: U+D800 is half of a surrogate pair"),
        (lambda: Table({"a": 3}), TypeError,
         "column 'a': rows are a list, another iterable, an array or a column, not 3"),
        (lambda: Table(3), TypeError, "columns by name are a mapping, or pairs of a name and a column, not 3"),
        (lambda: Table("ab"), TypeError, "columns by name are a mapping, or pairs of a name and a column, not 'ab'"),
        (lambda: Table({"a": [1]}, {"b": "tdD"}), ValueError, "a logical type for 'b', and no column has this name"),
        (lambda: Table({"a": [1]}, {"a": 3}), TypeError, "a logical type is a format of Arrow, as 'tsu:UTC', not 3"),
        (lambda: Table({"a": [1]}, {"a": ""}), TypeError, "a logical type is a format of Arrow, as 'tsu:UTC', not ''"),
        (lambda: Table({"a": [1]}, "b"), TypeError, "logical types are a mapping from names, not 'b'"),
        (lambda: Table(T["a"]), TypeError, "Table.from_arrow takes batches and tables of an Arrow library"),
        (lambda: T["c"], KeyError, "no column has the name 'c': the names are 'a', 'b'"),
        (lambda: Table()["c"], KeyError, "no column has the name 'c': the table has none"),
        (lambda: T.select("a", "c"), KeyError, "no column has the name 'c': the names are 'a', 'b'"),
        (lambda: T.drop("c"), KeyError, "no column has the name 'c': the names are 'a', 'b'"),
        (lambda: T.rename({"c": "d"}), KeyError, "no column has the name 'c': the names are 'a', 'b'"),
        (lambda: T.group_by("c"), KeyError, "no column has the name 'c': the names are 'a', 'b'"),
        (lambda: T.group_by(), ValueError, "group_by: at least one column has the keys"),
        (lambda: T.group_by([]), ValueError, "group_by: at least one column has the keys"),
        (lambda: T.group_by(["a"], "b"), TypeError, "a column of a table is named by a text, not by ['a']"),
        (lambda: T.select("a", ["b"]), TypeError, "a column of a table is named by a text, not by ['b']"),
        (lambda: T.select(["a", "a"]), ValueError, "two columns have the name 'a'"),
        (lambda: T.group_by("a", "a"), ValueError, "two columns have the name 'a'"),
        (lambda: T.group_by("a", "b").agg(b="size"), ValueError, "two columns have the name 'b': it is that of the keys"),
        (lambda: T.drop_null("a", "c"), KeyError, "no column has the name 'c': the names are 'a', 'b'"),
        (lambda: T.filter_by("c", "<", 1), KeyError, "no column has the name 'c': the names are 'a', 'b'"),
        (lambda: T.select("a", "b", "a"), ValueError, "two columns have the name 'a'"),
        (lambda: T.rename({"a": "b"}), ValueError, "two columns have the name 'b'"),
        (lambda: T.rename({"a": 3}), TypeError, "a column of a table is named by a text, not by 3"),
        (lambda: T.select(3), TypeError, "a column of a table is named by a text, not by 3"),
        (lambda: T.with_column("c", [1]), errors.ColumnLength, "column 'c' has 1 rows, and the table 3"),
        (lambda: T.filter([True]), errors.MaskLength, "a mask of 1 rows over a column of 3 rows"),
        (lambda: T.filter(Column.of([1, 2, 3])), errors.TypeMismatch, "filter: a mask is of booleans, not of i64"),
        (lambda: Table(rows=3).filter([True]), errors.MaskLength, "a mask of 1 rows over a column of 3 rows"),
        (lambda: T.take([0, 3]), errors.OutOfBounds, "row 3 is not among 3 rows"),
        (lambda: T.take(T["b"]), errors.TypeMismatch, "take: indices are integers, not of utf8"),
        (lambda: Table(rows=3).take([3]), errors.OutOfBounds, "row 3 is not among 3 rows"),
        (lambda: T.row(3), errors.OutOfBounds, "row 3 is not among 3 rows"),
        (lambda: T[-4], errors.OutOfBounds, "row -4 is not among 3 rows"),
        (lambda: T.slice(1, 4), errors.BadRange, "rows 1 to 4 are not among 3 rows"),
        (lambda: T.filter_by("a", "~", 1), ValueError, "column 'a': '~' is not an operator: the operators are == != >"),
        (lambda: T.filter_by("b", "<", 1), TypeError, "column 'b': a value of type utf8 is a text, not 1"),
        (lambda: T.append(3), TypeError, "a table is appended to a table, not 3"),
        (lambda: T.append(T.drop("b")), ValueError,
         "append: the tables have columns of different names: only the first has 'b'"),
        (lambda: T.drop("b").append(T), ValueError,
         "append: the tables have columns of different names: only the other has 'b'"),
        (lambda: T.append(Table({"a": T["a"].storage(), "b": T["b"]})), errors.TypeMismatch,
         "column 'a': append: i64 tiM (table 0) and i64 (table 1) are two types, and none has the rows of both: cast one "
         "to the other"),
        (lambda: T.append(T.with_column("b", [1, 2, 3])), errors.TypeMismatch,
         "column 'b': append: utf8 (table 0) and i64 (table 1) are two types, and none has the rows of both: cast one to "
         "the other"),
        (lambda: T.group_by("b").agg(b="size"), ValueError, "two columns have the name 'b': it is that of the keys"),
        (lambda: T.group_by("b").agg(c=("a", "median")), TypeError,
         "agg: 'c' is asked by 'size', or a column and one of sum, mean, size, count, min, max, first, last, not by ('a', "),
        (lambda: T.group_by("b").agg(c=("d", "min")), KeyError, "no column has the name 'd': the names are 'a', 'b'"),
        (lambda: T.group_by("a").agg(c=("b", "sum")), errors.Unsupported, "column 'b': sum: rows of type utf8 have no sum; ask min"),
        (lambda: T.group_by("a").agg(c=("b\ud800", "min")), KeyError, "no column has the name 'b\\ud800': the names are "),
        # of several refusals the one that the library finds first
        (lambda: T.group_by("a").agg(c=("d", "sum"), a="size"), ValueError, "two columns have the name 'a': it is that of"),
        (lambda: T.group_by("a").agg(c=("b", "sum"), d=("d", "sum")), errors.Unsupported, "column 'b': sum: rows of type "),
        (lambda: T.group_by("a").agg(d=("d", "sum"), c=("b", "sum")), KeyError, "no column has the name 'd': the names "),
        (lambda: T.with_column("l", LISTS).group_by("b", "l").agg(b=("d", "sum")), errors.Unsupported,
         "column 'l': group_by: lists cannot be keys"),
        (lambda: T.with_column("l", LISTS).group_by("b").agg(l=("l", "min")), errors.Unsupported,
         "column 'l': min does not serve columns of list"),
        (lambda: T.equals(3), TypeError, "a table is compared with a Table, not with 3"),
    ],
)  # fmt: skip
def test_refusals(call, kind, said):
    with pytest.raises(kind) as refused:
        call()
    assert str(refused.value).startswith(said)
    assert T.to_dict() == {"a": [1, 2, None], "b": ["x", "y", "z"]} and T.logical_types == {"a": "tiM"}


def test_a_name_that_is_not_there_is_pickled():
    refused = pickle.loads(pickle.dumps(errors.NoName("x", [str(at) for at in range(10)])))
    assert str(refused).endswith("'6', '7' and 2 more") and refused.names[9] == "9"


def test_names_may_be_a_list():
    rows = {"a": [1, 1, None], "b": ["x", "x", "x"], "c": [None, 2, 3]}
    table = Table(rows)
    for names in (["a"], ["b", "a"], ("c", "b"), []):
        assert table.select(names).to_dict() == {name: rows[name] for name in names}
        assert table.drop(names).names == [name for name in rows if name not in names]
        kept = [all(rows[name][row] is not None for name in names) for row in range(3)]
        assert table.drop_null(names).to_dict() == {name: [*compress(rows[name], kept)] for name in rows}
    groups = [(key, len([*some])) for key, some in groupby(zip(rows["a"], rows["b"]))]
    assert [*zip(*table.group_by(["a", "b"]).agg(n="size").to_dict().values())] == [(*key, n) for key, n in groups]
