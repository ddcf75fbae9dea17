"""What Column.of makes of lists, buffers, NumPy and pandas: types by hand, and what it refuses."""
import array
import math
from datetime import date
from decimal import Decimal

import numpy
import pandas
import pytest
from hivevigil import Column
from hypothesis import given
from hypothesis import strategies as st
from rows import TYPES, values


@pytest.mark.parametrize(
    "rows, type",
    [
        ([1, -1], "i64"),
        ([2**63 - 1, -(2**63)], "i64"),
        ([2**63, 0], "u64"),
        ([2**64 - 1, None], "u64?"),
        ([True, False, None], "bool?"),
        (["a", ""], "utf8"),
        ([b"a", bytearray(b"b"), memoryview(b"c")], "binary"),
        ([Decimal("1.50"), Decimal("20")], "decimal(38, 2)"),
        ([Decimal("0.001"), None], "decimal(38, 3)?"),
        ([Decimal("1E+3")], "decimal(38, 0)"),
        ([Decimal("-12.5"), 3], "decimal(38, 1)"),
        ([Decimal("0")], "decimal(38, 0)"),
        ([Decimal(10**38 - 1)], "decimal(38, 0)"),
        ([numpy.int8(1), 2], "i64"),
        ([numpy.bool_(True), False], "bool"),
        ([numpy.str_("a")], "utf8"),
        (range(3), "i64"),
        ((row for row in [1, None]), "i64?"),
    ],
)
def test_types_that_are_inferred(rows, type):
    assert Column.of(rows).type == type


@pytest.mark.parametrize(
    "rows, error",
    [
        ([], ValueError),
        ([None, None], ValueError),
        ([2**64], OverflowError),
        ([-1, 2**63], OverflowError),
        ([1.5, Decimal(1)], TypeError),
        ([float("nan"), "a"], TypeError),
        ([True, 2], TypeError),
        (["a", b"b"], TypeError),
        ([1, "1"], TypeError),
        ([Decimal("NaN")], ValueError),
        ([Decimal("Infinity"), Decimal(1)], ValueError),
        ([Decimal(10**38)], OverflowError),
        ([Decimal("1E-39")], OverflowError),
        ([Decimal("1E+400000")], OverflowError),
        ([date(2024, 1, 1), 1], TypeError),
        ([object()], TypeError),
        ("abc", TypeError),
        (7, TypeError),
        (None, TypeError),
        (["\ud800"], ValueError),
    ],
)
def test_rows_that_are_refused(rows, error):
    with pytest.raises(error):
        Column.of(rows)


@pytest.mark.parametrize(
    "rows, said",
    [
        ([5, 2**64], "no type of integers has 18446744073709551616"),
        ([5, -(2**63) - 1], "no type of integers has -9223372036854775809"),
        ([-1, 2**63], "no type of integers has both -1 and 9223372036854775808"),
    ],
)
def test_integers_that_no_type_has(rows, said):
    with pytest.raises(OverflowError) as refused:
        Column.of(rows)
    assert str(refused.value) == said


@pytest.mark.parametrize(
    "rows, type, error",
    [
        ([256], "u8", OverflowError),
        ([-1], "u64", OverflowError),
        ([2**64], "u64", OverflowError),
        ([128, None], "i8", OverflowError),
        ([1.0], "i32", TypeError),
        (["1"], "i32", TypeError),
        ([1], "bool", TypeError),
        ([1], "utf8", TypeError),
        (["a"], "binary", TypeError),
        ([Decimal("1.25")], "decimal(3, 1)", ValueError),
        ([Decimal("100")], "decimal(3, 1)", OverflowError),
        ([1.5], "decimal(3, 1)", TypeError),
        ([True], "decimal(3, 1)", TypeError),
        ([1], "i65", TypeError),
        ([1], "f64", TypeError),
        ([1], complex, TypeError),
        ([1], "list", TypeError),
        ([1], "decimal", TypeError),
        ([1], "i8(3)", TypeError),
        ([1], "decimal(0, 0)", ValueError),
        ([1], "decimal(39, 0)", ValueError),
        ([1], "decimal(5, 200)", ValueError),
        ([1], 7, TypeError),
        (numpy.array([300]), "u8", OverflowError),
        (numpy.array([1]), "utf8", TypeError),
    ],
)
def test_types_that_do_not_fit(rows, type, error):
    with pytest.raises(error):
        Column.of(rows, type)


@pytest.mark.parametrize(
    "asked, type",
    [
        (int, "i64"), (bool, "bool"), (str, "utf8"), (bytes, "binary"), ("int8", "i8"), ("uint16?", "u16?"),
        (numpy.dtype("uint32"), "u32"), (numpy.int16, "i16"), (" decimal( 5 ,2) ?", "decimal(5, 2)?"),
        ("decimal(5)", "decimal(5, 0)"), ("decimal(5, -2)", "decimal(5, -2)"),
    ],
)
def test_names_of_types(asked, type):
    assert Column.of([], asked).type == type


def test_decimals_are_exact():
    assert Column.of([Decimal("1.50")], "decimal(9, 4)").to_list() == [Decimal("1.5000")]
    assert str(Column.of([Decimal("1.5")], "decimal(9, 4)")[0]) == "1.5000"
    assert Column.of([1200], "decimal(5, -2)")[0] == 1200
    assert Column.of([10**37, -(10**37)], "decimal(38, 0)").to_list() == [10**37, -(10**37)]
    with pytest.raises(ValueError):
        Column.of([1250], "decimal(5, -2)")


@pytest.mark.parametrize("name", ["int8", "int16", "int32", "int64", "uint8", "uint16", "uint32", "uint64"])
def test_arrays_of_numbers(name):
    info = numpy.iinfo(name)
    items = numpy.array([info.min, info.max, 1, 1], dtype=name)
    due = items.tolist()
    for given in (items, items[::1], items.astype(items.dtype.newbyteorder()), numpy.repeat(items, 2)[::2]):
        column = Column.of(given)
        assert (column.type, column.to_list()) == (name[0] + name.lstrip("uint"), due)
    assert Column.of(items[::-1]).to_list() == due[::-1]
    read_only = items.copy()
    read_only.flags.writeable = False
    assert Column.of(read_only).to_list() == due
    masked = numpy.ma.masked_array(items, [True, False, False, True])
    assert Column.of(masked).to_list() == [None, due[1], 1, None]


def test_other_arrays():
    assert Column.of(numpy.array([True, False] * 9)).to_list() == [True, False] * 9
    assert Column.of(numpy.array(["a", "été"])).to_list() == ["a", "été"]
    assert Column.of(numpy.array([b"a", b"bc"])).to_list() == [b"a", b"bc"]
    assert Column.of(numpy.array(["a", None], dtype=object)).to_list() == ["a", None]
    assert Column.of(numpy.array([], dtype="U")).type == "utf8"
    assert Column.of(numpy.array([1, 2]), "i8?").type == "i8?"
    for refused in (numpy.array([1.5], "longdouble"), numpy.array([1], "m8"), numpy.array([1j])):
        with pytest.raises(TypeError):
            Column.of(refused)
    with pytest.raises(ValueError):
        Column.of(numpy.array([[1, 2], [3, 4]]))


def test_buffers():
    assert Column.of(array.array("h", [1, 2])).type == "i16"
    assert Column.of(memoryview(array.array("q", [1, 2, 3]))[::2]).to_list() == [1, 3]
    assert Column.from_buffer(array.array("B", [1, 2, 3]), [True, False, True]).to_list() == [1, None, 3]
    assert Column.from_buffer(numpy.array([1, 2]), numpy.array([False, True])).to_list() == [None, 2]
    items = array.array("q", [1, 2])
    column = Column.of(items)
    items[0] = 9  # what was given is copied
    assert column.to_list() == [1, 2]
    with pytest.raises(ValueError):
        Column.from_buffer(array.array("B", [1, 2]), [True])
    with pytest.raises(TypeError):
        Column.of(memoryview(bytes(4)).cast("B", (2, 2)))
    with pytest.raises(TypeError):
        Column.from_buffer(array.array("d", [1.0]))


@pytest.mark.parametrize(
    "series, type, rows",
    [
        (pandas.Series([1, 2]), "i64", [1, 2]),
        (pandas.Series([1, 2], dtype="uint8"), "u8", [1, 2]),
        (pandas.Series([1, None], dtype="Int16"), "i16?", [1, None]),
        (pandas.Series([1, 2], dtype="Int64"), "i64?", [1, 2]),
        (pandas.Series([True, None], dtype="boolean"), "bool?", [True, None]),
        (pandas.Series([True, False]), "bool", [True, False]),
        (pandas.Series(["a", None, "b"]), "utf8?", ["a", None, "b"]),
        (pandas.Series(["a", None], dtype="string"), "utf8?", ["a", None]),
        (pandas.Series(["a", "b", "a", None], dtype="category"), "utf8?", ["a", "b", "a", None]),
        (pandas.Index([3, 4]), "i64", [3, 4]),
        (pandas.Series([1, 2, 3])[::-1], "i64", [3, 2, 1]),
        (pandas.Series([Decimal("1.5"), None]), "decimal(38, 1)?", [Decimal("1.5"), None]),
    ],
)
def test_pandas(series, type, rows):
    column = Column.of(series)
    assert (column.type, column.to_list()) == (type, rows)


def test_to_pandas():
    back = Column.of([1, None, 3], "i16").encode().to_pandas()
    assert str(back.dtype) == "Int16" and back.isna().tolist() == [False, True, False] and back.sum() == 4
    assert Column.of([1, 2], "u8").to_pandas().dtype == "uint8"
    assert str(Column.of([True, None]).to_pandas().dtype) == "boolean"
    texts = Column.of(["a", None]).to_pandas()
    assert str(texts.dtype) == "string" and texts[0] == "a" and texts.isna()[1]
    assert Column.of([b"a", None]).to_pandas().tolist() == [b"a", None]


def test_runs_by_their_ends():
    runs = Column.from_runs([2, 5], ["a", None])
    assert (runs.to_list(), runs.ends().type) == (["a", "a", None, None, None], "u64")
    assert Column.from_runs(numpy.array([2, 5], "uint8"), [1, 2], 1).to_list() == [1, 2, 2, 2]
    assert Column.from_runs(numpy.array([2, 5]), [1, 2], 1, 2).to_list() == [1, 2]
    assert Column.from_runs([], Column.of([], "i8")).to_list() == []
    same = Column.of([1, 2], "u8")
    assert Column.from_runs(same, same).to_list() == [1, 2]


@given(st.sampled_from(TYPES), st.data(), st.integers(0, 40))
def test_a_constant(name, data, count):
    value = data.draw(st.none() | values(name))
    column = Column.constant(value, count, name)
    assert column.to_list() == [value] * count
    assert column.type == name + "?" * (value is None) and column.form == "constant"


def test_a_constant_takes_no_room():
    column = Column.constant("Oslo", 2**60)
    assert (column._length, column.type, column[2**59], column.run_count()) == (2**60, "utf8", "Oslo", 1)
    assert column[2**59 : 2**59 + 2].to_list() == ["Oslo", "Oslo"]
    assert Column.constant(2**63, 1).type == "u64" and Column.constant(None, 2, "i8?").to_list() == [None, None]


DTYPES = {
    "i64": ["int", "Int64", pandas.Int64Dtype(), numpy.dtype("i8"), numpy.int64],
    "u16": ["UInt16", pandas.UInt16Dtype()],
    "float64": ["float", "Float64", pandas.Float64Dtype(), numpy.dtype(float)], "float32": [pandas.Float32Dtype()],
    "bool": ["boolean", "bool", pandas.BooleanDtype()], "binary": [numpy.dtype("S3"), "bytes", bytes],
    "utf8": ["str", "string", pandas.StringDtype(), numpy.dtype("U3"), numpy.str_],
}  # fmt: skip
OF_DTYPES = {"bool": [True, None], "utf8": ["a", None], "binary": [b"a", None]}


@pytest.mark.parametrize("name, dtype", [(name, dtype) for name, dtypes in DTYPES.items() for dtype in dtypes])
def test_names_of_dtypes(name, dtype):
    rows = OF_DTYPES.get(name, [1, None])
    made = Column.of(rows, dtype)
    assert str(made.logical_type or made.type.rstrip("?")) == name and made.to_list() == rows
    assert Column.of(rows[:1], dtype).nullable is False


CATEGORIES = [
    ["a", None, "b", "a"], [3, 3, None, 2**40], [1.5, -0.5, 1.5], [pandas.Timestamp(2024, 1, 2), None], ["a"] * 3,
]


@pytest.mark.parametrize("rows", CATEGORIES)
def test_categories_of_pandas(rows):
    series = pandas.Series(rows, dtype="category")
    unused = series.cat.add_categories([type(rows[0])(7)])
    for given_rows in (series, series.array, pandas.Index(series), unused, series[::-1][::-1], unused.cat.as_ordered()):
        made = Column.of(given_rows)
        assert made.to_list() == rows and made.nullable == (None in rows)
        assert made.type.rstrip("?") == Column.of(rows).type.rstrip("?")
    if isinstance(rows[0], str):  # objects of any class
        with pytest.raises(ValueError, match="^no row tells a type"):
            Column.of(series[:0])
    else:
        assert Column.of(series[:0]).type == Column.of(rows).type.rstrip("?")


def test_sparse_arrays_of_pandas():
    for rows in ([0.0, math.nan, 1.5], [0, 0, 7], [True, False]):
        sparse = pandas.arrays.SparseArray(rows)
        expected = [None if row != row else row for row in rows]
        assert Column.of(sparse).to_list() == Column.of(pandas.Series(sparse)).to_list() == expected
