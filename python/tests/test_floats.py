"""Floats against Python's own: values, bits, comparisons, sums and conversions, in every form of a column."""
import array
import copy
import itertools
import math
import pickle
import random
import struct
from decimal import Decimal
from fractions import Fraction

import pytest

from hivevigil import Column, Table, _float_columns, columns_from_arrow, concat
from hivevigil.builder import Builder
from hivevigil.errors import CastOutOfRange, TypeMismatch
from hivevigil.logical import LogicalType

NAN, INFINITY = float("nan"), float("inf")
WIDTHS = {"float16": ("e", "H"), "float32": ("f", "I"), "float64": ("d", "Q")}
ODD = [
    0.0, -0.0, 5e-324, -5e-324, 2.2250738585072014e-308, 1.0, 1.0000000000000002, -1.5, 1e308, 1.7976931348623157e308,
    INFINITY, -INFINITY, NAN, 0.1, 3.0, -3.0,
]
SIGNS = {
    "==": lambda a, b: a == b, "!=": lambda a, b: a != b, ">": lambda a, b: a > b, ">=": lambda a, b: a >= b,
    "<": lambda a, b: a < b, "<=": lambda a, b: a <= b,
}


def bits(value, type="float64"):
    letter, word = WIDTHS[type]
    return struct.unpack("=" + word, struct.pack("=" + letter, value))[0]


def same(left, right):
    """Whether rows are the same floats, bit by bit."""
    return [None if row is None else bits(row) for row in left] == [None if row is None else bits(row) for row in right]


def random_rows(seed, count=40):
    choice = random.Random(seed)
    rows = []
    for _ in range(count):
        again = rows and choice.random() < 0.5
        rows.append(rows[-1] if again else choice.choice([None, *ODD, choice.uniform(-10, 10)]))
    return rows


def forms(rows):
    """The column of rows flat, in runs, and as a window of runs."""
    flat = Column.of(rows, "float64?")
    window = Column.of([1.5, *rows, None], "float64?").to_runs().slice(1, len(rows) + 1)
    return [flat, flat.to_runs(), window]


def of_bits(words, type):
    """The floats with these bits."""
    return _float_columns.of_bits(Column.of(array.array(WIDTHS[type][1], words)), LogicalType("float", type[5:]))


# ---- Values ----


@pytest.mark.parametrize("seed", range(5))
def test_rows_come_back_bit_by_bit(seed):
    rows = random_rows(seed)
    for column in forms(rows):
        assert str(column.logical_type) == "float64" and column.type == "i64?"
        assert same(column.to_list(), rows) and same(list(column), rows)
        assert same([column[row] for row in range(len(rows))], rows)
        assert column.null_count == rows.count(None)


def test_types_that_are_inferred():
    assert str(Column.of([1.5, None, NAN]).logical_type) == "float64"
    assert Column.of([1, 2.5, None]).to_list() == [1.0, 2.5, None]
    assert Column.of([1, 2.5]).type == "i64"
    assert Column.constant(1.5, 3).to_list() == [1.5] * 3
    assert Column.constant(None, 2, float).to_list() == [None, None]
    for type in ("float32", "Float32", LogicalType("float", "32")):
        assert str(Column.of([1.5, 2], type).logical_type) == "float32"
    assert Column.of([], "float16").to_list() == []


@pytest.mark.parametrize(
    "rows, type, error, words",
    [
        ([1.5, 0.1], "float32", ValueError, "row 1: 0.1 is between two floats of float32, and nothing is rounded"),
        ([1.5, 1e39], "float32", OverflowError, "row 1: 1e+39 does not fit float32"),
        ([1.0, 65520.0], "float16", OverflowError, "row 1: 65520.0 does not fit float16"),
        ([1.0, 2**53 + 1], "float64", ValueError,
         "row 1: 9007199254740993 is between two floats of float64, and nothing is rounded"),
        ([1.0, "x"], "float64", TypeError, "row 1: a value of type float64 is a number, not 'x'"),
        ([1.0, True], "float64", TypeError, "row 1: a value of type float64 is a number, not True"),
        ([1.0, "x"], None, TypeError, "row 0 is 1.0 and row 1 is 'x': a column has one type"),
        ([1.0, Decimal(1)], None, TypeError, "row 0 is 1.0 and row 1 is Decimal('1'): a column has one type"),
        ([1, 1.5], "i64", TypeError, "row 1 is 1.5, not an integer: floats are values of float64, float32 and float16"),
    ],
)
def test_rows_that_are_refused(rows, type, error, words):
    with pytest.raises(error) as refused:
        Column.of(rows, type)
    assert str(refused.value) == words


def test_every_pattern_of_16_bits_is_kept():
    words = list(range(1 << 16))
    column = of_bits(words, "float16")
    assert column.storage().to_list() == [word if word < 1 << 15 else (1 << 15) - 1 - word for word in words]
    for each in (column, column.to_runs()):
        assert _float_columns.bits(each).to_list() == words


@pytest.mark.parametrize("type", ["float32", "float64"])
def test_payloads_of_nans_are_kept(type):
    numpy = pytest.importorskip("numpy")
    width = int(type[5:])
    choice = random.Random(3)
    infinity = bits(INFINITY, type)
    words = [infinity + choice.randrange(1, 1 << (10 if width == 16 else 20)) for _ in range(50)]
    words += [word + (1 << (width - 1)) for word in words] + [bits(0.0, type), bits(-0.0, type)]
    items = numpy.array(words, f"u{width // 8}").view(type)
    for column in (Column.of(items), Column.of(items).to_runs(), of_bits(words, type)):
        assert str(column.logical_type) == type
        assert column.to_numpy().view(f"u{width // 8}").tolist() == words
        assert Column.from_arrow(column).to_numpy().view(f"u{width // 8}").tolist() == words
        assert pickle.loads(pickle.dumps(column)).to_numpy().view(f"u{width // 8}").tolist() == words


# ---- Commands keep the type ----


def test_commands_keep_the_type(tmp_path):
    rows = [1.5, 1.5, None, NAN, -0.0, 2.0]
    for column in forms(rows):
        made = [
            (column.slice(1, 5), rows[1:5]), (column[::2], rows[::2]), (column.take([5, None, 0]), [2.0, None, 1.5]),
            (column.filter([True, False] * 3), rows[::2]),
            (column.fill(0.5), [1.5, 1.5, 0.5, NAN, -0.0, 2.0]), (column.copy(), rows), (column.compact(), rows),
            (copy.deepcopy(column), rows), (pickle.loads(pickle.dumps(column)), rows), (column.decode(), rows),
            (concat([column, column]), rows * 2), (column.to_runs().values(), rows),
            (Column.of([5, 0]).take_from(column), [2.0, 1.5]), (Column.from_arrow(column), rows),
        ]
        column.save(tmp_path / "kept")
        made.append((Column.load(tmp_path / "kept"), rows))
        for number, (each, due) in enumerate(made):
            assert str(each.logical_type) == "float64", number
            due = due if number != 11 else [next(equal) for _, equal in itertools.groupby(due, key=repr)]
            assert same(each.to_list(), due), number
        assert [run.value for run in column.runs()][:2] == [1.5, None]


def test_builder():
    builder = Builder("float64?")
    builder.append([1.5, 1.5, None])
    builder.append_value(2, 2)
    builder.append(Column.of([NAN, 0.5], "float64?"))
    with pytest.raises(TypeMismatch):
        builder.append(Column.of([1, 2]))
    with pytest.raises(TypeError):
        builder.append_value("x")
    made = builder.finish()
    assert str(made.logical_type) == "float64" and same(made.to_list(), [1.5, 1.5, None, 2.0, 2.0, NAN, 0.5])


# ---- Comparisons ----


def compared(rows, sign, other):
    return [None if row is None else SIGNS[sign](row, other) for row in rows]


@pytest.mark.parametrize("sign", SIGNS)
@pytest.mark.parametrize("other", [*ODD, 0, 3, 2**80, -(10**400), Decimal("0.1"), Decimal("1E+4000"), Decimal("-1E-4000"),
                                   Fraction(1, 3), Fraction(-1, 10**330), Decimal("Infinity"), 2**53 + 1])
def test_comparisons_with_a_number(sign, other):
    rows = random_rows(7, 60) + [*ODD, 2.0**53, 2.0**53 + 2, 1 / 3]
    exact = other if not isinstance(other, Decimal) else Fraction(other) if other.is_finite() else float(other)
    due = compared(rows, sign, exact)
    for column in forms(rows):
        assert column.compare(sign, other).to_list() == due


@pytest.mark.parametrize("type", ["float16", "float32"])
@pytest.mark.parametrize("other", [0.1, 1e300, -1e300, 1e-300, -1e-300, 0, 2.0, 65505, NAN, INFINITY])
def test_narrow_rows_compare_exactly(type, other):
    rows = [0.0, -0.0, 0.0999755859375, 0.10003662109375, 2.0, 65504.0, -65504.0, NAN, INFINITY, -INFINITY, None]
    column = Column.of(rows, type)
    for sign in SIGNS:
        assert column.compare(sign, other).to_list() == compared(rows, sign, other)


@pytest.mark.parametrize("sign", SIGNS)
def test_comparisons_of_two_columns(sign):
    left, right = zip(*itertools.product([None, *ODD], repeat=2))
    due = [None if None in pair else SIGNS[sign](*pair) for pair in zip(left, right)]
    for one, other in itertools.product(forms(list(left)), forms(list(right))):
        assert one.compare(sign, other).to_list() == due
    column = forms(list(left))[0]
    assert column.compare(sign, column).to_list() == [None if row is None else SIGNS[sign](row, row) for row in left]
    narrow = Column.of([1.5, 0.5, None], "float32")
    assert narrow.compare(sign, Column.of([1.5, 0.1, 1.0])).to_list() == [SIGNS[sign](1.5, 1.5), SIGNS[sign](0.5, 0.1), None]


def test_what_is_not_compared():
    column = Column.of([1.5, None])
    assert column.eq(None).to_list() == [None, None]
    for other in ("x", True, b"1"):
        with pytest.raises(TypeError):
            column.eq(other)
    with pytest.raises(TypeMismatch):
        column.eq(Column.of([1, 2]))
    assert 1.5 in column and None in column and 2 not in column and NAN not in Column.of([NAN]) and "x" not in column
    assert column[column.ge(1)].to_list() == [1.5]


# ---- Questions ----


@pytest.mark.parametrize("seed", range(5))
def test_sums_are_exact(seed):
    choice = random.Random(seed)
    rows = [choice.choice([None, choice.uniform(-1, 1) * 10.0 ** choice.randrange(-300, 300)]) for _ in range(60)]
    rows += [rows[-1]] * choice.randrange(5)
    present = [row for row in rows if row is not None]
    for column in forms(rows):
        assert column.sum() == math.fsum(present)
        assert column.mean() == (math.fsum(present) / len(present) if present else None)


@pytest.mark.parametrize(
    "rows, due",
    [
        ([1e308, 1e308, -1e308], 1e308), ([1.7e308] * 3, INFINITY), ([-1.7e308] * 3, -INFINITY), ([1e100, 1.0, -1e100], 1.0),
        ([INFINITY, 1.0], INFINITY), ([INFINITY, -INFINITY], NAN), ([NAN, 1.0], NAN), ([], 0.0), ([None], 0.0),
        ([-0.0, -0.0], -0.0), ([-0.0, 0.0], 0.0), ([5e-324] * 4, 2e-323),
    ],
)
def test_sums_that_are_odd(rows, due):
    found = Column.of(rows, "float64").sum()
    assert math.isnan(found) if math.isnan(due) else bits(found) == bits(due)


def test_narrow_sums_are_those_of_64_bits():
    assert Column.of([65504.0, 65504.0, None], "float16").sum() == 131008.0
    assert Column.of([16777216.0, 1.0, NAN][:2], "float32").to_runs().sum() == 16777217.0
    assert Column.of([1, 2, 4]).mean() == 7 / 3 and Column.of([], "i64").mean() is None


def test_least_and_greatest():
    column = Column.of([2.0, NAN, None, -0.0, 0.0])
    assert (column.min(), column.max()) == (0.0, 2.0) and bits(column.min()) == bits(-0.0)
    assert math.isnan(column.min(skip_nan=False)) and math.isnan(column.max(skip_nan=False))
    assert all(map(math.isnan, column.min_max(skip_nan=False)))
    assert Column.of([2.0, 1.0]).min_max(skip_nan=False) == (1.0, 2.0)
    assert Column.of([NAN, None]).min_max() == (None, None) and Column.of([None], float).min() is None
    assert math.isnan(Column.of([-NAN, 1.0]).max(skip_nan=False))


def test_groups():
    keys, values = Column.of([1.5, 1.5, NAN, NAN, 0.0, -0.0]), Column.of([4.0, 2.0, 1.0, 3.0, 5.0, 6.0])
    groups, least = values.group_by(keys).min()
    assert same(groups.to_list(), [1.5, NAN, 0.0, -0.0]) and least.to_list() == [2.0, 1.0, 5.0, 6.0]
    assert values.group_by(keys).count()[1].to_list() == [2, 2, 1, 1]
    assert values.group_by(keys).sum()[1].to_list() == [6.0, 4.0, 5.0, 6.0]
    assert Column.of([1e16, 1.0, -1e16, None]).group_by([0, 0, 0, 1]).sum()[1].to_list() == [1.0, None]
    one, other = keys.group_by(values).max(), keys.group_by([1, 1, 1, 2, 3, 3]).max()
    assert one[1].to_list() == [1.5, 1.5, None, None, 0.0, -0.0] and other[1].to_list() == [1.5, None, 0.0]


# ---- Conversions ----


def test_casts():
    for column in forms([3.0, 3.0, None, -0.0]):
        assert column.cast("i8?").to_list() == [3, 3, None, 0] and column.cast("i8?").logical_type is None
        assert str(column.cast("float16?").logical_type) == "float16" and column.cast("float16?").to_list()[:3] == [3.0, 3.0, None]
    assert Column.of([1, 1, None]).to_runs().cast("float32?").to_list() == [1.0, 1.0, None]
    assert same(Column.of([NAN, INFINITY, -0.0]).cast("float32").to_list(), [NAN, INFINITY, -0.0])
    assert Column.constant(2.0, 5).cast("i64").to_list() == [2] * 5
    assert Column.of(array.array("i", [1, 2]), "float64").to_list() == [1.0, 2.0]


@pytest.mark.parametrize(
    "rows, type, words",
    [
        ([1.0, 1.0, 1.5], "i64", "cast to i64: row 2 is 1.5, which is not a value of i64"),
        ([1.0, NAN], "i64", "cast to i64: row 1 is nan, which is not a value of i64"),
        ([1.0, 300.0], "u8", "cast to u8: row 1 is 300.0, which is not a value of u8"),
        ([1.0, 0.1], "float32", "cast to float32: row 1 is 0.1, which is not a value of float32"),
    ],
)
def test_casts_that_are_refused(rows, type, words):
    for column in (Column.of(rows), Column.of(rows).to_runs()):
        with pytest.raises(CastOutOfRange) as refused:
            column.cast(type)
        assert str(refused.value) == words


def test_types_without_a_cast():
    for column, type in ((Column.of([1.5]), "utf8"), (Column.of(["x"]), "float64"), (Column.of([1.5]), "timestamp[us]")):
        with pytest.raises(TypeMismatch, match="floats are cast to floats and integers, and integers and decimals to"):
            column.cast(type)


# ---- Arrays and Arrow ----


@pytest.mark.parametrize("type", WIDTHS)
def test_numpy(type):
    numpy = pytest.importorskip("numpy")
    items = numpy.array([1.5, -0.0, numpy.nan, numpy.inf, 1.5], type)
    for given in (items, items[::1], items.astype(items.dtype.newbyteorder(">"))):
        column = Column.of(given)
        assert str(column.logical_type) == type and column.form == "flat" and column.dtype == numpy.dtype(type)
        assert column.to_numpy().tobytes() == items.tobytes() and numpy.asarray(column).tobytes() == items.tobytes()
    masked = Column.of(numpy.ma.MaskedArray(items, [0, 1, 0, 0, 0]))
    assert masked.to_list()[:2] == [1.5, None]
    assert masked.to_numpy().mask.tolist() == [False, True, False, False, False]
    assert masked.to_numpy(null=7.0)[1] == 7.0 and numpy.isnan(numpy.asarray(masked)[1])
    assert Column.of(list(items)).to_numpy().dtype == numpy.dtype(type)
    with pytest.raises(ValueError, match="one dimension"):
        Column.of(items.reshape(1, 5))


@pytest.mark.parametrize("type", WIDTHS)
def test_pandas(type):
    pandas = pytest.importorskip("pandas")
    series = pandas.Series([1.5, None, 2.5], dtype=type)
    column = Column.of(series)
    assert str(column.logical_type) == type and column.to_list() == [1.5, None, 2.5]
    back = column.to_pandas()
    assert back.isna().tolist() == [False, True, False] and back[2] == 2.5
    assert str(Column.of([1.5], type).to_pandas().dtype) == type
    if type != "float16":
        masked = pandas.Series([1.5, pandas.NA], dtype=type.capitalize())
        assert Column.of(masked).to_list() == [1.5, None] and str(Column.of(masked).to_pandas().dtype) == type.capitalize()


def test_arrow():
    pyarrow = pytest.importorskip("pyarrow")
    numpy = pytest.importorskip("numpy")
    for type in (pyarrow.float16(), pyarrow.float32(), pyarrow.float64()):
        rows = numpy.array([1.5, -0.0, 2.0, 2.0], type.to_pandas_dtype())
        given = pyarrow.array(rows, type, mask=numpy.array([False, False, True, False]))
        column = Column.from_arrow(given)
        assert column.logical_type.format == {"halffloat": "e", "float": "f", "double": "g"}[str(type)]
        assert same(column.to_list(), [1.5, -0.0, None, 2.0])
        assert pyarrow.array(column).type == type and pyarrow.array(column).equals(given)
    doubles = pyarrow.array([1.5, 1.5, None])
    runs = Column.from_arrow(doubles).to_runs()
    assert runs.form == "runs" and pyarrow.array(runs.decode()).equals(doubles)
    chunks = pyarrow.chunked_array([[1.5], [None, NAN]])
    assert same(Column.from_arrow(chunks).to_list(), [1.5, None, NAN])
    table = pyarrow.table({"x": [1.5, 2.5], "n": [1, 2]})
    found = columns_from_arrow(table)
    assert found["x"].to_list() == [1.5, 2.5] and found["n"].to_list() == [1, 2]
    coded = pyarrow.array([1.5, 2.5, 1.5]).dictionary_encode()
    assert Column.from_arrow(coded).to_list() == [1.5, 2.5, 1.5]


def test_structs_and_dictionaries():
    column = Column.of([1.5, None, 2.5])
    with column.to_arrow("x") as (schema, items):
        assert schema.format == b"g" and Column.from_arrow_structs(schema, items).to_list() == [1.5, None, 2.5]
    with Column.of([2, 0]).to_arrow("codes", dictionary=column) as (schema, items):
        assert Column.from_arrow_structs(schema, items).to_list() == [2.5, 1.5]


def test_buffers():
    for letter, type in (("d", "float64"), ("f", "float32")):
        given = array.array(letter, [1.5, -0.0])
        column = Column.of(given)
        assert str(column.logical_type) == type and column.to_array() == given
    assert Column.of(memoryview(array.array("d", [1.0, 2.0, 3.0]))[::2]).to_list() == [1.0, 3.0]


def test_looks():
    column = Column.of([1.5, 1.5, None]).to_runs()
    assert repr(column) == "<Column float64?: 3 rows in 2 runs>\n  0:2  1.5\n  2:3  None"
    assert "1.5" in column._repr_html_()


def test_tables():
    rows = [*ODD, None]
    table = Table({"x": Column.of(rows, "float64?"), "n": Column.of(range(len(rows)))})
    for again in (Table.from_bytes(table.to_bytes()), Table.from_arrow(table), pickle.loads(pickle.dumps(table))):
        assert str(again["x"].logical_type) == "float64" and same(again["x"].to_list(), rows)
        assert again["n"].logical_type is None and again.equals(table)
    pandas = pytest.importorskip("pandas")
    assert Table.from_pandas(pandas.DataFrame({"x": [1.5, None]}))["x"].to_list() == [1.5, None]


def test_rows_by_their_runs():
    floats = Column.of([NAN, NAN, None, 1.5, -0.0, 0.0])
    for column in (floats, floats.to_runs()):
        assert column.is_valid().to_list() == [True, True, False, True, True, True]
        assert same(column.shift(1).to_list(), [None, NAN, NAN, None, 1.5, -0.0])
        values, counts = column.value_counts()
        assert same(values.to_list(), [NAN, None, 1.5, -0.0, 0.0]) and counts.to_list() == [2, 1, 1, 1, 1]
        assert same(column.where([True, False] * 3, 2.5).to_list(), [NAN, 2.5, None, 2.5, -0.0, 2.5])
        assert column.isin([0, 1.5]).to_list() == [False, False, False, True, True, True]
        assert column.equals(floats) and not column.equals(floats.storage())
    with pytest.raises(TypeMismatch, match="where: float64 and i64 are two types"):
        floats.where([True] * 6, floats.storage())


def test_bytes_of_databases():
    """The column of 1.5, 1.5, null and 0.0 as SQLite and PostgreSQL have it, and as earlier versions wrote it:
    test_floats.c and test_floats.sql of both."""
    message = "08011008180220044000480152030201015A27080110081801200328043201053A18000000000000F83F" + 32 * "0"
    data = bytes.fromhex("0802B2010167BA013A" + message)
    for written in (data, b"hivevigil type 1 g\n" + bytes.fromhex(message)):
        column = Column.from_bytes(written)
        assert (str(column.logical_type), column.to_list()) == ("float64", [1.5, 1.5, None, 0.0])
        assert column.to_bytes() == data
    assert data == Column.of([1.5, 1.5, None, 0.0]).to_runs().to_bytes()
