"""Casts of floats, and from and to integers, in every form, are those of NumPy, or of Python's fractions."""
import math
import struct
from decimal import Decimal
from fractions import Fraction

import pytest
from hivevigil import Column, errors
from hypothesis import example, given
from hypothesis import strategies as st

LETTERS = {"float16": "e", "float32": "f", "float64": "d"}
TYPES = st.sampled_from(sorted(LETTERS))
ODD = [0.0, -0.0, math.inf, -math.inf, 65504.0, 65519.0, 65520.0, 1e-8, 2.0**-25, 3 * 2.0**-25, 1 + 2.0**-24, 1 + 3 * 2.0**-24,
       3.4028235e38, 3.4028236e38, 1e308, 5e-324, 1.5, 16777217.0, 2.0**63, -(2.0**63)]
NUMBERS = st.sampled_from(ODD) | st.floats(allow_nan=False) | st.floats(allow_nan=False, width=16)
RUNS = st.lists(st.tuples(st.none() | NUMBERS, st.integers(1, 3)), max_size=8)
INTEGERS = st.integers(-(2**63), 2**63 - 1) | st.integers(-3000, 3000) | st.sampled_from([2**24 + 1, 2**53 + 1, -(2**53) - 3])
FORMS = st.sampled_from(["flat", "runs"])


def rows_of(runs):
    return [value for value, count in runs for _ in range(count)]


def nearest(number, name):
    """The float of a type that is nearest to a number, by a search among all: its neighbours by their bits."""
    letter = LETTERS[name]
    if isinstance(number, float) and (math.isinf(number) or number == 0):
        return number
    width = struct.calcsize(letter)
    infinity = int.from_bytes(struct.pack(">" + letter, math.inf), "big")
    size = abs(Fraction(number))

    def value(bits):
        if bits == infinity:  # the number after the greatest finite one
            return 2 * value(bits - 1) - value(bits - 2)
        return Fraction(struct.unpack(">" + letter, bits.to_bytes(width, "big"))[0])

    low, high = 0, infinity
    while high - low > 1:
        middle = (low + high) // 2
        low, high = (middle, high) if value(middle) <= size else (low, middle)
    if size >= value(infinity):
        low = infinity
    elif size - value(low) > value(high) - size or size - value(low) == value(high) - size and low % 2:
        low = high
    found = math.inf if low == infinity else float(value(low))
    return -found if number < 0 else found


def same(left, right):
    """Equal rows, with one zero unlike the other."""
    return [row if row is None else (row, math.copysign(1, row)) for row in left] == [
        row if row is None else (row, math.copysign(1, row)) for row in right]


def made(column, form):
    return column if form == "flat" else column.to_runs()


@given(RUNS, TYPES, TYPES, FORMS)
@example([(65519.0, 1), (65520.0, 2), (-65520.0, 1)], "float64", "float16", "runs")
def test_rounded_floats(runs, before, after, form):
    rows = [row if row is None else nearest(row, before) for row in rows_of(runs)]
    column = made(Column.of(rows, before + "?"), form)
    found = column.cast(after + "?", rounded=True)
    assert same(found.to_list(), [row if row is None else nearest(row, after) for row in rows])
    assert (found.form, str(found.logical_type)) == (form, after)


@given(RUNS, TYPES, FORMS)
def test_exact_floats(runs, after, form):
    rows = rows_of(runs)
    column = made(Column.of(rows, "float64?"), form)
    wrong = [row for row, number in enumerate(rows) if number is not None and nearest(number, after) != number]
    if wrong:
        with pytest.raises(errors.CastOutOfRange, match=f"cast to {after}: row {wrong[0]} is "):
            column.cast(after + "?")
    else:
        assert same(column.cast(after + "?").to_list(), rows)


@given(st.lists(st.none() | INTEGERS, max_size=8), TYPES, FORMS)
def test_integers(rows, after, form):
    column = made(Column.of(rows, "i64?"), form)
    due = [row if row is None else nearest(row, after) for row in rows]
    assert same(column.cast(after + "?", rounded=True).to_list(), due)
    wrong = [row for row, number in enumerate(rows) if number is not None and due[row] != number]
    if wrong:
        with pytest.raises(errors.CastOutOfRange, match=f"cast to {after}: row {wrong[0]} is {rows[wrong[0]]}, which is not"):
            column.cast(after + "?")
        return
    exact = column.cast(after + "?")
    assert same(exact.to_list(), due) and exact.cast("i64?").to_list() == rows


def test_constants_and_nan():
    many = Column.constant(0.1, 2**40, "float64").cast("float32", rounded=True)
    assert (many.form, len(many), many[7]) == ("constant", 2**40, nearest(0.1, "float32"))
    column = Column.of([math.nan, 1.0, None]).to_runs()
    for found in (column.cast("float16?"), column.cast("float16?", rounded=True)):
        rows = found.to_list()
        assert math.isnan(rows[0]) and rows[1:] == [1.0, None]
    empty = Column.of([], "float64").cast("float32", rounded=True)
    assert empty.to_list() == [] and str(empty.logical_type) == "float32"


def test_a_nan_loses_what_a_type_does_not_have():
    numpy = pytest.importorskip("numpy")
    words = numpy.array([0x7FF8000000000001, 0x7FF4000000000000, 0xFFF8000020000000], "u8").view("f8")
    found = Column.of(words).cast("float32").to_numpy().view("u4")
    assert found.tolist() == [0x7FC00000, 0x7FA00000, 0xFFC00001]


@pytest.mark.parametrize("column, type, words", [
    (Column.of([1.5]), "i64", "only floats are rounded"), (Column.of([300]), "u8", "only floats are rounded"),
    (Column.of(["a"]), "utf8", "only floats are rounded"),
])
def test_only_floats_are_rounded(column, type, words):
    with pytest.raises(TypeError, match=words):
        column.cast(type, rounded=True)


def test_types_of_numpy():
    numpy = pytest.importorskip("numpy")
    items = numpy.array([0.1, 1e-8, 65519.9, 1e300, -1e300, 3.0], "f8")
    for dtype in ("f2", "f4"):
        with numpy.errstate(over="ignore"):
            due = items.astype(dtype)
        assert Column.of(items).cast(numpy.dtype(dtype), rounded=True).to_numpy().tolist() == due.tolist()


SOME = [Decimal(0), Decimal("0.1"), Decimal("65520"), Decimal(2**24 + 1), Decimal(2**53 + 1), Decimal("0.000000059")]
DECIMALS = st.decimals(-(10**9), 10**9, allow_nan=False, places=9) | st.sampled_from(SOME)
NEAR_TIES = [
    Fraction(2**24 + 1, 2**24) + side * Fraction(1, 2**70) for side in (-1, 0, 1)  # between two float32, and next to it
] + [Fraction(2049, 2048) + side * Fraction(1, 2**80) for side in (-1, 0, 1)]  # fmt: skip


@given(st.lists(st.tuples(st.none() | DECIMALS, st.integers(1, 3)), max_size=8), TYPES, FORMS)
def test_decimals_are_cast_to_floats(runs, name, form):
    rows = rows_of(runs)
    column = Column.of(rows, "decimal(38, 9)?")
    column = column.to_runs() if form == "runs" else column
    due = [None if row is None else float(nearest(Fraction(row), name)) for row in rows]
    found = column.cast(f"{name}?", rounded=True)
    assert found.to_list() == due and found.form == column.form and str(found.logical_type) == name
    inexact = [at for at, row in enumerate(rows) if row is not None and row != due[at]]
    if not inexact:
        assert column.cast(f"{name}?").to_list() == due
        return
    said = f"^cast to {name}: row {inexact[0]} is .*, which is not a value of {name}$"
    with pytest.raises(errors.CastOutOfRange, match=said):
        column.cast(f"{name}?")


@pytest.mark.parametrize("name", LETTERS)
def test_decimals_are_rounded_once(name):
    for number in NEAR_TIES:
        row = Decimal(number.numerator * 10**37 // number.denominator).scaleb(-37)  # as near as 38 digits have it
        found = Column.constant(row, 2**40, "decimal(38, 37)").cast(name, rounded=True)
        assert found.form == "constant" and found[0] == nearest(Fraction(row), name)
