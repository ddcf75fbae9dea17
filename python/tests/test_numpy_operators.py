"""Python's operators of a column and a number or an array of NumPy, which is on either side: held against Python's own
integers, floats and fractions."""
import math
import operator
from datetime import datetime, timedelta
from decimal import Decimal
from fractions import Fraction

import numpy
import pytest
from hivevigil import Column, errors
from hypothesis import given
from hypothesis import strategies as st
from rows import BITS, least_and_greatest

DTYPES = ["int8", "int16", "int32", "int64", "uint8", "uint16", "uint32", "uint64"]
WORKED = {"+": operator.add, "-": operator.sub, "*": operator.mul}
COMPARED = {
    "==": operator.eq, "!=": operator.ne, "<": operator.lt, "<=": operator.le, ">": operator.gt, ">=": operator.ge,
}
NOT_SERVED = {
    "//": operator.floordiv, "%": operator.mod, "**": operator.pow, "<<": operator.lshift, ">>": operator.rshift,
    "^": operator.xor, "divmod": divmod,
}


def numbers_of(dtype):
    kept = numpy.iinfo(dtype)
    return st.sampled_from([0, 1, 4, int(kept.min), int(kept.max)]) | st.integers(int(kept.min), int(kept.max))


def rows_of(name):
    least, greatest = least_and_greatest(name)
    value = st.none() | st.sampled_from([0, 1, 4, least, greatest]) | st.integers(least, greatest)
    return st.lists(value, max_size=6)


@pytest.mark.parametrize("dtype", DTYPES)
@given(st.data(), st.sampled_from(list(BITS)), st.booleans(), st.booleans())
def test_integers(dtype, data, name, is_left, as_array):
    """Each sign gives the exact integers, or refuses those that the type does not have."""
    number, rows = data.draw(numbers_of(dtype)), data.draw(rows_of(name))
    given_number = numpy.array(number, dtype) if as_array else numpy.dtype(dtype).type(number)
    column = Column.of(rows, f"{name}?")

    def asked(work, left, right):
        return work(left, right) if is_left else work(right, left)

    for work in COMPARED.values():
        found = asked(work, given_number, column)
        assert isinstance(found, Column)
        assert found.to_list() == [None if row is None else asked(work, number, row) for row in rows]
    least, greatest = least_and_greatest(name)
    for work in WORKED.values():
        due = [None if row is None else asked(work, number, row) for row in rows]
        if least <= number <= greatest and all(row is None or least <= row <= greatest for row in due):
            found = asked(work, given_number, column)
            assert isinstance(found, Column) and found.type == f"{name}?" and found.to_list() == due
            continue
        with pytest.raises(OverflowError):
            asked(work, given_number, column)


@given(st.lists(st.none() | st.booleans()), st.booleans(), st.booleans())
def test_booleans(rows, truth, is_left):
    column, given_truth = Column.of(rows, "bool?"), numpy.bool_(truth)
    both = [False if row is False or not truth else row for row in rows]
    either = [True if row is True or truth else row for row in rows]
    for work, due in ((operator.and_, both), (operator.or_, either)):
        found = work(given_truth, column) if is_left else work(column, given_truth)
        assert isinstance(found, Column) and found.to_list() == due
    assert numpy.invert(column).to_list() == [None if row is None else not row for row in rows]


FLOATS = st.floats(width=32) | st.sampled_from([0.0, -0.0, 1.5])


@pytest.mark.parametrize("dtype", ["float32", "float64"])
@given(st.lists(st.none() | FLOATS, max_size=5), FLOATS, st.booleans())
def test_floats(dtype, rows, number, is_left):
    column, given_number = Column.of(rows, "float64?"), numpy.dtype(dtype).type(number)
    with numpy.errstate(all="ignore"):
        for work in (*WORKED.values(), operator.truediv):
            found = work(given_number, column) if is_left else work(column, given_number)
            wide = numpy.float64(number)
            due = [None if row is None else float(work(wide, numpy.float64(row)) if is_left else
                                                  work(numpy.float64(row), wide)) for row in rows]
            assert str(found.logical_type) == "float64"
            assert repr([None if row is None else row + 0.0 for row in found.to_list()]) == repr(due) or all(
                left is right is None or left == right or math.isnan(left) and math.isnan(right)
                for left, right in zip(found.to_list(), due)
            )
        for work in COMPARED.values():
            found = work(given_number, column) if is_left else work(column, given_number)
            assert found.to_list() == [
                None if row is None else work(number, row) if is_left else work(row, number) for row in rows
            ]


@given(st.lists(st.none() | st.integers(-999, 999), max_size=5), st.integers(-9, 9), st.booleans())
def test_decimals(numbers, number, is_left):
    rows = [None if each is None else Decimal(each).scaleb(-1) for each in numbers]
    column, given_number = Column.of(rows, "decimal(9, 1)?"), numpy.int16(number)
    for work in (*WORKED.values(), *COMPARED.values()):
        found = work(given_number, column) if is_left else work(column, given_number)
        due = [None if row is None else work(*((number, Fraction(row)) if is_left else (Fraction(row), number)))
               for row in rows]
        assert isinstance(found, Column) and found.to_list() == due


@pytest.mark.filterwarnings("ignore:elementwise comparison failed")
@pytest.mark.parametrize("name", [*BITS, "bool", "float64", "decimal(9, 1)"])
def test_arrays_are_refused_on_either_side(name):
    column = Column.of([True, False] if name == "bool" else [1, 2], name)
    arrays = [numpy.array([1, 2], dtype) for dtype in (*DTYPES, "bool", "float64", "object")]
    signs = [*WORKED.values(), *COMPARED.values(), operator.and_, operator.or_, operator.truediv]
    for array in arrays:
        for work in signs:
            for two in ((array, column), (column, array)):
                with pytest.raises(TypeError, match=r"a column is (worked|compared) with a column or one value"):
                    work(*two)


MASKED = [
    numpy.ma.array([1, 2], mask=[False, True]), numpy.ma.array([1, 2], "uint8"), numpy.ma.array([1.5, 2]),
    numpy.ma.array([True, False]), numpy.ma.array([1, 2], object),
]


@pytest.mark.parametrize("array", MASKED, ids=repr)
@pytest.mark.parametrize("rows", [[1, None], [1.5, None], [True, None], [Decimal("1.5"), None], [1, 2]])
def test_masked_arrays_on_the_left_are_refused(array, rows):
    """NumPy would take the rows without their nulls."""
    column, in_place = Column.of(rows), (operator.iadd, operator.isub, operator.imul, operator.itruediv)
    for work in (*WORKED.values(), *COMPARED.values(), operator.and_, operator.or_, operator.truediv, *in_place):
        before = repr(array)
        with pytest.raises(TypeError, match=r"a column is (worked and |)(compared|worked) with a column or one value"):
            work(array, column)
        assert repr(array) == before
    for work in NOT_SERVED.values():
        with pytest.raises(TypeError):
            work(array, column)


def test_masked_values():
    """One on the left is refused as an array is, but for & and |, which NumPy asks a column for."""
    for value in (numpy.ma.array(1), numpy.ma.array(1, mask=True), numpy.ma.masked):
        for work in (*WORKED.values(), *COMPARED.values(), operator.truediv):
            with pytest.raises(TypeError, match="a column is worked and compared with a column or one value"):
                work(value, Column.of([1, None]))
    assert (Column.of([1, None]) + numpy.ma.masked).to_list() == [None, None]
    assert (numpy.ma.masked | Column.of([True, False])).to_list() == [True, None]


@pytest.mark.parametrize("array", MASKED, ids=repr)
def test_masked_arrays_on_the_right_are_refused(array):
    for work in (*WORKED.values(), *COMPARED.values(), operator.and_, operator.or_, operator.truediv):
        with pytest.raises(TypeError, match=r"a column is (worked|compared) with a column or one value"):
            work(Column.of([1, 2]), array)


def test_functions_of_masked_arrays():
    column = Column.of([1, None])
    unary = [numpy.ma.getdata, numpy.ma.negative]
    for work in (*unary, lambda rows: numpy.ma.add(rows, 1), lambda rows: numpy.ma.equal(2, rows)):
        with pytest.raises(TypeError, match=r"column.to_numpy\(\) is an array for numpy.ma"):
            work(column)
    assert numpy.ma.add(column.to_numpy(), 1).tolist() == [2, None]
    assert (Column.of(numpy.ma.array([1, 2], mask=[False, True])) + column).to_list() == [2, None]


@pytest.mark.parametrize("number", [numpy.int64(3), numpy.uint8(3), numpy.float64(3), numpy.array([3, 3, 3])])
def test_operators_that_columns_do_not_have(number):
    for sign, work in NOT_SERVED.items():
        for two in ((number, Column.of([1, 2, None])), (Column.of([1, 2, None]), number)):
            with pytest.raises(TypeError) as refused:
                work(*two)
            assert "is not an operator of columns" in str(refused.value) or "unsupported" in str(refused.value), sign


def test_times():
    days = Column.of([datetime(2024, 1, 1), None, datetime(2024, 1, 3)])
    assert (numpy.datetime64("2024-01-02", "us") < days).to_list() == [False, None, True]
    assert (days == numpy.datetime64("2024-01-01", "s")).to_list() == [True, None, False]
    took = Column.of([timedelta(seconds=1), timedelta(seconds=3)])
    assert (numpy.timedelta64(2, "s") > took).to_list() == [True, False]
    assert (numpy.str_("a") == Column.of(["a", "b"])).to_list() == [True, False]


def test_other_functions_are_of_arrays():
    column = Column.of([1, 4, 9], "u8")
    assert numpy.sqrt(column).tolist() == [1, 2, 3] and numpy.maximum(column, 5).tolist() == [5, 5, 9]
    assert numpy.isnan(Column.of([1.5, float("nan")])).tolist() == [False, True]
    assert numpy.add(numpy.uint8(1), column).to_list() == [2, 5, 10] and numpy.sum(column) == 14
    sums = numpy.zeros(3, "int64")
    assert numpy.add(column, 1, out=sums) is sums and sums.tolist() == [2, 5, 10]
    with pytest.raises(TypeError, match="numpy.add: a column is never written into"):
        numpy.add(sums, 1, out=column)
    with pytest.raises(errors.CastOutOfRange, match="row 2 is 250 [+] 9, which does not fit u8"):
        numpy.uint8(250) + column
