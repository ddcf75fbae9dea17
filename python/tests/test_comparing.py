"""Comparisons with numbers that the column's type does not have answer as those of Python's exact numbers."""
import math
import operator
from decimal import Decimal
from fractions import Fraction

import numpy
import pandas
import pytest
from hivevigil import Column
from hypothesis import given
from hypothesis import strategies as st
from rows import BITS, samples

SIGNS = {
    "==": operator.eq, "!=": operator.ne, ">": operator.gt, ">=": operator.ge, "<": operator.lt, "<=": operator.le,
}
NUMBERS = st.one_of(
    st.integers(), st.integers(-300, 300), st.sampled_from([2**63, -(2**63) - 1, 2**64, 2**127, -(2**127) - 1]),
    st.decimals(allow_nan=False), st.decimals(-3, 3, places=4), st.fractions(), st.floats(allow_nan=False),
    st.sampled_from([Decimal("1E+999999"), Decimal("-1E+999999"), Decimal("1E-999999"), Decimal("-1E-999999")]),
    st.sampled_from([Decimal("Infinity"), Decimal("-Infinity"), Decimal("0E+999999"), 0.1, -0.0]),
    st.sampled_from([2**200, 2**200 + 1, -(2**127) - 1, Decimal(1).scaleb(-60) + 0, Decimal("3." + "0" * 60), 10**38 * 5]),
)


def due(rows, sign, value):
    """Python compares integers, decimals, fractions and floats exactly, but for fractions with decimals."""
    is_near = isinstance(value, Decimal) and value.is_finite() and abs(value.adjusted()) < 400
    exact = Fraction(value) if is_near else value
    numbers = [Fraction(row) if isinstance(exact, Fraction) and row is not None else row for row in rows]
    return [None if row is None else SIGNS[sign](row, exact) for row in numbers]


@given(samples(types=(*BITS, "decimal(20, 3)")), st.sampled_from(list(SIGNS)), NUMBERS)
def test_every_number_has_a_place(sample, sign, value):
    found = sample.column.compare(sign, value)
    assert found.to_list() == due(sample.rows, sign, value)
    assert found.type == "bool" + "?" * sample.column.nullable


@given(samples(types=(*BITS, "decimal(20, 3)"), least_rows=1), st.sampled_from(list(SIGNS)), st.data())
def test_numbers_beside_the_rows(sample, sign, data):
    row = data.draw(st.sampled_from(sample.rows))
    near = Fraction(row or 0) + data.draw(st.sampled_from([Fraction(0), Fraction(1, 2000), Fraction(-1, 2000)]))
    assert sample.column.compare(sign, near).to_list() == due(sample.rows, sign, near)


LEAST, MOST = 5e-324, 1.7976931348623157e308
FLOATS = [
    0.0, -0.0, LEAST, -LEAST, MOST, -MOST, math.inf, -math.inf, 2.0**53, 2.0**53 + 2, 2.0**200, 2.0**200 + 2.0**148,
    0.1, math.nextafter(0.1, 0), 1 / 3, math.nextafter(1 / 3, 1), None,
]
BETWEEN_FLOATS = [
    Fraction(LEAST) / 2, -Fraction(LEAST) / 2, Fraction(MOST) * 2, -Fraction(MOST) * 2, Fraction(1, 3), 2**200 + 1,
    2**53 + 1, Decimal("0.1"), Decimal("1E-999999"), Decimal("-1E-999999"), 10**400, Decimal("-1E+400"),
]


@pytest.mark.parametrize("value", BETWEEN_FLOATS)
def test_numbers_between_two_floats(value):
    column = Column.of(FLOATS, "float64?")
    for sign, holds in SIGNS.items():
        assert column.compare(sign, value).to_list() == [None if row is None else holds(row, value) for row in FLOATS]


@pytest.mark.parametrize("scale", [-128, -40, 127])
def test_numbers_next_to_decimals_of_far_scales(scale):
    unit = Fraction(10) ** -scale
    rows = [Decimal((0, (7,), -scale)), Decimal((1, (3,), -scale)), Decimal(0), None]
    column = Column.of(rows, f"decimal(38, {scale})?")
    for value in (7 * unit, 7 * unit + unit / 3, -3 * unit - unit / 3, Fraction(1, 3), 10**30, unit * 10**39, -unit * 10**39):
        for sign in SIGNS:
            exact = [None if row is None else SIGNS[sign](Fraction(row), value) for row in rows]
            assert column.compare(sign, value).to_list() == exact, (sign, value)


def test_the_form_is_that_of_the_column():
    for rows in ([1, 5, 5], [Decimal("1.5"), Decimal("5"), Decimal("5")]):
        column = Column.of(rows)
        assert [each.gt(2.5).form for each in (column, column.to_runs())] == ["flat", "runs"]
        assert Column.constant(rows[0], 4).lt(2.5).form == "constant"


def test_by_hand():
    small = Column.of([-128, None, 127], "i8")
    prices = Column.of([Decimal("0.50"), Decimal("0.51"), None], "decimal(4, 2)")
    assert small.lt(300).to_list() == [True, None, True] and small.gt(300).to_list() == [False, None, False]
    assert small.eq(300).to_list() == [False, None, False] and small.ne(-300).to_list() == [True, None, True]
    for far in (10**5000, Decimal(10**5000), Fraction(10**5000, 3)):
        assert small.lt(far).to_list() == [True, None, True] and prices.le(-far).to_list() == [False, False, None]
    assert small.ge(Decimal("126.5")).to_list() == [False, None, True] and small.encode().le(2**200)[0] is True
    assert prices.gt(Decimal("0.505")).to_list() == [False, True, None]
    assert prices.le(Decimal("0.505")).to_list() == [True, False, None]
    assert prices.eq(Decimal("0.505")).to_list() == [False, False, None]
    assert prices.eq(Decimal("0.510")).to_list() == [False, True, None]
    assert prices.lt(10**9).to_list() == [True, True, None] and prices.gt(1).to_list() == [False, False, None]
    assert Column.of([Decimal(12300)], "decimal(5, -2)").gt(12250).to_list() == [True]
    assert small.eq(numpy.int64(127)).to_list() == [False, None, True] and small.lt(numpy.float32(0.5))[0] is True
    assert small.eq(pandas.NA).to_list() == small.eq(None).to_list() == [None] * 3
    assert Column.constant(5, 2**60, "u8").slice(0, 3).lt(-1).to_list() == [False] * 3


@pytest.mark.parametrize(
    "column, value, said",
    [
        (Column.of([1]), "1", "a value of type i64 is an integer, not '1'"),
        (Column.of([1]), True, "a value of type i64 is an integer, not True"),
        (Column.of([1]), 1j, "a value of type i64 is an integer, not 1j"),
        (Column.of(["1"]), 1, "a value of type utf8 is a text, not 1"),
        (Column.of([b"1"]), "1", "a value of type binary is bytes, not '1'"),
        (Column.of([True]), 1, "a value of type bool is a boolean, not 1"),
        (Column.of([Decimal(1)]), "1", "a decimal is a decimal.Decimal or an integer, not '1'"),
        (Column.of([1]), object(), "a value of type i64 is an integer, not an object of class object"),
    ],
)
def test_values_of_another_sort(column, value, said):
    with pytest.raises(TypeError) as refused:
        column.eq(value)
    assert str(refused.value) == said


@pytest.mark.parametrize("value", [Decimal("NaN"), Decimal("sNaN"), float("nan"), numpy.float32("nan")])
def test_nan_is_unequal_to_each_row(value):
    for rows in ([1, None], [Decimal("1.5"), None], [1.5, None]):
        for column in (Column.of(rows), Column.of(rows).to_runs()):
            assert {sign: column.compare(sign, value).to_list() for sign in SIGNS} == {
                sign: [sign == "!=", None] for sign in SIGNS
            }
            assert float("nan") not in column


def test_decimals_of_values_have_room():
    prices = Column.of([Decimal("0.50"), None])
    assert prices.type == "decimal(38, 2)?" == Column.of([Decimal("1234567.89"), None]).type
    assert prices.fill(Decimal("99999.99")).to_list() == [Decimal("0.50"), Decimal("99999.99")]
    assert Column.of([Decimal("0.50")], "decimal(3, 2)").type == "decimal(3, 2)"
    assert Column.constant(Decimal("0.5"), 2).type == "decimal(38, 1)"
    with pytest.raises(OverflowError, match=r"^100 does not fit decimal\(3, 2\)$"):
        Column.of([None], "decimal(3, 2)").fill(100)
