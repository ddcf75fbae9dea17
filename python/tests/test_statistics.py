"""Means, variances, quantiles and extreme rows are those of fractions of the rows, each rounded once, and of pandas."""
import math
from datetime import date, timedelta
from decimal import Decimal
from fractions import Fraction

import pytest
from hivevigil import Column, errors
from hypothesis import given
from hypothesis import strategies as st
from rows import BITS, samples
from test_tables import _ordered

FLOATS = st.floats(allow_nan=False, allow_infinity=False, width=32) | st.sampled_from([0.1, 1e300, -1e300, 5e-324, 1e16])
PARTS = st.sampled_from([0, 1, 0.5, 0.25, 0.1, Fraction(1, 3), 1.0]) | st.floats(0, 1)


def rounded(fraction):
    """A fraction as the nearest float."""
    try:
        return fraction.numerator / fraction.denominator
    except OverflowError:
        return math.inf


def variance(rows, ddof):
    numbers = [Fraction(row) for row in rows if row is not None]
    if len(numbers) <= ddof:
        return None
    middle = sum(numbers) / len(numbers)
    return rounded(sum((number - middle) ** 2 for number in numbers) / (len(numbers) - ddof))


def quantile(rows, part, interpolation):
    numbers = sorted((row for row in rows if row is not None), key=_ordered)
    if not numbers:
        return None
    last = len(numbers) - 1
    place = Fraction(part * last) if isinstance(part, float) else Fraction(part) * last
    low, high = numbers[math.floor(place)], numbers[math.ceil(place)]
    if interpolation in ("lower", "higher"):
        return low if interpolation == "lower" else high
    if interpolation == "nearest":
        return numbers[round(place)]  # in the middle the even place
    rest = place - math.floor(place) if interpolation == "linear" else Fraction(1, 2)
    return rounded(Fraction(low) + (Fraction(high) - Fraction(low)) * rest)


@given(samples(types=tuple(BITS)), st.integers(0, 2))
def test_integers(sample, ddof):
    column, valid = sample.column, [row for row in sample.rows if row is not None]
    assert column.mean() == (rounded(Fraction(sum(valid), len(valid))) if valid else None)
    due = variance(valid, ddof)
    assert column.var(ddof) == due and column.std(ddof) == (None if due is None else math.sqrt(due))
    assert column.var() == variance(valid, 1) and column.median() == quantile(valid, Fraction(1, 2), "linear")


@given(st.lists(st.none() | FLOATS, max_size=12), st.sampled_from(["flat", "runs"]), st.integers(0, 2))
def test_floats(rows, form, ddof):
    column = Column.of(rows, "float64?")
    column = column if form == "flat" else column.to_runs()
    due = variance(rows, ddof)
    assert column.var(ddof) == due and column.std(ddof) == (None if due is None else math.sqrt(due))


@given(samples(), PARTS, st.sampled_from(["lower", "higher", "nearest"]))
def test_quantiles_that_are_rows(sample, part, interpolation):
    assert sample.column.quantile(part, interpolation) == quantile(sample.rows, part, interpolation)


@given(samples(types=tuple(BITS)), st.lists(PARTS, max_size=3), st.sampled_from(["linear", "midpoint"]))
def test_quantiles_between_rows(sample, parts, interpolation):
    due = [quantile(sample.rows, part, interpolation) for part in parts]
    assert sample.column.quantile(parts, interpolation) == due
    assert all(answer is None or type(answer) is float for answer in due)


@given(samples(), st.integers(0, 12))
def test_the_greatest_and_the_least_rows(sample, count):
    valid = sorted((row for row in sample.rows if row is not None), key=_ordered)
    for found, due in (
        (sample.column.nlargest(count), valid[::-1][:count]), (sample.column.nsmallest(count), valid[:count]),
    ):  # fmt: skip
        assert found.to_list() == due and found.type == sample.column.type and found.form == "runs"
    assert sample.column.to_list() == sample.rows


@given(st.lists(st.none() | st.integers(-100, 100) | st.sampled_from([0.5, 2.25]), min_size=1), PARTS)
def test_as_pandas_has_it(rows, part):
    pandas = pytest.importorskip("pandas")
    column, series = Column.of(rows, "float64?"), pandas.Series(rows, dtype="float64")
    if series.count() > 1:
        assert column.var() == pytest.approx(series.var()) and column.std() == pytest.approx(series.std())
        assert column.mean() == pytest.approx(series.mean()) and column.median() == pytest.approx(series.median())
        # pandas rounds the place, which is a row's then or is not
        place = float(part) * (int(series.count()) - 1)
        is_exact = Fraction(place) == Fraction(float(part)) * (int(series.count()) - 1)
        for interpolation in ("linear", "lower", "higher", "nearest", "midpoint")[: 5 if is_exact else 1]:
            due = series.quantile(float(part), interpolation)
            assert column.quantile(float(part), interpolation) == pytest.approx(due)
    assert column.nlargest(3).to_list() == series.dropna().nlargest(3).tolist()
    assert column.nsmallest(3).to_list() == series.dropna().nsmallest(3).tolist()


def test_sums_past_64_bits():
    most = 2**63 - 1
    column = Column.from_runs([3, 5], Column.of([most, -5]))
    assert column.mean() == rounded(Fraction(3 * most - 10, 5)) and column.var() == variance([most] * 3 + [-5] * 2, 1)
    with pytest.raises(OverflowError):
        column.sum()
    wide = Column.from_runs([2**60, 2**61], Column.of([2, 4]))
    assert (wide.mean(), wide.median(), wide.var(ddof=0)) == (3.0, 3.0, 1.0)
    assert (wide.quantile(0.25), wide.quantile(Fraction(3, 4), "lower"), wide.nlargest(2**60 + 1)[-1]) == (2.0, 4, 2)


def test_functions_of_numpy():
    numpy = pytest.importorskip("numpy")
    for rows in ([1, 2, 4], [0.5, 2.25, -1.0]):
        column = Column.of(rows)
        for form in (column, column.to_runs()):
            assert numpy.var(form) == pytest.approx(numpy.var(rows)) and numpy.std(form) == pytest.approx(numpy.std(rows))
            assert numpy.std(form, ddof=1) == pytest.approx(numpy.std(rows, ddof=1))
            assert numpy.median(form) == numpy.median(rows) and numpy.sort(form).tolist() == sorted(rows)
            assert numpy.quantile(form, 0.25) == numpy.quantile(rows, 0.25)
            parts = numpy.array([0, 0.25, 0.5, 1], "f4")
            assert form.quantile(parts) == numpy.quantile(rows, parts).tolist()
            assert form.quantile(parts[1]) == numpy.quantile(rows, 0.25)
            for call in (numpy.mean, numpy.sum, numpy.min, numpy.max):
                assert call(form) == pytest.approx(call(rows)) and type(call(form)) in (int, float)
                with pytest.raises(TypeError, match=": a column has no other axis, dtype or out: numpy"):
                    call(form, axis=0)
    for rows in ([True, False], [True], [False], []):
        flags = Column.of(rows, bool)
        assert numpy.any(flags) == numpy.any(rows) and numpy.all(flags) == numpy.all(rows)
    with pytest.raises(TypeError, match="^var: a column has no other axis, dtype or out: numpy.var"):
        numpy.var(column, axis=1)


def test_the_nearer_of_two_rows():
    """In the middle the row of the even place, as NumPy and pandas have it."""
    found = [Column.of(list(range(rows))).quantile(0.5, "nearest") for rows in (1, 2, 4, 6, 8)]
    assert found == [0, 0, 2, 2, 4]
    assert Column.of([10, 20]).quantile([0.49, 0.51], "nearest") == [10, 20]


def test_nan_and_infinity():
    column = Column.of([1.0, math.nan, None, 3.0, -math.nan, 2.0])
    assert math.isnan(column.var()) and column.median() == 2.0 and column.quantile([0, 1]) == [1.0, 3.0]
    assert column.nlargest(2).to_list() == [3.0, 2.0] and column.nsmallest(9).to_list() == [1.0, 2.0, 3.0]
    far = Column.of([math.inf, 1.0, math.inf])
    assert math.isnan(far.var()) and far.median() == math.inf and far.quantile(0.25) == math.inf
    assert Column.of([1e308, -1e308]).var() == math.inf and Column.of([math.nan]).median() is None
    assert Column.of([-math.inf, -math.inf]).median() == -math.inf


def test_times_and_decimals():
    days = Column.of([date(2024, 3, 1), None, date(2024, 1, 1), date(2024, 2, 1)])
    assert days.quantile(0.5, "nearest") == date(2024, 2, 1) and days.nlargest(1).to_list() == [date(2024, 3, 1)]
    prices = Column.of([Decimal("1.50"), Decimal("0.25")])
    assert prices.quantile(1, "lower") == Decimal("1.50") and prices.nsmallest(1).to_list() == [Decimal("0.25")]
    lengths = Column.of([timedelta(seconds=3), timedelta(seconds=1)])
    assert lengths.nlargest(5).to_list() == [timedelta(seconds=3), timedelta(seconds=1)]


C, DAYS = Column.of([1, 2]), Column.of([date(2024, 1, 1)])


@pytest.mark.parametrize(
    "call, kind, said",
    [
        (lambda: C.quantile(1.5), ValueError, "quantile: a part of the rows is a number from 0 to 1, not 1.5"),
        (lambda: C.quantile([0.5, math.nan]), ValueError, "quantile: a part of the rows is a number from 0 to 1, not nan"),
        (lambda: C.quantile("half"), ValueError, "quantile: a part of the rows is a number from 0 to 1, not 'half'"),
        (lambda: C.quantile(0.5, "cubic"), ValueError,
         "quantile: an interpolation is one of linear, lower, higher, nearest, midpoint, not 'cubic'"),
        (lambda: DAYS.median(), TypeError,
         "quantile: nothing lies between rows of date; interpolation='lower' answers a row"),
        (lambda: Column.of(["a"]).quantile(), TypeError,
         "quantile: nothing lies between rows of utf8; interpolation='lower' answers a row"),
        (lambda: DAYS.var(), TypeError,
         r"var: rows of type date have none; column.storage\(\).var\(\) is that of their integers"),
        (lambda: DAYS.mean(), TypeError,
         r"mean: rows of type date have none; column.storage\(\).mean\(\) is that of their integers"),
        (lambda: Column.of(["a"]).std(), errors.Unsupported, "var"),
        (lambda: Column.of(["a"]).mean(), errors.Unsupported, "mean"),
        (lambda: C.var(-1), ValueError, "ddof"),
        (lambda: C.var(0.5), TypeError, "ddof is an integer, not 0.5"),
        (lambda: C.nlargest(-1), ValueError, "the number of rows"),
        (lambda: Column.from_lists([1], [0], [1]).nlargest(1), errors.Unsupported, "nlargest: lists have no order"),
        (lambda: Column.from_lists([1], [0], [1]).quantile(1, "lower"), errors.Unsupported,
         "quantile: lists have no order"),
    ],
)
def test_refusals(call, kind, said):
    with pytest.raises(kind, match=f"^{said}"):
        call()
