"""The tests that pandas 1.5 has for arrays of others, over rows in runs of four types. What they ask for and runs do
not have is named at its test."""
import contextlib
from decimal import Decimal

import numpy
import pandas
import pytest

base = pytest.importorskip("pandas.tests.extension.base")
if not pandas.__version__.startswith("1.5."):
    pytest.skip("the tests are those of pandas 1.5", allow_module_level=True)

from pandas.conftest import (  # noqa: E402, F401
    all_arithmetic_operators, all_boolean_reductions, all_numeric_reductions, comparison_op, index_or_series_obj,
    nulls_fixture, sort_by_key,
)
from pandas.tests.extension.conftest import (  # noqa: E402, F401
    all_data, as_array, as_frame, as_series, box_in_series, data_repeated, fillna_method, groupby_apply_op,
    invalid_scalar, use_numpy,
)

from hivevigil.pandas import RunEndArray, RunEndDtype  # noqa: E402

# three values of each type in their order
THREE = {
    "i64": (2**53, 2**53 + 1, 2**53 + 3), "u8": (1, 2, 255), "utf8": ("a", "aé", "東京"),
    "decimal(38, 2)": (Decimal("-0.50"), Decimal("1.25"), Decimal("7.00")),
}


@pytest.fixture(params=list(THREE))
def dtype(request):
    return RunEndDtype(request.param)


@pytest.fixture
def three(dtype):
    return THREE[dtype.column_type]


def array(rows, dtype):
    return RunEndArray(rows, dtype)


@pytest.fixture
def data(dtype, three):
    low, middle, high = three
    return array([low, middle, high, high, low, *[middle] * 45, *[low] * 48, None, high], dtype)


@pytest.fixture
def data_for_twos(data):
    return data


@pytest.fixture
def data_missing(dtype, three):
    return array([None, three[0]], dtype)


@pytest.fixture
def data_for_sorting(dtype, three):
    low, middle, high = three
    return array([middle, high, low], dtype)


@pytest.fixture
def data_missing_for_sorting(dtype, three):
    low, middle, _ = three
    return array([middle, None, low], dtype)


@pytest.fixture
def data_for_grouping(dtype, three):
    low, middle, high = three
    return array([middle, middle, None, None, low, low, middle, high], dtype)


@pytest.fixture
def na_cmp():
    return lambda left, right: left is pandas.NA and right is pandas.NA


@pytest.fixture
def na_value():
    return pandas.NA


class TestDtype(base.BaseDtypeTests):
    pass


OWN = pytest.mark.skip("a view is an array of its own, since columns are not written in place")


class TestInterface(base.BaseInterfaceTests):
    test_view = OWN(base.BaseInterfaceTests.test_view)


class TestConstructors(base.BaseConstructorsTests):
    pass


class TestGetitem(base.BaseGetitemTests):
    pass


class TestSetitem(base.BaseSetitemTests):
    test_setitem_preserves_views = OWN(base.BaseSetitemTests.test_setitem_preserves_views)


class TestMissing(base.BaseMissingTests):
    pass


class TestMethods(base.BaseMethodsTests):
    def test_combine_le(self, data_repeated):
        """The answer is in runs too."""
        left, right = (pandas.Series(data) for data in data_repeated(2))
        found = left.combine(right, lambda one, other: one <= other)
        assert found.dtype == "runend[bool]" and found.tolist()[:98] == [True] * 98 and found.isna().sum() == 1


class TestCasting(base.BaseCastingTests):
    pass


class TestReshaping(base.BaseReshapingTests):
    test_transpose = OWN(base.BaseReshapingTests.test_transpose)


class TestGroupby(base.BaseGroupbyTests):
    def test_in_numeric_groupby(self, data_for_grouping):
        """Integers are summed, also where pandas' is_numeric_dtype, which knows only NumPy's classes, is false."""
        frame = pandas.DataFrame({"A": [1, 1, 2, 2, 3, 3, 1, 4], "B": data_for_grouping})
        numeric = data_for_grouping.dtype._is_numeric
        with contextlib.nullcontext() if numeric else pytest.warns(FutureWarning, match="The default value of numeric"):
            found = list(frame.groupby("A").sum().columns)
        assert found == ["B"] * numeric

    def test_groupby_agg_extension(self, data_for_grouping):
        """Where a group has no row that is not null, pandas makes floats of the integers of the other groups before an
        array of another library sees them; without such a group they are exact."""
        if not data_for_grouping.dtype._is_numeric:
            return super().test_groupby_agg_extension(data_for_grouping)
        frame = pandas.DataFrame({"A": [1, 1, 2, 2, 3, 3, 1, 4], "B": data_for_grouping})
        present = frame[frame.A != 2]
        assert present.groupby("A").B.first().tolist() == [data_for_grouping[at] for at in (0, 4, 7)]
        assert frame.groupby("A").B.first().dtype == float


class TestIndex(base.BaseIndexTests):
    pass


class TestPrinting(base.BasePrintingTests):
    pass


class TestParsing(base.BaseParsingTests):
    pass


class TestComparison(base.BaseComparisonOpsTests):
    """Comparisons are masks of pandas, which & and | take, and not arrays in runs."""

    def _compare_other(self, ser, data, op, other):
        if isinstance(other, int) and op.__name__ not in ("eq", "ne") and data.dtype.column_type == "utf8":
            with pytest.raises(TypeError, match="a value of type utf8.* is a text, not 0"):
                op(ser, other)
        else:
            self.assert_series_equal(op(ser, other), ser.combine(other, op).astype("boolean"))


class TestReduce:
    @pytest.mark.parametrize("skipna", [True, False])
    def test_reductions(self, data, all_numeric_reductions, skipna):
        series, name = pandas.Series(data), all_numeric_reductions
        present = [row for row in data if row is not pandas.NA]
        if name in ("min", "max") or name == "sum" and data.dtype._is_numeric:
            due = {"min": min, "max": max, "sum": sum}[name](present)
            found = getattr(series, name)(skipna=skipna)
            assert found == due if skipna else found is pandas.NA
        else:
            with pytest.raises(TypeError):
                getattr(series, name)(skipna=skipna)

    def test_no_arithmetic(self, data, all_arithmetic_operators):
        with pytest.raises((TypeError, AttributeError)):
            getattr(pandas.Series(data), all_arithmetic_operators)(data[0])
