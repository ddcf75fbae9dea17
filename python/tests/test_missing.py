"""What counts as null, and lists and arrays in which nothing else is."""
import numpy
import pandas
import pytest
from hivevigil import Builder, Column

NA = pandas.NA
TWO = Column.of([4, 7])


def nones():
    return [
        [None, None], [NA, None], (None for _ in range(2)), numpy.array([None, None], dtype=object),
        pandas.Series([None, None], dtype=object), pandas.Series([NA, NA], dtype=object), [numpy.ma.masked, None],
    ]


@pytest.mark.parametrize("place", range(len(nones())))
def test_none_alone(place):
    """Where a call takes a mask it is a mask, where it takes rows it is rows, and where it takes either neither."""
    assert TWO.filter(nones()[place]).to_list() == []
    assert TWO.take(nones()[place]).to_list() == [None, None]
    with pytest.raises(TypeError) as refused:
        TWO[nones()[place]]
    said = "None alone is neither a mask nor a list of rows: write column.filter(..) or column.take(..)"
    assert str(refused.value) == said


def test_typed_nulls_say_what_they_are():
    for mask in (Column.of([None, None], "bool"), pandas.array([NA, NA], dtype="boolean")):
        assert TWO[mask].to_list() == TWO.filter(mask).to_list() == []
    for rows in (Column.of([None, None], "i64"), pandas.array([NA, NA], dtype="Int64")):
        assert TWO[rows].to_list() == TWO.take(rows).to_list() == [None, None]
    with pytest.raises(ValueError, match="a mask of 3 rows"):
        TWO.filter([None, None, None])
    assert TWO[[]].to_list() == TWO.take([]).to_list() == []


@pytest.mark.parametrize(
    "mask",
    [
        [True, NA], [True, None], pandas.Series([True, NA], dtype="boolean"), pandas.array([True, NA], dtype="boolean"),
        pandas.Series([True, NA]), numpy.array([True, NA], dtype=object), numpy.ma.masked_array([True, True], [0, 1]),
        pandas.Series([True, None], dtype=object), [True, numpy.ma.masked],
    ],
)
def test_nullable_masks(mask):
    assert TWO[mask].to_list() == TWO.filter(mask).to_list() == [4]


@pytest.mark.parametrize(
    "rows",
    [
        [-1, NA], pandas.Series([-1, NA], dtype="Int64"), pandas.Series([-1, NA]), numpy.array([-1, NA], dtype=object),
        numpy.ma.masked_array([-1, 0], [0, 1]),
    ],
)
def test_nullable_rows(rows):
    assert TWO[rows].to_list() == TWO.take(rows).to_list() == [7, None]


@pytest.mark.parametrize(
    "rows, type",
    [
        ([1, NA], "i64?"), (["a", NA], "utf8?"), ([NA, True], "bool?"), (numpy.array([1, NA], dtype=object), "i64?"),
        ([1, numpy.ma.masked], "i64?"), (pandas.Series(["a", NA], dtype="string"), "utf8?"),
    ],
)
def test_rows_that_are_missing(rows, type):
    column = Column.of(rows)
    assert column.type == type and column.null_count == 1


def test_values_that_are_missing():
    assert Column.of([NA, NA], "i8").to_list() == [None, None] == Column.constant(NA, 2, "i8").to_list()
    assert TWO.eq(NA).to_list() == [None, None] and NA not in TWO and NA in Column.of([1, None])
    builder = Builder("i8?")
    builder.append_value(NA, 2)
    builder.append([NA, 1])
    assert builder.finish().to_list() == [None, None, None, 1]
    with pytest.raises(ValueError, match="null is not one"):
        TWO.fill(NA)


@pytest.mark.parametrize(
    "valid",
    [
        [True, NA], [True, None], pandas.array([True, NA], dtype="boolean"), pandas.Series([True, False]),
        pandas.Series([True, NA], dtype="boolean"), numpy.array([True, False]),
        numpy.ma.masked_array([True, True], [False, True]), Column.of([True, None]), numpy.array([True, None], object),
    ],
)
def test_flags_that_are_missing(valid):
    assert Column.from_buffer(numpy.array([1, 2]), valid).to_list() == [1, None]
    assert Column.from_lists([1, 2], [0, 1], [1, 1], valid).to_list() == [[1], None]


def test_booleans_in_numpy():
    column = Column.of([True, None, False])
    assert column.to_numpy(null=0).tolist() == column.to_numpy(null=False).tolist() == [True, False, False]
    assert column.to_numpy(null=1).tolist() == [True, True, False] and column.to_numpy(null=0).dtype == bool
    assert column.to_runs().to_numpy(null=numpy.int8(0)).tolist() == [True, False, False]
    with pytest.raises(TypeError, match="is a boolean, not 2"):
        column.to_numpy(null=2)
