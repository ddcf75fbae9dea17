"""Refusals in sentences: what was wrong, with the row and the value, and with nothing of how Python is made."""
import array
import re
from datetime import date
from decimal import Decimal
from fractions import Fraction
from itertools import islice

import numpy
import pandas
import pytest
from hivevigil import Builder, Column, HivevigilError, columns_from_arrow, concat, errors

TWO = Column.of([4, 7])
FLOATS = "floats are values of float64, float32 and float16"


class Thing:
    """Neither rows nor a row."""


@pytest.mark.parametrize(
    "call, kind, said",
    [
        (lambda: Column.of([1, 300], "u8"), OverflowError, "row 1 is 300, which does not fit u8"),
        (lambda: Column.of([None, -1], "u8"), OverflowError, "row 1 is -1, which does not fit u8"),
        (lambda: Column.of(numpy.array([1, 300]), "u8"), OverflowError,
         "Column.of: row 1 is 300, which does not fit u8"),
        (lambda: Column.of([1, "2"], "i8"), TypeError, "row 1 is '2', not an integer"),
        (lambda: Column.of([1, 2.5], "i8"), TypeError, f"row 1 is 2.5, not an integer: {FLOATS}"),
        (lambda: Column.of([1.5, "a"]), TypeError, "row 0 is 1.5 and row 1 is 'a': a column has one type"),
        (lambda: Column.of([1, "a"]), TypeError, "row 0 is 1 and row 1 is 'a': a column has one type"),
        (lambda: Column.of([None, "a", b"a"]), TypeError, "row 1 is 'a' and row 2 is b'a': a column has one type"),
        (lambda: Column.of([1, Decimal("1.5"), "a"]), TypeError,
         "row 1 is Decimal('1.5') and row 2 is 'a': a column has one type"),
        (lambda: Column.of([[1]]), TypeError,
         "row 0 is [1], of class list, which no column has; Column.from_lists makes lists"),
        (lambda: Column.of(["a", 1], "utf8"), TypeError, "row 1 is 1, not a text"),
        (lambda: Column.of(["a"], "binary"), TypeError, "row 0 is 'a', not bytes"),
        (lambda: Column.of([True, 1], "bool"), TypeError, "row 1 is 1, not a boolean"),
        (lambda: Column.of([1, Decimal("NaN")]), ValueError,
         "row 1 is NaN: a decimal column has neither NaN nor infinity"),
        (lambda: Column.of([1, Decimal("1.25")], "decimal(3, 1)"), ValueError,
         "row 1: 1.25 has more than 1 places, and nothing is rounded"),
        (lambda: Column.of([1, 100], "decimal(3, 1)"), OverflowError, "row 1: 100 does not fit decimal(3, 1)"),
        (lambda: Column.of(["ok", "a\ud800"]), ValueError,
         r"row 1: 'a\ud800' is not UTF-8: U+D800 is half of a surrogate pair"),
        (lambda: Column.of(["a"]).eq("\udfff"), ValueError,
         r"'\udfff' is not UTF-8: U+DFFF is half of a surrogate pair"),
        (lambda: TWO.fill(2**70), OverflowError, "1180591620717411303424 does not fit i64"),
        (lambda: TWO.fill(-(10**5000)), OverflowError, "an integer of 16610 bits does not fit i64"),
        (lambda: Column.of([10**5000]), OverflowError, "no type of integers has an integer of 16610 bits"),
        (lambda: Column.of([1, 10**5000], "decimal(9, 2)"), OverflowError,
         "row 1: an integer of 16610 bits does not fit decimal(9, 2)"),
        (lambda: TWO.fill("x"), TypeError, "a value of type i64 is an integer, not 'x'"),
        (lambda: Column.from_lists([1], [0, -1], [1, 1]), OverflowError, "offset 1 is -1, which does not fit u64"),
        (lambda: Column.from_lists([1], [0], ["a"]), TypeError, "size 0 is 'a', not an integer"),
        (lambda: Column.from_runs(Column.of([3, -1]), [1, 2]), OverflowError,
         "from_runs, ends: row 1 is -1, which does not fit u64"),
        (lambda: Column.of(["a", None, 1]), TypeError, "row 0 is 'a' and row 2 is 1: a column has one type"),
        (lambda: Builder("i8").append([1, 300]), OverflowError, "row 1 is 300, which does not fit i8"),
        (lambda: Builder("i8").append_value(300), OverflowError, "300 does not fit i8"),
    ],
)
def test_the_row_and_the_value(call, kind, said):
    with pytest.raises(kind) as refused:
        call()
    assert str(refused.value) == said


@pytest.mark.parametrize(
    "call, kind, said",
    [
        (lambda: TWO.cast("i8", nullable=True).cast("u8").fill(300), OverflowError, "300 does not fit u8"),
        (lambda: Column.of([5, 300]).cast("u8"), errors.CastOutOfRange,
         "cast to u8: row 1 is 300, which does not fit u8"),
        (lambda: Column.of(["a", None]).cast("utf8"), errors.NullNotAllowed,
         "cast to utf8: row 1 is null, and utf8 has no null; 'utf8?' has"),
        (lambda: TWO.eq(Column.of([1, 2], "i8")), errors.TypeMismatch,
         "compare: i64 and i8 are two types; rows of one type are compared"),
        (lambda: TWO.take(Column.of(["a"])), errors.TypeMismatch, "take: indices are integers, not of utf8"),
        (lambda: TWO.filter(Column.of([1, 2])), errors.TypeMismatch, "filter: a mask is of booleans, not of i64"),
        (lambda: TWO.to_arrow(format="tdQ"), errors.TypeMismatch, "to_arrow: i64 has no format 'tdQ'"),
        (lambda: Column.of(["a"]).to_arrow(dictionary=TWO), errors.TypeMismatch,
         "to_arrow: codes are integers, not of utf8"),
        (lambda: Column.from_bytes(b"abc"), errors.BadMetadata, "from_bytes: the bytes are not what to_bytes writes"),
        (lambda: Column.from_record("i64", 1, b"abc", Column.of([1], "u8"), TWO[:1]), errors.BadMetadata,
         "from_record: the bytes are not a metadata record"),
        (lambda: TWO[2], errors.OutOfBounds, "row 2 is not among 2 rows"),
        (lambda: TWO.take([0, -3]), errors.OutOfBounds, "row -3 is not among 2 rows"),
        (lambda: TWO.slice(1, 3), errors.BadRange, "rows 1 to 3 are not among 2 rows"),
        (lambda: TWO.filter([True]), errors.MaskLength, "a mask of 1 rows over a column of 2 rows"),
        (lambda: TWO.eq(Column.of([1])), errors.ColumnLength, "lengths of 2 and 1, which have to be the same"),
        (lambda: Column.from_lists([1, 2], [0, 1], [1, 5]), errors.OutOfBounds,
         "from_lists: row 1 is elements 1 to 5, and there are 2 elements"),
        (lambda: Column.from_lists([1, 2], [0, 1], [1]), errors.ColumnLength,
         "from_lists: there are 2 offsets and 1 sizes"),
    ],
)
def test_refusals_of_the_library_say_more_than_their_number(call, kind, said):
    with pytest.raises(kind) as refused:
        call()
    assert str(refused.value) == said


FRAME = pandas.DataFrame({"a": [1], "b": [2]})
IS_NOT_ROWS = "are a list, another iterable, an array or a column, not"


@pytest.mark.parametrize(
    "call, said",
    [
        (lambda: Column.of(FRAME), "a DataFrame has several columns: give one, as frame['name']"),
        (lambda: concat([1, 2]), "a Column is expected here, not 1"),
        (lambda: Column.of(5), f"rows {IS_NOT_ROWS} 5"),
        (lambda: Column.of(None), f"rows {IS_NOT_ROWS} None"),
        (lambda: Column.of(Thing()), f"rows {IS_NOT_ROWS} an object of class Thing"),
        (lambda: TWO.filter(5), f"a mask's flags {IS_NOT_ROWS} 5"),
        (lambda: TWO.take("ab"), f"indices {IS_NOT_ROWS} 'ab'"),
        (lambda: TWO[Thing()], f"rows {IS_NOT_ROWS} an object of class Thing"),
        (lambda: TWO.take_from(5), f"rows {IS_NOT_ROWS} 5"),
        (lambda: Builder("i8").append(5), f"rows {IS_NOT_ROWS} 5"),
        (lambda: Column.from_lists([1], 5, [1]), f"offsets {IS_NOT_ROWS} 5"),
        (lambda: Column.from_buffer(5), "an array, a memoryview or another bytes-like object is expected, not 5"),
        (lambda: Column.from_bytes("a"), "an array, a memoryview or another bytes-like object is expected, not 'a'"),
        (lambda: Column.from_buffer(b"a", 5), f"flags {IS_NOT_ROWS} 5"),
        (lambda: Column.from_buffer(b"a", numpy.array([[1]])), "flags are booleans in one dimension, not array([[1]])"),
        (lambda: Column.from_buffer(numpy.ma.masked_array([1, 2], [False, True])),
         "a masked array has flags of its own: Column.of reads them"),
        (lambda: TWO.eq([4, 7]), "a column is compared with a column or one value: Column.of(..) makes one of [4, 7]"),
        (lambda: TWO.lt(numpy.array([4, 7])),
         "a column is compared with a column or one value: Column.of(..) makes one of array([4, 7])"),
        (lambda: Column.of(numpy.array([1], "timedelta64[M]")),
         "no column has items of dtype timedelta64[M]: these have no length in seconds"),
        (lambda: concat(5), f"columns {IS_NOT_ROWS} 5"),
        (lambda: TWO.to_arrow(5), "a name is a text, not 5"),
        (lambda: TWO.to_arrow("", b"i"), "a format is a text, not b'i'"),
        (lambda: TWO.take(memoryview(bytes(4)).cast("B", (2, 2))),
         f"indices {IS_NOT_ROWS} an object of class memoryview"),
        (lambda: TWO.take(int), f"indices {IS_NOT_ROWS} <class 'int'>"),
        (lambda: TWO.at(numpy.array([1])), "a row is an integer, not array([1])"),
        (lambda: numpy.array([4, 7]) in TWO, "a row is one value, not array([4, 7])"),
        (lambda: TWO in TWO, "a row is one value, not <Column i64: 2 rows, flat>"),
        (lambda: Column.from_arrow(5), "from_arrow takes an array, a batch or a table of an Arrow library, not 5"),
        (lambda: Column.from_arrow_structs("a", 5),
         "an ArrowSchema, an ArrowArray or an address is expected here, not 'a'"),
        (lambda: Column.of([1], "f64"),
         "'f64' is not a type of columns: expected u8, u16, u32, u64, i8, i16, i32, i64, bool, utf8, binary, float64, "
         "decimal(10, 2), date, timestamp[us, UTC] .."),
        (lambda: Column.of([1], "decimal"), "'decimal' is not a type of columns: expected decimal(precision, scale)"),
        (lambda: TWO.take([1.5]), "an index is an integer, not 1.5"),
        (lambda: TWO.at("a"), "a row is an integer, not 'a'"),
        (lambda: TWO.blocks("a"), "the number of rows of a block is an integer, not 'a'"),
        (lambda: Column.of(numpy.array([1.5], "longdouble")), f"no column has items of dtype float128: {FLOATS}"),
    ],
)
def test_arguments_of_another_sort(call, said):
    with pytest.raises(TypeError) as refused:
        call()
    assert str(refused.value) == said


def test_a_sentence_is_kept_short():
    with pytest.raises(TypeError) as refused:
        TWO.eq("x" * 1000)
    assert str(refused.value) == f"a value of type i64 is an integer, not '{'x' * 56}..."
    with pytest.raises(TypeError) as refused:
        Column.of([TWO])
    assert str(refused.value) == "row 0 is <Column i64: 2 rows, flat>, of class Column, which no column has"


def test_a_column_that_is_passed_twice():
    assert concat([TWO, TWO]).to_list() == [4, 7, 4, 7] and TWO.eq(TWO).to_list() == [True, True]
    ones = Column.of([1, 0], "u8")
    assert ones.take(ones).to_list() == [0, 1] == ones.take_from(ones).to_list()
    assert Column.from_lists(ones, ones, [1, 1]).to_list() == [[0], [1]]


# what Python says of its own ways, and what a caller of this package need not know
INTERNALS = re.compile(
    r"has no attribute|object is not |cannot be interpreted|unsupported operand|index-sized|codec can|ctypes|NoneType|"
    r"\b_[a-z]+|__\w+__|argument \d|must be (str|int|bytes)|positional|ambiguous|can't convert|not supported between|"
    r"invalid literal|PyCapsule|has no len|Exceeds the limit|could not convert|invalid type|unhashable|sub-views|0x"
)
ODD = [
    None, True, 5, -1, 2**64, 10**5000, 1.5, float("nan"), 1j, "a", "", "\ud800", b"a", Decimal("NaN"), Fraction(1, 3),
    date(2024, 1, 1), Thing(), Thing, len, [], [None], ["a"], [1.5], [[1]], [2**64], {}, {"a": 1}, (1,), range(3),
    slice(1, 2), ..., NotImplemented, array.array("d", [1.0]), memoryview(bytes(4)).cast("B", (2, 2)), numpy.array([]),
    numpy.array([[1]]), numpy.array(5), numpy.array(["a"]), numpy.array([1.5]), numpy.zeros(3, "M8[D]"),
    numpy.float32(1), numpy.int8(1), numpy.int8, numpy.dtype("i1"), numpy.ma.masked, pandas.NA, pandas.NaT,
    pandas.Series([1.5]), FRAME,
    pandas.Series(["a"]), pandas.Timestamp(0), TWO, Column.of(["a", None]), Column, Builder("i8"), "i8", "decimal", int,
]
COLUMNS = [
    Column.of([4, None, 7], "i16"), Column.of([4, 4, 7]).encode(), Column.of([True, None, False]),
    Column.of(["a", "a", None]).to_runs(), Column.of([Decimal("1.5"), None, 2]), Column.of([b"a", b"b", b"c"]),
    Column.from_lists([1, 2], [0, 1, 0], [1, 1, 1]), Column.constant(5, 3),
]
METHODS = (
    "eq", "lt", "fill", "take", "filter", "take_from", "cast", "at", "__getitem__", "__contains__", "blocks",
    "to_numpy", "to_arrow", "__eq__", "__lt__", "__add__", "__rsub__", "__and__", "isin", "shift", "equals", "coalesce",
)


def calls_with(odd):
    """Every call that takes something, with this in each place."""
    ends, values = Column.of([1], "u8"), Column.of([1])
    yield from (lambda call=call: call(odd) for call in (
        Column.of, Column.from_buffer, Column.from_bytes, Column.from_arrow, columns_from_arrow, concat, Builder,
    ))
    yield from (lambda place=place: Column.constant(*place) for place in ((odd, 2), (1, odd), (1, 2, odd)))
    yield from (lambda place=place: Column.of(*place) for place in (([1, 2], odd), (["a"], odd), ([odd],), ([1, odd],)))
    yield from (lambda place=place: Column.from_runs(*place) for place in (
        (odd, [1]), ([1], odd), ([3], [1], odd), ([3], [1], 0, odd),
    ))
    yield from (lambda place=place: Column.from_lists(*place) for place in (
        (odd, [0], [0]), ([1], odd, [1]), ([1], [0], odd), ([1], [0], [1], odd),
    ))
    yield from (lambda place=place: Column.from_record(*place) for place in (
        (odd, 1, b"", ends, values), ("i64", odd, b"", ends, values), ("i64", 1, odd, ends, values),
        ("i64", 1, b"", odd, values), ("i64", 1, b"", ends, odd),
    ))
    yield lambda: Column.from_buffer(b"a", odd)
    yield lambda: concat([values, odd])
    for type_of_rows in ("i8", "utf8", "decimal(4, 2)", "bool?"):
        yield lambda: Builder(type_of_rows).append(odd)
        yield lambda: Builder(type_of_rows).append_value(odd)
        yield lambda: Builder(type_of_rows).append_value(None, odd)
    for column in COLUMNS:
        yield from (lambda name=name: getattr(column, name)(odd) for name in METHODS)
        yield lambda: column.slice(0, odd)
        yield lambda: column.compare(odd, 1)
        yield lambda: column.to_arrow("", odd)
        yield lambda: column.to_arrow("", None, odd)


@pytest.mark.parametrize("place", range(len(ODD)))
def test_no_sentence_tells_of_internals(place):
    refused = 0
    for call in calls_with(ODD[place]):
        try:
            answer = call()
            list(islice(answer, 3)) if hasattr(answer, "__next__") else None
        except (TypeError, ValueError, OverflowError, IndexError, MemoryError, HivevigilError) as error:
            refused += 1
            assert str(error) and not INTERNALS.search(str(error)), type(error)
    assert refused > 20
