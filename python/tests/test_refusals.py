"""Wrong arguments: numbers of any size are refused and never truncated, and a freed column answers by an exception."""
import copy
import inspect
import pickle

import numpy
import pandas
import pytest
from hivevigil import CLASSES, Column, HivevigilError, concat, errors
from hypothesis import given
from hypothesis import strategies as st

ROWS = [1, 1, None, 2]
PAST = [2**31, 2**32, 2**63, 2**64, 2**64 + 1, 2**200]


def runs():
    return Column.of(ROWS, "u8").encode()


@pytest.mark.parametrize("row", [4, -5, *PAST, *(-number for number in PAST)])
def test_rows_that_are_not_there(row):
    for read in (runs().__getitem__, runs().at):
        with pytest.raises(IndexError):
            read(row)
    for read in (runs().take, runs().__getitem__):
        with pytest.raises(IndexError):
            read([0, row])


@pytest.mark.parametrize("row", [1.0, "1", None, Ellipsis, (1, 2), True, numpy.bool_(False), object(), b"1", len])
def test_keys_that_are_none(row):
    with pytest.raises(TypeError):
        runs()[row]


@pytest.mark.parametrize("keys", [[1.0], ["a"], [True, 1], numpy.array([1.0]), numpy.array(["a"]), Column.of(["a"])])
def test_lists_of_no_rows(keys):
    for call in (runs().__getitem__, runs().take, runs().filter):
        with pytest.raises(TypeError):
            call(keys)


def test_indices_of_arrays():
    for name in ("int8", "int64"):
        assert runs()[numpy.array([-1, 0], dtype=name)].to_list() == [2, 1]
        for wrong in (-5, 4, 100, -100):
            with pytest.raises(IndexError):
                runs()[numpy.array([0, wrong], dtype=name)]
    with pytest.raises(IndexError):
        runs()[numpy.array([2**64 - 1], dtype="uint64")]
    masked = numpy.ma.masked_array([-1, 99], [False, True])
    assert runs()[masked].to_list() == [2, None]
    with pytest.raises(ValueError):
        runs()[numpy.array([[0, 1]])]
    assert runs()[pandas.Series([-1, None, 0], dtype="Int64")].to_list() == [2, None, 1]
    assert runs().take(pandas.Index([-1, 0])).to_list() == [2, 1]
    with pytest.raises(errors.OutOfBounds) as caught:
        runs().take(numpy.array([-5]))
    assert caught.value.fields == (-5, 4, 0)
    with pytest.raises(IndexError):  # in a column indices count from the start
        runs().take(Column.of([-1]))


def test_masks():
    assert runs()[numpy.array([True, False, True, True])].to_list() == [1, None, 2]
    assert runs()[[True, None, False, True]].to_list() == [1, 2]
    for wrong in ([True], numpy.array([True] * 5), Column.of([True])):
        with pytest.raises(errors.MaskLength) as caught:
            runs().filter(wrong)
        assert caught.value.fields[1] == 4 and isinstance(caught.value, ValueError)
    with pytest.raises(TypeError):
        runs().filter([0, 1, 1, 0])


@pytest.mark.parametrize("start, stop, error", [
    (2, 1, IndexError), (0, 5, IndexError), (-1, 2, ValueError), (0, -1, ValueError), (0, 2**64, OverflowError),
    (2**64, 2**64 + 1, OverflowError), (0, 1.0, TypeError), (None, 1, TypeError), (True, 2, TypeError),
])
def test_ranges(start, stop, error):
    with pytest.raises(error):
        runs().slice(start, stop)


@pytest.mark.parametrize("sign", [0, 256, 1.0, "=", "<>", "", None, b"==", "eq"])
def test_operators(sign):
    with pytest.raises(ValueError):
        runs().compare(sign, 1)


@pytest.mark.parametrize("value, error", [
    (256, OverflowError), (-1, OverflowError), (2**64, OverflowError), (2**200, OverflowError), (1.0, TypeError),
    ("1", TypeError), (b"1", TypeError), (True, TypeError), (object(), TypeError),
])
def test_values_that_are_none_of_the_type(value, error):
    with pytest.raises(error):
        runs().fill(value)
    if not isinstance(value, (int, float)) or isinstance(value, bool):
        for call in (runs().eq, lambda value: runs().compare("<", value)):
            with pytest.raises(error):
                call(value)


@given(st.integers())
def test_no_number_is_truncated(number):
    column = Column.of([0, 1, None], "u8")
    assert column.eq(number).to_list() == [number == 0, number == 1, None]
    assert column.lt(number).to_list() == [0 < number, 1 < number, None]
    if 0 <= number < 256:
        assert column.fill(number).to_list() == [0, 1, number]
    else:
        with pytest.raises(OverflowError, match=f"^{number} does not fit u8$"):
            column.fill(number)
    with pytest.raises((ValueError, OverflowError, IndexError)):
        column.slice(0, number if number not in (0, 1, 2, 3) else 4)


def test_refusals_of_the_library():
    column = Column.of(ROWS)
    due = [
        (lambda: Column.of(["a"]).encode(), errors.OnlyPrimitive, TypeError, (0, 0, 0)),
        (lambda: column.fill(None), errors.NullFill, ValueError, (0, 0, 0)),
        (lambda: column.eq(Column.of([1])), errors.ColumnLength, ValueError, (4, 1, 0)),
        (lambda: column.eq(Column.of(["a"] * 4)), errors.TypeMismatch, TypeError, (0, 0, 0)),
        (lambda: Column.of([3]).take_from([1, 2]), errors.OutOfBounds, IndexError, (3, 2, 0)),
        (lambda: column.cast("bool"), errors.Unsupported, TypeError, (0, 0, 0)),
        (lambda: column.cast("i64", nullable=False), errors.NullNotAllowed, ValueError, (0, 0, 0)),
        (lambda: Column.of([300]).cast("u8"), errors.CastOutOfRange, OverflowError, (0, 0, 0)),
        (lambda: Column.from_runs([2, 2], [1, 2]), errors.EndsNotStrict, ValueError, (1, 0, 0)),
        (lambda: Column.from_runs([2], [1, 2]), errors.LengthsDiffer, ValueError, (1, 2, 0)),
        (lambda: Column.from_runs([2, 3], [1, 2], 1, 5), errors.LastEndBelowWindow, ValueError, (3, 6, 0)),
        (lambda: Column.from_runs(Column.of(["a"]), [1], 0, 1), errors.EndsNotUnsigned, TypeError, (0, 0, 0)),
        (lambda: Column.from_runs(Column.of([-1]), [1], 0, 1), errors.CastOutOfRange, OverflowError, (0, 0, 0)),
        (lambda: column.record(), errors.Unsupported, TypeError, (0, 0, 0)),
        (lambda: Column.of(["a"]).sum(), errors.Unsupported, TypeError, (0, 0, 0)),
        (lambda: Column.of(["a"]).to_array(), errors.Unsupported, TypeError, (0, 0, 0)),
        (lambda: Column.of([1]).truths(), errors.Unsupported, TypeError, (0, 0, 0)),
    ]
    for call, kind, builtin, fields in due:
        with pytest.raises(kind) as caught:
            call()
        assert isinstance(caught.value, (HivevigilError, builtin)) and isinstance(caught.value, builtin)
        assert caught.value.fields == fields
        assert "{" not in str(caught.value) and str(caught.value)


def test_refusals_name_the_call_and_its_columns():
    texts, numbers = Column.of(["a"]), Column.of(ROWS)
    due = [
        (texts.sum, "sum does not serve columns of utf8 (flat)"),
        (texts.to_runs().sum, "sum does not serve columns of utf8 (runs)"),
        (lambda: numbers.encode().cast("bool"), "cast to bool does not serve columns of i64? (runs)"),
        (numbers.ends, "ends does not serve columns of i64? (flat)"),
        (texts.record, "record does not serve columns of utf8 (flat)"),
        (texts.to_array, "to_array does not serve columns of utf8 (flat)"),
        (lambda: Column.of(["a"] * 4).eq(numbers),
         "compare: utf8 and i64 are two types; rows of one type are compared"),
        (lambda: concat([numbers, numbers.encode(), texts]),
         "concat: i64 (column 0) and utf8 (column 2) are two types, and none has the rows of both: cast one to the other"),
    ]
    for call, sentence in due:
        with pytest.raises(HivevigilError) as caught:
            call()
        assert str(caught.value) == sentence
        assert str(pickle.loads(pickle.dumps(caught.value))) == sentence
    assert str(errors.Unsupported()) == "the call does not serve columns of this type or form"
    assert str(errors.TypeMismatch()) == "the types do not match"


def test_a_mask_is_no_truth():
    one, other = runs(), runs()
    for call in (lambda: bool(one == other), lambda: one != other and 1, lambda: sorted([one, other]),
                 lambda: one in [other]):
        with pytest.raises(ValueError, match="^a mask is not true or false: ask mask.any"):
            call()
    assert one in [one] and len({one, other, one}) == 2 and {one: 1}[one] == 1
    one.free()
    assert hash(one) != hash(other)


def test_no_columns_have_no_type():
    with pytest.raises(ValueError, match="at least one"):
        concat([])


def test_constants_that_are_none():
    due = [
        (lambda: Column.constant(300, 2, "u8"), OverflowError),
        (lambda: Column.constant("a", 2, "u8"), TypeError),
        (lambda: Column.constant(1.5, 2, "i8"), TypeError),
        (lambda: Column.constant(1, -2), ValueError),
        (lambda: Column.constant(1, 2**64), OverflowError),
        (lambda: Column.constant(None, 2), ValueError),
        (lambda: Column.constant(1, 2, "list"), TypeError),
    ]
    for call, kind in due:
        with pytest.raises(kind):
            call()


def test_records_that_are_none():
    ends, values = Column.of([2], "u8"), Column.of([5])
    record = Column.from_runs(ends, values).record()
    with pytest.raises(errors.RunCount):
        Column.from_record("i64", 2, record, Column.of([1, 2], "u8"), Column.of([5, 6]))
    with pytest.raises((errors.BadMetadata, errors.RunCount)):
        Column.from_record("i64", 2, b"", ends, values)
    for rows in (-1, 2**64, 1.0):
        with pytest.raises((ValueError, OverflowError, TypeError)):
            Column.from_record("i64", rows, record, ends, values)


def test_errors_are_pickled():
    for kind in CLASSES.values():
        error = pickle.loads(pickle.dumps(kind(1, 2, 3)))
        assert type(error) is kind and error.fields == (1, 2, 3) and str(error)


@pytest.mark.parametrize("other", [3, "a", None, [1], numpy.array([1])])
def test_what_is_no_column(other):
    with pytest.raises(TypeError):
        Column.from_record("i64", 0, b"", other, other)
    with pytest.raises(TypeError):
        Column.from_record("i64", 0, b"", runs(), other)


def test_columns_are_made_by_their_makers():
    with pytest.raises(TypeError):
        Column([1, 2])
    column = runs()
    with pytest.raises(TypeError):
        column[0] = 1
    with pytest.raises(AttributeError):
        column.extra = 1


ARGUMENTS = {
    "slice": (0, 1), "cast": ("i8",), "take": ([0],), "filter": ([True] * 4,), "take_from": ([1, 2, 3],),
    "compare": ("==", 1), "fill": (1,), "at": (0,), "__getitem__": (0,), "__deepcopy__": ({},),
    "save": ("none",), "split": (2,), "__array_ufunc__": (numpy.negative, "__call__"), "group_by": ([1],), "where": ([True] * 4, 1), "isin": ([1],),
    "equals": (Column.of([1]),), "coalesce": (1,), "lesser": (1,), "greater": (1,), "nlargest": (1,), "nsmallest": (1,),
    **{f"__{name}__": (1,) for name in ("add", "radd", "sub", "rsub", "mul", "rmul", "truediv", "rtruediv", "and", "rand", "or",
                                          "ror")},
    **{name: (1,) for name in ("eq", "ne", "gt", "ge", "lt", "le", "__lt__", "__le__", "__gt__", "__ge__")},
    **{name: (1,) for name in ("__eq__", "__ne__", "__contains__")},
}
STAY = {"free", "freed", "__repr__", "__exit__", "__del__", "_repr_html_", "__hash__", "__sizeof__", "__getattr__"}
MAKERS = {
    "of", "constant", "from_buffer", "from_lists", "from_runs", "from_record", "from_bytes", "from_arrow",
    "from_arrow_structs", "load", "is_message",
}


def calls_of_a_column():
    """Every public method and property, and those of Python's protocols that the class defines."""
    of_every_class = {"__new__", "__init__", "__annotations__", "__module__", "__doc__", "__slots__", "__weakref__"}
    for name in (name for kind in Column.__mro__[:-1] for name in vars(kind)):
        private = name.startswith("_") and not name.startswith("__")
        if not private and name not in STAY | MAKERS | of_every_class:
            yield name


@pytest.mark.parametrize("name", sorted(set(calls_of_a_column())))
def test_a_freed_column_answers_by_an_exception(name):
    column = runs()
    column.free()
    with pytest.raises(errors.NoColumn):
        member = getattr(column, name)
        answer = member(*ARGUMENTS.get(name, ())) if callable(member) else member
        if hasattr(answer, "__next__"):
            list(answer)


def test_what_stays_of_a_freed_column():
    column = runs()
    with column:
        pass
    column.free()
    assert column.freed and repr(column) == "<Column: freed>" and "freed" in column._repr_html_()
    for call in (len, list, copy.copy, copy.deepcopy, pickle.dumps, bool):
        with pytest.raises(errors.NoColumn):
            call(column)
    with pytest.raises(errors.NoColumn):
        runs_left = iter(Column.of([1]))
        next(runs_left)
        with column:
            pass


def test_freed_beside_another():
    freed = Column.of(ROWS)
    freed.free()
    for call in (runs().take, runs().filter, runs().take_from, runs().eq):
        with pytest.raises(errors.NoColumn):
            call(freed)
    with pytest.raises(errors.NoColumn):
        Column.from_runs(freed, [1], 0, 1)


def test_freed_while_it_is_iterated():
    column = Column.of(list(range(200_000)))
    rows = iter(column)
    assert next(rows) == 0
    column.free()
    with pytest.raises(errors.NoColumn):
        list(rows)


@pytest.mark.parametrize("message", [5, 2**62, None, "text", [8, 1]])
def test_what_is_no_bytes_is_no_message(message):
    with pytest.raises(TypeError, match="bytes-like"):
        Column.from_bytes(message)
    with pytest.raises(TypeError, match="bytes-like"):
        Column.from_record("i32", 1, message, Column.of([1], "u8"), Column.of([1], "i32"))
