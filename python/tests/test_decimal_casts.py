"""Casts from and to decimals are those of Python's fractions, row by row, in every form."""
from decimal import Decimal
from fractions import Fraction

import pytest
from hivevigil import Column, concat, errors
from hypothesis import assume, example, given
from hypothesis import strategies as st
from test_decimals import DIGITS, RUNS, column_of, rows_of

FORMS = st.sampled_from(["flat", "runs"])
SCALES = st.integers(-4, 6) | st.sampled_from([-128, -40, 38, 40, 127])
LETTERS = {"u8": (0, 2**8), "i8": (-2**7, 2**7), "u32": (0, 2**32), "i64": (-2**63, 2**63), "u64": (0, 2**64)}
NUMBERS = st.none() | st.integers(-130, 300) | st.integers(-2**63, 2**63 - 1)
WHOLE = st.lists(st.tuples(NUMBERS, st.integers(1, 9)), max_size=8)


def at_scale(number, scale):
    return Fraction(number) * Fraction(10) ** scale


def due(numbers, scale, least, greatest):
    """The numbers in units of a scale, or the first row that has none among these, and why."""
    made = []
    for row, number in enumerate(numbers):
        there = None if number is None else at_scale(number, scale)
        if there is not None and there.denominator != 1:
            return row, "lies between two numbers of"
        if there is not None and not least <= there <= greatest:
            return row, "does not fit"
        made.append(None if there is None else int(there))
    return made


def check(column, to, numbers, scale, least, greatest):
    """A cast of a column of these numbers, to a type that has these."""
    wanted = due(numbers, scale, least, greatest)
    if isinstance(wanted, tuple):
        row, why = wanted
        with pytest.raises(errors.CastOutOfRange) as refused:
            column.cast(to)
        assert str(refused.value) == f"cast to {to}: row {row} is {column[row]}, which {why} {to.rstrip('?')}"
        return
    made = column.cast(to)
    assert made.type == to and made.form == column.form
    assert [None if row is None else at_scale(row, scale) for row in made.to_list()] == wanted


def fractions_of(rows, scale):
    return [None if row is None else Fraction(row) / Fraction(10) ** scale for row in rows]


@given(RUNS, st.sampled_from([0, 2, 38, -3]), st.integers(1, 38), SCALES, FORMS)
@example([(150, 2), (None, 1), (-7, 3)], 2, 20, 4, "runs")
@example([(0, 2), (10**38 - 1, 1)], 2, 38, 127, "flat")
@example([(700, 2), (750, 1)], 2, 20, 0, "runs")
def test_decimals_of_another_scale(runs, scale, precision, to, form):
    rows = rows_of(runs)
    greatest = 10**precision - 1
    column, numbers = column_of(rows, scale, form), fractions_of(rows, scale)
    check(column, f"decimal({precision}, {to})?", numbers, to, -greatest, greatest)


@given(WHOLE, st.integers(1, 38), SCALES, FORMS)
@example([(7, 2), (None, 1), (-3, 1)], 10, 2, "runs")
@example([(70, 1), (75, 1)], 3, -1, "flat")
def test_integers_as_decimals(runs, precision, to, form):
    rows = rows_of(runs)
    column = Column.of(rows, "i64?")
    greatest = 10**precision - 1
    check(column if form == "flat" else column.to_runs(), f"decimal({precision}, {to})?", rows, to, -greatest, greatest)


@given(st.lists(st.tuples(st.none() | st.integers(-300, 70000) | DIGITS, st.integers(1, 9)), max_size=8),
       st.sampled_from([0, 2, -3]), st.sampled_from(sorted(LETTERS)), FORMS)
@example([(700, 2), (None, 1), (-300, 3)], 2, "i64", "runs")
@example([(12700, 1), (12800, 1)], 2, "i8", "flat")
def test_decimals_as_integers(runs, scale, to, form):
    rows = rows_of(runs)
    least, past = LETTERS[to]
    check(column_of(rows, scale, form), f"{to}?", fractions_of(rows, scale), 0, least, past - 1)


def test_constants_stay_constants():
    many = Column.constant(7, 2**60, "u8").cast("decimal(5, 2)")
    assert (many.form, len(many), many[2**60 - 1], many.type) == ("constant", 2**60, Decimal("7.00"), "decimal(5, 2)")
    assert many.cast("i64").form == "constant" and many.cast("i64").type == "i64"
    assert Column.of([], "i64").cast("decimal(5, 2)").type == "decimal(5, 2)"


def test_null_needs_a_type_that_has_it():
    with pytest.raises(errors.NullNotAllowed, match="row 1 is null"):
        Column.of([1, None]).cast("decimal(5, 2)")
    assert Column.of([1]).cast("decimal(5, 2)", nullable=True).type == "decimal(5, 2)?"
    with pytest.raises(errors.Unsupported):
        Column.of([b"1"]).cast("decimal(5, 2)")


@given(RUNS, RUNS, SCALES, SCALES, FORMS, st.sampled_from(["==", "!=", "<", "<=", ">", ">="]))
@example([(150, 1)], [(15, 1)], 2, 1, "flat", "==")
@example([(10**37, 1)], [(1, 1)], 0, 38, "runs", ">")
def test_decimals_of_two_scales_are_compared(lefts, rights, scale, other, form, sign):
    lefts, rights = rows_of(lefts), rows_of(rights)
    rows = min(len(lefts), len(rights))
    lefts, rights = lefts[:rows], rights[:rows]
    mask = column_of(lefts, scale, form).compare(sign, column_of(rights, other, "runs"))
    holds = {"==": "__eq__", "!=": "__ne__", "<": "__lt__", "<=": "__le__", ">": "__gt__", ">=": "__ge__"}[sign]
    pairs = zip(fractions_of(lefts, scale), fractions_of(rights, other))
    assert mask.to_list() == [
        None if left is None or right is None else getattr(left, holds)(right) for left, right in pairs
    ]


@given(st.lists(st.integers(-999, 999) | st.none(), max_size=6), st.lists(st.integers(-999, 999), max_size=6),
       st.integers(0, 5), st.integers(0, 5))
def test_decimals_of_two_scales_are_joined(lefts, rights, scale, other):
    assume(scale != other)
    columns = [column_of(lefts, scale, "flat"), column_of(rights, other, "runs")]
    columns = [column.cast(f"decimal(5, {places})?") for column, places in zip(columns, (scale, other))]
    made = concat(columns)
    assert made.to_list() == [*columns[0].to_list(), *columns[1].to_list()]
    assert made.type == f"decimal({5 + abs(scale - other)}, {max(scale, other)})?"


def test_a_row_without_a_place_is_not_joined():
    with pytest.raises(errors.CastOutOfRange, match=r"concat: column 0: row 0 is 10{30}, which does not fit decimal\(38, 20\)"):
        concat([Column.of([Decimal(10**30)], "decimal(38, 0)"), Column.of([Decimal(1)], "decimal(38, 20)")])
