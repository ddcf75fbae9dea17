"""Sums, means and picked rows of decimals are those of Python's integers and fractions, row by row, in every form."""
import operator
from decimal import Decimal
from fractions import Fraction

import pytest
from hivevigil import Column, errors
from hypothesis import example, given
from hypothesis import strategies as st

GREATEST = 10**38 - 1
DIGITS = st.integers(-999, 999) | st.integers(-GREATEST, GREATEST) | st.sampled_from(
    [GREATEST, -GREATEST, GREATEST // 10, 10**37, -(10**37), 9 * 10**37]
)
RUNS = st.lists(st.tuples(st.none() | DIGITS, st.integers(1, 30)), max_size=8)
SCALES = st.sampled_from([0, 2, 38, -3])


def rows_of(runs):
    return [digits for digits, count in runs for _ in range(count)]


def column_of(rows, scale, form):
    """A column of the decimals that have these digits at a scale."""
    kept = Column.of([None if row is None else Decimal((int(row < 0), tuple(map(int, str(abs(row)))), -scale))
                      for row in rows], f"decimal(38, {scale})?")
    return kept if form == "flat" else kept.to_runs()


def row_that_leaves(rows):
    """The sum of the rows, and the first row with which it has more digits than 38, None where there is none."""
    total = 0
    for row, digits in enumerate(rows):
        if abs(total + (digits or 0)) > GREATEST:
            return total, row
        total += digits or 0
    return total, None


@given(RUNS, SCALES, st.sampled_from(["flat", "runs"]))
@example([(-9 * 10**37, 1), (10**37, 18)], 2, "runs")  # the product has 39 digits, and no sum has
@example([(10**37, 9), (10**37 - 1, 1), (1, 1), (-5, 1)], 0, "flat")
def test_sums(runs, scale, form):
    rows = rows_of(runs)
    column = column_of(rows, scale, form)
    total, row = row_that_leaves(rows)
    if row is None:
        found = column.sum()
        assert found == Decimal((int(total < 0), tuple(map(int, str(abs(total)))), -scale))
        assert type(found) is Decimal and found.as_tuple().exponent == -scale
    else:
        with pytest.raises(OverflowError) as refused:
            column.sum()
        assert str(refused.value).startswith(f"sum: it leaves 38 digits at row {row}, which is {column[row]}: the rows before")


@given(RUNS, SCALES, st.sampled_from(["flat", "runs"]))
def test_means(runs, scale, form):
    rows = rows_of(runs)
    valid = [row for row in rows if row is not None]
    due = float(Fraction(sum(valid), len(valid)) / Fraction(10) ** scale) if valid else None
    assert column_of(rows, scale, form).mean() == due


@given(RUNS, st.data())
def test_parts(runs, data):
    rows = rows_of(runs)
    start = data.draw(st.integers(0, len(rows)))
    stop = data.draw(st.integers(start, len(rows)))
    part = column_of(rows, 2, "runs").slice(start, stop)
    total, row = row_that_leaves(rows[start:stop])
    if row is None:
        assert Fraction(part.sum()) * 100 == total
    else:
        with pytest.raises(OverflowError, match=f"at row {row}, which"):
            part.sum()


def test_constants_and_no_rows():
    many = Column.constant(Decimal("0.25"), 2**60, "decimal(10, 2)")
    assert many.sum() == Decimal(2**60) / 4 and many.mean() == 0.25
    assert Column.constant(Decimal(10**20), 10**18 - 1, "decimal(38, 0)").sum() == Decimal(10**38 - 10**20)
    with pytest.raises(OverflowError, match="at row 999999999999999999, which is 100000000000000000000: "):
        Column.constant(Decimal(10**20), 2**63, "decimal(38, 0)").sum()
    for rows in ([], [None, None]):
        empty = Column.of(rows, "decimal(5, 2)?")
        assert str(empty.sum()) == "0.00" and empty.mean() is None


def test_precision_bounds_no_sum():
    assert Column.of([Decimal("9.9"), Decimal("9.9")], "decimal(2, 1)").sum() == Decimal("19.8")


def test_what_the_refusals_say():
    with pytest.raises(OverflowError) as refused:
        Column.of([Decimal(GREATEST), None, Decimal(1), Decimal(-1)]).to_runs().sum()
    assert str(refused.value) == f"sum: it leaves 38 digits at row 2, which is 1: the rows before it make {GREATEST}"
    assert Column.of([Decimal(GREATEST), Decimal(1)]).mean() == float(Fraction(10**38, 2))
    with pytest.raises(errors.Unsupported):
        Column.of(["a"]).sum()


GIVE = {"+": operator.add, "-": operator.sub, "*": operator.mul}


def digits_of(row, scale):
    """The integer of a decimal at a scale, None for null."""
    return None if row is None else int(Fraction(row) * Fraction(10) ** scale)


def decimals_of(rows, precision, scale, form):
    """A column of decimals of a precision, the last digits of which are these."""
    within = [None if row is None else decimal_of(row % 10**precision * (1 if row < 0 else -1), scale) for row in rows]
    column = Column.of(within, f"decimal({precision}, {scale})?")
    return column if form == "flat" else column.to_runs()


def decimal_of(digits, scale):
    return Decimal((int(digits < 0), tuple(map(int, str(abs(digits)))), -scale))


@st.composite
def two_columns(draw, scales):
    """Two columns of as many rows, each of a precision and a scale, in a form."""
    lefts, rights = rows_of(draw(RUNS)), rows_of(draw(RUNS))
    count = min(len(lefts), len(rights))
    made = []
    for rows, scale in ((lefts, scales[0]), (rights, scales[1])):
        precision = draw(st.integers(1, 38))
        column = decimals_of(rows[:count], precision, scale, draw(st.sampled_from(["flat", "runs"])))
        made.append((column, [digits_of(row, scale) for row in column.to_list()], precision, scale))
    return made


def check_given(found, sign, lefts, rights, precision, scale):
    """What `found` makes has the decimals of these digits, or names the first row that the type does not have."""
    due = [None if None in pair else GIVE[sign](*pair) for pair in zip(lefts, rights)]
    past = [row for row, digits in enumerate(due) if digits is not None and abs(digits) >= 10**precision]
    if past:
        with pytest.raises(OverflowError) as refused:
            found()
        assert refused.value.fields == (past[0], 0, 0)
        said = str(refused.value)
        assert said.startswith(f"row {past[0]} is ") and said.endswith(f", which does not fit decimal({precision}, {scale})")
        return
    column = found()
    assert column.type.rstrip("?") == f"decimal({precision}, {scale})" and column.form in ("runs", "constant")
    assert [digits_of(row, scale) for row in column.to_list()] == due
    runs = sum(not at or due[at - 1] != digits for at, digits in enumerate(due))
    assert column.form == "constant" or column.run_count() == runs


@given(SCALES.flatmap(lambda scale: two_columns((scale, scale))), st.sampled_from("+-"))
def test_sums_of_two(sides, sign):
    (left, lefts, one, scale), (right, rights, other, _) = sides
    check_given(lambda: GIVE[sign](left, right), sign, lefts, rights, min(max(one, other) + 1, 38), scale)


TWO_SCALES = st.tuples(SCALES, SCALES).flatmap(two_columns)


def at_one_scale(sides, call):
    """The digits of both columns at the greater scale, with the digits that a type of both has and that scale; or what
    refuses them."""
    (_, lefts, one, left_scale), (_, rights, other, right_scale) = sides
    scale = max(left_scale, right_scale)
    precision = min(max(one - left_scale, other - right_scale) + scale, 38)
    digits = []
    for rows, own in ((lefts, left_scale), (rights, right_scale)):
        digits.append([None if row is None else row * 10 ** (scale - own) for row in rows])
        past = [row for row, number in enumerate(digits[-1]) if number is not None and abs(number) >= 10**precision]
        if past:
            value = decimal_of(rows[past[0]], own)
            return None, f"{call}: row {past[0]} is {value}, which does not fit decimal({precision}, {scale})", scale
    return digits, precision, scale


@given(TWO_SCALES, st.sampled_from("+-"))
def test_sums_of_two_scales(sides, sign):
    digits, precision, scale = at_one_scale(sides, sign)
    if digits is None:
        with pytest.raises(OverflowError) as refused:
            GIVE[sign](sides[0][0], sides[1][0])
        assert str(refused.value) == precision
        return
    check_given(lambda: GIVE[sign](sides[0][0], sides[1][0]), sign, *digits, min(precision + 1, 38), scale)


PICK = {
    "coalesce": lambda a, b: b if a is None else a,
    "lesser": lambda a, b: None if None in (a, b) else min(a, b),
    "greater": lambda a, b: None if None in (a, b) else max(a, b),
}  # fmt: skip


def check_picked(found, due, precision, scale):
    column = found()
    assert column.type.rstrip("?") == f"decimal({precision}, {scale})" and column.form in ("runs", "constant")
    assert [digits_of(row, scale) for row in column.to_list()] == due
    runs = sum(not at or due[at - 1] != digits for at, digits in enumerate(due))
    assert column.form == "constant" or column.run_count() == runs


@given(TWO_SCALES | SCALES.flatmap(lambda scale: two_columns((scale, scale))), st.sampled_from([*PICK, "where"]), st.data())
def test_rows_are_picked_at_one_scale(sides, name, data):
    left, right = sides[0][0], sides[1][0]
    digits, precision, scale = at_one_scale(sides, name)
    mask = data.draw(st.lists(st.booleans(), min_size=len(left), max_size=len(left)))
    other = (Column.of(mask, "bool"), right) if name == "where" else (right,)
    if digits is None:
        with pytest.raises(OverflowError) as refused:
            getattr(left, name)(*other)
        assert str(refused.value) == precision
        return
    if name == "where":
        due = [one if flag else two for flag, one, two in zip(mask, *digits)]
    else:
        due = [PICK[name](*pair) for pair in zip(*digits)]
    check_picked(lambda: getattr(left, name)(*other), due, precision, scale)


@given(st.tuples(SCALES, SCALES).flatmap(two_columns))
def test_products_of_two(sides):
    (left, lefts, one, scale), (right, rights, other, other_scale) = sides
    check_given(lambda: left * right, "*", lefts, rights, min(one + other + 1, 38), scale + other_scale)


@given(two_columns((2, 2)), st.sampled_from(list(GIVE)), st.integers(-(10**12), 10**12), st.integers(0, 4), st.booleans())
def test_one_value(sides, sign, digits, places, is_left):
    column, rows, precision, scale = sides[0]
    value = decimal_of(digits, places) if places else digits
    at = next(at for at in range(scale, 5) if Fraction(value) * 10**at % 1 == 0) if sign != "*" else places
    number = digits_of(value, at)
    width = len(str(abs(number)))
    work = (lambda: GIVE[sign](value, column)) if is_left else (lambda: GIVE[sign](column, value))
    if sign == "*":
        due, shown = min(precision + width + 1, 38), rows
    else:
        precision = max(precision + at - scale, width) if at > scale else max(precision, width)
        due, shown = min(precision + 1, 38), [None if row is None else row * 10 ** (at - scale) for row in rows]
        if any(row is not None and abs(row) >= 10**38 for row in shown):
            with pytest.raises(OverflowError, match=f"which does not fit decimal\\(38, {at}\\)$"):
                work()
            return
    sides = ([number] * len(rows), shown) if is_left else (shown, [number] * len(rows))
    check_given(work, sign, *sides, due, scale + at if sign == "*" else at)


def test_pairs_that_do_not_go_together():
    cents, mills = Column.of([5], "decimal(4, 2)"), Column.of([5], "decimal(6, 3)")
    assert (cents + mills).to_list() == [Decimal("10.000")] and (cents - mills).type == "decimal(7, 3)"
    far = Column.of([0], "decimal(4, 126)")
    assert (cents.slice(0, 0) + far.slice(0, 0)).type == "decimal(38, 126)" and (far - far).to_list() == [0]
    with pytest.raises(OverflowError, match=r"^\+: row 0 is 5.00, which does not fit decimal\(38, 126\)$"):
        cents + far
    with pytest.raises(TypeError, match=r"are not multiplied: no column has the scale 128$"):
        cents * far
    with pytest.raises(errors.Unsupported, match=r"^decimal\(4, 2\) and i64 are not added$"):
        cents + Column.of([5], "i64")
    with pytest.raises(TypeError, match="a decimal is a decimal.Decimal or an integer"):
        cents * 1.5
    for other in ("decimal(4, 2)", "decimal(4, 126)"):
        with pytest.raises(errors.ColumnLength):
            cents - Column.of([0, 0], other)
        with pytest.raises(errors.ColumnLength):
            cents.coalesce(Column.of([0, 0], other))
        with pytest.raises(errors.ColumnLength) as refused:
            cents.compare("<", Column.of([0, 0], other))
        assert refused.value.fields == (1, 2, 0)
    with pytest.raises(errors.TypeMismatch, match=r"^decimal\(4, 2\) and i64 are not picked from$"):
        cents.lesser(Column.of([5], "i64"))
    with pytest.raises(errors.Unsupported, match=r"^decimal\(4, 2\) and decimal\(6, 3\) are not connected: "):
        cents & mills
    with pytest.raises(ValueError, match="5.005 has more than 2 places, and nothing is rounded$"):
        cents.lesser(Decimal("5.005"))
    assert cents.lesser(Decimal("4.5")).to_list() == [Decimal("4.50")] and cents.greater(None).to_list() == [None]
    assert (cents + Decimal("0.0010")).to_list() == [Decimal("5.001")] and (1 - cents).type == "decimal(5, 2)"
    assert (Column.of([500], "decimal(3, -2)") - 7).to_list() == [493]
    assert (cents - None).to_list() == (None * cents).to_list() == [None]
    assert (-cents).to_list() == [Decimal("-5.00")] and (cents * cents).to_list() == [Decimal("25.0000")]
