"""Each command and question over a column in any form answers as over its rows."""
import operator
from decimal import Decimal
from itertools import accumulate

import pytest
from hivevigil import Builder, Column, concat, errors
from hypothesis import assume, given
from hypothesis import strategies as st
from rows import BITS, TYPES, least_and_greatest, runs_of, samples, stretches, values

SIGNS = {
    "==": operator.eq, "!=": operator.ne, ">": operator.gt, ">=": operator.ge, "<": operator.lt, "<=": operator.le,
}
METHODS = {"==": "eq", "!=": "ne", ">": "gt", ">=": "ge", "<": "lt", "<=": "le"}


def comparable(row):
    """A row, such that Python orders it as the library does: texts by their UTF-8."""
    return row.encode() if isinstance(row, str) else row


def compared(left, sign, right):
    return None if left is None or right is None else SIGNS[sign](comparable(left), comparable(right))


@given(samples(), samples(types=("bool",)))
def test_masks_in_any_form(sample, mask):
    rows = min(len(sample.rows), len(mask.rows))
    kept = [row for row, flag in zip(sample.rows, mask.rows) if flag]
    assert sample.column[:rows].filter(mask.column[:rows]).to_list() == kept


@given(samples(least_rows=1), samples(types=("u8", "i64")))
def test_indices_in_any_form(sample, places):
    inside = [None if place is None else place % len(sample.rows) for place in places.rows]
    wanted = [None if place is None else sample.rows[place] for place in inside]
    assert sample.column.take(Column.of(inside, "u64?").encode()).to_list() == wanted


@given(samples(types=tuple(BITS)))
def test_encode(sample):
    runs = sample.column.encode()
    assert list(runs.runs()) == runs_of(sample.rows) and runs.to_list() == sample.rows


@given(st.data(), samples())
def test_take(data, sample):
    rows = sample.rows
    index = st.integers(-len(rows), len(rows) - 1) if rows else st.nothing()
    indices = data.draw(st.lists(st.none() | index, max_size=12))
    due = [None if at is None else rows[at] for at in indices]
    assert sample.column.take(indices).to_list() == due
    if any(at is not None for at in indices) or not indices:
        assert sample.column[indices].to_list() == due


@given(st.data(), samples())
def test_take_by_a_column(data, sample):
    assume(sample.rows)
    indices = data.draw(st.lists(st.none() | st.integers(0, len(sample.rows) - 1), max_size=12))
    flat = Column.of(indices, data.draw(st.sampled_from(list(BITS))))
    due = [None if at is None else sample.rows[at] for at in indices]
    for column in (flat, flat.encode(), flat.encode()[: len(flat)]):
        assert sample.column.take(column).to_list() == due == sample.column[column].to_list()
        assert column.take_from(sample.column).to_list() == due


@given(st.data(), samples())
def test_filter(data, sample):
    count = len(sample.rows)
    flags = data.draw(st.lists(st.sampled_from([True, False, None]), min_size=count, max_size=count))
    due = [row for row, flag in zip(sample.rows, flags) if flag]
    mask = Column.of(flags, "bool")
    assert sample.column.filter(flags).to_list() == due
    for column in (mask, mask.to_runs()):
        assert sample.column.filter(column).to_list() == due == sample.column[column].to_list()


@given(samples(types=("bool",)))
def test_a_column_filters_itself(sample):
    assert sample.column.filter(sample.column).to_list() == [True] * sample.rows.count(True)


@given(st.data(), samples(), st.sampled_from(list(SIGNS)))
def test_compare_with_a_value(data, sample, sign):
    chosen = [row for row in sample.rows if row is not None]
    value = data.draw(st.none() | values(sample.type) | (st.sampled_from(chosen) if chosen else st.nothing()))
    due = [compared(row, sign, value) for row in sample.rows]
    assert sample.column.compare(sign, value).to_list() == due
    assert getattr(sample.column, METHODS[sign])(value).to_list() == due


@given(st.data(), samples(), st.sampled_from(list(SIGNS)))
def test_compare_with_a_column(data, sample, sign):
    count = len(sample.rows)
    other = data.draw(st.lists(st.none() | values(sample.type), min_size=count, max_size=count))
    column = Column.of(other, sample.type)
    due = [compared(left, sign, right) for left, right in zip(sample.rows, other)]
    assert sample.column.compare(sign, column).to_list() == due
    assert sample.column.compare(sign, column.to_runs()).to_list() == due
    itself = [compared(row, sign, row) for row in sample.rows]
    assert sample.column.compare(sign, sample.column).to_list() == itself


@given(st.data(), samples())
def test_fill(data, sample):
    value = data.draw(values(sample.type))
    filled = sample.column.fill(value)
    assert filled.to_list() == [value if row is None else row for row in sample.rows] and not filled.nullable


@given(samples(types=tuple(BITS)), st.sampled_from(list(BITS)))
def test_cast(sample, name):
    least, greatest = least_and_greatest(name)
    present = [(row, value) for row, value in enumerate(sample.rows) if value is not None]
    past = [(row, value) for row, value in present if not least <= value <= greatest]
    nulls = [row for row, value in enumerate(sample.rows) if value is None]
    column = sample.column
    check_cast(lambda: column.cast(name + "?"), name + "?", sample.rows, past, [])
    check_cast(lambda: column.cast(name, nullable=True), name + "?", sample.rows, past, [])
    check_cast(lambda: column.cast(name), name, sample.rows, past, nulls)
    check_cast(lambda: column.cast(name + "?", nullable=False), name, sample.rows, past, nulls)


def check_cast(call, type, rows, past, nulls):
    """The rows as this type, or a refusal that names the first row which does not fit."""
    if not past and not nulls:
        cast = call()
        assert (cast.type, cast.to_list()) == (type, rows)
        return
    name = type.rstrip("?")
    if not past or nulls and nulls[0] < past[0][0]:
        kind, said = errors.NullNotAllowed, f"row {nulls[0]} is null, and {name} has no null; '{name}?' has"
    else:
        kind, said = errors.CastOutOfRange, f"row {past[0][0]} is {past[0][1]}, which does not fit {name}"
    with pytest.raises(kind) as refused:
        call()
    assert str(refused.value) == f"cast to {type}: {said}"


@given(samples(types=tuple(BITS)))
def test_sum(sample):
    total = sum(row for row in sample.rows if row is not None)
    least, greatest = least_and_greatest("u64" if sample.type[0] == "u" else "i64")
    partial = list(accumulate(row or 0 for row in sample.rows))
    past = [row for row, part in enumerate(partial) if not least <= part <= greatest]
    if not past:
        assert sample.column.sum() == total
    else:
        with pytest.raises(OverflowError, match=f"at row {past[0]}, which is {sample.rows[past[0]]}: "):
            sample.column.sum()


@pytest.mark.parametrize(
    "column, said",
    [
        (Column.of([2**63 - 1, 1]), "i64 at row 1, which is 1: the rows before it make 9223372036854775807"),
        (Column.of([2**64 - 1, 0, 7]).to_runs(), f"u64 at row 2, which is 7: the rows before it make {2**64 - 1}"),
        (Column.of([3, None, -(2**63), -4, 5]), f"i64 at row 3, which is -4: the rows before it make {3 - 2**63}"),
        (Column.constant(2**62, 2**60), f"i64 at row 1, which is {2**62}: the rows before it make {2**62}"),
        (Column.constant(-3, 2**63),
         f"i64 at row {2**63 // 3}, which is -3: the rows before it make {-(2**63 // 3) * 3}"),
        (Column.of([0, 1, 1, 2**63 - 2]).encode()[1:],
         f"i64 at row 2, which is {2**63 - 2}: the rows before it make 2"),
    ],
)
def test_sums_that_leave_64_bits(column, said):
    with pytest.raises(OverflowError) as refused:
        column.sum()
    assert str(refused.value) == f"sum: it leaves {said}"


def test_sums_that_stay_within_64_bits():
    assert Column.of([2**63 - 1, None]).encode().sum() == 2**63 - 1 and Column.of([None], "u8").sum() == 0
    assert Column.of([], "i8").sum() == 0 and Column.constant(-(2**62), 2).sum() == -(2**63)


def test_no_row_is_the_least_of_none():
    for column in (Column.of([], "i64"), Column.of([None, None], "utf8"), Column.constant(None, 2**60, "bool")):
        assert column.min() is None and column.max() is None and column.min_max() == (None, None)


@given(st.data(), samples())
def test_whether_a_row_has_a_value(data, sample):
    value = data.draw(st.none() | values(sample.type) | st.sampled_from(sample.rows or [None]))
    assert (value in sample.column) == (value in sample.rows)
    for other in (True, 1, 1.0, Decimal("1.500"), "a", b"a", [1], float("nan"), 2**200, "\ud800", object()):
        assert (other in sample.column) == (other in sample.rows)


def test_values_are_looked_for_by_runs():
    many = Column.constant(7, 2**60)
    assert 7 in many and 8 not in many and None not in many and None in Column.constant(None, 2**60, "utf8")
    runs = Column.from_runs([2**60, 2**61], ["oak", None])
    assert "oak" in runs and None in runs and "elm" not in runs and "oak" not in runs[2**60 :]
    nested = Column.from_runs([2**40, 2**41], Column.of(["oak", None]).to_runs())
    assert "oak" in nested and None in nested and 3 not in nested
    lists = Column.from_lists([1, 2], [0, 0], [1, 2], [True, False])
    assert [1] in lists and None in lists and [2] not in lists


def shown(column):
    return column.form, column.type, len(column), column[-1] if len(column) else None


def test_a_constant_stays_one():
    rows = 2**60
    many, none = Column.constant(7, rows, "i64?"), Column.constant(None, rows, "i64?")
    assert shown(many.cast("u8")) == ("constant", "u8", rows, 7)
    assert shown(many.fill(9)) == ("constant", "i64", rows, 7) and shown(none.fill(9)) == ("constant", "i64", rows, 9)
    assert shown(many.lt(300)) == ("constant", "bool?", rows, True)
    for left, right, due in ((many, many, False), (many, none, None), (none, many, None)):
        assert shown(left.compare("!=", right)) == ("constant", "bool?", rows, due)
    with pytest.raises(errors.ColumnLength):
        many.compare("<", Column.constant(7, rows - 1, "i64?"))
    with pytest.raises(errors.NullNotAllowed):
        none.cast("u8")


def test_a_filter_counts_the_rows_of_a_constant():
    rows = 2**60
    many = Column.constant("oak", rows)
    runs = Column.from_runs([2**58, rows - 8, rows - 3, rows], [True, None, True, False])
    all_rows, no_rows = Column.constant(True, rows), Column.constant(None, rows, "bool?")
    for mask, count in ((runs, 2**58 + 5), (all_rows, rows), (no_rows, 0)):
        assert shown(many.filter(mask)) == ("constant", "utf8", count, "oak" if count else None)
    with pytest.raises(errors.MaskLength):
        many.filter(runs[1:])
    assert many[:5].filter([True, None, False, True, False]).to_list() == ["oak", "oak"]


def test_runs_over_runs():
    column = Column.of([4, None, 7])
    for _ in range(60):
        column = Column.from_runs(Column.of([1, 2, 3], "u8"), column)
    assert column.to_list() == [4, None, 7] and column.null_count == 1 and column.sum() == 11
    assert 7 in column and None in column and 5 not in column and column.lt(300).to_list() == [True, None, True]
    with pytest.raises(errors.NullNotAllowed, match="row 1 is null"):
        column.cast("i8")


def test_columns_past_what_len_counts():
    many, none = Column.constant(7, 2**63), Column.constant(7, 0)
    assert many and Column.from_runs([2**64 - 1], ["oak"]) and not none and not Column.of([], "i8")
    with pytest.raises(OverflowError, match="9223372036854775808 rows are more than len"):
        len(many)
    builder = Builder("i8")
    assert not builder
    builder.append_value(1, 2**63)
    assert builder
    with pytest.raises(OverflowError, match="builder.rows can"):
        len(builder)


@given(samples())
def test_questions(sample):
    rows = list(map(comparable, sample.rows))
    present = [row for row in rows if row is not None]
    order = [(row is not None, row) for row in rows]
    pairs = list(zip(order, order[1:]))
    assert comparable(sample.column.min()) == (min(present) if present else None)
    assert comparable(sample.column.max()) == (max(present) if present else None)
    assert sample.column.is_constant() == (len(set(rows)) <= 1)
    assert sample.column.is_sorted() == all(not _above(left, right) for left, right in pairs)
    assert sample.column.is_sorted(strict=True) == all(_above(right, left) for left, right in pairs)


def _above(left, right):
    """Null is below all else."""
    return left[0] > right[0] or left[0] and right[0] and left[1] > right[1]


@given(st.data(), st.sampled_from(TYPES))
def test_concat(data, name):
    drawn = data.draw(st.lists(samples(types=(name,)), min_size=1, max_size=4))
    joined = concat(sample.column for sample in drawn)
    assert joined.to_list() == [row for sample in drawn for row in sample.rows]
    assert joined.type.rstrip("?") == drawn[0].column.type.rstrip("?")


@given(samples())
def test_records(sample):
    runs = sample.column.to_runs()
    if runs.form != "runs":
        return
    again = Column.from_record(runs.type, len(runs), runs.record(), runs.ends(), runs.values())
    assert again.to_list() == sample.rows


@given(samples())
def test_bytes(sample):
    column = sample.column
    message = column.to_bytes()
    again = Column.from_bytes(message)
    assert again.to_list() == sample.rows
    assert (again.form, again.type, again.to_bytes()) == (column.form, column.type, message)
    with pytest.raises(errors.BadMetadata):
        Column.from_bytes(message[:-1])


@given(st.data(), st.sampled_from(TYPES))
def test_making(data, name):
    rows = data.draw(stretches(name))
    column = Column.of(rows, name)
    assert column.to_list() == rows and column.type == name + "?" * (None in rows)
    assert Column.of(iter(rows), name + "?").type == name + "?"
    if any(row is not None for row in rows):
        assert Column.of(rows).to_list() == rows
