"""Two columns worked place by place answer as Python has the rows; so do the methods that go by runs."""
import operator
from collections import Counter
from decimal import Decimal

import pytest
from hivevigil import Column, errors
from hypothesis import given
from hypothesis import strategies as st
from rows import BITS, TYPES, least_and_greatest, samples, stretches

GIVE = {"+": operator.add, "-": operator.sub, "*": operator.mul}
COMPARE = {
    "==": operator.eq, "!=": operator.ne, ">": operator.gt, ">=": operator.ge, "<": operator.lt, "<=": operator.le,
}  # fmt: skip
FORMS = {"flat": lambda column: column, "runs": lambda column: column.to_runs()}


@st.composite
def two(draw, types=tuple(TYPES)):
    """Two columns of one type and as many rows, and their rows."""
    left = draw(samples(types=types))
    rows = draw(stretches(left.type))
    count = min(len(rows), len(left.rows))
    form = draw(st.sampled_from(list(FORMS)))
    right = FORMS[form](Column.of(rows[:count], left.type + "?"))
    return left.column[:count], right, left.rows[:count], rows[:count], left.type


def least_runs(rows):
    return sum(not at or rows[at - 1] != row for at, row in enumerate(rows))


@given(two(tuple(BITS)), st.sampled_from(list(GIVE)))
def test_integers(sample, sign):
    left, right, lefts, rights, name = sample
    least, greatest = least_and_greatest(name)
    due = [None if None in pair else GIVE[sign](*pair) for pair in zip(lefts, rights)]
    past = [at for at, row in enumerate(due) if row is not None and not least <= row <= greatest]
    if not past:
        found = GIVE[sign](left, right)
        assert found.to_list() == due and found.type == name + "?"
        assert found.form == "constant" or found.form == "runs" and found.run_count() == least_runs(due)
        return
    with pytest.raises(OverflowError) as refused:
        GIVE[sign](left, right)
    row = past[0]
    assert refused.value.fields == (row, 0, 0)
    assert str(refused.value) == f"row {row} is {lefts[row]} {sign} {rights[row]}, which does not fit {name}"


@given(samples(types=tuple(BITS)), st.sampled_from(list(GIVE)), st.data())
def test_one_integer(sample, sign, data):
    least, greatest = least_and_greatest(sample.type)
    number = data.draw(st.integers(least, greatest) | st.integers(0, 3))
    for give in (GIVE[sign], lambda a, b: GIVE[sign](b, a)):
        due = [None if row is None else give(row, number) for row in sample.rows]
        if all(row is None or least <= row <= greatest for row in due):
            found = give(sample.column, number)
            assert found.to_list() == due and found.type == sample.column.type
        else:
            with pytest.raises(OverflowError, match=rf"which does not fit {sample.type}$"):
                give(sample.column, number)


@given(two(), st.sampled_from(list(COMPARE)))
def test_comparisons(sample, sign):
    left, right, lefts, rights, _ = sample
    due = [None if None in pair else COMPARE[sign](*pair) for pair in zip(lefts, rights)]
    for found in (COMPARE[sign](left, right), left.compare(sign, right)):
        assert found.to_list() == due and found.type == "bool?"
        assert left.form == right.form == "flat" or found.form != "flat"


KNOWN = {(a, b): a and b for a in (False, True) for b in (False, True)}
BOTH = {**KNOWN, (False, None): False, (None, False): False}
EITHER = {**{pair: pair[0] or pair[1] for pair in KNOWN}, (True, None): True, (None, True): True}


@given(two(("bool",)))
def test_booleans(sample):
    left, right, lefts, rights, _ = sample
    pairs = list(zip(lefts, rights))
    assert (left & right).to_list() == [BOTH.get(pair) for pair in pairs]
    assert (left | right).to_list() == [EITHER.get(pair) for pair in pairs]
    assert (~left).to_list() == [None if row is None else not row for row in lefts]
    for value in (True, False, None):
        assert (left & value).to_list() == (value & left).to_list() == [BOTH.get((row, value)) for row in lefts]
        assert (left | value).to_list() == (value | left).to_list() == [EITHER.get((row, value)) for row in lefts]
    assert left.any() == (True in lefts) and left.all() == (False not in lefts)


PICK = {
    "coalesce": lambda a, b: b if a is None else a,
    "lesser": lambda a, b: None if None in (a, b) else min(a, b),
    "greater": lambda a, b: None if None in (a, b) else max(a, b),
}  # fmt: skip


@given(two((*BITS, "bool")), st.sampled_from(list(PICK)))
def test_picked_rows(sample, name):
    left, right, lefts, rights, type_of_rows = sample
    found = getattr(left, name)(right)
    assert found.to_list() == [PICK[name](*pair) for pair in zip(lefts, rights)]
    assert found.type.rstrip("?") == type_of_rows and found.form in ("runs", "constant")
    for value in {*rights, 1}:
        if value is not None:
            assert getattr(left, name)(bool(value) if type_of_rows == "bool" else value).to_list() == [
                PICK[name](row, value) for row in lefts
            ]


WORD = 2**64 - 1


def turned(word, bits):
    return (word << bits | word >> 64 - bits) & WORD


def mixed(a, b, c, d, rounds):
    for _round in range(rounds):
        a, c = a + b & WORD, c + d & WORD
        b, d = turned(b, 13) ^ a, turned(d, 16) ^ c
        a = turned(a, 32)
        a, c = a + d & WORD, c + b & WORD
        d, b = turned(d, 21) ^ a, turned(b, 17) ^ c
        c = turned(c, 32)
    return a, b, c, d


def siphash(data):
    """The SipHash-1-3 of bytes, with keys 0."""
    state = tuple(int.from_bytes(word, "big") for word in (b"somepseu", b"dorandom", b"lygenera", b"tedbytes"))
    padded = data + bytes(7 - len(data) % 8) + bytes([len(data) & 255])
    for at in range(0, len(padded), 8):
        word = int.from_bytes(padded[at : at + 8], "little")
        a, b, c, d = mixed(*state[:3], state[3] ^ word, 1)
        state = a ^ word, b, c, d
    a, b, c, d = mixed(*state[:2], state[2] ^ 255, state[3], 3)
    return a ^ b ^ c ^ d


def bytes_of(row):
    """The number of a kind, and the value."""
    if row is None:
        return b"\0"
    if isinstance(row, bool):
        return bytes([1, row])
    if isinstance(row, int):
        return b"\2" + row.to_bytes(16, "little", signed=True)
    if isinstance(row, Decimal):
        return b"\3" + int(row.scaleb(-row.as_tuple().exponent)).to_bytes(16, "little", signed=True)
    if isinstance(row, str):
        return b"\4" + row.encode() + b"\xff"
    return b"\5" + len(row).to_bytes(8, "little") + row


@given(samples())
def test_hashes(sample):
    column, rows = sample.column, sample.rows
    stops = [stop for stop in range(1, len(rows) + 1) if stop == len(rows) or rows[stop] != rows[stop - 1]]
    due = siphash(b"".join(stop.to_bytes(8, "little") + bytes_of(rows[stop - 1]) for stop in stops))
    assert column.hash_rows() == due
    assert column.to_runs().hash_rows() == column.decode().hash_rows() == due


def test_hashes_of_many_rows():
    assert Column.constant(7, 2**40, "u8").hash_rows() == siphash((2**40).to_bytes(8, "little") + bytes_of(7))
    with pytest.raises(errors.Unsupported):
        Column.from_lists([1, 2], [0, 1], [1, 1]).hash_rows()


@given(samples())
def test_nulls(sample):
    column, rows = sample.column, sample.rows
    assert column.is_null().to_list() == [row is None for row in rows]
    assert column.is_valid().to_list() == [row is not None for row in rows]
    assert column.is_null().type == column.is_valid().type == "bool"
    assert column.drop_null().to_list() == [row for row in rows if row is not None]
    assert column.drop_null().type == column.type


@given(samples(), st.data())
def test_rows_are_chosen(sample, data):
    count = len(sample.rows)
    flags = data.draw(st.lists(st.sampled_from([True, False, None]), min_size=count, max_size=count))
    others = data.draw(st.lists(st.sampled_from(sample.rows or [None]), min_size=count, max_size=count))
    other = data.draw(st.sampled_from(sample.rows or [None]))
    due = [row if flag else new for row, flag, new in zip(sample.rows, flags, others)]
    mask = FORMS[data.draw(st.sampled_from(list(FORMS)))](Column.of(flags, "bool?"))
    assert sample.column.where(mask, Column.of(others, sample.type + "?")).to_list() == due
    assert sample.column.where(flags, other).to_list() == [
        row if flag else other for row, flag in zip(sample.rows, flags)
    ]


@given(samples(), st.data())
def test_values(sample, data):
    rows = sample.rows
    values = data.draw(st.lists(st.sampled_from([*rows, None]), max_size=5))
    assert sample.column.isin(values).to_list() == [row in values for row in rows]
    counts = Counter(rows)
    found, numbers = sample.column.value_counts()
    assert dict(zip(found.to_list(), numbers.to_list())) == counts and len(found) == len(counts)
    assert found.to_list() == list(dict.fromkeys(rows)) == sample.column.unique().to_list()
    assert (found.type, numbers.type) == (sample.column.type, "u64")


@given(samples(), st.integers(-12, 12))
def test_shifts(sample, by):
    count = len(sample.rows)
    due = [sample.rows[at - by] if 0 <= at - by < count else None for at in range(count)]
    found = sample.column.shift(by)
    assert found.to_list() == due and found.type == sample.type + "?"


def test_differences():
    levels = Column.of([4, 4, 7, None, 9, 2]).encode()
    assert levels.diff().to_list() == [None, 0, 3, None, None, -7]
    assert levels.diff(2).to_list() == [None, None, 3, None, 2, None]
    with pytest.raises(OverflowError, match="^row 2 is 1 - 3, which does not fit u8$"):
        Column.of([1, 3, 1], "u8").diff()


@given(samples(), samples())
def test_equal_columns(one, other):
    left, right = one.column, other.column
    assert left.equals(left) and left.equals(left.to_runs()) and left.equals(left.decode())
    assert left.equals(right) == right.equals(left) == (left.type == right.type and one.rows == other.rows)
    assert not left.equals(left.shift(1)) or one.rows == [None] * len(one.rows)


def test_lists():
    lists = Column.from_lists([1, 2, 3], [0, 1, 0], [1, 2, 0], [True, True, False])
    assert lists.is_null().to_list() == [False, False, True] and len(lists.drop_null()) == 2
    assert lists.equals(lists.copy()) and not lists.equals(lists[:2])
    for call in (lambda: lists == lists, lambda: lists + lists, lambda: lists & lists, lambda: lists.shift(1)):
        with pytest.raises(errors.Unsupported):
            call()
    with pytest.raises(errors.Unsupported):
        lists.value_counts()


def test_constants_of_many_rows():
    sevens = Column.constant(7, 2**60, "u8")
    assert (sevens + sevens).form == (sevens < 9).form == "constant" and (sevens * 3)[2**59] == 21
    assert (sevens == sevens).all() and not (sevens != sevens).any()
    assert sevens.is_null().form == "constant" and len(sevens.drop_null()) == 2**60
    assert [part.to_list() for part in sevens.value_counts()] == [[7], [2**60]]
    assert sevens.isin([7]).run_count() == 1 and sevens.shift(1).run_count() == 2


@pytest.mark.parametrize(
    "call, kind, said",
    [
        (lambda one: one + Column.of([1, 2, 3], "i8"), errors.TypeMismatch, "i64 and i8 are not added"),
        (lambda one: one - Column.of(["a"] * 3), errors.Unsupported, "i64 and utf8 are not subtracted"),
        (lambda one: one & one, errors.Unsupported,
         "i64 and i64 are not connected: comparisons are put in parentheses, as (column > 1) & (column < 5)"),
        (lambda one: one | True, TypeError, "a value of type i64 is an integer, not True"),
        (lambda one: Column.of(["a"]).coalesce("b"), errors.Unsupported, "utf8 and utf8 are not picked from"),
        (lambda one: ~one, errors.Unsupported, "~ is of booleans, not of i64"),
        (lambda one: one + 2**70, OverflowError, f"{2**70} does not fit i64"),
        (lambda one: one + [1, 2, 3], TypeError,
         "a column is worked with a column or one value: Column.of(..) makes one of [1, 2, 3]"),
        (lambda one: one + one[:2], errors.ColumnLength, "lengths of 3 and 2, which have to be the same"),
        (lambda one: one < Column.of(["a"] * 3), errors.TypeMismatch,
         "compare: i64 and utf8 are two types; rows of one type are compared"),
        (lambda one: one == [1, 2, 3], TypeError,
         "a column is compared with a column or one value: Column.of(..) makes one of [1, 2, 3]"),
        (lambda one: one.where([True, False], 1), errors.MaskLength, "a mask of 2 rows over a column of 3 rows"),
        (lambda one: one.where([True] * 3, Column.of(["a"] * 3)), errors.TypeMismatch,
         "where: i64 and utf8 are two types; rows of one type are chosen from"),
        (lambda one: one.any(), errors.Unsupported, "any does not serve columns of i64 (flat)"),
        (lambda one: one.isin(["a"]), TypeError, "a value of type i64 is an integer, not 'a'"),
        (lambda one: one.shift(1.5), TypeError, "the number of rows is an integer, not 1.5"),
        (lambda one: one.equals(5), TypeError, "a Column is expected here, not 5"),
        (lambda one: bool(one == one), ValueError,
         "a mask is not true or false: ask mask.any(), mask.all() or len(mask), and a.equals(b); two conditions are "
         "(a > 1) & (a < 5)"),
    ],
)
def test_refusals(call, kind, said):
    with pytest.raises(kind) as refused:
        call(Column.of([1, 2, 3]))
    assert str(refused.value) == said


def test_freed_next_to_another():
    one, freed = Column.of([1, 2]), Column.of([1, 2])
    freed.free()
    for call in (*GIVE.values(), *COMPARE.values(), operator.and_, operator.or_):
        for pair in ((one, freed), (freed, one), (freed, freed), (freed, 1)):
            with pytest.raises(errors.NoColumn):
                call(*pair)
    for call in (one.equals, lambda other: one.where([True, True], other), lambda other: one.where(other, 1)):
        with pytest.raises(errors.NoColumn):
            call(freed)


def test_columns_are_keys():
    one, other = Column.of([1, 2]), Column.of([1, 2])
    assert {one: 1, other: 2}[one] == 1 and len({one, other, one}) == 2
    assert (one == other).to_list() == [True, True]
