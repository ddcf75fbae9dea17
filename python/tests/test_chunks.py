"""Parts of a column, however it is cut: what is known of them, joined, is what is known of the whole column."""
import functools
import math
import pickle
import re
import struct
from concurrent.futures import ProcessPoolExecutor
from decimal import Decimal
from fractions import Fraction
from itertools import accumulate, groupby
from multiprocessing import get_context

import pytest
from hypothesis import given
from hypothesis import strategies as st
from rows import BITS, runs_of, samples, stretches

from hivevigil import Column, concat
from hivevigil.chunks import Partial, Stretch, Sums, join, joined

WIDE = {"i64": range(-(2**63), 2**63), "u64": range(2**64)}


def pairs(items):
    return zip(items, items[1:])


def key(row):
    """A row as a place in the library's order: null below all else."""
    return (row is not None, row if row is not None else 0)


def summed(present, name):
    """The numbers that are added: integers, and decimals in units of their least place; None of other types."""
    if name.startswith("decimal"):
        unit = Fraction(10) ** int(re.search(r", (-?\d+)\)", name)[1])
        return [int(Fraction(row) * unit) for row in present]
    return present if name in BITS else None


def known(rows, name):
    """What a Partial has to know, from the rows as a list."""
    present = [row for row in rows if row is not None]
    runs = runs_of(rows)
    numbers = summed(present, name)
    ways = None if numbers is None else list(accumulate(numbers, initial=0))
    ordered = [key(row) for row in rows]
    return {
        "rows": len(rows), "null_count": rows.count(None), "runs": len(runs), "count": len(present),
        "sums": ways and Sums(ways[-1], min(ways), max(ways)),
        "least": min(present, default=None), "greatest": max(present, default=None),
        "is_sorted": all(left <= right for left, right in pairs(ordered)),
        "is_strictly_sorted": all(left < right for left, right in pairs(ordered)),
        "is_constant": len(runs) <= 1,
        "first": Stretch(runs[0][2], runs[0][1]) if runs else None,
        "last": Stretch(runs[-1][2], runs[-1][1] - runs[-1][0]) if runs else None,
    }


def check(part, rows, name):
    due = known(rows, name)
    assert {field: getattr(part, field) for field in due} == due


def cuts(data, rows):
    places = data.draw(st.lists(st.integers(0, rows), max_size=5).map(sorted))
    return list(pairs([0, *places, rows]))


@given(samples())
def test_a_part_by_itself(sample):
    check(Partial.of(sample.column), sample.rows, sample.type)


@given(st.data(), samples())
def test_parts_however_they_are_cut(data, sample):
    parts = [Partial.of(sample.column.slice(start, stop)) for start, stop in cuts(data, len(sample.rows))]
    check(joined(parts), sample.rows, sample.type)
    assert functools.reduce(join, parts) == joined(parts) == Partial.of(sample.column)


FLOATS = st.floats() | st.sampled_from([0.0, -0.0, 0.1, 1e16, -1e16, math.inf, -math.inf, math.nan, 5e-324, 1.7e308])


def place(row):
    """Where a float is in the total order of IEEE 754, null below all else."""
    if row is None:
        return (0, 0)
    bits = struct.unpack("<q", struct.pack("<d", row))[0]
    return (1, bits if bits >= 0 else bits ^ (2**63 - 1))


def exact_sum(rows):
    """The sum of floats as of real numbers, rounded once; a zero is -0.0 where all rows are."""
    if not all(map(math.isfinite, rows)):
        return sum(row for row in rows if not math.isfinite(row))
    total = sum(map(Fraction, rows))
    if not total:
        return -0.0 if rows and {str(row) for row in rows} == {"-0.0"} else 0.0
    try:
        return float(total)
    except OverflowError:
        return math.inf if total > 0 else -math.inf


def known_of_floats(rows):
    """What a Partial of floats has to know."""
    places = list(map(place, rows))
    runs = [list(part) for _, part in groupby(rows, key=place)]
    numbers = sorted((row for row in rows if row is not None and not math.isnan(row)), key=place)
    ends = [runs[0], runs[-1]] if runs else []
    first, last = [Stretch(run[0], len(run)) for run in ends] or (None, None)
    present = [row for row in rows if row is not None]
    return [
        len(rows), rows.count(None), len(runs), exact_sum(present), numbers[0] if numbers else None,
        numbers[-1] if numbers else None, all(left <= right for left, right in pairs(places)),
        all(left < right for left, right in pairs(places)), first, last,
    ]


def facts(part):
    return [
        part.rows, part.null_count, part.runs, part.sum(), part.least, part.greatest, part.is_sorted,
        part.is_strictly_sorted, part.first, part.last,
    ]


@given(st.data(), st.lists(st.tuples(st.none() | FLOATS, st.integers(1, 3)), max_size=8), st.booleans())
def test_parts_of_floats(data, stretched, in_runs):
    rows = [row for row, count in stretched for _ in range(count)]
    column = Column.of(rows, "float64?")
    column = column.to_runs() if in_runs else column
    parts = [Partial.of(column.slice(start, stop)) for start, stop in cuts(data, len(rows))]
    due = repr(known_of_floats(rows))
    assert repr(facts(Partial.of(column))) == repr(facts(joined(parts))) == due
    assert repr(facts(functools.reduce(join, parts))) == due
    assert repr(pickle.loads(pickle.dumps(joined(parts)))) == repr(joined(parts))


def test_a_sum_of_floats_does_not_depend_on_where_they_are_cut():
    parts = [Partial.of(Column.of(rows)) for rows in ([1e16] + [1.0] * 10, [-1e16, 0.5], [None, 2.0**-80])]
    assert joined(parts).sum() == 10.5
    assert [joined(parts[:count]).sum() for count in (1, 2)] == [1e16 + 10, 10.5]


@given(st.data(), samples())
def test_in_whichever_order_neighbours_are_joined(data, sample):
    parts = [Partial.of(sample.column.slice(start, stop)) for start, stop in cuts(data, len(sample.rows))]
    while len(parts) > 1:
        at = data.draw(st.integers(0, len(parts) - 2))
        parts[at : at + 2] = [join(*parts[at : at + 2])]
    assert parts == [Partial.of(sample.column)]


@given(samples())
def test_no_rows_change_nothing(sample):
    part, none = Partial.of(sample.column), Partial.empty(sample.column.type)
    assert none.join(part) == part == part.join(none)
    assert Partial.of(sample.column[:0]) == none


@given(st.sampled_from(["i64", "u64", "i8"]), st.data())
def test_a_sum_leaves_the_range_where_the_library_says(name, data):
    edge = {"i64": 2**62, "u64": 2**63, "i8": 100}[name]
    number = st.sampled_from([0, 1, edge - 1, edge] + ([] if name == "u64" else [-1, -edge]))
    rows = data.draw(st.lists(st.none() | number, min_size=1, max_size=9))
    column = Column.of(rows, name + "?")
    parts = [Partial.of(column.slice(start, stop)) for start, stop in cuts(data, len(rows))]
    try:
        due = column.sum()
    except OverflowError:
        with pytest.raises(OverflowError, match=f"sum: it leaves {'u64' if name == 'u64' else 'i64'} on the way"):
            joined(parts).sum()
    else:
        assert joined(parts).sum() == due == sum(row for row in rows if row is not None)


def test_a_part_may_leave_the_range_and_the_whole_not():
    high, back, more = [2**63 - 1], [1, -1], [-5]
    assert Partial.of(Column.of(back)).sum() == 0
    whole = joined([Partial.of(Column.of(rows)) for rows in (more, high, back)])
    assert whole.sum() == 2**63 - 6 == Column.of(more + high + back).sum()
    with pytest.raises(OverflowError, match="sum: it leaves i64 on the way from row to row, where it is 922337203685"):
        joined([Partial.of(Column.of(rows)) for rows in (high, back, more)]).sum()
    part = Partial.of(Column.of([2**63 - 1, 1, -6]))  # leaves it by itself
    with pytest.raises(OverflowError):
        part.sum()
    assert Partial.of(Column.of([-9])).join(part).sum() == 2**63 - 15


def test_null_and_values_at_a_seam():
    left, right = Partial.of(Column.of([1, None, None])), Partial.of(Column.of([None, 1]))
    both = left.join(right)
    assert (both.runs, both.first, both.last, both.is_sorted) == (3, Stretch(1, 1), Stretch(1, 1), False)
    assert Partial.of(Column.of([None, 1])).join(Partial.of(Column.of([1, 2]))).is_sorted


def test_a_type_that_has_null_in_one_part():
    both = Partial.of(Column.of([1])).join(Partial.of(Column.of([None], "i64")))
    assert (both.type, both) == ("i64?", Partial.of(concat([Column.of([1, None], "i64?")])))
    assert Partial.empty("i64?").join(Partial.of(Column.of([1]))).type == "i64?"


def test_refusals():
    numbers, texts = Partial.of(Column.of([1])), Partial.of(Column.of(["a"]))
    with pytest.raises(TypeError, match="join: i64 and utf8 are two types, and none has the rows of both"):
        numbers.join(texts)
    with pytest.raises(TypeError, match="sum does not serve parts of type utf8"):
        texts.sum()
    with pytest.raises(TypeError, match="a Partial is joined with a Partial, not with 3"):
        numbers.join(3)
    with pytest.raises(TypeError, match=r"Partial.of takes a Column, not \[1\]"):
        Partial.of([1])
    with pytest.raises(TypeError, match=r"Partial.of does not serve columns of list \(lists\)"):
        Partial.of(Column.from_lists([1], [0], [1]))
    with pytest.raises(ValueError, match="joined takes at least one part"):
        joined([])


def test_many_rows_cost_runs():
    wide = Column.constant(7, 2**55)
    part = Partial.of(wide)
    assert (part.rows, part.runs, part.sum(), part.first) == (2**55, 1, 7 * 2**55, Stretch(7, 2**55))
    assert part.join(part).last == Stretch(7, 2**56)


@given(st.data(), st.lists(st.none() | st.integers(-(10**20) + 1, 10**20 - 1) | st.just(10**20 - 1)))
def test_sums_of_decimals(data, numbers):
    rows = [None if number is None else Decimal(number).scaleb(-3) for number in numbers]
    column = Column.of(rows, "decimal(20, 3)?")
    parts = [Partial.of(column.slice(start, stop)) for start, stop in cuts(data, len(rows))]
    due = Fraction(sum(number or 0 for number in numbers), 1000)
    assert Fraction(joined(parts).sum()) == Fraction(column.sum()) == due
    assert joined(parts).sum().as_tuple().exponent == -3


def test_a_sum_of_decimals_leaves_38_digits():
    top = Decimal(10**38 - 1)
    parts = [Partial.of(Column.of([Decimal(number)], "decimal(38, 0)")) for number in (top, 1, -1)]
    for some in (parts, parts[1:] + parts[:1]):
        rows = [part.least for part in some]
        column = Column.of(rows, "decimal(38, 0)")
        if rows[0] == top:
            for call in (column.sum, joined(some).sum):
                with pytest.raises(OverflowError, match="sum: it leaves 38 digits"):
                    call()
        else:
            assert joined(some).sum() == column.sum() == top


def test_pickle():
    part = Partial.of(Column.of(["a", None]))
    assert pickle.loads(pickle.dumps(part)) == part


def _part_of(numbers):
    return Partial.of(Column.of(list(numbers)))


def test_processes():
    pieces = [range(at, at + 50) for at in range(0, 200, 50)]
    with ProcessPoolExecutor(2, mp_context=get_context("spawn")) as pool:
        parts = list(pool.map(_part_of, pieces, timeout=120))
    assert joined(parts) == Partial.of(Column.of(list(range(200))))


@given(stretches("i64"), stretches("i64"), stretches("i64"))
def test_associative(first, second, third):
    a, b, c = (Partial.of(Column.of(rows, "i64?")) for rows in (first, second, third))
    assert a.join(b).join(c) == a.join(b.join(c)) == Partial.of(Column.of(first + second + third, "i64?"))
