"""Work by runs, on columns of more rows than memory holds: no row is written out. Small columns are compared with
lists."""
import itertools
import math
import operator
import random
from datetime import date, time
from decimal import Decimal

import pytest

from hivevigil import Column, Table

FAR = 2**40  # rows of each run
COMPARE = {
    "==": operator.eq, "!=": operator.ne, ">": operator.gt, ">=": operator.ge, "<": operator.lt, "<=": operator.le,
}  # fmt: skip
FLOATS = [None, 0.0, -0.0, 1.5, math.inf, -math.inf, math.nan, -math.nan, 2.5]


def long_runs(values, type=None):
    return Column.from_runs([FAR * (run + 1) for run in range(len(values))], Column.of(values, type))


def forms(rows, type):
    """The column of some rows: flat, in runs, as a window of runs, as a constant where it is one."""
    flat = Column.of(rows, type)
    window = Column.of([*rows[:1], *rows, *rows[-1:]], type).to_runs().slice(1, len(rows) + 1)
    is_constant = len(set(map(repr, rows))) == 1
    return [flat, flat.to_runs(), window, *[Column.constant(rows[0], len(rows), type)] * is_constant]


@pytest.mark.parametrize("sign", COMPARE)
@pytest.mark.parametrize("other", ["float64?", "float32?"])
def test_two_columns_of_floats_are_compared(sign, other):
    pairs = list(itertools.product(FLOATS, FLOATS))
    lefts, rights = zip(*pairs)
    due = [None if None in pair else COMPARE[sign](*pair) for pair in pairs]
    found = COMPARE[sign](long_runs(lefts), long_runs(rights, other))
    assert found.form == "runs" and len(found) == FAR * len(pairs)
    assert found[[FAR * run + place for run in range(len(pairs)) for place in (0, FAR - 1)]].to_list() == [
        row for row in due for _ in range(2)
    ]
    for left in forms(lefts, "float64?"):
        for right in forms(rights, other):
            made = COMPARE[sign](left, right)
            assert made.to_list() == due and (made.form == "flat") == (left.form == right.form == "flat")
    one = Column.constant(1.5, FAR)
    assert COMPARE[sign](one, Column.constant(2.5, FAR)).is_constant()


@pytest.mark.parametrize("seed", range(8))
def test_rows_at_equal_steps(seed):
    choice = random.Random(seed)
    rows = [choice.choice([None, 7, 8]) for _ in range(choice.randrange(0, 9)) for _ in range(choice.randrange(1, 4))]
    steps = [None, *range(-4, 0), *range(1, 5), 30, -30]
    for column in forms(rows, "i64?")[:3] if rows else [Column.of([], "i64?"), Column.constant(7, 0)]:
        for start, stop, step in itertools.product((None, 0, 1, -2, 40), (None, 0, 5, -1, -40), steps):
            cut = slice(start, stop, step)
            assert column[cut].to_list() == rows[cut], cut
            assert Table({"x": column, "y": column.decode()})[cut].to_dict() == {"x": rows[cut], "y": rows[cut]}


def test_every_other_row_of_long_runs():
    column = long_runs(["a", None, "b"])
    for step in (2, 3, -2, -7):
        chosen = range(0, 3 * FAR)[::step]
        found = column[::step]
        assert len(found) == len(chosen) and found.form == "runs"
        for place in (0, 1, len(chosen) // 3, len(chosen) // 2, len(chosen) - 1):
            assert found[place] == ["a", None, "b"][chosen[place] // FAR]
        runs = [[place for place in (0, len(chosen) - 1) if chosen[place] // FAR == run] for run in range(3)]
        assert found.run_count() == 3 and sorted(map(len, runs)) == [0, 1, 1]
    assert len(Column.constant(7, 2**64 - 1)[5 : 2**63 : 2**40]) == len(range(5, 2**63, 2**40))


def test_few_rows_of_many_runs():
    numbers = [row * row for row in range(5000)]
    runs = Column.of(numbers).to_runs()
    assert runs[::1000].to_list() == numbers[::1000] and runs[4000:10:-999].to_list() == numbers[4000:10:-999]
    lists = Column.from_lists([1, 2, 3], [0, 1], [1, 2])
    assert lists[::2].to_list() == [[1]] and lists[::-2].to_list() == [[2, 3]]


OBJECTS = [Decimal("1.50"), date(2024, 1, 2), time(3, 4), "a", b"a", 7, True]


@pytest.mark.parametrize("value", OBJECTS)
def test_a_run_is_one_object(value):
    numpy, pandas = pytest.importorskip("numpy"), pytest.importorskip("pandas")
    rows = [value] * 3 + [None] * 2 + [value]
    window = Column.of([value, *rows, value]).to_runs()[1:-1]
    assert window.form == "runs"
    for found in (window.to_pandas().tolist(), numpy.asarray(window, dtype=object).tolist()):
        missing = [row is None or row is pandas.NA or row is pandas.NaT for row in found]
        assert missing == [row is None for row in rows]
        assert [None if none else row for none, row in zip(missing, found)] == rows
    if isinstance(value, (Decimal, time)):
        found = window.to_numpy()
        assert found[0] is found[2] and found.tolist() == rows


def test_rows_of_lists_are_lists_of_their_own():
    numpy = pytest.importorskip("numpy")
    lists = Column.from_runs([2, 3], Column.from_lists([1, 2], [0, 1], [1, 1]))
    found = numpy.asarray(lists, dtype=object)
    assert found.tolist() == [[1], [1], [2]] and found[0] is not found[1]
