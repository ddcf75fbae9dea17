"""Columns of 2^40 rows and more in a few runs, and what the runs are: what the tests of long columns draw from.

The model of a column is a list of stretches, (rows, value), which shares nothing with the package: two columns are
worked by the stretches in which both stay the same.
"""
import math
import operator
from dataclasses import dataclass

from hivevigil import Column
from hypothesis import strategies as st
from rows import TYPES, values

FAR = 2**40
SIGNS = {
    "==": operator.eq, "!=": operator.ne, ">": operator.gt, ">=": operator.ge, "<": operator.lt, "<=": operator.le,
}  # fmt: skip
KINDS = (*TYPES, "float64")


@dataclass
class Long:
    """A column, its stretches, and its type without the question mark."""

    column: Column
    parts: list
    type: str

    @property
    def total(self):
        return sum(rows for rows, _ in self.parts)


def joined(parts):
    """The stretches, as few as possible, with one NaN in place of all, which lists take for itself."""
    found = []
    for rows, value in parts:
        shown = math.nan if value != value else value
        if found and type(found[-1][1]) is type(shown) and [found[-1][1]] == [shown]:
            found[-1] = (found[-1][0] + rows, shown)
        elif rows:
            found.append((rows, shown))
    return found


def parts_of(column):
    """The stretches of a column, read run by run."""
    return joined((run.stop - run.start, run.value) for run in column.runs())


def beside(*sides):
    """The stretches in which all of several lists of stretches stay the same, with the value of each."""
    stops = [[sum(rows for rows, _ in parts[: at + 1]) for at in range(len(parts))] for parts in sides]
    before = 0
    for cut in sorted(set().union(*stops)):
        chosen = tuple(
            next(value for stop, (_, value) in zip(ends, parts) if stop >= cut) for ends, parts in zip(stops, sides)
        )
        yield cut - before, chosen
        before = cut


def worked(function, *sides):
    """The stretches of what a function makes of the rows at each place."""
    return joined((rows, function(*chosen)) for rows, chosen in beside(*sides))


def nothing_or(function):
    """A function of rows that is null where one of them is."""
    return lambda *rows: None if None in rows else function(*rows)


def held(sign):
    """Whether a comparison holds of two rows, null where either is."""
    return nothing_or(SIGNS[sign])


def kept(parts, mask):
    """The stretches of the rows at which the mask is true."""
    return joined((rows, value) for rows, (value, flag) in beside(parts, mask) if flag is True)


def totals():
    return st.integers(FAR, FAR + 70)


def _stops(draw, total):
    """Where a few runs end: at places by chance, next to one another, and at both ends."""
    near = st.integers(1, 130) | st.integers(total - 130, total - 1) | st.integers(1, total - 1)
    return sorted({*draw(st.lists(near, max_size=6)), total})


def _values(name):
    numbers = st.sampled_from([0.0, 1.5, -2.0, float("inf"), float("nan")])
    return numbers if name == "float64" else values(name)


@st.composite
def longs(draw, total, types=KINDS, null=True, forms=("runs", "window", "nested", "constant")):
    """A column of as many rows, of one of these types: runs, a window of them, runs over runs, or a constant."""
    name, form = draw(st.sampled_from(types)), draw(st.sampled_from(forms))
    value = st.none() | _values(name) if null else _values(name)
    type = f"{name}?" if null else name
    if form == "constant":
        row = draw(value)
        return Long(Column.constant(row, total, type), [(total, row)], name)
    before, after = (draw(st.sampled_from([0, 3, FAR])) if form == "window" else 0 for _ in range(2))
    stops = _stops(draw, total)
    rows = [draw(value) for _ in stops]
    flat = Column.of(rows, type)
    stored = flat.to_runs() if form == "nested" else flat
    ends = [before + stop for stop in stops[:-1]] + [before + total + after]
    column = Column.from_runs(ends, stored, before, total)
    return Long(column, joined(zip((stop - start for start, stop in zip([0, *stops], stops)), rows)), name)


def masks(total):
    return longs(total, types=("bool",))
