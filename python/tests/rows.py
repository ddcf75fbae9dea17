"""Rows of every type as plain lists, and columns that have them in every form: what the tests draw from."""
from dataclasses import dataclass
from decimal import Decimal
from itertools import groupby

from hivevigil import Column
from hypothesis import strategies as st

BITS = {name: int(name[1:]) for name in ("u8", "u16", "u32", "u64", "i8", "i16", "i32", "i64")}
PRECISION, SCALE = 20, 3
TYPES = [*BITS, "bool", f"decimal({PRECISION}, {SCALE})", "utf8", "binary"]


@dataclass
class Sample:
    """A column, and the rows that it has to have."""

    column: Column
    rows: list
    type: str  # without the question mark


def least_and_greatest(name):
    bits = BITS[name]
    return (0, 2**bits - 1) if name[0] == "u" else (-(2 ** (bits - 1)), 2 ** (bits - 1) - 1)


def values(name):
    """Values of a type, of which few differ, so that there are runs, and the ends of its range."""
    if name in BITS:
        least, greatest = least_and_greatest(name)
        return st.sampled_from([0, 1, 2, least, greatest]) | st.integers(least, greatest)
    if name == "bool":
        return st.booleans()
    if name == "utf8":
        return st.sampled_from(["", "a", "aé", "東京", "\0"]) | st.text(st.characters(blacklist_categories=["Cs"]))
    if name == "binary":
        return st.sampled_from([b"", b"\xff", b"\0a"]) | st.binary()
    greatest = 10**PRECISION - 1
    numbers = st.sampled_from([0, 1500, greatest, -greatest]) | st.integers(-greatest, greatest)
    return numbers.map(lambda number: Decimal(number).scaleb(-SCALE))


def stretches(name, null=True):
    """Rows in stretches of equal ones."""
    value = st.none() | values(name) if null else values(name)
    return st.lists(st.tuples(value, st.integers(1, 5)), max_size=8).map(
        lambda parts: [value for value, count in parts for _ in range(count)]
    )


@st.composite
def samples(draw, types=tuple(TYPES), null=True, least_rows=0):
    """A column of one of these types in some form."""
    name = draw(st.sampled_from(types))
    rows = draw(stretches(name, null).filter(lambda rows: len(rows) >= least_rows))
    nullable = draw(st.booleans()) if null else False
    made = Column.of(rows, name + "?" * nullable)
    form = draw(st.sampled_from(["flat", "runs", "window", "slice", "one", "nested"]))
    column, rows = globals()["_" + form](draw, made, rows, least_rows)
    return Sample(column, rows, name)


def _flat(draw, made, rows, least_rows):
    return made, rows


def _runs(draw, made, rows, least_rows):
    return made.to_runs(), rows


def _window(draw, made, rows, least_rows):
    """Runs of which a window is shown, with runs on both sides, runs that could be one, and a first run of no rows."""
    ends, end = [], draw(st.integers(0, 1))
    for _ in rows:
        ends.append(end)
        end += draw(st.integers(1, 3))
    if not rows or ends[-1] < least_rows:
        return made, rows
    start = draw(st.integers(0, ends[-1] - least_rows))
    count = draw(st.integers(least_rows, ends[-1] - start))
    written = [row for row, begin, end in zip(rows, [0, *ends], ends) for _ in range(end - begin)]
    kind = draw(st.sampled_from(["u8", "u16", "u32", "u64"]))
    if ends[0] > start or count == 0 and ends[0] >= start:
        return Column.from_runs(Column.of(ends, kind), made, start, count), written[start : start + count]
    return Column.from_runs(Column.of(ends, kind), made, 0, ends[-1]).slice(start, start + count), (
        written[start : start + count]
    )


def _slice(draw, made, rows, least_rows):
    start = draw(st.integers(0, len(rows) - least_rows))
    stop = draw(st.integers(start + least_rows, len(rows)))
    return made.to_runs().slice(start, stop), rows[start:stop]


def _one(draw, made, rows, least_rows):
    """A constant, of the first row."""
    count = draw(st.integers(max(1, least_rows), 9))
    if not rows:
        return made, rows
    longer = made.take([0] * (count + 1))
    return Column.from_runs([count + 1], longer.slice(0, 1)).slice(0, count), [rows[0]] * count


def _nested(draw, made, rows, least_rows):
    """Runs over runs: each row of the inner ones is two of the outer."""
    if not rows or len(rows) > 100:
        return made, rows
    ends = list(range(2, 2 * len(rows) + 1, 2))
    return Column.from_runs(Column.of(ends, "u8"), made.to_runs()), [row for row in rows for _ in range(2)]


def runs_of(rows):
    """The fewest runs of rows, as (start, stop, value)."""
    found, start = [], 0
    for value, stretch in groupby(rows, key=lambda row: (type(row), row)):
        count = len(list(stretch))
        found.append((start, start + count, value[1]))
        start += count
    return found
