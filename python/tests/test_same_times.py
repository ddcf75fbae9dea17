"""Times that are the same or not, where Python's == and hash say otherwise: two classes have one time, an hour comes
twice when clocks are put back. The model is nanoseconds from 1970 in UTC."""
from datetime import date, datetime, time, timedelta, timezone
from decimal import Decimal
from zoneinfo import ZoneInfo

import numpy
import pandas
import pytest
from hypothesis import given
from hypothesis import strategies as st

from hivevigil import Column
from hivevigil.chunks import Partial, joined

BERLIN, UTC = ZoneInfo("Europe/Berlin"), timezone.utc
ZONES = [BERLIN, UTC, ZoneInfo("America/New_York"), timezone(timedelta(hours=2))]
BEFORE = datetime(2024, 10, 26, 23, 30, tzinfo=UTC)  # half past one in Berlin; at 01:00 in UTC its clocks go back
FORMS = [lambda column: column, lambda column: column.to_runs()]

halves = st.integers(0, 6).map(lambda count: BEFORE + count * timedelta(minutes=30))
instants = st.tuples(halves, st.sampled_from(ZONES)).map(lambda pair: pair[0].astimezone(pair[1]))


def place(instant):
    """Where an instant is, whatever its zone."""
    return instant and (instant.astimezone(UTC) - BEFORE) // timedelta(microseconds=1)


@given(st.lists(st.none() | halves), st.lists(st.none() | instants, max_size=4), st.sampled_from(FORMS))
def test_instants_are_found(rows, values, form):
    given_rows = [row and row.astimezone(BERLIN) for row in rows]
    column = form(Column.of(given_rows, "timestamp[us, Europe/Berlin]"))
    wanted = set(map(place, values))
    assert column.isin(values).to_list() == [place(row) in wanted for row in rows]
    for value in values:
        assert (value in column) == (place(value) in set(map(place, rows)))


@given(halves, instants, st.integers(0, 3))
def test_one_instant_is_found_in_a_constant(row, value, rows):
    column = Column.constant(row.astimezone(BERLIN), rows)
    assert column.form == "constant" and (value in column) == (rows > 0 and place(row) == place(value))
    assert column.isin([value]).to_list() == [place(row) == place(value)] * rows


SAME = [
    (datetime(2024, 1, 2, 3), [numpy.datetime64("2024-01-02T03"), numpy.datetime64("2024-01-02T03:00:00", "ns"),
                               pandas.Timestamp(2024, 1, 2, 3), datetime(2024, 1, 2, 3)]),
    (date(2024, 1, 2), [numpy.datetime64("2024-01-02"), numpy.datetime64("2024-01-02T00:00:00"), date(2024, 1, 2)]),
    (timedelta(days=-1), [numpy.timedelta64(-1, "D"), numpy.timedelta64(-86_400_000, "ms"), pandas.Timedelta(days=-1)]),
    (time(3, 4), [time(3, 4, 0)]),
    (pandas.Timestamp(1), [numpy.datetime64(1, "ns"), pandas.Timestamp(1)]),
]  # fmt: skip


@pytest.mark.parametrize("form", FORMS)
@pytest.mark.parametrize("row, values", SAME)
def test_one_time_of_several_classes(row, values, form):
    other = type(row)(2023, 5, 6) if isinstance(row, date) else timedelta(5) if isinstance(row, timedelta) else time(5)
    column = form(Column.of([row, None, other, row]))
    for value in values:
        assert column.isin([value]).to_list() == [True, False, False, True] and value in column
        assert column.isin([value, None]).to_list() == [True, True, False, True]
        assert not column.isin([]).any()
    nothing = numpy.timedelta64("NaT") if isinstance(row, timedelta) else numpy.datetime64("NaT")
    assert column.isin([nothing]).to_list() == [False, True, False, False]


def test_an_array_of_times_is_looked_for():
    rows = numpy.array(["2024-01-01", "2024-01-02", "NaT"], "M8[us]")
    for values in (rows[:1], rows[[0, 2]], rows[2:]):
        expected = numpy.isin(rows[:2], values).tolist() + [bool(numpy.isnat(values).any())]
        assert Column.of(rows).isin(values).to_list() == expected


def test_a_finer_time_is_no_row():
    column = Column.of([datetime(2024, 1, 1)], "timestamp[s]")
    assert column.isin([datetime(2024, 1, 1, 0, 0, 0, 1)]).to_list() == [False]
    with pytest.raises(TypeError, match="^a value of type timestamp.s. is a datetime without a zone, not 5$"):
        column.isin([5])


@pytest.mark.parametrize("row", [7, 1.5, Decimal("2.50"), timedelta(1)])
def test_a_duration_of_numpy_is_not_a_number(row):
    column = Column.of([row, None])
    assert (column == numpy.timedelta64("NaT")).to_list() == [None, None]
    if not isinstance(row, timedelta):
        with pytest.raises(TypeError, match="not numpy.timedelta64"):
            column < numpy.timedelta64(5, "D")


@given(st.lists(st.lists(halves | st.none(), min_size=1, max_size=3), min_size=1, max_size=4))
def test_parts_are_joined_by_their_instants(parts):
    name = "timestamp[s, Europe/Berlin]?"
    whole = joined(Partial.of(Column.of([row and row.astimezone(BERLIN) for row in part], name)) for part in parts)
    rows = [place(row) for part in parts for row in part]
    present = [row for row in rows if row is not None]
    assert (place(whole.least), place(whole.greatest)) == (min(present, default=None), max(present, default=None))
    assert whole.runs == sum(not at or rows[at - 1] != row for at, row in enumerate(rows))
    ordered = [-(10**15) if row is None else row for row in rows]  # null is below all else
    pairs = list(zip(ordered, ordered[1:]))
    assert whole.is_sorted == all(one <= other for one, other in pairs)
    assert whole.is_strictly_sorted == all(one < other for one, other in pairs)
    first, last = whole.first, whole.last
    assert (place(first.value), place(last.value)) == (rows[0], rows[-1])
    assert {*rows[: first.rows]} == {rows[0]} and {*rows[len(rows) - last.rows :]} == {rows[-1]}
    assert rows[first.rows : first.rows + 1] != rows[:1] and rows[: len(rows) - last.rows][-1:] != rows[-1:]


def test_zeros_of_parts():
    for rows in ([0.0, -0.0], [-0.0, 0.0]):
        whole = joined(Partial.of(Column.of([row])) for row in rows)
        assert str((whole.least, whole.greatest)) == "(-0.0, 0.0)"
