"""Times of which Python or pandas has no value are shown as texts, and named where they cannot be made: held against
datetime, and NumPy's calendar past it."""
import re
from datetime import date, datetime, timedelta, timezone

import numpy
import pandas
import pytest
from hivevigil import Column, Table, _times
from hivevigil.logical import LogicalType
from hypothesis import given
from hypothesis import strategies as st

UNITS = ("s", "ms", "us", "ns")
COUNTS = st.integers(-(2**63) + 1, 2**63 - 1) | st.integers(-(10**6), 10**6)
TYPES = [
    *(f"timestamp[{unit}]" for unit in UNITS), *(f"timestamp[{unit}, Europe/Oslo]" for unit in UNITS),
    *(f"duration[{unit}]" for unit in UNITS), "date", "date[ms]", "time[s]", "time[us]", "time[ns]",
]


@given(st.sampled_from(UNITS), COUNTS)
def test_timestamps_as_numpy_writes_them(unit, count):
    """NumPy's years have no end, and its digits after the second are those of the unit."""
    due = str(numpy.datetime64(count, unit)).replace("T", " ")
    due = due.rstrip("0").rstrip(".") if "." in due else due
    assert _times.written(LogicalType("timestamp", unit), count) == due
    assert _times.written(LogicalType("timestamp", unit, "UTC"), count) == f"{due}+00:00"


@given(st.integers(-(2**31), 2**31 - 1))
def test_days_as_numpy_writes_them(days):
    assert _times.written(LogicalType("date", "D"), days) == str(numpy.datetime64(days, "D"))


@given(st.datetimes(), st.timedeltas(), st.times())
def test_what_python_has_is_written_as_python_writes_it(instant, length, clock):
    def shortened(text):
        return text.rstrip("0") if "." in text else text

    count = (instant - datetime(1970, 1, 1)) // timedelta(microseconds=1)
    assert _times.written(LogicalType("timestamp", "us"), count) == shortened(str(instant))
    micros = length // timedelta(microseconds=1)
    found = _times.written(LogicalType("duration", "us"), micros).replace(",", "").replace("days", "day")
    assert found == shortened(str(length)).replace(",", "").replace("days", "day")
    since = timedelta(hours=clock.hour, minutes=clock.minute, seconds=clock.second, microseconds=clock.microsecond)
    due = shortened(str(clock))
    assert _times.written(LogicalType("time", "us"), since // timedelta(microseconds=1)) == due


@given(st.sampled_from(TYPES), st.lists(st.none() | COUNTS | st.integers(-(2**31), 2**31 - 1), max_size=12), st.booleans())
def test_every_column_is_shown(name, counts, has_pandas):
    """Whatever is counted, with pandas and without it."""
    narrow = name in ("date", "time[s]")
    rows = [row if row is None or not narrow else row % 2**31 for row in counts]
    column = Column.of(rows, "i32?" if narrow else "i64?").cast(f"{name}?")
    with pytest.MonkeyPatch.context() as patched:
        if not has_pandas:
            patched.setattr(_times, "_pandas", lambda: None)
        for shown in (column, column.to_runs(), Table({"at": column}), Table({"at": column.to_runs()})):
            assert name.partition("[")[0] in repr(shown) and "<" in shown._repr_html_()
        if rows and rows[0] is None:
            assert "None" in repr(column)


def test_cells_with_and_without_a_value():
    times = Column.of([0, None, 253402300800]).cast("timestamp[s]?")
    assert repr(times).splitlines()[1] == "  [1970-01-01 00:00:00, None, 10000-01-01 00:00:00]"
    table = repr(Table({"at": times, "day": [date(2024, 1, 1)] * 3}))
    assert "at   timestamp[s]?  flat  1970-01-01 00:00:00, None, 10000-01-01 00:00:00" in table
    assert "day  date           flat  2024-01-01" in table
    with pytest.raises(OverflowError, match="253402300800 of timestamp.s. is past what datetime has"):
        times[2]


@given(st.sampled_from(["timestamp", "duration"]), st.lists(st.none() | COUNTS, min_size=1, max_size=6), st.booleans())
def test_pandas_is_given_what_it_has(sort, counts, in_runs):
    """The first row that nanoseconds of 64 bits do not have is named, in a table with its column."""
    column = Column.of(counts, "i64?").cast(f"{sort}[ms]?")
    column = column.to_runs() if in_runs else column
    far = [row for row, count in enumerate(counts) if count is not None and not -(2**63) < count * 10**6 < 2**63]
    if not far or int(pandas.__version__.partition(".")[0]) > 1:
        for series in (column.to_pandas(), Table({"at": column}).to_pandas()["at"]):
            assert [None if pandas.isna(row) else row.value // 10**6 for row in series] == counts
        return
    said = f"to_pandas: row {far[0]} is {_times.written(LogicalType(sort, 'ms'), counts[far[0]])}, past "
    for call, where in ((column.to_pandas, ""), (Table({"at": column}).to_pandas, "column 'at': ")):
        with pytest.raises(OverflowError, match="^" + re.escape(where + said)):
            call()


def test_a_zone_that_is_not_known():
    storage = Column.of([0]).cast("timestamp[s, Nowhere/Town]")
    assert "1970-01-01 00:00:00+00:00" in repr(storage)
    known = Column.of([datetime(2024, 1, 1, tzinfo=timezone.utc)])
    assert "2024-01-01 00:00:00+00:00" in repr(known)
