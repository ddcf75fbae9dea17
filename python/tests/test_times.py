"""Dates, times of day, timestamps and durations: what comes in goes out as the same, with its unit and its zone. The
model is Python's datetime and NumPy."""
import copy
import pickle
from datetime import date, datetime, time, timedelta, timezone
from fractions import Fraction
from zoneinfo import ZoneInfo

import numpy
import pandas
import pytest
from hypothesis import given
from hypothesis import strategies as st

from hivevigil import Builder, Column, HivevigilError, columns_from_arrow, concat
from hivevigil.chunks import Partial, joined
from hivevigil.errors import BadMetadata, CastOutOfRange, TypeMismatch
from hivevigil.logical import LogicalType
from hivevigil.pandas import RunEndArray

BERLIN = ZoneInfo("Europe/Berlin")
PER_SECOND = {"s": 1, "ms": 10**3, "us": 10**6, "ns": 10**9}
EPOCH = datetime(1970, 1, 1)
NOON = datetime(2026, 1, 1, 12)
FORMATS = {
    "date": "tdD", "date[ms]": "tdm", "time[s]": "tts", "time[ms]": "ttm", "time[us]": "ttu", "time[ns]": "ttn",
    "timestamp[s]": "tss:", "timestamp[ms]": "tsm:", "timestamp[us]": "tsu:", "timestamp[ns]": "tsn:",
    "timestamp[s, UTC]": "tss:UTC", "timestamp[us, Europe/Berlin]": "tsu:Europe/Berlin",
    "timestamp[ms, +02:00]": "tsm:+02:00", "duration[s]": "tDs", "duration[ms]": "tDm", "duration[us]": "tDu",
    "duration[ns]": "tDn",
}
BASES = {
    "date": st.dates(), "time[us]": st.times(), "timestamp[us]": st.datetimes(),
    "timestamp[us, UTC]": st.datetimes(datetime(2, 1, 1), datetime(9998, 1, 1), timezones=st.just(timezone.utc)),
    "timestamp[us, Europe/Berlin]": st.datetimes(datetime(2, 1, 1), datetime(9998, 1, 1), timezones=st.just(BERLIN)),
    "timestamp[s]": st.datetimes().map(lambda at: at.replace(microsecond=0)),
    "duration[us]": st.timedeltas(timedelta(days=-(10**6)), timedelta(days=10**6)),
    "duration[s]": st.integers(-(10**9), 10**9).map(lambda seconds: timedelta(seconds=seconds)),
}


@st.composite
def columns(draw, names=tuple(BASES), null=True):
    """A type, rows of it in stretches, and a column of them, flat or in runs."""
    name = draw(st.sampled_from(names))
    value = st.none() | BASES[name] if null else BASES[name]
    parts = draw(st.lists(st.tuples(value, st.integers(1, 4)), max_size=6))
    rows = [row for row, count in parts for _ in range(count)]
    made = Column.of(rows, name + "?" * draw(st.booleans()))
    return name, rows, made.to_runs() if draw(st.booleans()) else made


def stored_by(name, row):
    """The integer of a row by Python's arithmetic."""
    if row is None:
        return None
    if name == "date":
        return (row - EPOCH.date()).days
    if name.startswith("time["):
        row = datetime.combine(EPOCH, row)
    unit = PER_SECOND[LogicalType.of_format(FORMATS.get(name, "tsu:UTC")).unit]
    if isinstance(row, datetime):
        row = row - (EPOCH if row.tzinfo is None else EPOCH.replace(tzinfo=timezone.utc))
    return row // timedelta(microseconds=1) * unit // 10**6


# ---- Types ----


@pytest.mark.parametrize("name", FORMATS)
def test_types_are_those_of_arrow_s_formats(name):
    logical = LogicalType.of_format(FORMATS[name])
    assert (str(logical), logical.format) == (name, FORMATS[name])
    column = Column.of([], name)
    assert column.logical_type == logical and column.type == logical.storage
    assert Column.of([], f"{name}?").type == logical.storage + "?"


@pytest.mark.parametrize("format", [
    "", "l", "td", "tdX", "tdDD", "tts:", "ttx", "ts", "tss", "tsx:", "tss;", "tD", "tDx", "tDs:", "tiM", "+r", "u",
    "d:5,2", "Tss:", "tss UTC",
])
def test_other_formats_are_of_no_logical_type(format):
    assert LogicalType.of_format(format) is None


@pytest.mark.parametrize("asked", [
    "timestamp", "time", "duration", "timestamp[D]", "timestamp[m]", "date[us]", "time[us, UTC]", "duration[us, UTC]",
    "date[D", "timestamp[us UTC]", "timestamps[us]", "timestamp[us,]x",
])
def test_what_names_no_type_is_refused(asked):
    with pytest.raises(TypeError, match="type of columns|names no unit"):
        Column.of([], asked)


# ---- Rows ----


@given(columns())
def test_rows_come_back(sample):
    name, rows, column = sample
    assert str(column.logical_type) == name
    assert column.to_list() == rows == list(column) == column.tolist()
    assert column.storage().to_list() == [stored_by(name, row) for row in rows]
    assert column.storage().logical_type is None
    assert [column[at] for at in range(len(rows))] == rows
    assert [run.value for run in column.runs() for _ in range(run.stop - run.start)] == rows


@given(columns())
def test_zones_are_kept(sample):
    name, rows, column = sample
    zone = column.logical_type.zone
    shown = {row.utcoffset() for row in column if isinstance(row, datetime)}
    assert zone in name and shown == {row.utcoffset() for row in rows if isinstance(row, datetime)}


@given(columns())
def test_commands_keep_the_type(sample):
    name, rows, column = sample
    logical = column.logical_type
    half, flags = len(rows) // 2, [bool(at % 2) for at in range(len(rows))]
    made = {
        "slice": (column[half:], rows[half:]), "take": (column.take(range(half)), rows[:half]),
        "filter": (column.filter(flags), rows[1::2]), "copy": (copy.copy(column), rows),
        "to_runs": (column.to_runs(), rows), "decode": (column.decode(), rows), "compact": (column.compact(), rows),
        "concat": (concat([column, column]), rows + rows), "pickle": (pickle.loads(pickle.dumps(column)), rows),
        "take_from": (Column.of(range(len(rows)), "u64").take_from(column), rows),
    }
    for name, (other, wanted) in made.items():
        assert (name, other.logical_type, other.to_list()) == (name, logical, wanted)


@given(columns(), st.data())
def test_nulls_are_filled(sample, data):
    name, rows, column = sample
    value = data.draw(BASES[name])
    filled = column.fill(value)
    assert filled.to_list() == [value if row is None else row for row in rows]
    assert str(filled.logical_type) == name


@given(columns())
def test_least_and_greatest(sample):
    _, rows, column = sample
    present = [row for row in rows if row is not None]
    least, greatest = min(present, default=None), max(present, default=None)
    assert column.min_max() == (least, greatest) == (column.min(), column.max())


@given(columns(), st.data())
def test_literals_are_compared(sample, data):
    name, rows, column = sample
    value = data.draw(BASES[name] | st.sampled_from([row for row in rows if row is not None] or [None]))
    signs = {"eq": "__eq__", "lt": "__lt__", "ge": "__ge__", "gt": "__gt__"}
    for call, method in signs.items():
        wanted = [None if None in (row, value) else getattr(row, method)(value) for row in rows]
        assert (call, getattr(column, call)(value).to_list()) == (call, wanted)
    if value is not None:
        assert (value in column) == (value in rows)


@given(
    st.lists(st.integers(-(10**6), 10**6), min_size=1), st.integers(-(10**9), 10**9), st.sampled_from(["s", "ms", "us"])
)
def test_a_finer_literal_is_compared_exactly(numbers, microseconds, unit):
    column = Column.of(numbers).cast(f"timestamp[{unit}]")
    literal = EPOCH + timedelta(microseconds=microseconds)
    exact = Fraction(microseconds * PER_SECOND[unit], 10**6)
    for sign, test in {"<": lambda n: n < exact, ">=": lambda n: n >= exact, "==": lambda n: n == exact}.items():
        assert column.compare(sign, literal).to_list() == list(map(test, numbers))


def test_nanoseconds_of_literals():
    column = Column.of(numpy.array(["2026-01-01T00:00:00.000000001", "NaT"], "datetime64[ns]"))
    assert column.gt(datetime(2026, 1, 1)).to_list() == [True, None]
    assert column.eq(pandas.Timestamp("2026-01-01T00:00:00.000000001")).to_list() == [True, None]
    assert Column.of([datetime(2026, 1, 1)]).lt(pandas.Timestamp("2026-01-01T00:00:00.000000001")).to_list() == [True]
    assert Column.of([EPOCH]).ge(numpy.datetime64("1970-01-01T00:00:00.000000000001")).to_list() == [False]
    assert Column.of([datetime(2026, 1, 1)]).eq(numpy.datetime64("NaT")).to_list() == [None]


def test_a_null_literal():
    column = Column.of([NOON, None])
    assert column.eq(None).to_list() == [None, None] and None in column and NOON in column
    assert date(2026, 1, 1) not in column and 5 not in column


# ---- Sums ----


@given(columns(["duration[us]", "duration[s]"]))
def test_durations_are_added(sample):
    _, rows, column = sample
    wanted = sum((row for row in rows if row is not None), timedelta())
    keys, sums = column.group_by(Column.of([1] * len(rows), "i64")).sum()
    assert column.sum() == wanted
    assert sums.to_list() == ([] if not rows else [None if set(rows) == {None} else wanted])


@pytest.mark.parametrize("rows", [[date(2026, 1, 1)], [time(1)], [NOON], [NOON.replace(tzinfo=BERLIN)]])
def test_other_times_have_no_sum(rows):
    column = Column.of(rows)
    with pytest.raises(TypeError, match=r"sum: rows of type \w+(\[.*\])? have no sum; column.storage\(\).sum\(\) is"):
        column.sum()
    with pytest.raises(TypeError, match="have no sum"):
        column.group_by([1]).sum()
    keys, least = column.group_by([NOON]).min()
    assert (keys.to_list(), least.to_list()) == ([NOON], rows)
    assert column.group_by([1]).count()[1].to_list() == [1]


# ---- Casts ----


@given(
    st.lists(
        st.none() | st.integers(-(2**63), 2**63 - 1) | st.integers(-5, 5).map(lambda n: n * 86_400_000), max_size=6
    ),
    st.sampled_from(list(PER_SECOND)), st.sampled_from(list(PER_SECOND)), st.booleans(),
)
def test_units_are_counted_exactly_or_refused(numbers, before, after, in_runs):
    column = Column.of(numbers, "i64?").cast(f"timestamp[{before}]?")
    column = column.to_runs() if in_runs else column
    wanted = [None if n is None else Fraction(n * PER_SECOND[after], PER_SECOND[before]) for n in numbers]
    bad = [at for at, n in enumerate(wanted) if n is not None and (n.denominator > 1 or not -(2**63) <= n < 2**63)]
    if bad:
        with pytest.raises(CastOutOfRange, match=f"cast to .*: row {bad[0]} is {numbers[bad[0]]} of timestamp"):
            column.cast(f"timestamp[{after}]?")
    else:
        made = column.cast(f"timestamp[{after}]?")
        assert made.storage().to_list() == wanted and made.form == column.form
        assert str(made.logical_type) == f"timestamp[{after}]"


def test_casts_between_types():
    days = Column.of([date(2026, 1, 1), None])
    assert days.cast("timestamp[s]?").to_list() == [datetime(2026, 1, 1), None]
    assert days.cast("timestamp[s]?").cast("date?").to_list() == days.to_list()
    assert days.cast("i32?").to_list() == [20454, None] and days.cast("i32?").logical_type is None
    assert Column.constant(NOON, 3).cast("timestamp[ns]").form == "constant"
    utc = Column.of([NOON.replace(tzinfo=timezone.utc)])
    assert utc.cast("timestamp[us, Europe/Berlin]")[0] == utc[0]
    for column, asked in (
        (utc, "timestamp[us]"), (Column.of([NOON]), "timestamp[us, UTC]"), (days, "duration[s]?"),
        (Column.of([time(1)]), "date"),
    ):
        with pytest.raises(TypeMismatch, match="is not counted as .*; column.storage"):
            column.cast(asked)
    with pytest.raises(CastOutOfRange, match=r"row 0 is 17672688\d+ of timestamp\[us\], which date does not count"):
        Column.of([NOON]).cast("date")
    with pytest.raises(ValueError, match="has no null"):
        days.cast("timestamp[s]")


# ---- Refusals ----


@pytest.mark.parametrize("column, value, sentence", [
    (Column.of([NOON]), date(2026, 1, 1), r"of type timestamp\[us\] is a datetime without a zone, not datetime.date"),
    (Column.of([NOON]), NOON.replace(tzinfo=timezone.utc), "is a datetime without a zone, not datetime.datetime"),
    (Column.of([NOON.replace(tzinfo=timezone.utc)]), NOON, "is a datetime with a zone, not"),
    (Column.of([NOON.replace(tzinfo=timezone.utc)]), numpy.datetime64("2026-01-01"), "is a datetime with a zone, not"),
    (Column.of([date(2026, 1, 1)]), NOON, "a value of type date is a date, not"),
    (Column.of([time(1)]), timedelta(1), "is a time of day, not"),
    (Column.of([timedelta(1)]), 5, "is a timedelta, not 5"),
    (Column.of([timedelta(1)]), numpy.timedelta64(1, "M"), "have no length"),
])
def test_values_of_another_sort_are_refused(column, value, sentence):
    with pytest.raises(TypeError, match=sentence):
        column.eq(value)
    with pytest.raises(TypeError, match=sentence):
        column.fill(value)


def test_values_that_do_not_fit_are_refused():
    with pytest.raises(ValueError, match=r"row 1: .* is finer than timestamp\[s\], and nothing is rounded"):
        Column.of([NOON, NOON.replace(microsecond=1)], "timestamp[s]")
    with pytest.raises(OverflowError, match=r"row 0: .* does not fit timestamp\[ns\]"):
        Column.of([datetime(9999, 1, 1)], "timestamp[ns]")
    with pytest.raises(TypeError, match="row 0 is in the zone UTC and row 1 is in the zone Europe/Berlin: a column"):
        Column.of([NOON.replace(tzinfo=timezone.utc), NOON.replace(tzinfo=BERLIN)])
    with pytest.raises(TypeError, match="row 0 is without a zone and row 1 is in the zone UTC"):
        Column.of([NOON, NOON.replace(tzinfo=timezone.utc)])
    with pytest.raises(TypeError, match="row 0 is .* and row 1 is .*: a column has one type"):
        Column.of([NOON, date(2026, 1, 1)])
    with pytest.raises(TypeError, match="row 0 is .* and row 1 is .*: a column has one type"):
        Column.of([1, NOON])


def test_only_nulls_show_no_type():
    for rows in ([numpy.datetime64("NaT")], [pandas.NaT, None], [numpy.timedelta64("NaT"), None]):
        with pytest.raises(ValueError, match="no row tells a type"):
            Column.of(rows)
        assert Column.of(rows, "timestamp[us]").to_list() == [None] * len(rows)


def test_columns_of_two_units_are_not_compared():
    seconds, micros = Column.of([NOON], "timestamp[s]"), Column.of([NOON])
    with pytest.raises(TypeMismatch, match=r"timestamp\[s\] and timestamp\[us\] are two types; column.cast\('times"):
        seconds.lt(micros)
    with pytest.raises(TypeMismatch, match="are two types"):
        micros.eq(micros.storage())
    assert seconds.cast("timestamp[us]").eq(micros).to_list() == [True]
    utc = Column.of([NOON.replace(tzinfo=timezone.utc)])
    assert utc.eq(Column.of([NOON.replace(tzinfo=timezone.utc).astimezone(BERLIN)])).to_list() == [True]
    with pytest.raises(TypeMismatch):
        utc.eq(micros)
    assert concat([seconds, micros]).equals(concat([micros, micros]))
    for call in (lambda: concat([utc, micros]), lambda: concat([micros, micros.storage()])):
        with pytest.raises(TypeMismatch, match="concat: .* are two types"):
            call()


def test_what_python_does_not_have_is_said():
    far = Column.of([2**62]).cast("timestamp[us]")
    with pytest.raises(OverflowError, match="is past what datetime has; column.storage"):
        far.to_list()
    with pytest.raises(OverflowError, match="is past what date has"):
        Column.of([2**31 - 1], "i32").cast("date")[0]
    with pytest.raises(OverflowError, match="is past what a day has"):
        Column.of([86_400], "i32").cast("time[s]")[0]
    with pytest.raises(ValueError, match="is finer than Python's date"):
        Column.of([1]).cast("date[ms]")[0]
    with pytest.raises(ValueError, match="'Nowhere/There' is not a zone that is known here"):
        Column.of([1]).cast("timestamp[s, Nowhere/There]")[0]
    with pytest.raises(OverflowError, match="is NaT for NumPy"):
        Column.of([-(2**63)]).cast("timestamp[s]").to_numpy()
    assert far.storage()[0] == 2**62
    assert repr(Column.of([NOON])) == "<Column timestamp[us]: 1 row, flat>\n  [2026-01-01 12:00:00]"


def test_what_does_not_serve_times_says_so():
    column = Column.of([NOON])
    with pytest.raises(TypeError, match=r"RunEndArray does not serve timestamp\[us\]"):
        RunEndArray(column)
    with pytest.raises(TypeError, match="lists of"):
        Column.from_lists(column, [0], [1])
    with pytest.raises(TypeMismatch, match=r"take: indices are integers, not of timestamp\[us\]"):
        column.take(column)


# ---- Builders ----


@given(columns())
def test_builders(sample):
    name, rows, column = sample
    builder = Builder(f"{name}?")
    builder.append(rows)
    builder.append(Column.of(rows, f"{name}?"))
    for row in rows:
        builder.append_value(row)
    made = builder.finish()
    assert (str(made.logical_type), made.to_list()) == (name, rows * 3)
    assert repr(builder) == f"<Builder {name}?: 0 rows in 0 runs>" and builder.logical_type == made.logical_type


def test_a_builder_takes_its_type():
    builder = Builder("timestamp[us]")
    for batch in (Column.of([1]), Column.of([NOON], "timestamp[s]")):
        with pytest.raises(TypeMismatch, match=r"append: timestamp\[us\] \(builder\) and .* are two types"):
            builder.append(batch)
    with pytest.raises(TypeError, match="is a datetime without a zone"):
        builder.append_value(1)
    with pytest.raises(TypeMismatch, match=r"append: i64 \(builder\) and timestamp\[us\] are two types"):
        Builder("i64").append(Column.of([NOON]))
    assert builder.rows == 0


# ---- Parts ----


@given(columns(), st.data())
def test_parts_are_joined(sample, data):
    name, rows, column = sample
    cut = data.draw(st.integers(0, len(rows)))
    whole = joined([Partial.empty(name), Partial.of(column[:cut]), Partial.of(column[cut:])])
    present = [row for row in rows if row is not None]
    assert (whole.type.rstrip("?"), whole.rows, whole.null_count) == (name, len(rows), len(rows) - len(present))
    assert (whole.least, whole.greatest) == (min(present, default=None), max(present, default=None))
    assert whole.is_sorted == column.is_sorted() and pickle.loads(pickle.dumps(whole)) == whole
    if name.startswith("duration"):
        assert whole.sum() == sum(present, timedelta())
    else:
        with pytest.raises(TypeError, match="sum does not serve parts of type"):
            whole.sum()
    with pytest.raises(TypeMismatch, match="are two types"):
        whole.join(Partial.empty("u8"))


# ---- NumPy and pandas ----


@given(
    st.sampled_from(["D", "s", "ms", "us", "ns", "h", "W"]),
    st.lists(st.none() | st.integers(-(10**6), 10**6), max_size=8), st.sampled_from("mM"),
)
def test_arrays_of_numpy(unit, numbers, kind):
    name = "timedelta64" if kind == "m" else "datetime64"
    items = numpy.array([-(2**63) if n is None else n for n in numbers], "i8").view(f"{name}[{unit}]")  # NaT
    column = Column.of(items)
    back = column.to_runs().to_numpy()
    assert (back == items)[~numpy.isnat(items)].all() and (numpy.isnat(back) == numpy.isnat(items)).all()
    is_coarse = unit in ("h", "W") or (kind, unit) == ("m", "D")
    assert back.dtype == column.dtype and (back.dtype == items.dtype or is_coarse)


def test_arrays_that_are_refused():
    for items, sentence in (
        (numpy.array([1], "timedelta64[M]"), "no length in seconds"),
        (numpy.array([1], "timedelta64"), "no length in seconds"),
        (numpy.array([1], "datetime64[ps]"), "nanoseconds are the finest unit"),
        (numpy.array([[1]], "datetime64[s]"), "one dimension"),
    ):
        with pytest.raises((TypeError, ValueError), match=sentence):
            Column.of(items)
    with pytest.raises(OverflowError, match="32 bits"):
        Column.of(numpy.array([2**31], "datetime64[D]"))
    with pytest.raises(OverflowError, match="does not fit"):
        Column.of(numpy.array([2**62], "datetime64[h]"))


@pytest.mark.parametrize("zone", [None, "UTC", "Europe/Berlin", "+02:00", "America/New_York"])
@given(st.lists(st.none() | st.datetimes(datetime(1900, 1, 1), datetime(2200, 1, 1)), max_size=8))
def test_pandas_to_runs_to_arrow_to_pandas(zone, rows):
    series = pandas.Series([pandas.NaT if row is None else row for row in rows], dtype="datetime64[ns]")
    if zone:
        tz = timezone(timedelta(hours=2)) if zone == "+02:00" else zone
        series = series.dt.tz_localize("UTC").dt.tz_convert(tz)
    column = Column.of(series).to_runs()
    assert str(column.logical_type) == f"timestamp[ns{', ' + zone if zone else ''}]"
    back = Column.from_arrow(column)
    assert back.form == "runs" and back.logical_type == column.logical_type
    pandas.testing.assert_series_equal(back.to_pandas(), series)
    index = pandas.DatetimeIndex(series)
    assert Column.of(index).to_list() == back.to_list() == Column.of(series.array).to_list()
    assert back.to_list() == [None if row is pandas.NaT else row for row in series]


@given(st.lists(st.none() | st.timedeltas(timedelta(days=-10**4), timedelta(days=10**4)), max_size=8))
def test_durations_of_pandas(rows):
    series = pandas.Series([pandas.NaT if row is None else row for row in rows], dtype="timedelta64[ns]")
    column = Column.from_arrow(Column.of(series).to_runs())
    pandas.testing.assert_series_equal(column.to_pandas(), series)


def test_series_of_objects():
    rows = [date(2026, 1, 1), None, date(2026, 1, 2)]
    series = pandas.Series(rows, dtype=object)
    assert Column.of(series).to_list() == rows and Column.of(series.to_numpy()).to_list() == rows
    back = Column.of(series).to_pandas()
    assert back.dtype == object and back.tolist() == rows
    assert Column.of([time(1), None]).to_numpy().tolist() == [time(1), None]
    assert Column.of([NOON, None]).to_numpy(null=NOON).tolist() == [NOON, NOON]
    assert numpy.asarray(Column.of([NOON])).dtype == "datetime64[us]"
    masked = numpy.ma.masked_array(numpy.array(["2026-01-01", "2026-01-02"], "datetime64[D]"), [False, True])
    assert Column.of(masked).to_list() == [date(2026, 1, 1), None]


# ---- Arrow, and what is kept ----


class Given:
    """An object that hands out what a column does, as an Arrow library would."""

    def __init__(self, column, call):
        setattr(self, call, getattr(column, call))


@given(columns())
def test_arrow_keeps_the_type(sample):
    name, rows, column = sample
    with column.to_arrow("x") as (schema, items):
        again = Column.from_arrow_structs(schema, items)
        values = schema.children[1].contents if schema.format == b"+r" else schema
        assert values.format.decode() == column.logical_type.format
    for call in ("__arrow_c_array__", "__arrow_c_stream__"):
        other = Column.from_arrow(Given(column, call))
        for made in (again, other):
            assert (made.logical_type, made.to_list(), made.form) == (column.logical_type, rows, column.form)


def test_dictionaries_keep_the_type():
    codes, values = Column.of([0, 1, 0], "u8"), Column.of([NOON, None])
    with codes.to_arrow("x", dictionary=values) as (schema, items):
        made = Column.from_arrow_structs(schema, items)
    assert made.logical_type == values.logical_type and made.to_list() == [NOON, None, NOON]


@given(columns())
def test_files_keep_the_type(tmp_path_factory, sample):
    name, rows, column = sample
    path = tmp_path_factory.mktemp("times") / "column"
    column.save(path)
    made = Column.load(path)
    assert (made.logical_type, made.to_list(), made.form) == (column.logical_type, rows, column.form)
    assert path.read_bytes() == column.to_bytes()
    assert Column.from_bytes(column.storage().to_bytes()).to_list() == column.storage().to_list()
    # the files of earlier versions
    path.write_bytes(b"hivevigil type 1 " + column.logical_type.format.encode() + b"\n" + column.storage().to_bytes())
    for again in (Column.from_bytes(column.to_bytes()), Column.load(path)):
        assert (again.logical_type, again.to_list(), again.form) == (column.logical_type, rows, column.form)
        assert again.to_bytes() == column.to_bytes()


@pytest.mark.parametrize("head", [
    b"hivevigil type 1 tsx:\n", b"hivevigil type 2 tsu:\n", b"hivevigil type 1 tdD\n", b"hivevigil type 1 tsu:",
    b"hivevigil type 1 l\n", b"hivevigil type 1 \xff\n", b"hivevigil type 1 ", b"hivevigil type 1 \n",
])
def test_damaged_files_are_refused(tmp_path, head):
    (tmp_path / "bad").write_bytes(head + Column.of([1]).to_bytes())
    with pytest.raises(BadMetadata, match="is not a file that save wrote"):
        Column.load(tmp_path / "bad")
    with pytest.raises(BadMetadata, match="^from_bytes: (the bytes are not what|(date|time|timestamp|duration|').* is not a logical type of)"):
        Column.from_bytes(head + Column.of([1]).to_bytes())
    assert not Column.is_message(head + Column.of([1]).to_bytes())
    with pytest.raises(BadMetadata, match="^from_bytes: the bytes are not what to_bytes writes$"):
        Column.from_bytes(2 * b"hivevigil type 1 tsu:\n" + Column.of([1]).to_bytes())


def test_constants_and_windows():
    column = Column.constant(NOON, 3)
    assert (column.form, column.to_list(), str(column.logical_type)) == ("constant", [NOON] * 3, "timestamp[us]")
    assert Column.constant(None, 2, "date").to_list() == [None, None]
    runs = Column.from_runs([2, 5], Column.of([date(2026, 1, 1), date(2026, 1, 2)]), 1, 3)
    assert runs.to_list() == [date(2026, 1, 1), date(2026, 1, 2), date(2026, 1, 2)]
    assert runs.values().to_list() == [date(2026, 1, 1), date(2026, 1, 2)] and runs.ends().logical_type is None
    again = Column.from_record("i32", 3, runs.record(), runs.ends(), runs.values())
    assert (again.to_list(), again.logical_type) == (runs.to_list(), runs.logical_type)
    assert [part.to_list() for part in runs.blocks(2)] == [runs.to_list()[:2], runs.to_list()[2:]]
    assert HivevigilError and columns_from_arrow
