"""Columns with a logical type as bytes: a message keeps the type, and the line that earlier versions wrote is read. The
model is that of examples/bytes, over Protocol Buffers' own library, where it is there."""
import array
import copy
import io
import math
import pickle
import shutil
import struct
import sys
from datetime import date, datetime, time, timedelta, timezone
from decimal import Decimal
from pathlib import Path
from zoneinfo import ZoneInfo

import numpy
import pandas
import pytest
from hypothesis import given
from hypothesis import strategies as st

from hivevigil import Column, Table, concat, errors
from hivevigil.logical import LogicalType
from hivevigil.pandas import RunEndArray

BERLIN = ZoneInfo("Europe/Berlin")
NOON = datetime(2026, 1, 1, 12)
# by the name of a type its format in Arrow, the type of its integers, and rows of it
TYPES = {
    "date": ("tdD", "i32", [date(2026, 1, 1), None, date(1, 1, 1)]),
    "date[ms]": ("tdm", "i64", [date(1969, 12, 31), date(9999, 12, 31)]),
    "time[s]": ("tts", "i32", [time(23, 59, 59), None]),
    "time[ms]": ("ttm", "i32", [time(0, 0, 0, 1000), time(0)]),
    "time[us]": ("ttu", "i64", [time(12, 0, 0, 1)]),
    "time[ns]": ("ttn", "i64", [time(12), None, None]),
    "timestamp[s]": ("tss:", "i64", [NOON, NOON, None]),
    "timestamp[ms, UTC]": ("tsm:UTC", "i64", [NOON.replace(tzinfo=timezone.utc), None]),
    "timestamp[us, Europe/Berlin]": ("tsu:Europe/Berlin", "i64", [NOON.replace(tzinfo=BERLIN)] * 3),
    "timestamp[ns, +02:00]": ("tsn:+02:00", "i64", [None, None]),
    "duration[s]": ("tDs", "i64", [timedelta(days=-1), timedelta(seconds=1)]),
    "duration[ns]": ("tDn", "i64", []),
    "float16": ("e", "i16", [1.5, -0.0, math.inf, None]),
    "float32": ("f", "i32", [1.5, 1.5, 2.0**-149]),
    "float64": ("g", "i64", [0.1, None, -math.inf, 5e-324]),
}


def varint(number):
    return bytes([number]) if number < 128 else bytes([number & 127 | 128]) + varint(number >> 7)


def message_of(format, stored):
    """The message of version 2 by docs/BYTES.md, over that of the integers."""
    name = format.encode()
    parts = b"\x08\x02", b"\xb2\x01", varint(len(name)), name, b"\xba\x01", varint(len(stored)), stored
    return b"".join(parts)


def line_of(format, stored):
    """The bytes of a file of an earlier version."""
    return b"hivevigil type 1 " + format.encode() + b"\n" + stored


def columns_of(type):
    """A column of the rows of a type flat, in runs, as a window of them, nullable, and as a constant."""
    rows = TYPES[type][2]
    flat = Column.of(rows, type)
    more = [row for row in rows for _ in range(3)]
    yield from (flat, Column.of(rows, type + "?"), Column.of(more, type).to_runs(), Column.of(more, type).to_runs()[1:-1])
    if rows:
        yield Column.constant(rows[-1], 2**40, type + "?")


def check_same(found, column):
    """The same rows bit by bit, type and form."""
    assert (found.logical_type, found.type, found.form) == (column.logical_type, column.type, column.form)
    assert found.storage().to_bytes() == column.storage().to_bytes()


# ---- What is written ----


@pytest.mark.parametrize("type", TYPES)
def test_bytes_keep_the_type(tmp_path, type):
    """By to_bytes, save, pickle and copy; and the integers by themselves are a message of version 1."""
    format, storage, rows = TYPES[type]
    for column in columns_of(type):
        stored, data = column.storage().to_bytes(), column.to_bytes()
        assert stored.startswith(b"\x08\x01") and data == message_of(format, stored)
        column.save(tmp_path / "column")
        assert (tmp_path / "column").read_bytes() == data
        again = [Column.from_bytes(data), Column.load(tmp_path / "column"), pickle.loads(pickle.dumps(column))]
        for found in [*again, Column.from_bytes(memoryview(bytearray(data))), copy.deepcopy(column)]:
            check_same(found, column)
            assert found.to_bytes() == data and str(found.logical_type) == type and found.type.rstrip("?") == storage
        assert Column.is_message(data) and Column.is_message(memoryview(data)) and Column.is_message(stored)
        plain = Column.from_bytes(stored)
        assert plain.logical_type is None and plain.to_bytes() == stored
    assert Column.from_bytes(Column.of(rows, type).to_bytes()).to_list() == rows


@pytest.mark.parametrize("type", TYPES)
def test_the_line_of_earlier_versions_is_read(tmp_path, type):
    """In from_bytes, load and is_message, and what is read is written without it."""
    format, _, _ = TYPES[type]
    for column in columns_of(type):
        data = line_of(format, column.storage().to_bytes())
        (tmp_path / "column").write_bytes(data)
        for found in (Column.from_bytes(data), Column.load(tmp_path / "column")):
            check_same(found, column)
            found.save(tmp_path / "again")
            assert found.to_bytes() == column.to_bytes() == (tmp_path / "again").read_bytes()
        assert Column.is_message(data) and not Column.is_message(data[:-1])


def test_columns_without_a_type_have_the_bytes_that_they_had():
    for column in (Column.of([7, None]), Column.of(["a", "b"]), Column.of([Decimal("1.50")]), Column.of([True]).to_runs()):
        data = column.to_bytes()
        assert data.startswith(b"\x08\x01") and column.storage().to_bytes() == data
        check_same(Column.from_bytes(data), column)
    assert Column.of([7, None], "i16").to_bytes().hex() == "080110061801200228043201013a0407000000"


def test_levels():
    """A type does not count as one; a seventeenth level of runs is refused with and without it."""
    column = Column.of([NOON])
    for _ in range(16):
        column = Column.from_runs([1], column)
    check_same(Column.from_bytes(column.to_bytes()), column)
    deeper = Column.from_runs([1], column)
    for refused in (deeper, deeper.storage()):
        with pytest.raises(errors.Unsupported, match=r"^to_bytes \(at most 16 levels of runs\) does not serve columns of "):
            refused.to_bytes()
    check_same(pickle.loads(pickle.dumps(column)), column)


def test_parts_and_answers_keep_the_type():
    column = Column.of([NOON, NOON, None, NOON + timedelta(1)]).to_runs()
    for part in (column[1:3], column.filter([True, False, True, True]), column.take([3, 0]), column.values(), column.decode()):
        check_same(Column.from_bytes(part.to_bytes()), part)
        assert Column.from_bytes(part.to_bytes()).to_list() == part.to_list()
    assert column.ends().to_bytes().startswith(b"\x08\x01")  # ends are numbers
    assert column.eq(NOON).to_bytes().startswith(b"\x08\x01")


def test_zones_of_any_length():
    """Also where the length of the name, or of the column, is a varint of two bytes or more."""
    for zone in ("Z\u00fcrich", "x" * 123, "x" * 124, "x" * 20_000, "\U0001f41d", "a\nb"):
        column = Column.of([datetime(2026, 1, 1, tzinfo=timezone.utc)] * 3, LogicalType("timestamp", "us", zone))
        assert column.to_bytes() == message_of(f"tsu:{zone}", column.storage().to_bytes())
        check_same(Column.from_bytes(column.to_bytes()), column)
    large = Column.of(range(100_000)).cast("timestamp[s]")
    assert large.to_bytes() == message_of("tss:", large.storage().to_bytes())
    check_same(Column.from_bytes(large.to_bytes()), large)


# ---- Tables, and other places that keep columns ----


def test_tables_keep_types_in_their_footer():
    """The message of a column is that of its integers, so the bytes are those that they were."""
    days, floats = Column.of([date(1970, 1, 8), date(1970, 1, 8), None]).to_runs(), Column.of([1.5, 1.5, 2.5])
    data = Table({"day": days, "x": floats}).to_bytes()
    table = Table({"day": days.storage(), "x": floats.storage()}, {"day": "tdD", "x": "g"})
    assert data == table.to_bytes() and days.to_bytes() not in data and floats.to_bytes() not in data
    assert data[13:].startswith(b"\x1a" + varint(len(days.storage().to_bytes())) + days.storage().to_bytes())
    assert Table.from_bytes(data).equals(table)
    times = Column.of(range(0, 6000, 60)).cast("timestamp[s, UTC]")
    shorter = Table({"at": times}).to_bytes(differences=True)
    assert shorter == Table({"at": times.storage()}, {"at": "tss:UTC"}).to_bytes(differences=True)
    assert len(shorter) < 150 < 800 < len(times.to_bytes())
    check_same(Table.from_bytes(shorter)["at"], times)


def number(field, value):
    return varint(field * 8) + varint(value)


def sized(field, data):
    return varint(field * 8 + 2) + varint(len(data)) + data


def table_of(message, bounds):
    """The bytes of a table of one column of two rows of 'tdD', by docs/table.proto."""
    column = sized(1, b"a") + sized(2, b"tdD") + number(3, len(message)) + number(4, 0) + number(5, 1) + sized(6, bounds)
    footer = number(1, 2) + sized(2, column)
    parts = sized(1, b"hivevigil"), number(2, 1), sized(3, message), sized(4, footer), b"\x29"
    return b"".join(parts) + len(footer).to_bytes(8, "little")


def test_tables_refuse_types_in_their_messages():
    """Of a column and of its bounds, which are the same message here: the type is in the footer."""
    stored = Column.of([7, 7], "i32").to_bytes()
    typed = message_of("tdD", stored)
    assert Table.from_bytes(table_of(stored, stored))["a"].to_list() == [date(1970, 1, 8)] * 2
    for message, bounds in [(typed, stored), (stored, typed), (typed, typed)]:
        with pytest.raises(errors.BadMetadata, match="^Table.from_bytes: the bytes are not what Table.to_bytes writes$"):
            Table.from_bytes(table_of(message, bounds))


def test_pickles_of_earlier_versions():
    """As 1.0 and its followers made them: the storage, and the format."""
    old = io.BytesIO()
    column = Column.of([NOON, None]).to_runs()

    class Pickler(pickle.Pickler):
        def reducer_override(self, given):
            if isinstance(given, Column) and given.logical_type is not None:
                return sys.modules["hivevigil._copying"]._made_of_storage, (given.storage(), "tsu:")
            if isinstance(given, Column):
                return sys.modules["hivevigil._copying"]._made_of_message, (Column, given.to_bytes())
            return NotImplemented

    Pickler(old, 2).dump(column)
    assert b"_made_of_storage" in old.getvalue()
    check_same(pickle.loads(old.getvalue()), column)


# ---- Habits: what comes from other libraries goes through bytes and files as it is ----


SERIES = [
    pandas.Series(pandas.to_datetime(["2026-01-01 12:00:00.000000001", None, "1677-09-21 00:12:43.145224193"])),
    pandas.Series(pandas.to_datetime(["2026-07-01", "2026-07-01"])).dt.tz_localize("Europe/Berlin"),
    pandas.Series(pandas.to_timedelta(["1 days", None, "-3 ns"])),
    pandas.Series([1.5, 2.5, math.inf]),
    pandas.Series([0.1, None], dtype="Float64"),
    pandas.Series([1, None], dtype="Int64"),
    pandas.Series(["a", None], dtype="string"),
]


@pytest.mark.parametrize("at", range(len(SERIES)))
def test_series(tmp_path, at):
    series = SERIES[at]
    column = Column.of(series)
    column.to_runs().save(tmp_path / "column")
    for found in (Column.from_bytes(column.to_bytes()), Column.load(tmp_path / "column")):
        assert found.logical_type == column.logical_type and found.to_list() == column.to_list()
        pandas.testing.assert_series_equal(found.to_pandas(), column.to_pandas())
    if series.dtype.kind in "Mm":
        pandas.testing.assert_series_equal(Column.load(tmp_path / "column").to_pandas(), series)


ARRAYS = [
    numpy.array(["2026-01-01T12:00", "NaT", "1969-12-31T23:59"], "datetime64[s]"),
    numpy.array(["2026-01-01", "0001-01-01"], "datetime64[D]"),
    numpy.array([1, -1, 0], "timedelta64[ms]"),
    numpy.array([1.5, numpy.nan, -0.0, numpy.inf], "f2"),
    numpy.array([1.5, numpy.nan, -0.0, numpy.inf], "f4"),
    numpy.array([0.1, numpy.nan, -0.0, 5e-324], "f8"),
]


@pytest.mark.parametrize("at", range(len(ARRAYS)))
def test_arrays_of_numpy(tmp_path, at):
    given_rows = ARRAYS[at]
    column = Column.of(given_rows)
    column.save(tmp_path / "column")
    for found in (Column.from_bytes(column.to_bytes()), Column.load(tmp_path / "column")):
        rows = found.to_numpy()
        rows = rows.filled("NaT") if isinstance(rows, numpy.ma.MaskedArray) and given_rows.dtype.kind == "M" else rows
        assert rows.dtype == given_rows.dtype and numpy.asarray(rows).tobytes() == given_rows.tobytes()


@pytest.mark.parametrize("letter, nans", [("e", [0x7E01, 0xFC01]), ("f", [0x7F800001, 0xFFC00007]),
                                          ("d", [0x7FF0000000000001, 0xFFF8000000000007])])
def test_floats_keep_every_bit(letter, nans):
    """NaNs with their payload, and which of them signal."""
    width = struct.calcsize(letter)
    bits = b"".join(number.to_bytes(width, "little") for number in [*nans, 1 << 8 * width - 1, 0, 1])
    rows = numpy.frombuffer(bits, f"<f{width}")
    found = Column.from_bytes(Column.of(rows).to_runs().to_bytes())
    assert found.decode().to_numpy().tobytes() == bits
    assert str(found.logical_type) == f"float{8 * width}"


@given(st.lists(st.none() | st.floats(allow_nan=False), max_size=20))
def test_floats(rows):
    column = Column.of(rows, "float64?").to_runs()
    assert Column.from_bytes(column.to_bytes()).to_list() == rows
    plain = [row for row in rows if row is not None]
    assert Column.from_bytes(Column.of(array.array("d", plain)).to_bytes()).to_list() == plain


@given(st.lists(st.none() | st.datetimes(timezones=st.sampled_from([timezone.utc])), max_size=10))
def test_times(rows):
    column = Column.of(rows, "timestamp[us, UTC]?")
    assert Column.from_bytes(column.to_bytes()).to_list() == rows
    assert Column.from_bytes(column.to_runs().to_bytes()).to_list() == rows


def test_decimals_have_no_logical_type():
    column = Column.of([Decimal("1.50"), None], "decimal(5, 2)")
    assert column.to_bytes().startswith(b"\x08\x01") and Column.from_bytes(column.to_bytes()).to_list() == column.to_list()


def test_arrays_of_pandas_in_runs():
    column = Column.of([NOON, NOON, None])
    found = Column.from_bytes(column.to_runs().to_bytes())
    with pytest.raises(TypeError):
        RunEndArray(found)
    assert found.to_pandas().tolist()[:2] == [pandas.Timestamp(NOON)] * 2


# ---- Types that rows are not read as: the stored rows, and the type is kept ----


I32, I64 = Column.of([7, None], "i32?").to_bytes(), Column.of([7], "i64").to_bytes()
UNKNOWN = [
    ("tdD", I64), ("tdm", I32), ("tts", I64), ("ttn", I32), ("tss:", I32), ("tDs", I32), ("e", I32), ("f", I64), ("g", I32),
    ("tsu:", Column.of([7], "u64").to_bytes()), ("tsu:", Column.of(["a"]).to_bytes()), ("tsu:", Column.of([True]).to_bytes()),
    ("g", Column.of([Decimal(1)]).to_bytes()), ("tss", I64), ("tsx:", I64), ("td", I32), ("tiM", I32), ("l", I64), ("i", I32),
    ("u", I64), ("TDD", I32), (" tdD", I32), ("tdD\0", I32), ("tsu:\0", I64), ("\u00e9", I64), ("d:5,2", I64), ("\n", I64),
]


def check_stored(found, format, stored):
    """The rows that are stored, as if the column had no logical type; the type is that of the bytes."""
    plain = Column.from_bytes(stored)
    assert found.logical_type == LogicalType("other", format)
    assert found.logical_type.format == str(found.logical_type) == format and plain.logical_type is None
    assert (found.type, found.form, found.to_list()) == (plain.type, plain.form, plain.to_list())
    assert found.storage().to_bytes() == stored and found.to_bytes() == message_of(format, stored)


@pytest.mark.parametrize("format, stored", UNKNOWN)
def test_types_that_are_none_of_these_rows_are_kept(tmp_path, format, stored):
    """By all ways of reading and of copying, and in each part of the rows."""
    data = message_of(format, stored)
    (tmp_path / "column").write_bytes(data)
    column = Column.from_bytes(data)
    for found in (column, Column.load(tmp_path / "column"), pickle.loads(pickle.dumps(column)), copy.deepcopy(column)):
        check_stored(found, format, stored)
    assert Column.is_message(data)
    column.to_runs().save(tmp_path / "runs")
    assert Column.load(tmp_path / "runs").equals(column) and not column.equals(column.storage())
    for part in (column[:1], column.take([0]), column.filter([True] + [False] * (len(column) - 1)), column.to_runs()[:1],
                 column.to_runs().values()[:1].decode(), column.compact()[:1]):
        assert part.logical_type.format == format and part.to_list() == column.to_list()[:1]
        assert part.to_bytes() == message_of(format, part.storage().to_bytes())
    assert repr(column).startswith(f"<Column {column.type} {format}: {len(column)} row")


def test_what_is_asked_of_types_that_rows_are_not_read_as():
    """What is asked of the stored rows, and columns of two types are not joined."""
    months, numbers = Column.from_bytes(message_of("tiM", I32)), Column.from_bytes(I32)
    assert (months.sum(), months.max(), months.eq(7).to_list(), months.to_runs().run_count()) == (7, 7, [True, None], 2)
    assert (7 in months, months.fill(0).to_list(), months.fill(0).logical_type.format) == (True, [7, 0], "tiM")
    assert concat([months, months]).to_bytes() == message_of("tiM", concat([numbers, numbers]).to_bytes())
    with pytest.raises(errors.TypeMismatch, match=r"^concat: i32 tiM \(column 0\) and i32 \(column 1\) are two types"):
        concat([months, numbers])
    assert months.cast("date?").to_list() == [date(1970, 1, 8), None] and months.cast("i64?").logical_type is None
    assert months.to_numpy().tolist() == [7, None] and months.to_pandas().tolist()[0] == 7
    for ask in (lambda: numbers.cast(months.logical_type), lambda: Column.of([7], months.logical_type)):
        with pytest.raises(TypeError, match="'tiM' does not say of which type its rows are"):
            ask()
    with pytest.raises(ValueError):
        LogicalType("other", "")


@pytest.mark.parametrize("format, stored", UNKNOWN)
def test_tables_keep_them_too(tmp_path, format, stored):
    """A table of such a column has its type by its name, and gives the column as it was."""
    column = Column.from_bytes(message_of(format, stored))
    table = Table({"a": column})
    assert table.logical_types == {"a": format} and table.equals(Table({"a": column.storage()}, {"a": format}))
    for found in (table, Table.from_bytes(table.to_bytes()), table[:], table.rename({"a": "b"}).rename({"b": "a"})):
        check_stored(found["a"], format, stored)
        assert found.to_bytes() == table.to_bytes()
    table.save(tmp_path / "table")
    footer = Table.footer(tmp_path / "table").columns["a"]
    assert (footer.logical_type, footer.least) == (format, column.min()) and Table.load(tmp_path / "table").equals(table)
    assert footer.may_have("==", column.min())
    assert table.append(table)["a"].logical_type.format == format


# ---- What is refused ----


def is_read(data):
    try:
        Column.from_bytes(data)
    except errors.BadMetadata:
        return False
    return True


@pytest.mark.parametrize("format, stored", UNKNOWN)
def test_lines_with_types_that_are_none_of_these_rows(tmp_path, format, stored):
    """No version wrote such a line: by all ways of reading."""
    data = line_of(format, stored)
    (tmp_path / "column").write_bytes(data)
    with pytest.raises(errors.BadMetadata, match="^from_bytes: "):
        Column.from_bytes(data)
    with pytest.raises(errors.BadMetadata, match=f"of {len(data)} bytes, is not a file that save wrote"):
        Column.load(tmp_path / "column")
    assert not Column.is_message(data)


DAMAGED = [
    b"\x08\x02", b"\x08\x02\xb2\x01\x03tdD", b"\x08\x02\xba\x01" + varint(len(I32)) + I32,
    message_of("", I32), message_of("tdD", I32) + b"\0", message_of("tdD", I32[:-1]), message_of("tdD", I32 + b"\0"),
    message_of("tdD", message_of("tdD", I32)), message_of("tdD", line_of("tdD", I32)), line_of("tdD", message_of("tdD", I32)),
    line_of("tdD", line_of("tdD", I32)), b"\n" + message_of("tdD", I32), message_of("tdD", b""),
    message_of("tdD", I32).replace(b"\x08\x02", b"\x08\x03", 1), message_of("tdD", I32).replace(b"\x08\x02", b"\x08\x01", 1),
    message_of("tdD", I32).replace(b"tdD", b"td\xff"), I32 + b"\xb2\x01\x03tdD",
    b"\x08\x02\xb2\x01\x83\x00tdD\xba\x01" + varint(len(I32)) + I32, b"hivevigil type 1 tdD", b"hivevigil type 1 tdD\n",
    b"hivevigil type 1 \n" + I32, b"hivevigil type 2 tdD\n" + I32, b"hivevigil type 1 tdD\r\n" + I32,
    b"hivevigil type 1 td\xff\n" + I32,
]


@pytest.mark.parametrize("at", range(len(DAMAGED)))
def test_damaged_bytes(tmp_path, at):
    (tmp_path / "column").write_bytes(DAMAGED[at])
    with pytest.raises(errors.BadMetadata, match="^from_bytes: "):
        Column.from_bytes(DAMAGED[at])
    with pytest.raises(errors.BadMetadata, match="is not a file that save wrote$"):
        Column.load(tmp_path / "column")
    assert not Column.is_message(DAMAGED[at])


def test_each_prefix_and_each_changed_byte():
    """Each is refused, or is another column, which is written as just these bytes; is_message says which."""
    column = Column.of([NOON.replace(tzinfo=timezone.utc), None, NOON.replace(tzinfo=timezone.utc)], "timestamp[s, UTC]")
    for data in (column.to_runs().to_bytes(), line_of("tss:UTC", column.storage().to_bytes())):
        assert not any(is_read(data[:kept]) or Column.is_message(data[:kept]) for kept in range(len(data)))
        read = 0
        for at in range(len(data)):
            for bit in range(8):
                changed = data[:at] + bytes([data[at] ^ 1 << bit]) + data[at + 1 :]
                is_one = Column.is_message(changed)
                assert is_one == is_read(changed), (at, bit)
                read += is_one
                if is_one and changed.startswith(b"\x08"):
                    assert Column.from_bytes(changed).to_bytes() == changed
        assert read > 100


def test_arguments_of_other_types():
    for given_bytes in ("hivevigil type 1 tdD\n", 7, None, ["a"]):
        with pytest.raises(TypeError, match="bytes-like"):
            Column.is_message(given_bytes)


# ---- The model ----


@pytest.fixture(scope="module")
def messages():
    """The model of messages, and random ones."""
    pytest.importorskip("google.protobuf")
    if not shutil.which("protoc"):
        pytest.skip("protoc is not there")
    sys.path.insert(0, str(Path(__file__).resolve().parents[2] / "examples" / "bytes"))
    return pytest.importorskip("messages")


def stored_as(messages, format):
    """The number that the type of rows of a format has in messages; None where this package has no values for them."""
    if format[:4] in {"tss:", "tsm:", "tsu:", "tsn:"} and "\0" not in format:
        return 8
    return messages.FORMATS.get(format)


@pytest.mark.filterwarnings("ignore::RuntimeWarning")  # Protocol Buffers warn of some bytes before they refuse them
@pytest.mark.parametrize("seed", range(3))
def test_random_messages(messages, seed):
    """Read exactly where the model reads them, as the rows of the model, and written as the same bytes; the type is of
    the sort 'other' where it is not one of such rows."""
    model, read, other = sys.modules["model"], 0, 0
    for data in [*messages.typed_messages(600, seed), *messages.messages(90, seed)]:
        message = model.typed_column(data)
        is_typed = message is not None and message.version == 2
        due = message is not None
        assert Column.is_message(data) == is_read(data) == due, data.hex()
        if not due:
            continue
        is_other = is_typed and message.storage.type != stored_as(messages, message.logical_type)
        column = Column.from_bytes(data)
        assert column.to_bytes() == data
        assert ("" if column.logical_type is None else column.logical_type.format) == message.logical_type
        assert (getattr(column.logical_type, "sort", "") == "other") == is_other
        stored = model.written(message.storage) if is_typed else data
        assert column.storage().to_bytes() == stored
        read, other = read + 1, other + is_other
    assert other > 60 and read > other + 60
