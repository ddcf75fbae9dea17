"""Tables from and to CSV files, frames of pandas, and Arrow, of which arrow_model.py is the other side."""
import csv
import ctypes
import io
import os
import re
import struct
import subprocess
import sys
from datetime import date, datetime, time, timedelta, timezone
from decimal import Decimal
from pathlib import Path

import arrow_model
import hivevigil
import numpy
import pandas
import pytest
from arrow_model import MadeStream, batch
from hivevigil import ArrowArray, ArrowArrayStream, ArrowSchema, Column, Table, errors
from hivevigil.csv_files import BadFile
from hivevigil.pandas import RunEndArray
from hypothesis import given
from hypothesis import strategies as st
from tables import tables


class Received:
    """What a consumer of Arrow's C stream interface reads: the names, formats and rows of each column, batch by
    batch."""

    def __init__(self, capsule):
        self.stream = ArrowArrayStream.from_address(arrow_model._pointer(capsule, b"arrow_array_stream"))
        self.schema = ArrowSchema()
        assert self.stream.get_schema(ctypes.byref(self.stream), ctypes.byref(self.schema)) == 0
        assert self.schema.format == b"+s"
        children = [self.schema.children[at].contents for at in range(self.schema.n_children)]
        self.names = [child.name.decode() for child in children]
        self.rows = {name: [] for name in self.names}
        self.formats, self.batches, self.count = [below(child) for child in children], 0, 0
        while self._read(children):
            self.batches += 1
        self.stream.release(ctypes.byref(self.stream))
        self.schema.release(ctypes.byref(self.schema))

    def _read(self, children):
        items = ArrowArray()
        assert self.stream.get_next(ctypes.byref(self.stream), ctypes.byref(items)) == 0
        if not items.release:
            return False
        self.count += items.length
        for at, (name, child) in enumerate(zip(self.names, children)):
            self.rows[name] += arrow_model.rows_of(child, items.children[at].contents)
        items.release(ctypes.byref(items))
        return True


def below(schema):
    """The format of the values below runs."""
    while schema.format == b"+r":
        schema = schema.children[1].contents
    return schema.format.decode()


@given(tables(least_columns=1))
def test_out_to_arrow(sample):
    capsule = sample.table.__arrow_c_stream__()
    found = Received(capsule)
    assert (found.names, found.rows, found.count) == (sample.names, sample.rows, sample.count)
    assert found.batches <= 1


@given(tables(least_columns=1))
def test_in_from_arrow(sample):
    again = Table.from_arrow(sample.table)
    assert again.to_dict() == sample.rows and again.names == sample.names
    assert {name: kind.rstrip("?") for name, kind in again.types.items()} == {
        name: kind.rstrip("?") for name, kind in sample.table.types.items()
    }


def test_logical_types_go_out_and_come_in():
    table = Table(
        {"time": Column.of([5, 5, None]).to_runs(), "day": Column.of([1, 2, 3], "i32"), "level": [7, 7, 8]},
        {"time": "tsu:UTC", "day": "tdD"},
    )
    assert Received(table.__arrow_c_stream__()).formats == ["tsu:UTC", "tdD", "l"]
    again = Table.from_arrow(table)
    assert again.equals(table) and again.logical_types == {"time": "tsu:UTC", "day": "tdD"}
    capsule = table.__arrow_c_schema__()
    schema = ArrowSchema.from_address(arrow_model._pointer(capsule, b"arrow_schema"))
    assert [below(schema.children[at].contents) for at in range(3)] == ["tsu:UTC", "tdD", "l"]
    with pytest.raises(errors.TypeMismatch, match="^column 'level': rows of i64 are not of the logical type date$"):
        Table(table, {"level": "tdD"}).__arrow_c_stream__()


def test_a_schema_that_is_asked_for():
    table = Table({"time": Column.of([5, 5, 5, None]).to_runs(), "level": [7, 7, 8, 8]})
    asked = batch({"a": [1], "b": [2]}, 1)  # flat, of i64
    capsule = arrow_model._new(ctypes.addressof(asked.schema), b"arrow_schema", None)
    found = Received(table.__arrow_c_stream__(capsule))
    assert found.rows == table.to_dict() and found.formats == ["l", "l"]


def test_batches_of_another_library():
    made = batch({"a": [1, None, 3], "b": [4, 4, 5]}, 3)
    assert Table.from_arrow(made).to_dict() == {"a": [1, None, 3], "b": [4, 4, 5]}
    stream = MadeStream([batch({"a": [1], "b": [2]}, 1), batch({"a": [None, 7], "b": [3, 3]}, 2)])
    table = Table.from_arrow(stream)
    assert table.to_dict() == {"a": [1, None, 7], "b": [2, 3, 3]} and stream.released == 1
    with pytest.raises(errors.ArrowStreamFailed, match="with 5: no more"):
        Table.from_arrow(MadeStream([batch({"a": [1]}, 1)], b"no more"))


def test_what_is_not_a_table_of_arrow():
    for source, said in (
        (Column.of([1]), "Table.from_arrow takes a batch or a table, and this is an array"),
        (batch({}, 3), "Table.from_arrow takes a batch or a table, and this is no columns"),
        (3, "from_arrow takes an array, a batch or a table of an Arrow library, not 3"),
    ):
        with pytest.raises(TypeError, match=f"^{said}$"):
            Table.from_arrow(source)
    with pytest.raises(errors.Unsupported, match="^a table without columns does not go out to Arrow$"):
        Table(rows=3).__arrow_c_stream__()
    with pytest.raises(ValueError, match="^a name of Arrow has no zero byte, and 'a.x00' has$"):
        Table({"a\0": [1]}).__arrow_c_stream__()


# ---- pandas


@given(tables())
def test_frames(sample):
    for frame in (sample.table.to_pandas(), sample.table.to_pandas(in_runs=True)):
        assert list(frame.columns) == sample.names and len(frame) == sample.count
        for name in sample.names:
            assert [None if row is pandas.NA else row for row in frame[name].tolist()] == sample.rows[name]
    again = Table.from_pandas(sample.table.to_pandas(in_runs=True))
    assert again.to_dict() == sample.rows and again.rows == sample.count
    assert {name: kind.rstrip("?") for name, kind in again.types.items()} == sample.types


@pytest.mark.parametrize("type, shown", [
    ("i8", "i8?"), (str, "utf8?"), (bytes, "binary?"), (bool, "bool?"), ("decimal(9, 2)", "decimal(9, 2)?"),
    (float, "i64?"), ("timestamp[us, UTC]", "i64?"), ("date", "i32?"),
])  # fmt: skip
@pytest.mark.parametrize("rows", [[], [None], [None, pandas.NA, pandas.NaT]])
def test_objects_that_show_no_type(type, shown, rows):
    series = pandas.Series(rows, dtype=object)
    for given in (series, pandas.Index(series), series.to_numpy(), series.astype("category")):
        column = Column.of(given, type)
        assert column.to_list() == [None] * len(rows)
        assert column.type.rstrip("?") == shown.rstrip("?") and column.nullable >= bool(rows)
    frame = pandas.DataFrame({"a": series, "b": range(len(rows))})
    table = Table.from_pandas(frame, types={"a": type, "b": "u8"})
    assert table["a"].to_pandas().isna().tolist() == frame["a"].isna().tolist() and table["b"].type == "u8"
    with pytest.raises(ValueError) as refused:
        Table.from_pandas(frame)
    said = "column 'a': no row shows a type: name one, as Table.from_pandas(frame, types={'a': 'i64'})"
    assert str(refused.value) == said


def test_a_filtered_frame():
    frame = pandas.DataFrame({"place": ["Oslo", None], "level": [1.5, 2.5], "in runs": RunEndArray([1, 2])})
    table = Table.from_pandas(frame[frame["level"] > 2], types={"place": str, "level": "float32", "in runs": "i8"})
    assert table.to_dict() == {"place": [None], "level": [2.5], "in runs": [2]}
    assert [str(column.logical_type or column.type).rstrip("?") for column in table.values()] == ["utf8", "float32", "i8"]
    for given, kind, said in (
        ({"none": int}, ValueError, "a type for column 'none', and the frame has no column of this name"),
        ([("place", str)], TypeError, "types are a mapping from names of columns, not [('place', <class 'str'>)]"),
        ({"place": int}, TypeError, "column 'place': "), ({"place": "so"}, TypeError, "column 'place': 'so' is not a type"),
    ):  # fmt: skip
        with pytest.raises(kind, match=f"^{re.escape(said)}"):
            Table.from_pandas(frame, types=given)


def test_a_frame():
    frame = pandas.DataFrame({
        "a": [1, 2], "b": pandas.array([True, None], dtype="boolean"), "c": pandas.array(["x", None], dtype="string"),
        "d": numpy.array([7, 8], dtype="u1"), "e": RunEndArray([2**53 + 1, None]),
        "f": pandas.array([None, None], dtype="string"),
    }, index=["one", "two"])  # fmt: skip
    table = Table.from_pandas(frame)
    assert table.types == {"a": "i64", "b": "bool?", "c": "utf8?", "d": "u8", "e": "i64?", "f": "utf8?"}
    assert table["e"].form == "runs" and table[1] == {"a": 2, "b": None, "c": None, "d": 8, "e": None, "f": None}
    twice = pandas.DataFrame([[1, 2]], columns=["a", "a"])
    for call, kind, said in (
        (lambda: Table.from_pandas(twice), ValueError, "two columns have the name 'a'"),
        (lambda: Table.from_pandas(pandas.DataFrame({3: [1]})), TypeError,
         "a column of a table is named by a text, not by 3"),
        (lambda: Table.from_pandas(frame["a"]), TypeError, "Table.from_pandas takes a DataFrame, not one    1"),
        (lambda: Table.from_pandas(3), TypeError, "Table.from_pandas takes a DataFrame, not 3"),
        (lambda: Table(frame), TypeError, "Table.from_pandas takes a frame of pandas"),
        (lambda: Table.from_pandas(pandas.DataFrame({"x": [1j]})), TypeError,
         "column 'x': row 0 is 1j, of class complex"),
    ):  # fmt: skip
        with pytest.raises(kind) as refused:
            call()
        assert str(refused.value).startswith(said)


# ---- CSV files


def test_a_csv_file(tmp_path):
    file = tmp_path / "readings.csv"
    file.write_text("place,day,count,price\nOslo,2024-01-01,7,1.50\nOslo,2024-01-01,7,\nBergen,2024-01-02,,-20\n")
    for batch_rows in (1, 2, 100):
        table = Table.from_csv(file, batch_rows)
        assert table.types == {"place": "utf8?", "day": "i32?", "count": "i32?", "price": "decimal(4, 2)?"}
        assert table.logical_types == {"day": "tdD"} and {column.form for column in table.values()} == {"runs"}
        assert table["day"].to_list() == [date(2024, 1, 1), date(2024, 1, 1), date(2024, 1, 2)] and table["place"].run_count() == 2
        assert [str(row) for row in table["price"]] == ["1.50", "None", "-20.00"]


def test_csv_files_of_few_rows_and_bad_ones(tmp_path):
    file = tmp_path / "few.csv"
    file.write_text("a,b\n")
    empty = Table.from_csv(str(file))
    assert empty.types == {"a": "utf8?", "b": "utf8?"} and empty.rows == 0
    file.write_text("a,b\n1\n")
    with pytest.raises(BadFile, match="line 2 has 1 fields, the first 2"):
        Table.from_csv(file)
    for call, kind, said in (
        (lambda: Table.from_csv(3), TypeError, "a file is named by a text or a path, not by 3"),
        (lambda: Table.from_csv(Path("none.csv")), FileNotFoundError, "No such file"),
        (lambda: Table.from_csv(file, 0), ValueError, "a batch has at least one row"),
    ):
        with pytest.raises(kind, match=said):
            call()


def field_of(row, kind):
    """A row as a field of a CSV file."""
    if row is None:
        return ""
    if kind == "bool":
        return "true" if row else "false"
    return row.hex() if kind == "binary" else str(row)


@pytest.fixture(scope="module")
def folder(tmp_path_factory):
    return tmp_path_factory.mktemp("csv")


@given(sample=tables())
def test_csv_files_that_are_written(folder, sample):
    """As Python's csv module reads them."""
    sample.table.to_csv(folder / "table.csv")
    with open(folder / "table.csv", newline="", encoding="utf-8") as file:
        lines = list(csv.reader(file, strict=True))
    due = [[field_of(row, sample.types[name]) for name, row in zip(sample.names, line)] for line in sample.lines()]
    assert lines == ([sample.names, *due] if sample.names else [])
    assert (folder / "table.csv").read_bytes().count(b"\n") >= len(lines) and os.listdir(folder) == ["table.csv"]


def test_a_csv_file_is_the_table_again(tmp_path):
    table = Table({
        "place": Column.of(["Oslo", "Oslo", None, 'a "b", c', "x\ny"], "utf8?").to_runs(),
        "day": [date(2024, 1, 1), None, date(2024, 1, 1), date(1969, 12, 31), date(2024, 1, 2)],
        "at": [datetime(2024, 1, 1, 12), datetime(2024, 1, 1, 12, 0, 0, 5), None, datetime(2000, 1, 1), datetime(1950, 1, 1)],
        "in UTC": [datetime(2024, 1, 1, 12, 0, second, tzinfo=timezone.utc) for second in range(4)] + [None],
        "time": [time(1, 2, 3), None, time(0), time(23, 59, 59), time(1)],
        "count": Column.of([1, None, 3, -4, 5], "i32?"), "price": Column.of(["1.50", None, "-20", "0", "3"], "utf8?"),
        "open": [True, None, False, True, True], "same": Column.constant(7, 5, "i32?"),
    })  # fmt: skip
    prices = Column.of([Decimal("1.50"), None, Decimal(-20), Decimal(0), Decimal(3)], "decimal(4, 2)?")
    table = table.with_column("price", prices)
    table.to_csv(tmp_path / "table.csv")
    again = Table.from_csv(tmp_path / "table.csv")
    assert again.to_dict() == table.to_dict() and again.names == table.names
    assert again["price"].type == "decimal(4, 2)?"
    rows = Table({"length": [timedelta(seconds=-1, microseconds=500), None, timedelta(days=1)], "level": [0.1, None, -1e300],
                  "data": [b"\0\xff", b"", None]})
    rows.to_csv(tmp_path / "rows.csv")
    assert (tmp_path / "rows.csv").read_text() == "length,level,data\n-0.9995,0.1,00ff\n,,\n86400,-1e+300,\n"
    Table({"a": Column.of(["x", None, ""], "utf8?")}).to_csv(tmp_path / "rows.csv")
    assert (tmp_path / "rows.csv").read_text() == 'a\nx\n""\n""\n'
    assert Table.from_csv(tmp_path / "rows.csv")["a"].to_list() == ["x", None, None]


def bits(rows):
    """The bits of floats, so that -0.0 and NaN can be compared."""
    return [row if row is None else struct.pack("<d", row) for row in rows]


def test_floats_of_a_csv_file(tmp_path):
    rows = [0.1, None, -0.0, 0.0, float("inf"), -float("inf"), 5e-324, 1.7976931348623157e308, 2.0**53, 1.5, 1.5]
    file = tmp_path / "floats.csv"
    for batch_rows in (1, 3, 100):
        Table({"level": rows, "place": ["x"] * len(rows)}).to_csv(file)
        again = Table.from_csv(file, batch_rows)["level"]
        assert str(again.logical_type) == "float64" and bits(again.to_list()) == bits(rows)
    file.write_text("level,place\n1.5,x\nNaN,x\n,x\n")
    level = Table.from_csv(file)["level"]
    assert level[0] == 1.5 and level[1] != level[1] and level[2] is None and level.run_count() == 3


@given(rows=st.lists(st.one_of(st.none(), st.floats(allow_nan=False)), max_size=30))
def test_floats_are_floats_again(folder, rows):
    """A float next to each list, so that no list is one of decimals or of nothing."""
    Table({"a": [1e300, *rows], "b": [1] * (len(rows) + 1)}).to_csv(folder / "floats.csv")
    assert bits(Table.from_csv(folder / "floats.csv")["a"].to_list()) == bits([1e300, *rows])


def test_a_number_past_the_floats(tmp_path):
    (tmp_path / "far.csv").write_text("a,b\n1e400,inf\n-1e400,1\n")
    with pytest.raises(BadFile, match=re.escape("column 'a': row 0 is '1e400', which is not of float64?")):
        Table.from_csv(tmp_path / "far.csv", types={"a": float})
    assert Table.from_csv(tmp_path / "far.csv", types={"b": float})["b"].to_list() == [float("inf"), 1.0]


def test_types_of_a_csv_file_by_name(tmp_path):
    file = tmp_path / "typed.csv"
    file.write_text(
        "id,level,price,day,at,here,for,open,data,small\n"
        "007,1.5,2,2024-01-01,2024-01-01 10:00,2024-01-01T10:00:00.5+01:00,-1.5,true,00FF,255\n"
        "008,2,2.50,2024-01-02,,,,,,\n"
    )
    asked = {"id": str, "level": float, "price": "decimal(9, 2)", "day": "date[ms]", "at": "timestamp[ns]", "data": bytes,
             "here": "timestamp[ms, Europe/Berlin]", "for": "duration[ms]", "open": bool, "small": "u8"}  # fmt: skip
    for batch_rows in (1, 9):
        table = Table.from_csv(file, batch_rows, types=asked)
        assert table.types == {
            "id": "utf8?", "level": "i64?", "price": "decimal(9, 2)?", "day": "i64?", "at": "i64?", "here": "i64?",
            "for": "i64?", "open": "bool?", "data": "binary?", "small": "u8?",
        }  # fmt: skip
        assert table.logical_types == {"level": "g", "day": "tdm", "at": "tsn:", "here": "tsm:Europe/Berlin", "for": "tDm"}
        assert [table[name][0] for name in ("id", "level", "data", "small")] == ["007", 1.5, b"\0\xff", 255]
        assert [str(row) for row in table["price"]] == ["2.00", "2.50"]
        assert [row and row.timestamp() for row in table["here"]] == [1704099600.5, None]
        assert table["for"].to_list() == [timedelta(seconds=-1, milliseconds=-500), None]
    assert Table.from_csv(file, types={"id": "i32"} | dict.fromkeys(asked, str))["small"].to_list() == ["255", None]
    for given_types, kind, said in (
        ({"id": int}, BadFile, "column 'id': row 0 is '007', which is not of i64?"),
        ({"small": "i8"}, BadFile, "column 'small', a row from 0 to 1: "),
        ({"level": "float32", "day": "i32"}, BadFile, "column 'day': row 0 is '2024-01-01', which is not of i32?"),
        ({"at": "timestamp[us, UTC]"}, BadFile, "column 'at': row 0 is '2024-01-01 10:00', which is not of timestamp"),
        ({"here": "timestamp[s, UTC]"}, BadFile, "column 'here': row 0 is '2024-01-01T10:00:00.5+01:00', which is not of"),
        ({"for": "float64", "data": "float64"}, BadFile, "column 'data': row 0 is '00FF', which is not of float64?"),
        ({"open": "float64"}, BadFile, "column 'open': row 0 is 'true', which is not of float64?"),
        ({"none": int}, ValueError, "a type for column 'none', and "),
        ({"id": "list"}, TypeError, "'list' is not a type of columns"), ([("id", int)], TypeError, "types are a mapping"),
    ):  # fmt: skip
        with pytest.raises(kind, match=re.escape(said)):
            Table.from_csv(file, types=given_types)


def test_what_is_not_written_to_csv(tmp_path):
    (tmp_path / "kept.csv").write_text("as it was")
    lists = Table({"a": Column.from_lists([1], [0], [1])})
    for call, kind, said in (
        (lambda: lists.to_csv(tmp_path / "kept.csv"), errors.Unsupported, "column 'a': to_csv: a CSV file has no lists"),
        (lambda: Table({"a": [1]}).to_csv(3), TypeError, "a file is named by a text or a path, not by 3"),
        (lambda: Table({"at": [2**62]}, {"at": "tss:"}).to_csv(tmp_path / "kept.csv"), OverflowError, "4611686018427387904 of"),
    ):  # fmt: skip
        with pytest.raises(kind, match=f"^{said}"):
            call()
    assert (tmp_path / "kept.csv").read_text() == "as it was" and os.listdir(tmp_path) == ["kept.csv"]


def test_open_files_have_another_way(tmp_path):
    """Each sentence is a way that serves the open file."""
    table = Table({"a": [1, 2], "b": ["x", "y"]})
    for call, said in (
        (lambda: table.save(io.BytesIO()), "BytesIO: to_bytes and from_bytes have the bytes of an open file"),
        (lambda: Table.load(io.BytesIO()), "BytesIO: to_bytes and from_bytes have the bytes of an open file"),
        (lambda: table.to_csv(io.StringIO()), "StringIO: to_pandas().to_csv(file) writes to an open file"),
        (lambda: Table.from_csv(io.StringIO()), "StringIO: Table.from_pandas(pandas.read_csv(file)) reads an open file"),
        (lambda: table["a"].save(io.BytesIO()), "BytesIO: to_bytes and from_bytes have the bytes of an open file"),
    ):
        with pytest.raises(TypeError, match=re.escape(said) + "$"):
            call()
    file, text = io.BytesIO(), io.StringIO()
    file.write(table.to_bytes())
    assert Table.from_bytes(file.getvalue()).equals(table)
    table.to_pandas().to_csv(text, index=False)
    text.seek(0)
    assert Table.from_pandas(pandas.read_csv(text)).to_dict() == table.to_dict()


def test_the_command(tmp_path):
    def run(*words):
        found = {**os.environ, "PYTHONPATH": str(Path(hivevigil.__file__).parents[1])}
        command = [sys.executable, "-m", "hivevigil", *map(str, words)]
        ended = subprocess.run(command, capture_output=True, text=True, cwd=tmp_path, env=found)
        return ended.returncode, ended.stdout, ended.stderr.splitlines()[-1:]

    (tmp_path / "readings.csv").write_text("place,day\nOslo,2024-01-01\nOslo,2024-01-01\n,\n")
    assert run("readings.csv", "--to", "readings.hv", "--batch", 1) == (0, "", [])
    table = Table.load(tmp_path / "readings.hv")
    assert table.to_dict() == {"place": ["Oslo", "Oslo", None], "day": [date(2024, 1, 1), date(2024, 1, 1), None]}
    assert table.logical_types == {"day": "tdD"} and table.equals(Table.from_csv(tmp_path / "readings.csv"))
    days = "".join(f"{date(2024, 1, 1) + timedelta(days=day)}\n" for day in range(60))
    (tmp_path / "days.csv").write_text("day\n" + days)
    assert run("days.csv", "--to", "days.hv", "--differences") == (0, "", [])
    assert (tmp_path / "days.hv").read_bytes() == Table.from_csv(tmp_path / "days.csv").to_bytes(differences=True)
    assert (tmp_path / "days.hv").stat().st_size < 200 and Table.load(tmp_path / "days.hv").rows == 60
    assert run("days.csv", "--differences")[:2] == (2, "")
    assert run("readings.csv", "--to", "none/x.hv")[:2] == (1, "")
    assert run("readings.csv", "--to", "x.hv", "--plot", "x.svg")[:2] == (2, "")
    (tmp_path / "readings.csv").write_text("place,day\nOslo\n")
    said = "readings.csv: line 2 has 1 fields, the first 2"
    assert run("readings.csv", "--to", "readings.hv") == (1, "", [said])
    assert Table.load(tmp_path / "readings.hv").equals(table)


def test_booleans_as_python_and_pandas_write_them(tmp_path):
    rows, file = [True, None, False, True], tmp_path / "flags.csv"
    pandas.DataFrame({"flag": pandas.array(rows, "boolean"), "row": range(4)}).to_csv(file, index=False)
    assert Table.from_csv(file, types={"flag": bool})["flag"].to_list() == rows
    assert Table.from_csv(file)["flag"].to_list() == [row if row is None else str(row) for row in rows]  # as before
    file.write_text("flag,row\nTRUE,1\n")
    with pytest.raises(BadFile, match="row 0 is 'TRUE', which is not of bool"):
        Table.from_csv(file, types={"flag": bool})
