"""python -m hivevigil over CSV files: tables worked out by hand, both readers, bad files, the figure."""
import csv
import os
import subprocess
import sys
import tempfile
from datetime import date, datetime, time, timezone
from pathlib import Path
from unittest import mock
from xml.etree import ElementTree

import hivevigil
import pytest
from hivevigil import Column, Table, __main__, gdal_files, report
from hivevigil.csv_files import BadFile, CsvFile
from hivevigil.progress import Progress
from hypothesis import given
from hypothesis import strategies as st
from rows import samples
from tables import tables as table_samples

FINDS = {**os.environ, "PYTHONPATH": str(Path(hivevigil.__file__).parents[1])}
READERS = ["csv", pytest.param("gdal", marks=pytest.mark.skipif(not gdal_files.available(), reason="no GDAL 3.6"))]
CSV = """\
place,day,count,open,price
Oslo,2024-01-01,7,true,1.50
Oslo,2024-01-01,7,true,
Oslo,2024-01-02,,false,-20
"Le Mans, F",2024-01-02,8,,0.125
,,8,,0.125
"""
# texts: 24 bytes for each row, the letters, and a byte of bits; runs: an end of a byte each, then as flat rows
TABLE = """\
column  type            rows  nulls  runs  bytes before  bytes after
place   utf8?              5      1     3           143           90
day     date?              5      1     3            21           16
count   i32?               5      1     3            21           16
open    bool?              5      2     3             2            5
price   decimal(5, 3)?     5      1     4            81           69
268 bytes before, 196 after; read by {}
"""


def run(*arguments):
    command = [sys.executable, "-m", "hivevigil", *map(str, arguments)]
    return subprocess.run(command, env=FINDS, capture_output=True, text=True)


@pytest.fixture
def file(tmp_path):
    path = tmp_path / "small.csv"
    path.write_text(CSV)
    return path


@pytest.mark.parametrize("reader", READERS)
@pytest.mark.parametrize("batch", [1, 2, 100])
def test_table(file, reader, batch):
    ended = run(file, "--reader", reader, "--batch", batch)
    assert (ended.returncode, ended.stderr) == (0, "")
    by = "the csv module" if reader == "csv" else "GDAL, price by the csv module"
    if batch == 100:
        assert ended.stdout == TABLE.format(by)
    columns = [line.split()[:5] for line in ended.stdout.splitlines()[1:5]]
    assert columns == [line.split()[:5] for line in TABLE.splitlines()[1:5]]


@pytest.mark.parametrize("reader", READERS)
@pytest.mark.parametrize("batch", [1, 2, 3, 100])
def test_runs_go_on_over_batches(file, reader, batch):
    found = report.read(str(file), batch, reader)
    lengths = {summary.name: dict(summary.run_lengths) for summary in found.summaries}
    assert lengths == {
        "place": {3: 1, 1: 2}, "day": {2: 2, 1: 1}, "count": {2: 2, 1: 1}, "open": {2: 2, 1: 1}, "price": {1: 3, 2: 1},
    }


@pytest.mark.parametrize("reader", READERS)
@pytest.mark.parametrize(
    "text, words",
    [
        ("", "no line of names"),
        ("a,a\n1,2\n", "one name"),
        ("a,b\n1,2,3\n", "line 2 has 3 fields, the first 2"),
        ("a,b\n1,2\n\n3\n", "line 4 has 1 fields, the first 2"),
        ('a,b\n"1,2\n', "line 2: unexpected end"),
        ("a,b\n1,2\n1,\xff\n", "line 3: not UTF-8: invalid start byte 0xff"),
        ("a\xe9,b\n1,2\n", "line 1: not UTF-8: invalid continuation byte 0xe9"),
    ],
)
def test_bad_files(tmp_path, reader, text, words):
    path = tmp_path / "bad.csv"
    path.write_text(text, encoding="latin-1")
    with pytest.raises(BadFile, match=words):
        report.read(str(path), 10, reader)
    ended = run(path, "--reader", reader)
    assert (ended.returncode, ended.stdout, len(ended.stderr.splitlines())) == (1, "", 1)


@pytest.mark.parametrize("reader", READERS)
def test_files_that_are_not_there_and_not_texts(tmp_path, reader):
    path = tmp_path / "latin.csv"
    path.write_bytes(b"a\n\xff\n")
    for given in (path, tmp_path / "none.csv", tmp_path):
        ended = run(given, "--reader", reader)
        assert (ended.returncode, ended.stdout, len(ended.stderr.splitlines())) == (1, "", 1)
    assert run(path, "--batch", 0).returncode == 2


@pytest.mark.parametrize("reader", [None, *READERS])
@pytest.mark.parametrize("fields, type, runs", [(["7", "7", "9"], "i32?", 2), (["two words", "one"], "utf8?", 2)])
def test_one_column(tmp_path, reader, fields, type, runs):
    """GDAL does not take it for a CSV; it is read by the csv module then."""
    path = tmp_path / "one.csv"
    path.write_text("\n".join(["only", *fields]) + "\n")
    found = report.read(str(path), 2, reader)
    assert [(it.name, it.rows, it.runs) for it in found.summaries] == [("only", len(fields), runs)]
    assert found.types == {"only": type} and "the csv module" in found.reader
    ended = run(path, *(["--reader", reader] if reader else []))
    assert ended.returncode == 0 and ended.stdout.splitlines()[1].startswith(f"only    {type}")


@pytest.mark.parametrize(
    "reader, text, passes",
    [
        ("csv", "a,b\n1,2.5\n2,3.5\n3,4.5\n4,5.5\n", 2),
        pytest.param("gdal", "a,b\n1,2\n2,3\n3,4\n4,5\n", 1, marks=READERS[1].marks),
        pytest.param("gdal", "a,b\n1,2.5\n2,3.5\n3,4.5\n4,5.5\n", 3, marks=READERS[1].marks),
        pytest.param("gdal", "a\n1\n2\n3\n4\n", 2, marks=READERS[1].marks),
    ],
)
def test_progress_counts_each_row_once(tmp_path, monkeypatch, capsys, reader, text, passes):
    path = tmp_path / "rows.csv"
    path.write_text(text)
    monkeypatch.setattr(report, "PATIENCE", 0.0)
    report.read(str(path), 1, reader)
    counted = [line.split(" %  ")[1].split(" rows")[0] for line in capsys.readouterr().err.splitlines()]
    first = ["0 of 4"] if passes > 1 else []
    assert counted == first + ["1 of 4", "2 of 4", "3 of 4", "4 of 4"]


@pytest.mark.skipif(not gdal_files.available(), reason="no GDAL 3.6")
def test_a_file_that_gdal_fails_to_read_on(tmp_path, monkeypatch):
    path = tmp_path / "small.csv"
    path.write_text(CSV)

    def fails(_):
        with gdal_files._Quiet():
            raise RuntimeError("the disk is gone.")

    monkeypatch.setattr(gdal_files.GdalFile, "_next", fails)
    found = report.read(str(path), 2)
    assert found.reader == "the csv module (GDAL: the disk is gone)" and len(found.summaries) == 5


@pytest.mark.parametrize("reader", READERS)
def test_files_without_rows_and_without_values(tmp_path, reader):
    for text, rows in (("a,b\n", 0), ("a,b\n,\n,\n", 2)):
        path = tmp_path / "little.csv"
        path.write_text(text)
        found = report.read(str(path), 10, reader)
        assert [(it.name, it.rows, it.nulls, it.runs) for it in found.summaries] == [
            ("a", rows, rows, min(1, rows)), ("b", rows, rows, min(1, rows)),
        ]


@pytest.mark.parametrize(
    "fields, type",
    [
        (["1", "-2147483648"], "i32?"), (["2147483648"], "i64?"), (["9223372036854775808"], "decimal(19, 0)?"),
        (["007"], "utf8?"), (["1", "2.5"], "decimal(2, 1)?"), (["1" * 39], "utf8?"), (["1e5"], "float64?"),
        (["true", "false"], "bool?"), (["true", "1"], "utf8?"), (["2024-02-29"], "date?"), (["2023-02-29"], "utf8?"),
        (["09:30", "23:59:59"], "time[s]?"), (["09:30:00.25"], "time[ms]?"), (["24:00"], "utf8?"),
        (["2026-01-31T09:30", "2026-01-31 09:30:01.5"], "timestamp[ms]?"), (["2026-01-31"], "date?"),
        (["2026-01-31T09:30Z", "2026-01-31T09:30:00.000001+02:00"], "timestamp[us, UTC]?"),
        (["2026-01-31T09:30Z", "2026-01-31T09:30"], "utf8?"), (["2026-02-30T09:30"], "utf8?"),
        (["2263-01-01T00:00:00.000000001"], "utf8?"), (["2026-01-31T09:30:00.000000001"], "timestamp[ns]?"),
        (["2026-01-31T09:30+24:00"], "utf8?"), (["2026-01-31", "2026-01-31T09:30"], "utf8?"),
        (["", ""], "utf8?"), (["1", "x"], "utf8?"), (["-0.5", ""], "decimal(2, 1)?"), (["１"], "utf8?"),
        (["0.1", "NaN", ""], "float64?"), (["nan"], "float64?"), (["1.5", "-0.0"], "float64?"), (["-0"], "i32?"),
        (["-inf", "Infinity", "2"], "float64?"), (["0.30000000000000004", "5e-324"], "float64?"), (["1e400"], "utf8?"),
        (["1.00000000000000001", "1e5"], "utf8?"), (["1" * 39, "1e5"], "utf8?"), (["007", "1e5"], "utf8?"),
        (["9007199254740993", "1e5"], "utf8?"), (["9007199254740992", "1e5"], "float64?"), (["123456789012345", "1e5"], "float64?"),
        (["1.", "1e5"], "utf8?"), ([".5"], "utf8?"), (["1e5", "2024-02-29"], "utf8?"), (["1_0", "1e5"], "utf8?"),
    ],
)
def test_types_of_fields(tmp_path, fields, type):
    path = tmp_path / "fields.csv"
    path.write_text("a,b\n" + "".join(f"{field},x\n" for field in fields), encoding="utf-8")
    file = CsvFile(str(path), 1)
    columns = [columns["a"] for columns in file.batches(lambda _: None)]
    assert file.types["a"] == type
    if type in ("i32?", "i64?"):
        assert [column[0] for column in columns] == list(map(int, fields))


@pytest.mark.parametrize(
    "field, value",
    [
        ("2026-01-31", date(2026, 1, 31)), ("09:30:00.25", time(9, 30, 0, 250_000)),
        ("2026-01-31 09:30", datetime(2026, 1, 31, 9, 30)),
        ("1969-12-31T23:59:59.999999-01:30", datetime(1970, 1, 1, 1, 29, 59, 999_999, timezone.utc)),
    ],
)
def test_dates_and_times_of_fields(tmp_path, field, value):
    path = tmp_path / "fields.csv"
    path.write_text(f"a,b\n{field},x\n,x\n")
    (columns,) = CsvFile(str(path), 9).batches(lambda _: None)
    assert columns["a"].to_list() == [value, None]


def test_times_in_the_table(tmp_path):
    path = tmp_path / "times.csv"
    path.write_text("at,seen\n09:30,2026-01-31T09:30Z\n09:30,2026-01-31T10:30:00.000000001+01:00\n,\n")
    ended = run(path, "--reader", "csv")
    assert (ended.returncode, ended.stderr) == (0, "")
    assert [line.split()[:6] for line in ended.stdout.splitlines()[1:3]] == [
        ["at", "time[s]?", "3", "1", "2", "13"], ["seen", "timestamp[ns,", "UTC]?", "3", "1", "3"],
    ]


def test_other_separators(tmp_path):
    path = tmp_path / "semicolons.csv"
    path.write_text("\ufeffa;b\n1;2,5\n", encoding="utf-8")
    assert CsvFile(str(path), 9).names == ["a", "b"]


@pytest.mark.skipif(not gdal_files.available(), reason="no GDAL 3.6")
def test_a_number_that_gdal_would_change(tmp_path):
    path = tmp_path / "wide.csv"
    path.write_text("a,b\n99999999999999999999,1\n1,2\n")
    found = report.read(str(path), 10)
    assert found.types["a"] == "decimal(20, 0)?" and "overflow" in found.reader


@pytest.mark.skipif(not gdal_files.available(), reason="no GDAL 3.6")
@pytest.mark.parametrize("names", ["a,,b", "WKT,x,b", "a,the_geom,b", "_xmax,y,b"])
def test_names_that_gdal_may_change(tmp_path, names):
    path = tmp_path / "names.csv"
    path.write_text(f"{names}\n1,2.5,x\n2,3.5,y\n")
    by_gdal, by_csv = report.read(str(path), 10), report.read(str(path), 10, "csv")
    assert by_gdal.types == by_csv.types and list(by_gdal.types) == names.split(",")


def test_files_that_are_none(tmp_path):
    for path, why in ((tmp_path / "none.csv", "No such file or directory"), (tmp_path, "Is a directory")):
        ended = run(path)
        assert (ended.returncode, ended.stdout, ended.stderr) == (1, "", f"{path}: {why}\n")
    assert run("--version").stdout == f"hivevigil {hivevigil.__version__}\n"


def test_without_matplotlib(file, tmp_path):
    (tmp_path / "matplotlib.py").write_text("raise ImportError")
    finds = {**FINDS, "PYTHONPATH": f"{tmp_path}{os.pathsep}{FINDS['PYTHONPATH']}"}
    command = [sys.executable, "-m", "hivevigil", file, "--plot", tmp_path / "figure.svg"]
    ended = subprocess.run(command, env=finds, capture_output=True, text=True)
    assert (ended.returncode, ended.stdout) == (1, "") and "Matplotlib" in ended.stderr


@given(samples())
def test_bytes_before_are_those_of_flat_rows(sample):
    """Whatever the form, of which no row is written out."""
    flat = Column.of(sample.rows, sample.column.type)
    assert report.flat_nbytes(sample.column) == report.flat_nbytes(flat) == flat.nbytes


def test_bytes_before_of_more_rows_than_there_is_memory_for():
    assert report.flat_nbytes(Column.constant(7, 2**60, "i32")) == 2**62
    assert report.flat_nbytes(Column.constant("ab", 2**60, "utf8")) == 26 * 2**60
    assert report.flat_nbytes(Column.constant(None, 2**60, "bool?")) == 2**58


@given(st.integers(1, 50), st.integers(1, 9), st.sampled_from([1, 7, 100]))
def test_bytes_before_of_batches_in_runs(repeats, values, batch):
    """A text of which each comes often: its batches are runs. 24 bytes for each row, and its letters."""
    texts = [str(value) * 3 for value in range(1, values + 1) for _ in range(repeats)]
    with tempfile.TemporaryDirectory() as folder:
        path = Path(folder) / "texts.csv"
        path.write_text("text,number\n" + "".join(f"a{text},{text}\n" for text in texts))
        found = {summary.name: summary for summary in report.read(str(path), batch, "csv").summaries}
    assert found["text"].before == (24 + 4) * len(texts)
    assert found["number"].before == 4 * len(texts) and found["number"].rows == len(texts)


@given(table_samples(least_columns=1), st.booleans())
def test_files_of_tables_and_columns_are_never_read_as_csv(sample, has_differences):
    with tempfile.TemporaryDirectory() as folder:
        path, to = Path(folder) / "any.csv", Path(folder) / "to.hv"
        sample.table.save(path, differences=has_differences)
        kept = path.read_bytes()
        for call in (Table.from_csv, lambda path: CsvFile(str(path), 9)):
            with pytest.raises(BadFile, match="the file of a table, which Table.load reads, and not a CSV file"):
                call(path)
        assert [each.name for each in report.read(str(path), 9).summaries] == sample.names
        assert path.read_bytes() == kept
        for target in (to, path):  # the last one is read and written
            assert _convert(path, "--to", target) == 0 and Table.load(target).equals(sample.table)
        column = sample.table[sample.names[0]]
        column.save(path)
        with pytest.raises(BadFile, match="the file of a column, which Column.load reads, and not a CSV file"):
            Table.from_csv(path)
        assert _convert(path, "--to", path) == 0 and Column.load(path).equals(column)
        assert _convert(path, "--to", path, "--differences") == 1 and Column.load(path).equals(column)


def _convert(*arguments):
    """The status of the program, within this process."""
    with mock.patch.object(sys, "argv", ["hivevigil", *map(str, arguments)]):
        return __main__.main()


def test_a_file_that_is_not_written_whole_stays(file, tmp_path):
    kept = file.read_bytes()
    with mock.patch.object(os, "fsync", side_effect=OSError(28, "No space left on device")):
        assert _convert(file, "--to", file) == 1
    assert file.read_bytes() == kept and [path.name for path in tmp_path.iterdir()] == [file.name]
    assert _convert(file, "--to", file) == 0 and Table.load(file).names == ["place", "day", "count", "open", "price"]


@given(st.integers(0, 3), st.sampled_from(["\n", "\r\n"]), st.integers(131_000, 300_000), st.sampled_from(",;\t|"))
def test_empty_first_lines_and_long_fields(lines, end, letters, mark):
    with tempfile.TemporaryDirectory() as folder:
        path = Path(folder) / "long.csv"
        path.write_text(end * lines + f"a{mark}b{end}{end}x{mark}{'y' * letters}{end}", newline="")
        assert Table.from_csv(path).to_dict() == {"a": ["x"], "b": ["y" * letters]}
    assert csv.field_size_limit() == 131_072  # of the other readers of this process


def test_figure(file, tmp_path):
    pytest.importorskip("matplotlib")
    figure = tmp_path / "figure.svg"
    ended = run(file, "--plot", figure)
    assert (ended.returncode, ended.stderr) == (0, "")
    assert ElementTree.parse(figure).getroot().tag.endswith("svg")
    folder = tmp_path / "none"
    due = ((folder / "figure.svg", f"there is no folder {folder}"), (tmp_path / "a.b", "a figure's name ends in"))
    for path, why in due:
        ended = run(file, "--plot", path)
        assert (ended.returncode, ended.stdout) == (1, "") and ended.stderr.startswith(f"{path}: {why}")


def test_progress(capsys):
    bar = Progress(200, "rows")
    bar.advance(100)
    bar.end()
    half, whole = capsys.readouterr().err.splitlines()
    assert half.startswith("[####################....................]  50 %  100 of 200 rows, ")
    assert whole.startswith("[########################################] 100 %  200 of 200 rows, ")
    twice = Progress(200, "rows", passes=2)
    twice.advance(150)
    twice.restart(3)
    twice.advance(301)
    assert [line.split(" %  ")[1].split(",")[0] for line in capsys.readouterr().err.splitlines()] == [
        "75 of 200 rows", "100 of 200 rows",
    ]
    quiet = Progress(200, "rows", patience=60)
    quiet.end()
    assert capsys.readouterr().err == ""
