"""Tables as bytes and in files: what is written is what Protocol Buffers' own library writes by docs/table.proto, what
is read is what it reads, and every other bytes are refused."""
import math
import os
import random
import re
import sys
import warnings
from pathlib import Path

import pytest
from hivevigil import Column, Table, errors
from hypothesis import given
from hypothesis import strategies as st
from test_tables import SIGNS, _ordered
from rows import values
from tables import tables

EXAMPLES = Path(__file__).resolve().parents[2] / "examples/bytes"


@pytest.fixture(scope="module")
def folder(tmp_path_factory):
    return tmp_path_factory.mktemp("tables")


@given(tables())
def test_bytes_are_the_table_again(sample):
    data = sample.table.to_bytes()
    again = Table.from_bytes(data)
    assert again.to_dict() == sample.rows and again.names == sample.names and again.rows == sample.count
    assert again.types == sample.table.types and again.to_bytes() == data
    assert {name: again[name].form for name in again} == {name: sample.table[name].form for name in sample.names}


@given(sample=tables(), data=st.data())
def test_files(folder, sample, data):
    formats = {name: data.draw(st.sampled_from(["tiM", "tiD", "größe"])) for name in sample.names[:2]}
    table = Table(sample.table, formats, sample.count)
    table.save(folder / "table")
    assert (folder / "table").read_bytes() == table.to_bytes() and os.listdir(folder) == ["table"]
    assert Table.load(folder / "table").equals(table)
    chosen = data.draw(st.lists(st.sampled_from(sample.names), unique=True)) if sample.names else []
    some = Table.load(str(folder / "table"), chosen)
    assert some.equals(table.select(*chosen)) and some.rows == sample.count
    check_footer(Table.footer(folder / "table"), sample, table)


def check_footer(footer, sample, table):
    assert footer.rows == sample.count and list(footer.columns) == sample.names
    for name, found in footer.columns.items():
        rows = sample.rows[name]
        valid = [row for row in rows if row is not None]
        runs = sum(at == 0 or rows[at] != rows[at - 1] for at in range(len(rows)))
        assert (found.name, found.null_count, found.runs) == (name, rows.count(None), runs)
        assert found.least == min(valid, key=_ordered, default=None) and found.type == table.types[name]
        assert found.greatest == max(valid, key=_ordered, default=None)
        assert found.logical_type == table.logical_types.get(name) and found.nbytes == len(table[name].storage().to_bytes())


@given(sample=tables(least_columns=1), data=st.data())
def test_footers_say_which_files_to_skip(folder, sample, data):
    name, sign = data.draw(st.sampled_from(sample.names)), data.draw(st.sampled_from([*SIGNS]))
    valid = [row for row in sample.rows[name] if row is not None]
    value = data.draw(values(sample.types[name]) | (st.sampled_from(valid) if valid else st.nothing()))
    sample.table.save(folder / "skipped")
    found = Table.footer(folder / "skipped").may_have(name, sign, value)
    is_there = any(SIGNS[sign](_ordered(row), _ordered(value)) for row in valid)
    within = bool(valid) and min(map(_ordered, valid)) <= _ordered(value) <= max(map(_ordered, valid))
    assert found is (within if sign == "==" else is_there)
    os.unlink(folder / "skipped")


def test_what_a_footer_says(tmp_path):
    table = Table({"level": [5, None, 9], "list": Column.from_lists([1], [0, 0, 0], [1, 1, 1])})
    table.save(tmp_path / "table")
    footer = Table.footer(tmp_path / "table")
    asked = {(">", 9): False, (">=", 9): True, ("==", 7): True, ("==", 10): False, ("<", 5): False, ("!=", 5): True}
    assert {by: footer.may_have("level", *by) for by in asked} == asked
    assert footer.may_have("level", "<", 10**30) and not footer.may_have("level", ">", 10**30)
    lists = footer.columns["list"]
    assert (lists.type, lists.null_count, lists.runs, lists.least, lists.greatest) == (None,) * 5
    assert footer.may_have("list", "==", 1) and repr(lists).startswith("ColumnFooter(name='list', logical_type=None, n")
    for call, kind, said in (
        (lambda: footer.may_have("place", "==", 1), KeyError, "no column has the name 'place': the names are 'level', "),
        (lambda: footer.may_have("level", "~", 1), ValueError, "column 'level': '~' is not an operator"),
        (lambda: footer.may_have("level", "<", "x"), TypeError, "column 'level': a value of type i64? is an integer"),
    ):
        with pytest.raises(kind) as refused:
            call()
        assert str(refused.value).startswith(said)


@pytest.mark.parametrize("name", ["float16", "float32", "float64"])
@pytest.mark.parametrize("ends", [(math.nan,), (-math.nan, 1.0), (math.nan, -math.nan)])
def test_a_file_with_a_nan_is_not_skipped(tmp_path, name, ends):
    rows = [5.0, None, *ends]
    Table({"x": Column.of(rows, name + "?")}).save(tmp_path / "table")
    footer = Table.footer(tmp_path / "table")
    for sign, value in ((">", 4), ("<", 6), ("==", 5), (">=", 5), ("<=", 5), ("!=", 1)):
        assert footer.may_have("x", sign, value)
    with pytest.raises(TypeError):
        footer.may_have("x", "<", "x")


# ---- What is not a table


KEPT = Table(
    {
        "place": Column.of(["Oslo", "Oslo", None]).to_runs(), "level": Column.of([1, 1, 900], "i32"),
        "list": Column.from_lists([1], [0] * 3, [1] * 3), "same": Column.constant(None, 3, "bool?"),
    },
    {"level": "tdD"},
)  # fmt: skip


def test_each_truncation_is_refused():
    data = KEPT.to_bytes()
    assert Table.from_bytes(data).equals(KEPT)
    for size in range(len(data)):
        for part in (data[:size], data[size + 1 :]):
            with pytest.raises(errors.BadMetadata):
                Table.from_bytes(part)
    with pytest.raises(errors.BadMetadata, match="^Table.from_bytes: the bytes are not what Table.to_bytes writes$"):
        Table.from_bytes(data + b"\0")


def test_each_byte_counts(tmp_path):
    """A byte that is another makes another table, or none; where one column is read, it may be another's."""
    data, refused = KEPT.to_bytes(), 0
    for place in range(len(data)):
        for change in (1, 128, 255 ^ data[place]):
            other = bytearray(data)
            other[place] ^= change
            try:
                found = Table.from_bytes(other)
                assert found.to_bytes() == other
            except errors.BadMetadata:
                refused += 1
            (tmp_path / "other").write_bytes(other)
            try:
                assert Table.load(tmp_path / "other", ["level"]).names == ["level"]
            except (errors.BadMetadata, KeyError):
                pass
    assert refused > 2 * len(data)


def sized(field, content):
    return bytes([field * 8 + 2, len(content)]) + content


def file_of(message, nulls, bounds, kept=None):
    """The file of two rows in one run, by docs/BYTES.md: version 2 where it says how they are kept."""
    said = sized(1, b"a") + sized(2, b"") + bytes([24, len(message), 32, nulls, 40, 1]) + sized(6, bounds)
    footer = bytes([8, 2]) + sized(2, said + (b"" if kept is None else bytes([56, kept])))
    head = sized(1, b"hivevigil") + bytes([16, 1 if kept is None else 2])
    return head + sized(3, message) + sized(4, footer) + b"\x29" + len(footer).to_bytes(8, "little")


SEVENS, NULLS, TEXTS = map(bytes.fromhex, (
    "0801100118012002 28023a020707", "0801100118032002 28033a00", "0801100b18032002 28013a0161",
))  # fmt: skip
FOOTERS = [
    # seven twice: all are valid, by its validity, by a bit for each, and as a constant
    (True, SEVENS, 0, "0801100118012002 28023a020707"), (False, SEVENS, 0, "0801100118012002 28043201033a020707"),
    (False, SEVENS, 0, "0801100118032002 28023a0107"),
    # null twice: no row, of which none is null, all are null, and with bits of none
    (True, NULLS, 2, "0801100118012000 28023a00"), (False, NULLS, 2, "0801100118012000 28033a00"),
    (False, NULLS, 2, "0801100118012000 280432003a00"),
    # a text twice, as it is, and as differences, which texts do not have
    (True, TEXTS, 0, "0801100b18012002 2801620201016a026161"), (False, TEXTS, 0, "0801100b18012002 2801620201016a026161", 1),
]  # fmt: skip


@pytest.mark.parametrize("at", range(len(FOOTERS)))
def test_footers_are_tested_where_no_column_is_read(tmp_path, at):
    is_read, message, nulls, bounds, *kept = FOOTERS[at]
    (tmp_path / "table").write_bytes(file_of(message, nulls, bytes.fromhex(bounds), *kept))
    for call in (Table.footer, Table.load, lambda path: Table.load(path, [])):
        if is_read:
            assert call(tmp_path / "table").rows == 2
        else:
            with pytest.raises(errors.BadMetadata):
                call(tmp_path / "table")


def test_files_that_are_no_tables(tmp_path):
    KEPT["same"].save(tmp_path / "column")
    Column.of([1, 2], "i32").cast("date").save(tmp_path / "days")
    (tmp_path / "line").write_bytes(b"hivevigil type 1 tdD\n" + Column.of([1, 2], "i32").to_bytes())
    (tmp_path / "text").write_text("place,level\n")
    (tmp_path / "empty").write_bytes(b"")
    for name, size, more in (
        ("column", len(KEPT["same"].to_bytes()), ": Column.load reads the file of a column"),
        ("days", 31, ": Column.load reads the file of a column"),
        ("line", 41, ": Column.load reads the file of a column"),
        ("text", 12, ""), ("empty", 0, ""),
    ):  # fmt: skip
        said = f"load: {tmp_path / name}, of {size} bytes, is not a file that Table.save wrote{more}"
        for call in (Table.load, Table.footer):
            with pytest.raises(errors.BadMetadata, match=f"^{re.escape(said)}$"):
                call(tmp_path / name)
    KEPT.save(tmp_path / "table")
    with pytest.raises(errors.BadMetadata, match="is not a file that save wrote: Table.load reads the file of a table$"):
        Column.load(tmp_path / "table")
    with pytest.raises(KeyError, match="no column has the name 'x'"):
        Table.load(tmp_path / "table", ["x"])
    with pytest.raises(ValueError, match="^two columns have the name 'level'$"):
        Table.load(tmp_path / "table", ["level", "level"])
    with pytest.raises(TypeError, match="^columns are named by a list, not by 'level'$"):
        Table.load(tmp_path / "table", "level")
    with pytest.raises(FileNotFoundError):
        Table.load(tmp_path / "none")
    with pytest.raises(TypeError, match="^a file is named by a text or a path, not by 3$"):
        KEPT.save(3)


def test_a_file_stays_where_a_column_cannot_be_written(tmp_path):
    deep = Column.of([1, 1])
    for _ in range(17):
        deep = Column.from_runs([1, 2], deep)
    KEPT.save(tmp_path / "table")
    with pytest.raises(errors.Unsupported, match=r"^column 'b': to_bytes \(at most 16 levels of runs\)"):
        Table({"a": [1, 2], "b": deep}).save(tmp_path / "table")
    assert Table.load(tmp_path / "table").equals(KEPT) and os.listdir(tmp_path) == ["table"]


def test_a_pipe_is_read(tmp_path):
    os.mkfifo(tmp_path / "pipe")
    if os.fork() == 0:
        (tmp_path / "pipe").write_bytes(KEPT_BYTES)
        os._exit(0)
    assert Table.load(tmp_path / "pipe", ["place"]).to_dict() == {"place": ["Oslo", "Oslo", None]}
    os.wait()


KEPT_BYTES = KEPT.to_bytes()


def test_many_rows_in_few_bytes():
    table = Table({"a": Column.constant("x", 2**60), "b": Column.from_runs([2**59, 2**60], [None, 2])})
    data = table.to_bytes()
    assert len(data) < 250 and Table.from_bytes(data).equals(table)


# ---- Protocol Buffers' own library


@pytest.fixture(scope="module")
def model():
    """The model of examples/bytes, where Protocol Buffers are there."""
    pytest.importorskip("google.protobuf")
    sys.path.insert(0, str(EXAMPLES))
    try:
        with warnings.catch_warnings():
            warnings.simplefilter("ignore")
            import table_model

            yield table_model
    except FileNotFoundError:
        pytest.skip("protoc is not there")
    finally:
        sys.path.remove(str(EXAMPLES))


@given(sample=tables())
def test_the_model_reads_what_is_written(model, sample):
    data = sample.table.to_bytes()
    found = model.table(data)
    assert found is not None and [footer.name for footer in found.footer.columns] == sample.names
    assert model.written(found) == data


@given(seed=st.integers(0, 2**32))
def test_what_the_model_writes_is_read(model, seed):
    message = model.random_table(random.Random(seed))
    data = model.written(message)
    table = Table.from_bytes(data)
    assert table.to_bytes() == data and table.rows == message.footer.rows
    for footer, column in zip(message.footer.columns, message.columns):
        assert table[footer.name].storage().to_bytes() == model.model.written(column)
        assert table.logical_types.get(footer.name, "") == footer.logical_type


@pytest.mark.parametrize("seed", range(int(os.environ.get("HIVEVIGIL_TABLES", "4"))))
def test_damaged_tables(model, seed):
    """Read exactly where the model reads them, and then as the same."""
    refused = 0
    for data in model.tables(150, seed):
        due = model.table(data) is not None
        try:
            found = Table.from_bytes(data)
        except errors.BadMetadata:
            found, refused = None, refused + 1
        assert (found is not None) == due, data.hex()
        assert found is None or found.to_bytes() == data
    assert 60 < refused < 100
