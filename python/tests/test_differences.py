"""Columns of tables that are kept as differences: what is written and read is what Protocol Buffers' own library writes
and reads by docs/table.proto, and each column comes back in its form, byte for byte."""
import os
import random
import subprocess
import sys
import tempfile
from pathlib import Path

import pytest
from hivevigil import Column, Table, _differences, _table_files, errors
from hypothesis import given
from hypothesis import strategies as st
from rows import BITS, least_and_greatest, samples
from tables import NAMES
from test_table_files import model  # noqa: F401, a fixture

HEADS = {1: b"\n\thivevigil\x10\1", 2: b"\n\thivevigil\x10\2"}
SECOND = 10**6


@st.composite
def steady(draw):
    """Rows of a type of integers that mostly grow by the same, and the type."""
    name = draw(st.sampled_from([*BITS]))
    least, greatest = least_and_greatest(name)
    number, step = draw(st.sampled_from([0, 1, 100, greatest - 40, least + 40])), draw(st.sampled_from([0, 1, 3, -2]))
    rows = []
    for _ in range(draw(st.integers(0, 60))):
        number += step if draw(st.integers(0, 9)) else draw(st.sampled_from([0, 7, -7, 2**40, greatest - least]))
        rows.append(number if least <= number <= greatest and draw(st.integers(0, 19)) else None)
    nullable = None in rows or draw(st.booleans())
    return Column.of(rows, name + "?" * nullable), rows


@st.composite
def steady_tables(draw):
    """A table with some columns that grow steadily, flat, in runs and in windows, and some of any type."""
    columns = {}
    for name in draw(st.lists(NAMES, min_size=1, max_size=3, unique=True)):
        if draw(st.integers(0, 3)):
            column, _ = draw(steady())
            form = draw(st.sampled_from(["flat", "runs", "window"]))
            columns[name] = column if form == "flat" else column.to_runs()
            columns[name] = columns[name][1:-1] if form == "window" else columns[name]
        else:
            columns[name] = draw(samples()).column
    count = min(map(len, columns.values()))
    return Table({name: column if len(column) == count else column[:count] for name, column in columns.items()})


@given(steady_tables())
def test_bytes_are_the_table_again(table):
    data, plain = table.to_bytes(differences=True), table.to_bytes()
    again = Table.from_bytes(data)
    assert again.equals(table) and again.to_bytes() == plain and again.to_bytes(differences=True) == data
    assert {name: again[name].to_bytes() for name in again} == {name: table[name].to_bytes() for name in table}
    assert plain.startswith(HEADS[1]) and data.startswith(HEADS[1 if data == plain else 2])


@given(table=steady_tables())
def test_the_model_writes_the_same(model, table):  # noqa: F811
    columns = {name: model.model.column(table[name].to_bytes()) for name in table}
    found = {name: model.as_differences(column) for name, column in columns.items()}
    kept = {name: parts for name, parts in found.items() if parts is not None}
    due = model.written(model.made(table.rows, columns, {}, kept))
    data = table.to_bytes(differences=True)
    assert data == due and model.table(data) is not None


@given(seed=st.integers(0, 2**32))
def test_what_the_model_writes_is_read(model, seed):  # noqa: F811
    message = model.random_table(random.Random(seed), True)
    table = Table.from_bytes(model.written(message))
    assert table.rows == message.footer.rows and model.table(model.written(message)) is not None
    for footer, column in zip(message.footer.columns, model.columns(message)):
        assert table[footer.name].storage().to_bytes() == model.model.written(column)
        assert table.logical_types.get(footer.name, "") == footer.logical_type


@pytest.mark.parametrize("seed", range(int(os.environ.get("HIVEVIGIL_TABLES", "4"))))
def test_damaged_tables(model, seed):  # noqa: F811
    """Read exactly where the model reads them, and then as the same."""
    refused = 0
    for data in model.tables(150, seed, True):
        message = model.table(data)
        try:
            found = Table.from_bytes(data)
        except (errors.BadMetadata, errors.OverLimit):
            found, refused = None, refused + 1
        assert (found is not None) == (message is not None), data.hex()
        if found is not None:
            due = {footer.name: model.model.written(column)
                   for footer, column in zip(message.footer.columns, model.columns(message))}
            assert {name: found[name].storage().to_bytes() for name in found} == due
    assert 60 < refused < 100


def steps_of(rows, name="i64"):
    """How a column of these rows is kept: the bytes of the table, and its form by the footer."""
    return Table({"a": Column.of(rows, name)}).to_bytes(differences=True)


def test_which_columns_are_kept_so():
    regular = list(range(0, 300, 3))
    assert steps_of(regular).startswith(HEADS[2]) and len(steps_of(regular)) < 150
    assert steps_of(regular, "u8?" if max(regular) < 256 else "u16?").startswith(HEADS[2])
    edges = [-(2**63), 2**63 - 1] * 30
    assert steps_of(edges).startswith(HEADS[1])  # a difference is past 64 bits
    assert steps_of([-(2**62), 2**62 - 1] * 30).startswith(HEADS[1])  # as long as the rows
    assert steps_of([2**63 - 1 + row for row in range(60)], "u64").startswith(HEADS[2])
    assert steps_of([2**63 + row for row in range(60)], "u64").startswith(HEADS[1])  # the first is past i64
    for column in (Column.constant(7, 60), Column.of(["a"] * 60), Column.of([True] * 60).to_runs()):
        assert Table({"a": column}).to_bytes(differences=True) == Table({"a": column}).to_bytes()
    # what lies under null does not come back, so such a column is kept as its rows
    under_null = Column.from_buffer(Column.of(regular).to_array(), [row != 9 for row in regular])
    assert Table({"a": under_null}).to_bytes(differences=True).startswith(HEADS[1])
    assert Table({"a": under_null.fill(0).to_runs()}).to_bytes(differences=True).startswith(HEADS[2])


def test_times_at_regular_steps(tmp_path):
    """As the rows, whatever was skipped or is null."""
    times, at = [], 1_700_000_000 * SECOND
    for row in range(5000):
        at += 60 * SECOND + (row % 700 == 699) * 12345678
        times.append(None if row in (17, 18, 4000) else at)
    column = Column.of(times, "i64?").cast("timestamp[us, UTC]?")
    table = Table({"at": column, "in runs": column.to_runs(), "level": Column.of([3] * 5000).to_runs()})
    table.save(tmp_path / "table", differences=True)
    assert (tmp_path / "table").read_bytes() == table.to_bytes(differences=True)
    assert (tmp_path / "table").stat().st_size < 2000 and len(table.to_bytes()) > 80_000
    found = Table.load(tmp_path / "table")
    assert found.equals(table) and found.logical_types == table.logical_types
    assert {name: found[name].form for name in found} == {"at": "flat", "in runs": "runs", "level": "runs"}
    assert Table.load(tmp_path / "table", ["in runs"])["in runs"].to_list() == column.to_list()
    footer = Table.footer(tmp_path / "table")
    assert [known.form for known in footer.columns.values()] == ["flat", "runs", None]
    assert footer.columns["at"].least == column.min() and footer.columns["at"].greatest == column.max()
    assert not footer.may_have("at", ">", column.max()) and footer.columns["at"].type == "i64?"


KEPT = Table(
    {"at": Column.of([100, 103, 106, 109, None, 112, 112, 115, 118, 121, 124, 127], "i32?"),
     "number": Column.of(list(range(12)), "u16").to_runs(), "place": ["Oslo"] * 12},
    {"at": "tdD"},
)  # fmt: skip


def test_each_truncation_is_refused():
    data = KEPT.to_bytes(differences=True)
    assert Table.from_bytes(data).equals(KEPT) and data.startswith(HEADS[2])
    for size in range(len(data)):
        for part in (data[:size], data[size + 1 :]):
            with pytest.raises(errors.BadMetadata):
                Table.from_bytes(part)


def test_each_byte_counts(tmp_path):
    """A byte that is another makes another table, or none; where one column is read, it may be another's."""
    data, refused = KEPT.to_bytes(differences=True), 0
    for place in range(len(data)):
        for change in (1, 2, 128, 255 ^ data[place]):
            other = bytearray(data)
            other[place] ^= change
            try:
                # names, days and texts may be others; all else is held against something
                found = Table.from_bytes(other)
                assert found.rows == 12 and found.to_bytes(differences=True) == other
            except (errors.BadMetadata, errors.OverLimit):
                refused += 1
            (tmp_path / "other").write_bytes(other)
            try:
                assert Table.load(tmp_path / "other", ["number"]).names == ["number"]
            except (errors.BadMetadata, errors.OverLimit, KeyError):
                pass
    assert refused > 3 * len(data)


# ---- How much memory a file may ask for


def due_bytes(table, footer, names):
    """What columns that are kept as differences take: each row as wide as its type, or each run and 8 for its end."""
    total = 0
    for name in names:
        width, form = BITS.get(table[name].type.rstrip("?"), 0) // 8, footer.columns[name].form
        rows = table[name].storage().to_list()
        runs = sum(place == 0 or row != rows[place - 1] for place, row in enumerate(rows))
        total += {None: 0, "flat": width * len(rows), "runs": (width + 8) * runs}[form]
    return total


@given(steady_tables(), st.data())
def test_a_limit_of_what_is_read(table, data):
    """Exactly the files are refused of which the columns that are read take more, and what they take is said."""
    with tempfile.TemporaryDirectory() as folder:
        path = Path(folder) / "kept.hv"
        table.save(path, differences=True)
        footer = Table.footer(path)
        names = data.draw(st.lists(st.sampled_from(table.names), unique=True))
        for chosen in (None, names):
            due = due_bytes(table, footer, table.names if chosen is None else chosen)
            for limit in {due, due + 1, 2**30, 2**64 - 1}:
                assert Table.load(path, chosen, limit=limit).equals(table if chosen is None else table.select(*names))
            for limit in {0, due // 2, due - 1} & set(range(due)):
                with pytest.raises(errors.OverLimit) as refused:
                    Table.load(path, chosen, limit=limit)
                said = f"load: {path}: the columns kept as differences take {due} bytes in memory, above the limit of {limit}"
                assert refused.value.fields[:2] == (due, limit) and str(refused.value).startswith(said)
                if chosen is None:
                    with pytest.raises(errors.OverLimit):
                        Table.from_bytes(path.read_bytes(), limit=limit)


def test_no_column_is_read_of_a_file_over_the_limit(monkeypatch):
    """A few bytes for each of some columns, of which none is made before the file is refused."""
    rows = 2**12
    column = Column.from_runs([rows], Column.of([7])).decode()
    data = Table({str(number): column for number in range(9)}).to_bytes(differences=True)
    assert len(data) < 1200
    with monkeypatch.context() as patched:
        patched.setattr(_table_files.TableFile, "column", lambda *_: pytest.fail("a column is read"))
        with pytest.raises(errors.OverLimit, match=f"take {9 * 8 * rows} bytes in memory, above the limit of {2**18}"):
            Table.from_bytes(data, limit=2**18)
    assert Table.from_bytes(data, limit=9 * 8 * rows).rows == rows
    for limit, kind in ((-1, ValueError), (2**64, OverflowError), ("1", TypeError), (1.5, TypeError)):
        with pytest.raises(kind, match="the limit"):
            Table.from_bytes(data, limit=limit)


def test_chunks_and_the_program_have_the_limit(tmp_path):
    path = tmp_path / "kept.hv"
    Table({"a": list(range(1000))}).save(path, differences=True)
    command = [sys.executable, "-m", "hivevigil", str(path), "--to", str(tmp_path / "to.hv")]
    env = {**os.environ, "PYTHONPATH": str(Path(__file__).parents[1])}
    ended = subprocess.run([*command, "--limit", "7999"], capture_output=True, text=True, env=env)
    assert ended.returncode == 1 and "take 8000 bytes in memory, above the limit of 7999" in ended.stderr
    assert subprocess.run([*command, "--limit", "8000"], env=env).returncode == 0
    pytest.importorskip("dask")
    from hivevigil.dask import ChunkedColumn
    from hivevigil.dask_tables import ChunkedTable

    for chunks in (lambda limit: ChunkedTable.from_files([path], limit=limit)["a"],
                   lambda limit: ChunkedTable.from_files([path], limit=limit).to_runs()["a"],
                   lambda limit: ChunkedColumn.from_tables([path], "a", limit=limit),
                   lambda limit: ChunkedColumn.from_tables([path], "a", ("a", ">=", 0), limit)):
        assert chunks(8000).sum().compute(scheduler="sync") == 499_500
        with pytest.raises(errors.OverLimit):
            chunks(7999).sum().compute(scheduler="sync")


# ---- What only a file says


def forged(model, steps, rows, runs, least, greatest, form, kind=8):  # noqa: F811
    """A table of one column as differences: runs of steps, each a number and how many rows have it."""
    part = model.messages.begun(8, model.RUNS, rows)
    part.offset, part.ends_type = 0, next(width for width in (1, 2, 3, 4) if rows < 2 ** (8 * model.SIZES[width]))
    part.run_lengths.extend(count for _, count in steps)
    part.values.CopyFrom(model.integers([step for step, _ in steps], 8, False, model.BY_BITS))
    whole = model.Table()
    whole.magic, whole.version, whole.footer.rows = "hivevigil", 2, rows
    whole.columns.add().CopyFrom(part)
    footer = whole.footer.columns.add()
    footer.name, footer.logical_type, footer.size = "a", "", len(model.model.written(part))
    footer.nulls, footer.runs, footer.differences = 0, runs, form
    footer.bounds.CopyFrom(model.integers([least, greatest], kind, False, model.BY_BITS))
    whole.footer_size = len(model.written(whole.footer))
    return model.written(whole)


def test_many_rows_in_few_runs(model):  # noqa: F811
    """Rows that are equal take no memory where they come back as runs."""
    half = 2**60
    data = forged(model, [(5, 1), (0, half), (-2, 1), (0, half)], 2 * half + 2, 2, 3, 5, model.AS_RUNS)
    assert [tuple(run) for run in Table.from_bytes(data)["a"].runs()] == [(0, half + 1, 5), (half + 1, 2 * half + 2, 3)]
    for steps, rows, runs, greatest, form in (
        ([(1, half)], half, half, half, model.AS_RUNS), ([(1, half)], half, half, half, model.AS_FLAT),
        ([(7, 1), (0, half)], half + 1, 1, 7, model.AS_FLAT),
    ):  # fmt: skip
        with pytest.raises(errors.OverLimit, match="bytes in memory, above the limit of 1073741824"):
            Table.from_bytes(forged(model, steps, rows, runs, min(7, greatest), greatest, form))
        with pytest.raises(errors.BadMetadata):
            Table.from_bytes(forged(model, steps, rows, 7, min(7, greatest), greatest, form), limit=2**64 - 1)


def test_how_many_there_may_be(model, monkeypatch):  # noqa: F811
    monkeypatch.setattr(_differences, "MOST", 1000)
    for form in (model.AS_FLAT, model.AS_RUNS):
        assert len(Table.from_bytes(forged(model, [(2, 1000)], 1000, 1000, 2, 2000, form))["a"]) == 1000
        with pytest.raises(errors.BadMetadata):
            Table.from_bytes(forged(model, [(2, 1001)], 1001, 1001, 2, 2002, form))
    equal = [(2, 999), (0, 10**6)]
    assert len(Table.from_bytes(forged(model, equal, 10**6 + 999, 999, 2, 1998, model.AS_RUNS))["a"]) == 10**6 + 999
    with pytest.raises(errors.BadMetadata):
        Table.from_bytes(forged(model, equal, 10**6 + 999, 999, 2, 1998, model.AS_FLAT))
    assert steps_of(list(range(1000))).startswith(HEADS[2]) and steps_of(list(range(1001))).startswith(HEADS[1])


@pytest.mark.parametrize(
    "kind, fits, past",
    [
        (1, [(255, 1), (0, 1)], [(255, 1), (1, 1)]),
        (1, [(255, 1), (-255, 1)], [(255, 1), (-256, 1)]),
        (5, [(-128, 1), (255, 1)], [(-128, 1), (-1, 1)]),
        (8, [(2**63 - 1, 1), (-1, 1)], [(2**63 - 1, 1), (1, 1)]),
        (8, [(-(2**62), 2)], [(-(2**62), 3)]),
        (4, [(2**63 - 1, 2), (1, 1)], [(2**63 - 1, 2), (1, 2)]),
        (4, None, [(1, 2**63 + 5)]),  # too many, in memory for a few
    ],
)
def test_rows_that_the_type_does_not_have(model, kind, fits, past):  # noqa: F811
    if fits is not None:
        rows = model.totals([step for step, count in fits for _ in range(count)])
        runs = sum(row != before for row, before in zip(rows, [None, *rows]))
        data = forged(model, fits, len(rows), runs, min(rows), max(rows), model.AS_FLAT, kind)
        assert Table.from_bytes(data)["a"].to_list() == rows
    count = sum(rows for _, rows in past)
    with pytest.raises(errors.OverLimit if count > 2**60 else errors.BadMetadata):
        Table.from_bytes(forged(model, past, count, count, 0, 1, model.AS_FLAT, kind))


def test_the_versions(model):  # noqa: F811
    """Version 2 has a column that is kept as differences, and version 1 none."""
    kept, plain = KEPT.to_bytes(differences=True), KEPT.to_bytes()
    for version, data in ((1, kept), (2, plain), (3, kept), (0, plain)):
        other = data[: len(HEADS[1]) - 1] + bytes([version]) + data[len(HEADS[1]) :]
        with pytest.raises(errors.BadMetadata):
            Table.from_bytes(other)
        assert model.table(other) is None
    message = model.made(3, {"a": model.integers([1, 2, 9], 8, False, model.BY_BITS)}, {})
    assert Table.from_bytes(model.written(message))["a"].to_list() == [1, 2, 9]
    message.version, message.footer.columns[0].differences = 2, 0
    message.footer_size = len(model.written(message.footer))
    with pytest.raises(errors.BadMetadata):
        Table.from_bytes(model.written(message))
    assert model.table(model.written(message)) is None
