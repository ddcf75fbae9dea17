"""Columns of 2^40 rows in a few runs that are kept as bytes and in files, and exchanged by Arrow's C interface: no row
is written or read. What goes out is read by an independent reader, and what comes in is laid out by hand."""
import tempfile
from itertools import accumulate
from pathlib import Path

from arrow_model import Made, MadeStream, numbers, rows_of, streamed, structs_of
from hivevigil import Column, Table, columns_from_arrow
from hypothesis import given
from hypothesis import strategies as st
from long_rows import FAR, joined, longs, parts_of, totals
from rows import TYPES

FEW_BYTES = 4000  # of a column of a few runs, with its texts


def stretches_of(schema, items):
    """The stretches that an array of run ends and values shows."""
    assert schema.format == b"+r" and items.n_children == 2 and items.null_count == 0
    ends = rows_of(schema.children[0].contents, items.children[0].contents)
    values = rows_of(schema.children[1].contents, items.children[1].contents)
    first, last = items.offset, items.offset + items.length
    found = []
    for start, stop, value in zip([0, *ends], ends, values):
        found.append((max(0, min(stop, last) - max(start, first)), value))
    return joined(found)


@given(st.data(), totals())
def test_columns_as_bytes_and_in_files(data, total):
    sample = data.draw(longs(total))
    written = sample.column.to_bytes()
    again = Column.from_bytes(written)
    assert (again.type, again.form) == (sample.column.type, sample.column.form) and parts_of(again) == sample.parts
    assert sample.column.equals(again) and sample.column.hash_rows() == again.hash_rows()
    compact = sample.column.to_runs().to_bytes()
    assert len(compact) < FEW_BYTES + sum(len(value) * 4 for _, value in sample.parts if isinstance(value, (str, bytes)))
    with tempfile.TemporaryDirectory() as folder:
        sample.column.save(Path(folder) / "column")
        assert parts_of(Column.load(Path(folder) / "column")) == sample.parts


@given(st.data(), totals(), st.booleans())
def test_tables_in_files(data, total, differences):
    samples = {name: data.draw(longs(total)) for name in ("a", "b")}
    with tempfile.TemporaryDirectory() as folder:
        path = Path(folder) / "table"
        Table({name: sample.column for name, sample in samples.items()}).save(path, differences=differences)
        found, footer = Table.load(path), Table.footer(path)
        assert Table.load(path, ["b"]).types == {"b": found.types["b"]}
        assert footer.rows == found.rows == total
        for name, sample in samples.items():
            assert parts_of(found[name]) == sample.parts
            for _, value in sample.parts:
                assert value is None or value != value or footer.may_have(name, "==", value)


@given(st.data(), totals())
def test_arrays_out_and_in(data, total):
    sample = data.draw(longs(total, types=TYPES))
    assert stretches_of(*structs_of(*sample.column.__arrow_c_array__())) == sample.parts
    again = Column.from_arrow(sample.column)
    assert again.form == "runs" and again.type == sample.column.type and parts_of(again) == sample.parts
    with sample.column.to_arrow("x") as (schema, items):
        assert schema.name == b"x" and stretches_of(schema, items) == sample.parts


@given(st.data(), totals())
def test_streams_out_and_in(data, total):
    sample = data.draw(longs(total, types=TYPES))
    assert joined(streamed(sample.column, stretches_of)) == sample.parts


@given(st.data(), totals())
def test_floats_and_tables_by_streams(data, total):
    samples = {name: data.draw(longs(total)) for name in ("a", "b")}
    table = Table({name: sample.column for name, sample in samples.items()})
    again = Table.from_arrow(table)
    for name, sample in samples.items():
        assert parts_of(again[name]) == sample.parts == parts_of(columns_from_arrow(table)[name])
        assert again.types[name] == table.types[name]


@st.composite
def arrays(draw, total):
    """An array of runs of integers, in a window of longer ones, and its stretches."""
    rows = draw(st.lists(st.none() | st.integers(-3, 3), min_size=1, max_size=8))
    near = st.integers(1, 130) | st.integers(1, 2 * FAR)
    ends = list(accumulate(draw(st.lists(near, min_size=len(rows), max_size=len(rows)))))
    offset = draw(st.sampled_from([0, 3, ends[0], FAR])) if ends[-1] > FAR else 0
    ends = [*ends[:-1], max(ends[-1], offset + total)]
    length = ends[-1] - offset - draw(st.sampled_from([0, 5]))
    made = Made("+r", [], length, offset=offset, children=[numbers(ends, name=b"run_ends"), numbers(rows, name=b"values")])
    shown = [(max(0, min(stop, offset + length) - max(start, offset)), value)
             for start, stop, value in zip([0, *ends], ends, rows)]
    return made, joined(shown)


@given(st.data(), totals())
def test_arrays_of_another_producer(data, total):
    made, due = data.draw(arrays(total))
    column = Column.from_arrow(made)
    assert (column.type, column.form) == ("i64?", "runs") and parts_of(column) == due
    other, after = data.draw(arrays(total))
    whole = Column.from_arrow(MadeStream([made, other]))
    assert parts_of(whole) == joined([*due, *after]) and len(whole) == sum(rows for rows, _ in due + after)
