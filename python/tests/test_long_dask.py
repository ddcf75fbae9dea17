"""Columns of 2^40 rows in a few runs, in chunks of Dask: commands and answers are those of the stretches of the whole,
and no row is written or read."""
import operator
import tempfile
from pathlib import Path

import pytest
from hypothesis import given
from hypothesis import strategies as st
from long_rows import SIGNS, beside, held, joined, kept, longs, masks, nothing_or, parts_of, totals, worked
from rows import BITS, values

dask = pytest.importorskip("dask")

from hivevigil import Column, Table  # noqa: E402
from hivevigil.dask import ChunkedColumn  # noqa: E402
from hivevigil.dask_tables import ChunkedTable  # noqa: E402
from long_chunks import bounds, chunks_of  # noqa: E402


def rows_of(lazy):
    """The stretches of a chunked column, worked in this thread."""
    return parts_of(lazy.compute(scheduler="sync"))


def answered(*lazy):
    return dask.compute(*lazy, scheduler="sync")


@given(st.data(), totals(), st.sampled_from(list(SIGNS)))
def test_chunks_are_compared_and_kept(data, total, sign):
    sample, places = data.draw(longs(total)), data.draw(bounds(total))
    other = data.draw(longs(total, types=(sample.type,)))
    value = data.draw(st.sampled_from([value for _, value in sample.parts] + [None]))
    chunks = chunks_of(sample.column, places)
    mask, due = chunks.compare(sign, value), worked(lambda row: held(sign)(row, value), sample.parts)
    assert rows_of(mask) == due and rows_of(chunks.filter(mask)) == kept(sample.parts, due)
    assert rows_of(chunks.compare(sign, chunks_of(other.column, places))) == worked(
        held(sign), sample.parts, other.parts
    )


@given(st.data(), totals())
def test_masks_of_chunks_are_connected(data, total):
    left, right, places = data.draw(masks(total)), data.draw(masks(total)), data.draw(bounds(total))
    one, other = chunks_of(left.column, places), chunks_of(right.column, places)
    both = worked(lambda a, b: False if False in (a, b) else None if None in (a, b) else True, left.parts, right.parts)
    either = worked(lambda a, b: True if True in (a, b) else None if None in (a, b) else False, left.parts, right.parts)
    assert rows_of(one & other) == both and rows_of(one | other) == either
    assert rows_of(~one) == worked(nothing_or(operator.not_), left.parts)
    sample = data.draw(longs(total))
    chosen = worked(lambda flag, row: row if flag is True else sample.parts[0][1], left.parts, sample.parts)
    assert rows_of(chunks_of(sample.column, places).where(one, sample.parts[0][1])) == chosen


@given(st.data(), totals())
def test_chunks_are_worked(data, total):
    left, right = data.draw(longs(total, types=("u8", "i16"))), data.draw(longs(total, types=("i8", "u16")))
    places, value = data.draw(bounds(total)), data.draw(st.integers(-300, 300))
    one, other = (chunks_of(side.column, places).cast("i64?") for side in (left, right))
    for work in (operator.add, operator.sub, operator.mul):
        assert rows_of(work(one, other)) == worked(nothing_or(work), left.parts, right.parts)
        assert rows_of(work(one, value)) == worked(nothing_or(lambda row, work=work: work(row, value)), left.parts)
    assert rows_of(one.fill(value)) == worked(lambda row: value if row is None else row, left.parts)
    numbers = [30, -10, None]
    codes = [None if row is None else row % 3 for _, row in right.parts]
    stops = [sum(rows for rows, _ in right.parts[: at + 1]) for at in range(len(codes))]
    coded = chunks_of(Column.from_runs(stops, Column.of(codes, "u8?")), places)
    due = worked(lambda row: None if row is None else numbers[row % 3], right.parts)
    in_runs = coded.encode()  # codes that are one value are written out
    assert rows_of(in_runs.take_from(Column.of(numbers))) == due


@given(st.data(), totals())
def test_answers_about_chunks_are_joined(data, total):
    sample, places = data.draw(longs(total, types=(*BITS, "utf8", "bool"))), data.draw(bounds(total))
    chunks = chunks_of(sample.column, places)
    least, greatest, rows, part = answered(chunks.min(), chunks.max(), chunks.rows(), chunks.aggregate())
    there = [value for _, value in sample.parts if value is not None]
    assert (least, greatest) == ((min(there), max(there)) if there else (None, None)) and rows == total == part.rows
    assert part.null_count == sum(rows for rows, value in sample.parts if value is None)
    ranks = [(value is not None, 0 if value is None else value) for _, value in sample.parts]
    assert part.runs == len(sample.parts) and part.is_sorted == (ranks == sorted(ranks))


@given(st.data(), totals())
def test_chunks_are_added(data, total):
    sample, places = data.draw(longs(total, types=("u8", "i16", "i8", "u16"))), data.draw(bounds(total))
    (found,) = answered(chunks_of(sample.column, places).sum())
    assert found == sum(rows * value for rows, value in sample.parts if value is not None)


@given(st.data(), totals(), st.integers(1, 4))
def test_chunks_of_other_sizes(data, total, runs):
    sample = data.draw(longs(total))
    again = chunks_of(sample.column, data.draw(bounds(total))).rechunk(runs)
    parts = answered(*(again.chunk(number) for number in range(again.chunk_count)))
    assert joined(run for part in parts for run in parts_of(part)) == sample.parts
    assert max(part.run_count() for part in parts) <= runs and rows_of(again.encode()) == sample.parts


def table_of(samples, places):
    return ChunkedTable.from_columns({name: chunks_of(sample.column, places) for name, sample in samples.items()})


@given(st.data(), totals(), st.sampled_from(list(SIGNS)))
def test_tables_in_chunks(data, total, sign):
    samples = {"a": data.draw(longs(total)), "b": data.draw(longs(total))}
    mask, places = data.draw(masks(total)), data.draw(bounds(total))
    table = table_of(samples, places)
    value = data.draw(values(samples["a"].type)) if samples["a"].type != "float64" else 1.5
    due = worked(lambda row: held(sign)(row, value), samples["a"].parts)
    valid = worked(lambda left, right: left is not None and right is not None, samples["a"].parts, samples["b"].parts)
    for found, flags in (
        (table.filter_by("a", sign, value), due),
        (table.filter(chunks_of(mask.column, places)), mask.parts),
        (table.map_chunks(Table.drop_null), valid),
        (table.rechunk(3).to_runs().select("b", "a"), [(total, True)]),
    ):
        (whole,) = answered(found)
        for name, sample in samples.items():
            assert parts_of(whole[name]) == kept(sample.parts, flags)


@given(st.data(), totals())
def test_groups_of_tables_in_chunks(data, total):
    keys, levels = data.draw(longs(total, types=("bool", "utf8", "i8"))), data.draw(longs(total, types=("u8", "i16")))
    table = table_of({"key": keys, "level": levels}, data.draw(bounds(total)))
    folds = ("count", "sum", "min", "max", "first", "last")
    (found,) = answered(table.group_by("key").agg(size="size", **{fold: ("level", fold) for fold in folds}))
    due = []
    for rows, (key, level) in beside(keys.parts, levels.parts):
        if not due or [due[-1][0]] != [key]:
            due.append((key, []))
        due[-1][1].append((rows, level))
    assert list(zip(*found.to_dict().values())) == [(key, *folded(rows)) for key, rows in due]


def folded(stretches):
    """How many rows, how many are not null, and what these are: sum, least, greatest, first and last."""
    there = [(rows, value) for rows, value in stretches if value is not None]
    numbers = [value for _, value in there]
    return (sum(rows for rows, _ in stretches), sum(rows for rows, _ in there), *(
        (sum(rows * value for rows, value in there), min(numbers), max(numbers), numbers[0], numbers[-1])
        if there else (None,) * 5
    ))


@given(st.data(), totals())
def test_chunks_in_files(data, total):
    sample, other = data.draw(longs(total)), data.draw(longs(total, types=("i32",)))
    places, value = data.draw(bounds(total)), data.draw(st.sampled_from([0, 1, 2]))
    low = worked(lambda row: held("<=")(row, value), other.parts)
    with tempfile.TemporaryDirectory() as folder:
        columns, tables = [], []
        for number, (start, stop) in enumerate(zip(places, places[1:])):
            part = sample.column.slice(start, stop)
            columns.append(Path(folder) / f"{number}.column")
            part.save(columns[-1])
            tables.append(Path(folder) / f"{number}.table")
            Table({"a": part, "b": other.column.slice(start, stop)}).save(tables[-1])
        assert rows_of(ChunkedColumn.from_files(columns)) == sample.parts
        assert rows_of(ChunkedColumn.from_tables(tables, "a", where=("b", "<=", value))) == kept(sample.parts, low)
        found = ChunkedTable.from_files(tables).filter_by("b", "<=", value)
        assert rows_of(found["a"]) == kept(sample.parts, low) and rows_of(found["b"]) == kept(other.parts, low)
