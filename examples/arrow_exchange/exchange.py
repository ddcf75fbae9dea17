"""Arrays and streams exchanged with another library by capsules, every row compared with that library's own list.

    python3 examples/arrow_exchange/exchange.py pyarrow|polars|duckdb

Ends with 0 and a line that says what was exchanged, or with 1 at the first difference. Nothing is installed.
"""
import importlib
import sys
from decimal import Decimal
from pathlib import Path

sys.path.insert(0, str(Path(__file__).resolve().parents[2] / "python"))

from hivevigil import Column, columns_from_arrow


def check(what, found, due):
    if found != due:
        raise SystemExit(f"{what}: {found!r}, and should be {due!r}")


def windows(rows):
    """Every offset and length within this number of rows."""
    return [(offset, length) for offset in range(rows + 1) for length in range(rows - offset + 1)]


# ---- PyArrow ----


def run_arrays(arrow):
    """Run-end encoded arrays of each width of ends, over numbers, texts and a dictionary."""
    texts = arrow.array(["a", None, "longer than twelve bytes"])
    for values in (arrow.array([7, None, 8]), texts, texts.dictionary_encode()):
        for ends in (arrow.int16(), arrow.int32(), arrow.int64()):
            yield arrow.RunEndEncodedArray.from_arrays(arrow.array([2, 5, 6], ends), values)


def flat_arrays(arrow):
    yield arrow.array([1, None, 3, 3, None, -1])
    yield arrow.array([True, None, False, True, True, None])
    yield arrow.array([b"a", None, b"", b"\xff"], arrow.large_binary())
    yield arrow.array([Decimal("1.50"), None, Decimal("-2.25")], arrow.decimal128(10, 2))
    yield arrow.array(["x", None, "y", "x"]).dictionary_encode()
    if hasattr(arrow, "string_view"):
        yield arrow.array(["x", None, "longer than twelve bytes"], arrow.string_view())


def with_pyarrow(arrow):
    exchanged = 0
    for whole in [*run_arrays(arrow), *flat_arrays(arrow)]:
        for offset, length in windows(len(whole)):
            part = whole.slice(offset, length)
            column = Column.from_arrow(part)
            check(f"{part.type} in", column.to_list(), part.to_pylist())
            again = arrow.array(column)
            again.validate(full=True)
            check(f"{part.type} out", again.to_pylist(), part.to_pylist())
            exchanged += 1
    days = arrow.array([0, 19_000, None], arrow.int32()).cast(arrow.date32())
    check("dates in", Column.from_arrow(days).to_list(), [0, 19_000, None])
    chunks = arrow.chunked_array([arrow.array([1, 1]), arrow.array([], arrow.int64()), arrow.array([None, 2])])
    check("chunks in", Column.from_arrow(chunks).to_list(), [1, 1, None, 2])
    table = arrow.table({"number": [1, 2, None], "text": ["x", None, "x"]})
    columns = columns_from_arrow(table)
    check("a table in", {name: column.to_list() for name, column in columns.items()}, table.to_pydict())
    return f"{exchanged} windows of arrays, of which those of runs in each width, a stream and a table"


# ---- Polars and DuckDB, which have no runs of their own ----


def with_polars(polars):
    lists = [[1, 1, None, 3], ["a", None, "longer than twelve bytes", "a"], [True, None, False]]
    for rows in lists:
        series = polars.Series(rows)
        column = Column.from_arrow(series)
        check("a series in", column.to_list(), rows)
        check("a series out", polars.Series(column.decode()).to_list(), rows)
    frame = polars.DataFrame({"number": [1, 2], "text": ["x", None]})
    columns = columns_from_arrow(frame)
    check("a frame in", {name: column.to_list() for name, column in columns.items()}, frame.to_dict(as_series=False))
    return f"{len(lists)} series in and out, and a frame in"


def with_duckdb(duckdb):
    text = "case when range % 4 = 0 then null else 'text ' || range end"
    query = f"select range // 3 as number, {text} as text from range(5000)"
    columns = columns_from_arrow(duckdb.sql(query).arrow())
    rows = duckdb.sql(query).fetchall()
    check("numbers in", columns["number"].to_list(), [row[0] for row in rows])
    check("texts in", columns["text"].to_list(), [row[1] for row in rows])
    return "a query's 5,000 rows of two columns in"


WITH = {"pyarrow": with_pyarrow, "polars": with_polars, "duckdb": with_duckdb}


def main():
    if len(sys.argv) != 2 or sys.argv[1] not in WITH:
        raise SystemExit(__doc__)
    name = sys.argv[1]
    library = importlib.import_module(name)
    print(f"{name} {library.__version__}: {WITH[name](library)}, as {name} has them")


if __name__ == "__main__":
    main()
