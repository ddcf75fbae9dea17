"""Tables in chunks of Dask answer as the whole table; of files that a condition excludes only the footers are read. What
does not end is ended, and fails."""
import itertools
import signal
import sys
from datetime import date, timedelta

import pytest
from hypothesis import given
from hypothesis import strategies as st
from rows import stretches

dask = pytest.importorskip("dask")

from dask.base import tokenize  # noqa: E402
from dask.sizeof import sizeof  # noqa: E402

from hivevigil import Column, Table, errors  # noqa: E402
from hivevigil.dask import ChunkedColumn  # noqa: E402
from hivevigil.dask_tables import ChunkedTable  # noqa: E402


@pytest.fixture(autouse=True)
def in_time():
    def ended(*_):
        raise TimeoutError("no answer in 120 s")

    before = signal.signal(signal.SIGALRM, ended)
    signal.alarm(120)
    yield
    signal.alarm(0)
    signal.signal(signal.SIGALRM, before)


OPERATORS = {"==": lambda row, value: row == value, "<": lambda row, value: row < value,
             ">=": lambda row, value: row >= value}


@st.composite
def tables(draw):
    """The columns of a table as lists of as many rows, in stretches, and the table cut into chunks."""
    keys, levels = draw(stretches("utf8")), draw(stretches("i8"))
    count = min(len(keys), len(levels))
    rows = {"key": keys[:count], "level": levels[:count]}
    whole = Table({"key": Column.of(rows["key"], "utf8?"), "level": Column.of(rows["level"], "i8?")})
    bounds = [0, *sorted(draw(st.lists(st.integers(0, count), max_size=9))), count]
    chunks = [whole.slice(start, stop) for start, stop in zip(bounds, bounds[1:])]
    if draw(st.booleans()):
        chunks = [chunk.to_runs() for chunk in chunks]
    return rows, ChunkedTable.from_tables(chunks)


def records(rows):
    return list(zip(*rows.values()))


def found(table):
    return list(zip(*table.compute().to_dict().values()))


@given(tables(), st.sampled_from(list(OPERATORS)), st.integers(-3, 3))
def test_commands_are_those_of_the_whole(given_table, operator, value):
    rows, table = given_table
    holds = OPERATORS[operator]
    kept = [record for record in records(rows) if record[1] is not None and holds(record[1], value)]
    assert found(table.filter_by("level", operator, value)) == kept
    assert found(table.filter(table["level"].compare(operator, value))) == kept
    assert found(table.select("level", "key")) == [(level, key) for key, level in records(rows)]
    assert table["key"].compute().to_list() == rows["key"]
    assert found(table.rechunk(4)) == found(table.persist().to_runs()) == records(rows)
    filled = table.with_column("level", table["level"].fill(value))
    assert found(filled) == [(key, value if level is None else level) for key, level in records(rows)]
    assert table.rows().compute() == len(records(rows))
    assert table.aggregate(lambda chunk: chunk.rows, sum).compute() == len(records(rows))


@given(tables(), st.integers(-3, 3))
def test_columns_are_worked_together(given_table, value):
    rows, table = given_table
    level = table["level"].cast("i64?")
    doubled = [None if row is None else row * 2 - value for row in rows["level"]]
    assert (level + level - value).compute().to_list() == doubled
    assert (level * 2).compute().to_list() == [None if row is None else row * 2 for row in rows["level"]]
    low, high = level.lt(value), level.gt(value)
    due = [None if row is None else row != value for row in rows["level"]]
    assert (low | high).compute().to_list() == due == (~(~low & ~high)).compute().to_list()
    chosen = level.where(high, value).compute().to_list()
    assert chosen == [row if row is not None and row > value else value for row in rows["level"]]
    assert found(ChunkedTable.from_columns({"a": level, "b": high})) == [
        (row, None if row is None else row > value) for row in rows["level"]
    ]


def grouped(rows):
    """The answers about each group, from a loop over the rows."""
    for key, group in itertools.groupby(records(rows), key=lambda record: record[0]):
        levels = [level for _, level in group]
        there = [level for level in levels if level is not None]
        yield (key, len(levels), len(there), *(
            (sum(there), min(there), max(there), there[0], there[-1]) if there else (None,) * 5
        ))


@given(tables())
def test_groups_are_those_of_the_whole(given_table):
    rows, table = given_table
    folds = {fold: ("level", fold) for fold in ("count", "sum", "min", "max", "first", "last")}
    answers = table.group_by("key").agg({"size": "size", **folds})
    assert found(answers) == list(grouped(rows))
    whole = table.compute().group_by("key").agg({"size": "size", **folds})
    assert answers.compute().types == whole.types
    assert found(table.group_by("key").agg()) == [(key, *_[:0]) for key, *_ in grouped(rows)]


def test_groups_keep_logical_types():
    def part(days, seconds):
        took = Column.of([timedelta(seconds=number) for number in seconds], "duration[s]")
        return Table({"day": Column.of([date(2026, 1, day) for day in days]), "took": took})

    parts = [part([1, 2, 2], [5, 6, 7]), part([2, 3], [8, 9])]
    asked = {"sum": ("took", "sum"), "most": ("took", "max"), "rows": "size"}
    answers = ChunkedTable.from_tables(parts).group_by("day").agg(asked).compute()
    assert answers.equals(parts[0].append(parts[1]).group_by("day").agg(asked))
    assert answers["sum"].to_list() == [timedelta(seconds=number) for number in (5, 21, 9)]


def test_sums_of_groups_that_leave_64_bits():
    top = 2**63 - 1
    tables = [Table({"key": [1, 2, 2], "level": [5, top, top]}), Table({"key": [2, 3], "level": [-top, 4]})]
    groups = ChunkedTable.from_tables(tables).group_by("key")
    assert groups.agg(sum=("level", "sum")).compute()["sum"].to_list() == [5, top, 4]
    for tables in (
        [Table({"key": [1], "level": [top]}), Table({"key": [1], "level": [1]})],
        [Table({"key": [0, 1, 1, 2], "level": [0, top, 1, 0]})],
    ):
        refused = ChunkedTable.from_tables(tables).group_by("key").agg(total=("level", "sum"))
        with pytest.raises(OverflowError, match=f"'total' of the group 1 is {top + 1}, past 64 bits"):
            refused.compute()


def stations(folder, count=6):
    """Files of four rows, of which file number n has levels n and 10 * n."""
    paths = [folder / f"{number}.hv" for number in range(count)]
    for number, path in enumerate(paths):
        Table({"day": [number] * 4, "level": [number, None, 10 * number, 7], "other": ["x"] * 4}).save(path)
    return paths


OPENED = []  # the files that are opened while this is a list with None at its front


def _hear(event, arguments):
    if event == "open" and OPENED:
        OPENED.append(str(arguments[0]))


sys.addaudithook(_hear)


def opened_by(call):
    """What a call returns, and which files of tables it opens."""
    OPENED.append(None)
    try:
        answer = call()
        return answer, [name for name in OPENED if name is not None and name.endswith(".hv")]
    finally:
        OPENED.clear()


def test_files_that_a_condition_excludes_are_not_read(tmp_path):
    paths = stations(tmp_path)
    table = ChunkedTable.from_files(paths)
    high, footers = opened_by(lambda: table.filter_by("level", ">", 30).filter_by("day", "<", 5))
    assert (high.skipped, high.chunk_count, len(footers)) == (5, 1, 6 + 2)
    answer, read = opened_by(lambda: high["day"].sum().compute(scheduler="sync"))
    assert (answer, read) == (4, [str(paths[4])])
    # the columns of files that are left out may be anything
    for path in (paths[number] for number in (0, 1, 2, 3, 5)):
        data = path.read_bytes()
        path.write_bytes(data.replace(b"x", b"\xff", 4))
    assert high.compute().to_dict() == {"day": [4], "level": [40], "other": ["x"]}
    with pytest.raises(errors.BadMetadata, match="is not a file that Table.save wrote"):
        ChunkedTable.from_files(paths).compute()
    # nor is a column that nobody asks for
    assert ChunkedTable.from_files(paths)["level"].sum().compute() == 15 + 150 + 42
    assert ChunkedTable.from_files(paths).select("day").compute()["day"].sum() == 60


def test_a_condition_that_no_file_meets(tmp_path):
    paths = stations(tmp_path)
    none = ChunkedTable.from_files(paths, ["day", "level"]).filter_by("level", ">", 50)
    assert (none.skipped, none.chunk_count, none.compute().shape) == (5, 1, (0, 2))
    assert none["day"].sum().compute() == 0 and none.group_by("day").agg(n="size").compute().rows == 0
    low = ChunkedTable.from_files(paths).filter_by("level", "==", 7)
    assert low.skipped == 0 and low.rows().compute() == 6 and low.filter_by("day", ">", 3).skipped == 4


def test_names_by_content_and_sizes(tmp_path):
    table = Table({"level": Column.of([1, 1, 2]).to_runs()})
    assert tokenize(table) == tokenize(table.slice(0, 3)) != tokenize(table.rename({"level": "other"}))
    assert sizeof(Table({"level": Column.of(list(range(100_000)))})) >= 800_000
    paths = stations(tmp_path, 2)
    keys = [ChunkedTable.from_files(paths).filter_by("day", "==", day).__dask_keys__() for day in (1, 1, 0)]
    assert keys[0] == keys[1] != keys[2]


TABLE = ChunkedTable.from_tables([Table({"key": [1, 2]}), Table({"key": [300]})])


@pytest.mark.parametrize("call, kind, said", [
    (lambda: TABLE["other"].compute(), KeyError, "no column has the name 'other'"),
    (lambda: TABLE[3], TypeError, "a column of a table is named by a text, not by 3"),
    (lambda: TABLE.filter_by("key", "<", "a").compute(), TypeError, "column 'key': a value of type i64 is an integer"),
    (lambda: TABLE.filter([True]), TypeError, r"a mask of chunks is a ChunkedColumn, as column.gt\(3\) is, not "),
    (lambda: TABLE.filter(ChunkedColumn.from_columns([Column.of([True])])), ValueError,
     "columns of 2 and of 1 chunks do not go together"),
    (lambda: TABLE.chunk(2), IndexError, "chunk 2 is not among 2 chunks"),
    (lambda: TABLE.group_by("key").agg(n="rows"), TypeError, "agg: 'n' is asked by 'size', or a column and one of "),
    (lambda: TABLE.group_by("other").agg(n="size").compute(), KeyError, "no column has the name 'other'"),
    (lambda: ChunkedTable.from_tables([]), ValueError, "a chunked table has at least one chunk"),
    (lambda: ChunkedTable.from_tables([{"a": 1}]), TypeError, "chunk 0 is .*, not a Table"),
    (lambda: ChunkedTable.from_columns({}), ValueError, "a chunked table has at least one column"),
    (lambda: ChunkedTable.from_columns({"a": [1]}), TypeError, r"column 'a' is \[1\], not a ChunkedColumn"),
    (lambda: ChunkedTable.from_files("a"), TypeError, "from_files takes the names of several files, not 'a'"),
    (lambda: ChunkedTable.from_files(["a"], "b"), TypeError, "from_files takes the names of several columns, not 'b'"),
    (lambda: ChunkedTable.from_tables([Table({"a": [1]}), Table({"b": [1]})]).compute(), ValueError, "b"),
])
def test_refusals(call, kind, said):
    with pytest.raises(kind, match=said):
        call()
