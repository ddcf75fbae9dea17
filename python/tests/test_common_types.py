"""Parts of several types are joined in the type that has the rows of all, or refused: held against Python's own numbers,
dates and times."""
import functools
import itertools
import math
from datetime import date, datetime, time, timedelta, timezone
from decimal import Decimal
from fractions import Fraction

import pytest
from hivevigil import Column, Table, concat, errors
from hivevigil._chunk_groups import Groups
from hivevigil._chunk_groups import joined as joined_groups
from hivevigil.chunks import Partial, join, joined
from hypothesis import assume, given
from hypothesis import strategies as st
from rows import BITS, least_and_greatest

UNITS = {"s": 1, "ms": 10**3, "us": 10**6}
UTC = timezone.utc


def whole_numbers(name):
    least, greatest = least_and_greatest(name)
    return st.integers(max(least, -(2**53)), min(greatest, 2**53)) | st.sampled_from([0, 1, 7])


def decimals(name):
    precision, scale = map(int, name[len("decimal(") : -1].split(","))
    most = 10**precision - 1
    return st.integers(-most, most).map(lambda number: Decimal(number).scaleb(-scale)) if precision < 28 else st.just(
        Decimal(7)
    )


def counted(base, name):
    """Times that a unit counts, from a first one."""
    unit = name[name.index("[") + 1 :].rstrip("]").partition(",")[0]
    return st.integers(-9, 9).map(lambda count: base + timedelta(seconds=1) * count / UNITS[unit])


def times_of_day(name):
    steps = UNITS[name[5:-1]]
    return st.integers(0, 9).map(lambda count: (datetime(2000, 1, 1) + timedelta(seconds=1) * count / steps).time())


FLOATS = {"float64": 64, "float32": 32, "float16": 16}
DECIMALS = ["decimal(2, 1)", "decimal(9, 0)", "decimal(12, 5)", "decimal(4, -2)"]
# types that go together, and the values of each
FAMILIES = {
    "integers": {name: whole_numbers(name) for name in BITS},
    "decimals": {**{name: decimals(name) for name in DECIMALS}, **{name: whole_numbers(name) for name in BITS}},
    "floats": {
        **{name: st.floats(width=width, allow_nan=False) for name, width in FLOATS.items()},
        **{name: whole_numbers(name) for name in BITS if name != "u64"},
    },
    "dates": {"date": st.dates(date(1970, 1, 1), date(2100, 1, 1)), "date[ms]": st.dates(date(1970, 1, 1))},
    "times": {name: times_of_day(name) for name in ("time[s]", "time[ms]", "time[us]")},
    "durations": {f"duration[{unit}]": counted(timedelta(0), f"[{unit}]") for unit in UNITS},
    "timestamps": {f"timestamp[{unit}]": counted(datetime(2024, 2, 29), f"[{unit}]") for unit in UNITS},
    "instants": {
        f"timestamp[{unit}, UTC]": counted(datetime(2024, 2, 29, tzinfo=UTC), f"[{unit}]") for unit in UNITS
    },
    "texts": {"utf8": st.sampled_from(["", "a", "7"])},
    "booleans": {"bool": st.booleans()},
}


@st.composite
def parts_of(draw, families=tuple(FAMILIES), least=1):
    """Parts of types that go together, in some form: a column and its rows each."""
    types = FAMILIES[draw(st.sampled_from(families))]
    return [draw(part_of(types)) for _ in range(draw(st.integers(least, 4)))]


@st.composite
def part_of(draw, types):
    name = draw(st.sampled_from(list(types)))
    if draw(st.integers(0, 7)) == 7:  # nothing but nulls, as in a file without a field
        rows, name = [None] * draw(st.integers(0, 3)), "utf8"
    else:
        runs = draw(st.lists(st.tuples(st.none() | types[name], st.integers(1, 3)), max_size=4))
        rows = [row for row, count in runs for _ in range(count)]
    is_nullable = None in rows or name == "utf8" or draw(st.booleans())
    column = Column.of(rows, name + "?" * is_nullable)
    return (column.to_runs() if draw(st.booleans()) else column), rows


def same(left, right):
    """Whether two rows are the same value, and floats the same of both zeros."""
    if left is None or right is None:
        return left is right
    zeros = [math.copysign(1, each) if isinstance(each, float) and each == 0 else None for each in (left, right)]
    return left == right and (None in zeros or zeros[0] == zeros[1])


def all_same(left, right):
    return len(left) == len(right) and all(map(same, left, right))


def total_of(rows):
    """The exact sum of rows that are not null."""
    if rows and isinstance(rows[0], timedelta):
        return sum(rows, timedelta(0))
    if any(isinstance(row, float) for row in rows):
        if not all(map(math.isfinite, rows)):
            return sum(row for row in map(float, rows) if not math.isfinite(row))
        total = sum(map(Fraction, rows))
        try:
            return float(total)
        except OverflowError:
            return math.inf if total > 0 else -math.inf
    return sum(map(Fraction, rows))


def has_sum(columns):
    names = [str(column.logical_type or column.type) for column in columns if column.null_count < len(column)]
    return bool(names) and all(name.startswith(("u", "i", "decimal", "float", "duration")) and name[:2] != "ut"
                               for name in names)


@given(parts_of())
def test_rows_are_joined_as_they_are(parts):
    columns, rows = [column for column, _ in parts], [row for _, some in parts for row in some]
    whole = concat(columns)
    assert all_same(whole.to_list(), rows)
    tables = [Table({"a": column}) for column in columns]
    appended = tables[0].append(*tables[1:])
    assert all_same(appended["a"].to_list(), rows) and appended.types == {"a": whole.type}
    assert appended["a"].logical_type == whole.logical_type
    again = functools.reduce(lambda left, right: concat([left, right]), columns)
    assert again.logical_type == whole.logical_type and all_same(again.to_list(), rows)
    assert concat(columns[::-1]).type == whole.type
    assert Table.from_bytes(appended.to_bytes()).equals(appended)


@given(st.data(), parts_of())
def test_what_is_known_of_parts(data, parts):
    columns, rows = [column for column, _ in parts], [row for _, some in parts for row in some]
    whole, known = joined(map(Partial.of, columns)), [row for row in rows if row is not None]
    left = [Partial.of(column) for column in columns]
    while len(left) > 1:
        at = data.draw(st.integers(0, len(left) - 2))
        left[at : at + 2] = [join(*left[at : at + 2])]
    assert repr(left[0]) == repr(whole) == repr(Partial.of(concat(columns)))
    assert (whole.rows, whole.null_count) == (len(rows), len(rows) - len(known))
    if known:
        assert (whole.least, whole.greatest) == (min(known), max(known))
    assert whole.runs == len(list(itertools.groupby(concat(columns).storage().to_list())))
    if has_sum(columns):
        assert same(whole.sum(), total_of(known)) or whole.sum() == total_of(known) == 0


FOLDS = ("size", "count", "min", "max", "first", "last")


def answers_of(keys, values, has_sums):
    """The answers about each group of equal neighbouring keys, from a loop over the rows."""
    for key, group in itertools.groupby(zip(keys, values), key=lambda pair: pair[0]):
        some = [value for _, value in group]
        there = [value for value in some if value is not None]
        found = [key, len(some), len(there), *((min(there), max(there), there[0], there[-1]) if there else [None] * 4)]
        yield [*found, total_of(there) if there else None] if has_sums else found


@given(st.data(), parts_of(), parts_of())
def test_groups_of_parts(data, keys, values):
    count = min(len(keys), len(values))
    tables, key_rows, value_rows = [], [], []
    for (key, some), (value, others) in zip(keys[:count], values[:count]):
        rows = min(len(some), len(others))
        tables.append(Table({"key": key[:rows], "value": value[:rows]}))
        key_rows, value_rows = key_rows + some[:rows], value_rows + others[:rows]
    has_sums = has_sum([table["value"] for table in tables])
    asked = {fold: "size" if fold == "size" else ("value", fold) for fold in FOLDS + ("sum",) * has_sums}
    groups = joined_groups([Groups.of(table, "key", asked) for table in tables])
    due = [list(column) for column in zip(*answers_of(key_rows, value_rows, has_sums))] or [[] for _ in ["key", *asked]]
    found = groups.table()
    whole = tables[0].append(*tables[1:]).group_by("key").agg(asked)
    assert found.types == whole.types and found.logical_types == whole.logical_types
    for name, rows in zip(found.names, due):
        assert found[name].to_list() == whole[name].to_list() == rows, name
    parts = [Groups.of(table, "key", asked) for table in tables]
    while len(parts) > 1:
        at = data.draw(st.integers(0, len(parts) - 2))
        parts[at : at + 2] = [parts[at].then(parts[at + 1])]
    assert parts[0].table().equals(found)


@pytest.mark.parametrize("name, value", [
    ("i64", 7), ("utf8", "a"), ("bool", True), ("decimal(3, 1)", Decimal("1.5")), ("float32", 1.5),
    ("date", date(2024, 2, 29)), ("timestamp[ms, UTC]", datetime(2024, 2, 29, tzinfo=UTC)),
])
@pytest.mark.parametrize("counts", [[1, 0], [0, 1], [0, 0], [1, 1], [2, 1, 0]])
def test_a_key_that_may_be_null_in_one_part(name, value, counts):
    """Of whichever part, also where it has no row, or no group of its own."""
    for nullable in range(len(counts)):
        for to_form in (Column.decode, Column.to_runs):
            keys = [Column.of([value] * rows, name + "?" * (part == nullable)) for part, rows in enumerate(counts)]
            tables = [Table({"key": to_form(key), "level": Column.of([1] * len(key), "i64")}) for key in keys]
            asked = {"rows": "size", "most": ("level", "max")}
            found = joined_groups([Groups.of(table, "key", asked) for table in tables])
            whole = tables[0].append(*tables[1:]).group_by("key").agg(asked)
            assert found.table().types == whole.types and whole.types["key"].endswith("?")
            assert found.table().equals(whole)


@given(st.data(), parts_of(least=2))
def test_chunks_of_dask(data, parts):
    dask = pytest.importorskip("dask")
    from hivevigil.dask import ChunkedColumn
    from hivevigil.dask_tables import ChunkedTable

    columns, rows = [column for column, _ in parts], [row for _, some in parts for row in some]
    chunked, known = ChunkedColumn.from_columns(columns), [row for row in rows if row is not None]
    table = ChunkedTable.from_tables([Table({"a": column}) for column in columns])
    forms = {
        "column": lambda: chunked, "table": lambda: table["a"], "more runs": lambda: chunked.rechunk(2),
        "fewer tables": lambda: table.rechunk(2)["a"], "kept": lambda: table.persist()["a"],
    }
    found = forms[data.draw(st.sampled_from(list(forms)))]()
    assert all_same(found.compute(scheduler="sync").to_list(), rows)
    ends = dask.compute(found.min(), found.max(), scheduler="sync")
    assert ends == ((min(known), max(known)) if known else (None, None))
    if has_sum(columns):
        assert found.sum().compute(scheduler="sync") == total_of(known)
    groups = table.group_by("a").agg(rows="size").compute(scheduler="sync")
    assert groups.to_dict() == {
        "a": [key for key, _ in itertools.groupby(rows)], "rows": [len(list(some)) for _, some in itertools.groupby(rows)],
    }


ALL_TYPES = {name: values for types in FAMILIES.values() for name, values in types.items()}
ALL_TYPES["timestamp[us, Europe/Oslo]"] = ALL_TYPES["timestamp[us, UTC]"]
# which may be joined, by the first word of a type
TOGETHER = [{"u", "i", "decimal"}, {"i", "u", "float"}]


def word(name):
    return name.partition("[")[0].partition("(")[0].rstrip("0123456789")


def go_together(left, right):
    if left == right:
        return True
    words, zones = {word(left), word(right)}, {name.partition(", ")[2] for name in (left, right)}
    if "u64" in (left, right) and "float" in words:
        return False
    if words <= {"timestamp"}:
        return len(zones) == 1
    return len(words) == 1 or any(words <= group for group in TOGETHER)


# a row of each sort of type
ROWS = {
    "u": 3, "i": 4, "decimal": Decimal(7), "float": 0.5, "date": date(2024, 1, 2), "time": time(1, 2, 3),
    "duration": timedelta(seconds=5), "timestamp": datetime(2024, 1, 2, 3), "utf8": "a", "bool": True,
}


def row_of(name):
    row = Decimal(700) if name == "decimal(4, -2)" else ROWS["utf8" if name == "utf8" else word(name)]
    return row.replace(tzinfo=UTC) if ", " in name and word(name) == "timestamp" else row


@pytest.mark.parametrize("left", list(ALL_TYPES))
def test_two_types(left):
    """Each pair of types is joined or refused, and is never taken for what it is not."""
    for right in ALL_TYPES:
        rows = [row_of(left), row_of(right)]
        tables = [Table({"at": Column.of([row], name)}) for row, name in zip(rows, (left, right))]
        calls = [
            lambda: tables[0].append(tables[1])["at"].to_list(),
            lambda: [end.value for end in (joined(Partial.of(table["at"]) for table in tables).first,
                                           joined(Partial.of(table["at"]) for table in tables).last)],
            lambda: joined_groups(Groups.of(table, "at", {"n": "size"}) for table in tables).table()["at"].to_list(),
        ]
        for call in calls:
            if go_together(left, right):
                assert call() == (rows if rows[0] != rows[1] or call is not calls[2] else rows[:1]), right
                continue
            with pytest.raises(errors.TypeMismatch) as refused:
                call()
            said = str(refused.value)
            assert left in said and right in said and "are two types, and none has the rows of both" in said


@given(st.integers(-(2**63), 2**63 - 1), st.sampled_from(["i64", "i32"]))
def test_integers_that_no_float_has(number, name):
    assume(number in range(-(2**31), 2**31) or name == "i64")
    columns = [Column.of([number], name), Column.of([0.5])]
    if abs(number) <= 2**53:
        assert concat(columns).to_list() == [number, 0.5] and joined(map(Partial.of, columns)).sum() == float(
            Fraction(number) + Fraction(1, 2)
        )
        return
    for call in (lambda: concat(columns), lambda: joined(map(Partial.of, columns))):
        with pytest.raises(errors.CastOutOfRange, match="is past 2\\*\\*53, up to which float64 has each integer"):
            call()


@given(st.integers(-(2**60), 2**60))
def test_times_that_a_finer_unit_does_not_count(seconds):
    columns = [Column.of([seconds]).cast("timestamp[s]"), Column.of([0]).cast("timestamp[us]")]
    if abs(seconds * 10**6) < 2**63:
        assert concat(columns).storage().to_list() == [seconds * 10**6, 0]
        return
    with pytest.raises(errors.CastOutOfRange, match="concat: column 0: row 0 is .* of timestamp.s., which timestamp.us. "):
        concat(columns)


def test_a_refusal_names_types_column_and_files(tmp_path):
    pytest.importorskip("dask")
    from hivevigil.dask_tables import ChunkedTable

    paths = [tmp_path / f"day{number}.hv" for number in range(3)]
    for path, rows in zip(paths, ([1], [Decimal("1.5")], [1e300])):
        Table({"level": rows, "day": [1]}).save(path)
    table = ChunkedTable.from_files(paths)
    types = r"decimal\(38, 1\) \(chunk 1 of 3, {}{}\) and float64 \(chunk 2 of 3, {}{}\) are two types"
    for call, column in (
        (table.compute, ""), (table.group_by("day").agg(most=("level", "max")).compute, ""),
        (table.persist().group_by("level").agg(n="size").compute, ""), (table.rechunk(100).compute, ""),
        (table["level"].compute, "column 'level' of "), (table["level"].sum().compute, "column 'level' of "),
        (table.to_runs()["level"].max().compute, "column 'level' of "),
    ):
        said = types.format(column, paths[1], column, paths[2])
        with pytest.raises(errors.TypeMismatch, match=said) as refused:
            call(scheduler="sync")
        assert "column 'level'" in str(refused.value)
    with pytest.raises(errors.TypeMismatch, match=r"column 'a': append: i64 \(table 0\) and utf8 \(table 2\) are two "):
        Table({"a": [1]}).append(Table({"a": [2]}), Table({"a": ["x"]}))


def test_days_of_csv_files_go_together(tmp_path):
    texts = ["at,took\n2024-03-01T23:59:58.5,5\n", "at,took\n2024-03-02T00:00:01,\n", "at,took\n2024-03-02T00:00:02,0.25\n"]
    tables = []
    for number, text in enumerate(texts):
        (tmp_path / f"{number}.csv").write_text(text)
        tables.append(Table.from_csv(tmp_path / f"{number}.csv"))
    whole = tables[0].append(*tables[1:])
    assert whole["took"].to_list() == [5, None, Decimal("0.25")]
    asked = {"first": ("at", "first"), "took": ("took", "sum"), "mean": ("took", "mean")}
    days = [table.with_column("day", [1] * table.rows) for table in tables]
    found = joined_groups(Groups.of(day, "day", asked) for day in days).table()
    assert found.row(0) == {"day": 1, "first": datetime(2024, 3, 1, 23, 59, 58, 500000), "took": Decimal("5.25"),
                            "mean": 2.625}


def test_tables_without_columns_have_less_than_two_to_the_64_rows():
    half = Table({}, rows=2**63)
    assert half.append(Table({}, rows=2**63 - 1)).rows == 2**64 - 1
    for tables in ([half, half], [Table({"a": Column.constant(1, 2**63)})] * 2, [half, half, half]):
        with pytest.raises(errors.WindowOverflow) as refused:
            tables[0].append(*tables[1:])
        assert refused.value.number == 5 and "rows are past 2**64 - 1" in str(refused.value)


def test_time_of_day_and_dates_stay_what_they_are():
    assert concat([Column.of([time(1)], "time[s]"), Column.of([time(2)], "time[us]")]).to_list() == [time(1), time(2)]
    with pytest.raises(errors.TypeMismatch, match=r"date \(column 0\) and i32 \(column 1\) are two types"):
        concat([Column.of([date(2024, 1, 1)]), Column.of([5], "i32")])
