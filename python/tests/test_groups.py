"""Values grouped by runs of equal keys answer as itertools.groupby has the rows."""
import math
import struct
from decimal import Decimal, localcontext
from fractions import Fraction
from itertools import groupby

import pytest
from hivevigil import Column, Table, _chunk_groups, errors
from hypothesis import given
from hypothesis import strategies as st
from rows import BITS, TYPES, least_and_greatest, samples

FLOATS = st.sampled_from([0.1, 1.0, 1e16, -1e16, 5e-324, 1.7976931348623157e308, math.inf, -math.inf, math.nan])
KEYED = {
    "float64": st.none() | FLOATS | st.floats(),
    "decimal(38, 2)": st.none() | st.integers(-(10**37), 10**37).map(lambda digits: Decimal(f"{digits}E-2")),
    "i64": st.none() | st.integers(-(2**63), 2**63 - 1),
}

OF_VALID = {
    "sum": sum, "min": min, "max": max, "first": lambda rows: rows[0], "last": lambda rows: rows[-1],
}  # fmt: skip


def groups_of(keys, values):
    """The key of each group, and its values."""
    rows = groupby(zip(keys, values), key=lambda row: row[0])
    return [(key, [value for _, value in part]) for key, part in rows]


def answer(name, rows):
    valid = [row for row in rows if row is not None]
    if name in ("size", "count"):
        return len(rows if name == "size" else valid)
    return OF_VALID[name](valid) if valid else None


@given(samples(), samples(types=tuple(BITS)))
def test_folds(keys, values):
    rows = min(len(keys.rows), len(values.rows))
    due = groups_of(keys.rows[:rows], values.rows[:rows])
    groups = values.column[:rows].group_by(keys.column[:rows])
    wide = "u64" if values.type[0] == "u" else "i64"
    types = {"sum": wide, "size": "u64", "count": "u64"}
    low, high = least_and_greatest(wide)
    for name in ("sum", "size", "count", "min", "max", "first", "last"):
        answers = [answer(name, part) for _, part in due]
        large = [at for at, number in enumerate(answers) if number is not None and not low <= number <= high]
        if name == "sum" and large:
            with pytest.raises(OverflowError, match=f"sum: group {large[0]} does not fit {wide}") as refused:
                groups.sum()
            assert refused.value.fields == (large[0], 0, 0)
            continue
        found_keys, found = getattr(groups, name)()
        assert found_keys.to_list() == [key for key, _ in due] and found.to_list() == answers
        assert found.type == types.get(name, values.type) + "?" and found.form == found_keys.form == "flat"


@given(samples(), samples(types=tuple(name for name in TYPES if name not in BITS)))
def test_folds_of_other_values(keys, values):
    rows = min(len(keys.rows), len(values.rows))
    due = groups_of(keys.rows[:rows], values.rows[:rows])
    groups = values.column[:rows].group_by(keys.column[:rows])
    for name in ("size", "count", "min", "max", "first", "last"):
        found_keys, found = getattr(groups, name)()
        assert found_keys.to_list() == [key for key, _ in due]
        assert found.to_list() == [answer(name, part) for _, part in due]
        assert found.type == ("u64" if name in ("size", "count") else values.type) + "?"
        assert found.form == found_keys.form == "flat"


def test_lists_are_counted():
    lists = Column.from_lists([1, 2, 3], [0, 1, 2, 0], [1, 1, 1, 0], [True, False, True, True])
    groups = lists.group_by([1, 1, 2, 2])
    assert groups.size()[1].to_list() == [2, 2] and groups.count()[1].to_list() == [1, 2]
    for name in ("sum", "mean", "min", "max", "first", "last"):
        with pytest.raises((errors.Unsupported, TypeError)):
            getattr(groups, name)()


def test_groups_of_a_list():
    keys, sums = Column.of([3, 4, None, None, -5]).group_by(["a", "a", None, None, "a"]).sum()
    assert (keys.to_list(), sums.to_list()) == (["a", None, "a"], [7, None, -5])


def exact_sum(rows):
    """The sum of floats as of real numbers, rounded once; a zero is -0.0 where all rows are."""
    others = [row for row in rows if not math.isfinite(row)]
    if others:
        return sum(others)
    total = sum(map(Fraction, rows))
    if not total:
        return -0.0 if rows and {str(row) for row in rows} == {"-0.0"} else 0.0
    try:
        return float(total)
    except OverflowError:
        return math.inf if total > 0 else -math.inf


def due_of(name, fold, rows):
    """The sum or the mean of the rows of a group that are not null; None where there is none."""
    valid = [row for row in rows if row is not None]
    if not valid:
        return None
    if name == "float64":
        return exact_sum(valid) if fold == "sum" else exact_sum(valid) / len(valid)
    if fold == "mean":
        return float(sum(map(Fraction, valid)) / len(valid))
    with localcontext() as context:
        context.prec = 60
        return sum(valid)


def alike(left, right):
    """Whether both are the same numbers, NaN the same as NaN."""
    return [repr(each) for each in left] == [repr(each) for each in right]


@st.composite
def keyed(draw):
    """A type, keys in stretches, and a row of the type for each."""
    name = draw(st.sampled_from(sorted(KEYED)))
    keys = [key for key, rows in draw(st.lists(st.tuples(st.integers(0, 3), st.integers(1, 4)))) for _ in range(rows)]
    return name, keys, [draw(KEYED[name]) for _ in keys]


@given(keyed(), st.booleans())
def test_sums_and_means(drawn, in_runs):
    name, keys, rows = drawn
    column = Column.of(rows, name + "?")
    groups = (column.to_runs() if in_runs else column).group_by(Column.of(keys, "u8"))
    due = groups_of(keys, rows)
    found_keys, means = groups.mean()
    assert found_keys.to_list() == [key for key, _ in due] and str(means.logical_type) == "float64"
    assert alike(means.to_list(), [due_of(name, "mean", part) for _, part in due])
    sums = [due_of(name, "sum", part) for _, part in due]
    if name == "i64" and any(each is not None and not -(2**63) <= each < 2**63 for each in sums):
        return
    found = groups.sum()[1]
    assert alike(found.to_list(), sums) and found.form == "flat"


@given(keyed(), st.lists(st.integers(0, 40), max_size=3))
def test_sums_and_means_of_groups_in_parts(drawn, cuts):
    name, keys, rows = drawn
    table = Table({"key": Column.of(keys, "u8"), "row": Column.of(rows, name + "?").to_runs()})
    asked = {"mean": ("row", "mean"), **({} if name == "i64" else {"sum": ("row", "sum")})}
    ends = sorted(min(cut, len(rows)) for cut in cuts)
    parts = [table.slice(start, stop) for start, stop in zip([0, *ends], [*ends, len(rows)])]
    found = _chunk_groups.joined(_chunk_groups.Groups.of(part, "key", asked) for part in parts).table()
    due = groups_of(keys, rows)
    for fold in asked:
        assert alike(found[fold].to_list(), [due_of(name, fold, part) for _, part in due]), fold


PAYLOADS = (0x7FF8000000000000, 0xFFF8000000000000, 0x7FF8000040000000, 0xFFFC000000000000)  # those of float32 too
NANS = [struct.unpack("<d", struct.pack("<Q", bits))[0] for bits in PAYLOADS]
FEW = st.none() | st.sampled_from([0.5, -1.5, 0.0, -0.0, math.inf, -math.inf, *NANS])
FLOAT_FOLDS = ("min", "max", "first", "last", "count", "size")


def float_answer(fold, rows):
    """What is answered of the rows of a group of floats: the least and the greatest leave NaN out, and -0.0 is below 0.0."""
    if fold not in ("min", "max"):
        return answer(fold, rows)
    numbers = [row for row in rows if row is not None and not math.isnan(row)]
    return {"min": min, "max": max}[fold](numbers, key=lambda row: (row, math.copysign(1, row)), default=None)


def bits_of(rows):
    return [struct.pack("<d", row) if isinstance(row, float) else row for row in rows]


@st.composite
def floats_by_keys(draw):
    """Two columns of keys, a type of floats, a column of it in some form, and its rows."""
    parts = draw(st.lists(st.tuples(st.integers(0, 1), st.integers(0, 2), st.integers(1, 4)), max_size=8))
    keys = [(one, other) for one, other, rows in parts for _ in range(rows)]
    stays = draw(st.booleans())
    rows = [draw(FEW) for _ in (parts if stays else keys)]
    rows = [row for row, (_, _, count) in zip(rows, parts) for _ in range(count)] if stays else rows
    name = draw(st.sampled_from(["float32", "float64"]))
    form = draw(st.sampled_from(["flat", "runs", "window", "constant"]))
    if form == "constant":
        rows = [draw(FEW)] * len(keys)
        return keys, rows, Column.of(rows[:1], f"{name}?").take([0] * len(keys))
    before = draw(st.lists(FEW, min_size=1, max_size=2)) if form == "window" else []
    column = Column.of([*before, *rows], f"{name}?")
    column = column if form == "flat" else column.to_runs()
    return keys, rows, column.slice(len(before), len(before) + len(rows))


@given(floats_by_keys())
def test_floats_of_which_some_are_nan(drawn):
    keys, rows, column = drawn
    named = {"one": Column.of([one for one, _ in keys], "u8"), "other": Column.of([other for _, other in keys], "u8")}
    table = Table({**named, "row": column})
    for names in (["one"], ["one", "other"]):
        due = groups_of([key[: len(names)] for key in keys], rows)
        found = table.group_by(*names).agg({fold: ("row", fold) for fold in FLOAT_FOLDS})
        for fold in FLOAT_FOLDS:
            assert bits_of(found[fold].to_list()) == bits_of(float_answer(fold, part) for _, part in due), fold
            assert found[fold].form == "flat" and found[fold].nullable
        assert {str(found[fold].logical_type) for fold in FLOAT_FOLDS[:4]} == {str(column.logical_type)}
        assert alike(found["one"].to_list(), [key[0] for key, _ in due])
    _, least = column.group_by(named["one"]).min()
    assert bits_of(least.to_list()) == bits_of(float_answer("min", part) for _, part in groups_of([one for one, _ in keys], rows))


@given(floats_by_keys(), st.lists(st.integers(0, 32), max_size=3))
def test_floats_of_groups_in_parts(drawn, cuts):
    keys, rows, column = drawn
    keys = [one for one, _ in keys]
    table = Table({"key": Column.of(keys, "u8"), "row": column})
    ends = sorted(min(cut, len(rows)) for cut in cuts)
    parts = [table.slice(start, stop) for start, stop in zip([0, *ends], [*ends, len(rows)])]
    asked = {fold: ("row", fold) for fold in FLOAT_FOLDS}
    found = _chunk_groups.joined(_chunk_groups.Groups.of(part, "key", asked) for part in parts).table()
    assert found.types == table.group_by("key").agg(asked).types
    for fold in FLOAT_FOLDS:
        due = [float_answer(fold, part) for _, part in groups_of(keys, rows)]
        assert bits_of(found[fold].to_list()) == bits_of(due), fold


def test_halves_of_which_some_are_nan():
    rows = [math.nan, -math.inf, -0.0, -math.nan, math.nan, 1.0, 0.0, -0.0]
    halves = Column.of(rows, "float16").to_runs()
    groups = halves.group_by([1, 1, 1, 2, 2, 3, 3, 3])
    assert bits_of(groups.min()[1].to_list()) == bits_of([-math.inf, None, -0.0])
    assert bits_of(groups.max()[1].to_list()) == bits_of([-0.0, None, 1.0])
    assert alike(groups.sum()[1].to_list(), [math.nan, math.nan, 1.0]) and groups.count()[1].to_list() == [3, 2, 3]


OTHERS = {
    "utf8": st.sampled_from([None, "", "a", "zz", "\u00e4", "\U0001f41d"]), "bool": st.sampled_from([None, False, True]),
    "decimal(9, 2)": st.none() | st.integers(-(10**9) + 1, 10**9 - 1).map(lambda digits: Decimal(f"{digits}E-2")),
}  # fmt: skip


@given(st.data(), st.lists(st.integers(0, 2), max_size=20).map(sorted), st.lists(st.integers(0, 20), max_size=3))
def test_other_values_of_groups_in_parts(data, keys, cuts):
    columns = {name: [data.draw(rows) for _ in keys] for name, rows in OTHERS.items()}
    table = Table({"key": Column.of(keys, "u8"), **{name: Column.of(rows, f"{name}?") for name, rows in columns.items()}})
    folds = ("size", "count", "min", "max", "first", "last")
    asked = {f"{fold} of {name}": (name, fold) for name in columns for fold in folds}
    ends = sorted(min(cut, len(keys)) for cut in cuts)
    parts = [table.slice(start, stop) for start, stop in zip([0, *ends], [*ends, len(keys)])]
    found = _chunk_groups.joined(_chunk_groups.Groups.of(part, "key", asked) for part in parts).table()
    for label, (name, fold) in asked.items():
        assert found[label].to_list() == [answer(fold, part) for _, part in groups_of(keys, columns[name])], label


def test_a_sum_of_decimals_that_has_no_room_names_its_group():
    most = Decimal(10**38 - 1)
    groups = Column.of([most, most, most]).group_by([1, 2, 2])
    with pytest.raises(errors.CastOutOfRange, match=r"^sum: group 1 does not fit decimal\(38, 0\)$") as refused:
        groups.sum()
    assert refused.value.fields == (1, 0, 0)
    assert groups.mean()[1].to_list() == [1e38, 1e38]


def test_means_beside_other_answers():
    """Each takes two answers of the library, and leaves the names of columns and answers as they are."""
    most = 2**63 - 1
    table = Table({"0": [1, 1, 2], "1": [most, most - 2, -4], "2": [0.5, math.nan, None], "3": ["b", "a", None]})
    asked = {"4": ("1", "mean"), "5": ("2", "mean"), "6": ("3", "min"), "1": ("1", "max"), "count": ("2", "count")}
    found = table.group_by("0").agg(asked)
    assert found.names == ["0", *asked] and found.types["4"] == "i64?"
    assert [found[name].to_list() for name in ("4", "6", "1", "count")] == [[2.0**63, -4.0], ["a", None], [most, -4], [2, 0]]
    assert alike(found["5"].to_list(), [math.nan, None])
    wide = Column.of([2**64 - 1, 2**64 - 1, 0, 1], "u64").group_by([1, 1, 2, 2])
    assert wide.mean()[1].to_list() == [2.0**64, 0.5]


def test_a_mean_of_integers_under_few_keys():
    """A sum of 2**62 rows of 2**40 leaves 64 bits, and those of rows that are more leave 38 digits."""
    for rows, number in ((2**62, 2**40 + 1), (2**64 - 1, 2**63 - 1)):
        values = Column.constant(number, rows, "i64")
        assert values.group_by(Column.constant(0, rows)).mean()[1].to_list() == [float(number)]


def test_a_key_of_one_value_is_flat():
    table = Table({"key": Column.constant("a", 4), "row": [1, 2, 3, None]})
    found = table.group_by("key").agg(total=("row", "sum"), mean=("row", "mean"))
    assert [column.form for column in found.values()] == ["flat"] * 3
    assert found.to_dict() == {"key": ["a"], "total": [6], "mean": [2.0]}


@pytest.mark.parametrize("cut", [0, 1, 2, 3, 4])
def test_lists_of_groups_in_parts_are_counted(cut):
    lists = Column.from_lists([1, 2, 3], [0, 1, 2, 0], [1, 1, 1, 0], [True, False, True, True])
    table = Table({"key": [1, 1, 1, 2], "row": lists})
    asked = {"rows": "size", "count": ("row", "count")}
    parts = [_chunk_groups.Groups.of(part, "key", asked) for part in (table.slice(0, cut), table.slice(cut, 4))]
    found = _chunk_groups.joined(parts).table()
    assert found.equals(table.group_by("key").agg(asked)) and found["count"].to_list() == [2, 1]


def test_sums_of_integers_next_to_floats_in_parts_are_exact():
    """Where all that is asked of them is a sum: no row is widened."""
    parts = [Table({"key": [1], "row": [2**53 + 1]}), Table({"key": [1], "row": [-float(2**53)]})]
    asked = {"sum": ("row", "sum"), "mean": ("row", "mean")}
    found = _chunk_groups.joined(_chunk_groups.Groups.of(part, "key", asked) for part in parts).table()
    assert (found["sum"].to_list(), found["mean"].to_list()) == ([1.0], [0.5])


def test_a_column_by_itself():
    column = Column.of([4, 4, 7]).encode()
    assert [part.to_list() for part in column.group_by(column).size()] == [[4, 7], [2, 1]]


def test_partial_sums_may_be_large():
    most = 2**63 - 1
    assert Column.of([most, 1, -1]).group_by([0, 0, 0]).sum()[1].to_list() == [most]


def test_refusals():
    keys, texts = Column.of([1, 1, 2]), Column.of(["a", "b", "c"])
    lists = Column.from_lists([1, 2, 3], [0, 1, 2], [1, 1, 1])
    with pytest.raises(errors.Unsupported):
        texts.group_by(keys).sum()
    with pytest.raises(errors.Unsupported):
        keys.group_by(lists).count()
    with pytest.raises(errors.ColumnLength) as refused:
        keys[:2].group_by(keys).size()
    assert refused.value.fields == (3, 2, 0)
    groups = keys.group_by(texts)
    texts.free()
    with pytest.raises(errors.NoColumn):
        groups.min()


@pytest.mark.parametrize("cut", [0, 1, 2, 4])
def test_answers_of_groups_in_parts_are_floats(cut):
    table = Table({"key": Column.of([1, 1, 2, 2], "u8"), "row": Column.of([1.5, -0.0, None, -2.5], "float32?")})
    asked = {fold: ("row", fold) for fold in ("min", "max", "first", "last")}
    parts = [_chunk_groups.Groups.of(part, "key", asked) for part in (table.slice(0, cut), table.slice(cut, 4))]
    found = _chunk_groups.joined(parts).table()
    assert found.equals(table.group_by("key").agg(asked))
    assert [found[fold].to_list() for fold in asked] == [[-0.0, -2.5], [1.5, -2.5], [1.5, -2.5], [-0.0, -2.5]]
