"""Columns of floats worked place by place, against NumPy's floats, bit by bit, in every form of a column."""
import operator
import random

import pytest

from hivevigil import Column, _float_columns, errors
from hivevigil.logical import LogicalType

numpy = pytest.importorskip("numpy")

GIVE = {"+": operator.add, "-": operator.sub, "*": operator.mul, "/": operator.truediv}
# zeros, subnormal numbers, the largest, infinities, NaNs with payloads, 1 and its neighbours; without their signs
SPECIAL = {
    "16": [0, 1, 0x3FF, 0x400, 0x7BFF, 0x7C00, 0x7C01, 0x7E00, 0x7EEF, 0x3C00, 0x3BFF],
    "32": [0, 1, 0x7FFFFF, 0x800000, 0x7F7FFFFF, 0x7F800000, 0x7F800001, 0x7FC00000, 0x7FC0BEEF, 0x3F800000, 0x3F7FFFFF],
    "64": [
        0, 1, 0xFFFFFFFFFFFFF, 0x10000000000000, 0x7FEFFFFFFFFFFFFF, 0x7FF0000000000000, 0x7FF0000000000001,
        0x7FF8000000000000, 0x7FF800000000BEEF, 0x3FF0000000000000, 0x3FEFFFFFFFFFFFFF,
    ],
}  # fmt: skip
QUIET = {"16": 0x7E00, "32": 0x7FC00000, "64": 0x7FF8000000000000}
NAN, INFINITY = float("nan"), float("inf")


def random_bits(choice, unit, count, nulls):
    """Bits of floats, None of null, which often repeat."""
    rows = []
    for _ in range(count):
        sign = choice.getrandbits(1) << (int(unit) - 1)
        new = choice.choice([*SPECIAL[unit], None, None]) if choice.random() < 0.7 else choice.getrandbits(int(unit) - 1)
        new = 0 if new is None and not nulls else new
        rows.append(rows[-1] if rows and choice.random() < 0.5 else None if new is None else new | sign)
    return rows


def of_bits(words, unit, nulls=True):
    made = Column.of(words, f"u{unit}" + "?" * nulls)
    return _float_columns.of_bits(made, LogicalType("float", unit))


def in_form(choice, words, unit, nulls):
    """The column of these floats: flat, in runs, or a window of runs."""
    form = choice.randrange(3)
    if form == 2:
        return of_bits([0, *words, 0], unit, nulls).to_runs().slice(1, len(words) + 1)
    column = of_bits(words, unit, nulls)
    return column.to_runs() if form else column


def as_floats(words, unit):
    return numpy.array([0 if word is None else word for word in words], f"u{int(unit) // 8}").view(f"f{int(unit) // 8}")


def due(sign, lefts, rights, unit):
    """The bits that NumPy's floats give, of every NaN those of the quiet one, None where either is."""
    with numpy.errstate(all="ignore"):
        found = GIVE[sign](as_floats(lefts, unit), as_floats(rights, unit))
    words = found.view(f"u{int(unit) // 8}").tolist()
    nans = numpy.isnan(found).tolist()
    pairs = zip(lefts, rights)
    return [None if None in pair else QUIET[unit] if nan else word for pair, word, nan in zip(pairs, words, nans)]


def bits(column):
    return _float_columns.bits(column).to_list()


def least_runs(rows):
    return sum(not at or rows[at - 1] != row for at, row in enumerate(rows))


@pytest.mark.parametrize("seed", range(40))
@pytest.mark.parametrize("unit", ["16", "32", "64"])
def test_two_columns(unit, seed):
    choice = random.Random(seed)
    count, nulls = choice.randrange(60), choice.randrange(2)
    lefts, rights = (random_bits(choice, unit, count, nulls) for _ in range(2))
    left, right = in_form(choice, lefts, unit, nulls), in_form(choice, rights, unit, nulls)
    for sign, give in GIVE.items():
        found, wanted = give(left, right), due(sign, lefts, rights, unit)
        assert bits(found) == wanted and str(found.logical_type) == f"float{unit}", sign
        assert found.nullable == bool(nulls) and found.form == "runs" and found.run_count() == least_runs(wanted)
        assert bits(give(left, left)) == due(sign, lefts, lefts, unit)


@pytest.mark.parametrize("seed", range(20))
@pytest.mark.parametrize("unit", ["16", "32", "64"])
def test_one_value(unit, seed):
    choice = random.Random(1000 + seed)
    words = random_bits(choice, unit, 30, True)
    column = in_form(choice, words, unit, True)
    word = choice.choice(SPECIAL[unit]) | choice.getrandbits(1) << (int(unit) - 1)
    value = float(as_floats([word], unit)[0])
    others = [word if value == value else QUIET[unit]] * len(words)
    for sign, give in GIVE.items():
        assert bits(give(column, value)) == due(sign, words, others, unit)
        assert bits(give(value, column)) == due(sign, others, words, unit)
        assert give(column, None).to_list() == [None] * len(words)
    constant = of_bits([word], unit).constant(value, len(words), f"float{unit}")
    assert bits(column - constant) == due("-", words, others, unit)
    assert (constant + constant).form == "constant" and bits(constant + constant) == due("+", others, others, unit)


def test_values_of_other_kinds():
    prices = Column.of([1.5, 2.5, None])
    assert (prices * 2).to_list() == (2 * prices).to_list() == [3.0, 5.0, None]
    assert (prices / 2).to_list() == [0.75, 1.25, None] and (3 - prices).to_list() == [1.5, 0.5, None]
    assert (prices + numpy.float32(0.5)).to_list() == (prices + numpy.int8(1) - 0.5).to_list() == [2.0, 3.0, None]
    assert (1 / Column.of([0.0, -0.0])).to_list() == [INFINITY, -INFINITY]
    assert str((Column.of([0.0]) / 0)[0]) == "nan"


def test_opposites():
    floats = Column.of([0.0, -0.0, 1.5, None, -INFINITY], "float32?")
    found = -floats
    assert str(found.logical_type) == "float32" and found.type == "i32?"
    assert [str(row) for row in found] == ["-0.0", "0.0", "-1.5", "None", "inf"]
    assert bits(-Column.of([NAN])) == [QUIET["64"]]


def test_two_types():
    """Floats of fewer bits become those of more; integers become float64."""
    single, double, half = Column.of([0.5, None], "float32"), Column.of([0.1, 0.2]), Column.of([1.5, 2.0], "float16")
    assert (single + double).to_list() == [0.6, None] and str((single + double).logical_type) == "float64"
    assert str((half * single).logical_type) == "float32" and (half * single).to_list() == [0.75, None]
    counts = Column.of([3, 3, 4]).to_runs()
    found = counts * 0.5
    assert str(found.logical_type) == "float64" and found.to_list() == [1.5, 1.5, 2.0] and found.form == "runs"
    assert (0.5 - counts).to_list() == [-2.5, -2.5, -3.5] and not found.nullable
    assert (counts * Column.of([0.5, 1.5, 2.5])).to_list() == [1.5, 4.5, 10.0]
    assert (Column.of([1.0, 2.0, 3.0], "float32") + counts).to_list() == [4.0, 5.0, 7.0]
    assert (counts / 2).to_list() == [1.5, 1.5, 2.0] and (12 / counts).to_list() == [4.0, 4.0, 3.0]
    assert (counts / counts).to_list() == [1.0] * 3


def test_constants_of_many_rows():
    halves = Column.constant(0.5, 2**60)
    assert (halves * halves).form == "constant" and (halves * halves)[2**59] == 0.25
    assert (halves / 0)[7] == INFINITY and (1 - halves).to_runs()[0] == 0.5


@pytest.mark.parametrize(
    "call, kind, said",
    [
        (lambda: Column.of([0.5], "float32") * 0.1, ValueError, "0.1 is between two floats of float32, and nothing is rounded"),
        (lambda: Column.of([0.5]) + (2**53 + 1), ValueError,
         "9007199254740993 is between two floats of float64, and nothing is rounded"),
        (lambda: Column.of([0.5]) + True, TypeError, "a value of type float64 is a number, not True"),
        (lambda: Column.of([0.5]) + "x", TypeError, "a value of type float64 is a number, not 'x'"),
        (lambda: Column.of([4, 2**53 + 1]) * 0.5, errors.CastOutOfRange,
         "*: row 1 is 9007199254740993, which is not a value of float64"),
        (lambda: Column.of([0.5]) * Column.of(["x"]), errors.TypeMismatch, "float64 and utf8 are not multiplied"),
        (lambda: Column.of(["x"]) / "y", errors.TypeMismatch, "utf8 and utf8 are not divided"),
        (lambda: Column.of([0.5]) & Column.of([0.5]), errors.TypeMismatch,
         "float64 and float64 are not connected: comparisons are put in parentheses, as (column > 1) & (column < 5)"),
        (lambda: Column.of([0.5]).lesser(1.5), errors.TypeMismatch, "float64 and float64 are not picked from"),
        (lambda: Column.of([0.5]) / Column.of([0.5, 1.5]), errors.ColumnLength, "lengths of 1 and 2, which have to be the same"),
        (lambda: Column.of([0.5]) + [0.5], TypeError,
         "a column is worked with a column or one value: Column.of(..) makes one of [0.5]"),
    ],
)  # fmt: skip
def test_refusals(call, kind, said):
    with pytest.raises(kind) as refused:
        call()
    assert str(refused.value) == said
