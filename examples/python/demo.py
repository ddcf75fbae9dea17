"""Encodes rows, asks for them, reads buffers, crosses Arrow, and meets refusals. Answers were worked out by hand."""
import array
import copy
import ctypes
import pickle
import sys
from decimal import Decimal
from pathlib import Path

sys.path.insert(0, str(Path(__file__).resolve().parents[2] / "python"))

from hivevigil import Column, HivevigilError

try:
    import numpy
except ImportError:
    numpy = None

ROWS = [1, 1, None, None, 2, 3, 3, 3, None, None]
SHOWN = """\
<Column i64?: 10 rows in 5 runs>
  0:2   1
  2:4   None
  4:5   2
  5:8   3
  8:10  None"""


def refusal(call, *arguments):
    """The class and the fields of a refusal, or the class of another exception."""
    try:
        call(*arguments)
    except HivevigilError as error:
        return type(error).__name__, error.fields
    except (IndexError, OverflowError, TypeError, ValueError) as error:
        return type(error).__name__
    raise AssertionError("not refused")


def check_runs():
    with Column.of(ROWS) as flat, flat.encode() as runs:
        assert repr(runs) == SHOWN, runs
        assert (len(runs), runs[4], runs[3], runs[-3], runs.sum()) == (10, 2, None, 3, 13)
        assert list(runs) == ROWS and runs[3:7].to_list() == [None, 2, 3, 3]
        assert (runs.min(), runs.max(), runs.is_constant(), runs.is_sorted()) == (1, 3, False, False)
        assert runs[runs.gt(1)].to_list() == runs.filter(runs.compare(">", 1)).to_list() == [2, 3, 3, 3]
        assert runs[[9, 4, -10]].to_list() == [None, 2, 1] and runs[::-4].to_list() == [None, 3, 1]
        assert Column.of([5, 0]).take_from(runs).to_list() == [3, 1]
        assert runs.eq(runs).to_list()[1:3] == [True, None]
        assert runs.fill(7).to_list()[8:] == [7, 7] and runs.cast("i8?").type == "i8?"
        assert runs.ends().to_list() == [2, 4, 5, 8, 10] and runs.values().to_list() == [1, None, 2, 3, None]
        assert (runs.null_count, runs.run_count()) == (4, 5) and list(runs.runs())[2] == (4, 5, 2)
        # 10 ends of a byte, values of 8 bytes and a byte of bits; before 80 bytes and 2 of bits
        assert (flat.nbytes, runs.nbytes) == (82, 5 + 5 * 8 + 1)
    assert repr(runs) == "<Column: freed>" and refusal(runs.sum) == ("NoColumn", (0, 0, 0))


def check_buffers():
    for code, kind in (("b", "i8"), ("B", "u8"), ("h", "i16"), ("i", "i32"), ("l", "i64"), ("Q", "u64")):
        column = Column.from_buffer(array.array(code, [1, 1, 2]))
        assert (column.type, column.encode().to_list(), column.to_array().tolist()) == (kind, [1, 1, 2], [1, 1, 2])
    view = memoryview(array.array("i", [1, 2, 3, 4]))
    assert list(Column.of(view[::2])) == [1, 3] and list(Column.of(view[1:])) == [2, 3, 4]
    assert list(Column.from_buffer(b"\1\2")) == [1, 2] and len(Column.of(array.array("q"))) == 0
    assert list(Column.from_buffer(array.array("h", [5, 6]), [True, False])) == [5, None]
    assert Column.of(array.array("d", [1.5, -2.0])).to_list() == [1.5, -2.0]
    assert refusal(Column.of, memoryview(bytes(4)).cast("B", (2, 2))) == "TypeError"


def check_numpy():
    rows = numpy.repeat(numpy.array([3, -1, 3], dtype=numpy.int16), [4, 2, 1])
    runs = Column.of(rows).encode()
    assert (runs.type, runs.sum(), runs.ends().to_list()) == ("i16", 13, [4, 6, 7])
    assert (runs.to_numpy() == rows).all() and runs.to_numpy().dtype == rows.dtype
    assert runs[rows > 0].to_list() == [3] * 5 and runs[numpy.array([-1, 4])].to_list() == [3, -1]
    masked = Column.of(numpy.ma.masked_array(rows[::2], rows[::2] < 0))
    assert masked.to_list() == [3, 3, None, 3] and masked.to_numpy().tolist() == [3, 3, None, 3]
    assert masked.to_numpy(null=0).tolist() == [3, 3, 0, 3]


def check_other_types():
    long = "a text that is longer than the room that it is given at first, so that it is asked for again"
    texts = Column.of(["one", None, "été", long])
    assert (texts.type, texts.to_list(), texts.max()) == ("utf8?", ["one", None, "été", long], "été")
    assert texts.eq("one").to_list() == [True, None, False, False]
    assert Column.of(["a", "a", None, None, "a"]).to_runs().ends().to_list() == [2, 4, 5]
    assert Column.of([True, None, False]).to_list() == [True, None, False]
    assert Column.of([b"\xff", b""]).to_list() == [b"\xff", b""]
    prices = Column.of([Decimal("1.50"), Decimal("20"), None])
    assert (prices.type, prices.max(), prices.gt(2).to_list()) == ("decimal(38, 2)?", 20, [False, True, None])


def check_runs_by_record():
    ends, values = Column.of([2, 3, 5], "u16"), Column.of([7, 8, 9], "i8")
    runs = Column.from_runs(ends, values, 1, 4)
    assert (list(runs), runs.offset, runs.record()) == ([7, 8, 9, 9], 1, bytes([0x08, 1, 0x10, 3, 0x18, 1]))
    assert list(Column.from_record(runs.type, 4, runs.record(), ends, values)) == [7, 8, 9, 9]


def check_copies():
    runs = Column.of(ROWS).encode()
    copies = [copy.copy(runs), copy.deepcopy(runs), pickle.loads(pickle.dumps(runs))]
    runs.free()
    assert [one.to_list() for one in copies] == [ROWS] * 3 and refusal(copy.copy, runs) == ("NoColumn", (0, 0, 0))


def check_arrow():
    runs = Column.of(ROWS).encode().slice(1, 9)
    with runs.to_arrow("x") as (schema, items):
        assert (schema.format, schema.name, items.length, items.n_children) == (b"+r", b"x", 8, 2)
        again = Column.from_arrow_structs(schema, ctypes.addressof(items))
    assert not schema.release and not items.release
    assert again.to_list() == ROWS[1:9] and again.form == "runs"
    with Column.of([1, 1, 0]).to_arrow(dictionary=Column.of(["a", "b"])) as (schema, items):
        assert Column.from_arrow_structs(schema, items).to_list() == ["b", "b", "a"]
    assert Column.from_arrow(runs).to_list() == ROWS[1:9]  # by capsules, as any Arrow library takes it


def check_refusals():
    column = Column.of(ROWS)
    assert refusal(column.slice, 5, 11) == ("BadRange", (5, 11, 10))
    assert refusal(Column.of(["a"]).encode) == ("OnlyPrimitive", (0, 0, 0))
    assert refusal(column.fill, None) == ("NullFill", (0, 0, 0))
    assert refusal(column.cast, "i8") == ("NullNotAllowed", (0, 0, 0)) and refusal(lambda: column == "a") == "TypeError"
    assert refusal(Column.of([2**63 - 1, 1]).sum) == "OverflowError"
    assert refusal(column.at, 2**64) == ("OutOfBounds", (2**64, 10, 0))
    assert refusal(column.compare, 256, 1) == "ValueError" and refusal(column.fill, 2**64) == "OverflowError"
    try:
        column[10]
        raise AssertionError("not refused")
    except IndexError as error:
        assert str(error) == "row 10 is not among 10 rows"


check_runs()
check_buffers()
if numpy:
    check_numpy()
check_other_types()
check_runs_by_record()
check_copies()
check_arrow()
check_refusals()
print("columns answer as rows, from", "arrays, views and NumPy" if numpy else "arrays and views; no NumPy here")
