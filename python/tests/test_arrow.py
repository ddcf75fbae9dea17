"""Columns through capsules: out, as an independent reader sees them, and in, from arrays that this file makes."""
import ctypes
import gc
import os
import subprocess
import sys
from itertools import accumulate
from pathlib import Path

import hivevigil
import pytest
from arrow_model import Made, MadeStream, _pointer, batch, numbers, rows_of, streamed, structs_of
from hivevigil import ArrowArray, ArrowArrayStream, ArrowSchema, Column, columns_from_arrow, errors
from hypothesis import given
from rows import samples

FINDS = {**os.environ, "PYTHONPATH": str(Path(hivevigil.__file__).parents[1])}


@given(samples())
def test_arrays_out_and_in(sample):
    capsules = sample.column.__arrow_c_array__()
    assert rows_of(*structs_of(*capsules)) == sample.rows
    again = Column.from_arrow(sample.column)
    assert (again.type, again.to_list()) == (sample.column.type, sample.rows)


@given(samples())
def test_streams_out_and_in(sample):
    assert streamed(sample.column, rows_of) == sample.rows
    again = Column.from_arrow(OnlyStream(sample.column))
    assert (again.type, again.to_list()) == (sample.column.type, sample.rows)


class OnlyStream:
    def __init__(self, column):
        self.column = column

    def __arrow_c_stream__(self, requested_schema=None):
        return self.column.__arrow_c_stream__(requested_schema)


def test_schemas():
    runs = Column.of([1, 1, None], "i16").encode()
    schema = ArrowSchema.from_address(_pointer(runs.__arrow_c_schema__(), b"arrow_schema"))
    capsule = runs.__arrow_c_schema__()
    schema = ArrowSchema.from_address(_pointer(capsule, b"arrow_schema"))
    assert (schema.format, schema.n_children, schema.children[1].contents.format) == (b"+r", 2, b"s")


def test_the_form_that_is_requested():
    runs = Column.of([19_000, 19_000, None], "i32").encode()
    days = Made("tdD", [None, None], 0)
    for wanted, format in ((numbers([1], "i"), b"i"), (days, b"tdD"), (numbers([1], "l"), b"i")):
        requested = wanted.__arrow_c_array__()[0]
        capsules = runs.__arrow_c_array__(requested)
        schema, items = structs_of(*capsules)
        assert schema.format == format and rows_of(schema, items) == [19_000, 19_000, None]
        stream = runs.__arrow_c_stream__(requested)
        assert ArrowArrayStream.from_address(_pointer(stream, b"arrow_array_stream")).release


def test_formats_of_dates_and_dictionaries():
    with Column.of([0, 19_000], "i32").to_arrow("day", "tdD") as (schema, items):
        assert (schema.format, schema.name, rows_of(schema, items)) == (b"tdD", b"day", [0, 19_000])
    with Column.of([1, 0, None]).to_arrow(dictionary=Column.of(["a", "b"])) as (schema, items):
        assert rows_of(schema, items) == ["b", "a", None]
        assert Column.from_arrow_structs(schema, items).to_list() == ["b", "a", None]
    codes = Column.of([0, 1])
    with codes.to_arrow(dictionary=codes) as (schema, items):
        assert rows_of(schema, items) == [0, 1]
    with pytest.raises(IndexError):
        Column.of([2]).to_arrow(dictionary=Column.of(["a", "b"]))
    with pytest.raises(TypeError):
        Column.of(["a"]).to_arrow("", "tdD")


def test_arrays_of_another_producer():
    made = numbers([1, None, 3])
    column = Column.from_arrow(made)
    assert (column.type, column.to_list()) == ("i64?", [1, None, 3]) and made.released == []
    window = numbers([1, None, 3, 4])
    window.items.offset, window.items.length, window.items.null_count = 1, 2, -1
    assert Column.from_arrow(window).to_list() == [None, 3]
    assert Column.of(window, "i16?").to_list() == [None, 3] and Column.of(window).type == "i64?"
    assert Column.of(["a", "b"]).take(numbers([1, 0])).to_list() == ["b", "a"]
    assert Column.of(["a", "b"])[MadeStream([numbers([1]), numbers([0])])].to_list() == ["b", "a"]


def test_batches_of_another_producer():
    made = batch({"a": [1, 2, 3], "b": [4, None, 6]}, 3)
    columns = columns_from_arrow(made)
    assert {name: column.to_list() for name, column in columns.items()} == {"a": [1, 2, 3], "b": [4, None, 6]}
    with pytest.raises(ValueError, match="a, b"):
        Column.from_arrow(made)
    assert Column.from_arrow(batch({"a": [7]}, 1)).to_list() == [7]
    schema, items = structs_of(*made.__arrow_c_array__())
    assert Column.from_arrow_structs(schema, ctypes.addressof(items), 1).to_list() == [4, None, 6]
    for child, error in ((2, ValueError), (-1, ValueError), (2**64, OverflowError), ("a", TypeError)):
        with pytest.raises(error):
            Column.from_arrow_structs(schema, items, child)
    twice = Made("+s", [None], 1, children=[numbers([1], name=b"a"), numbers([1], name=b"a")])
    with pytest.raises(ValueError, match="one name"):
        columns_from_arrow(twice)


def test_streams_of_another_producer():
    arrays = MadeStream([numbers([1, 2]), numbers([None]), numbers([])])
    assert Column.from_arrow(arrays).to_list() == [1, 2, None] and arrays.released == 1
    batches = MadeStream([batch({"a": [1], "b": [2]}, 1), batch({"a": [3], "b": [None]}, 1)])
    columns = columns_from_arrow(batches)
    assert {name: column.to_list() for name, column in columns.items()} == {"a": [1, 3], "b": [2, None]}
    failing = MadeStream([numbers([1])], words=b"the disk is gone")
    with pytest.raises(errors.ArrowStreamFailed, match="the disk is gone") as caught:
        Column.from_arrow(failing)
    assert caught.value.fields[0] == 5 and isinstance(caught.value, OSError) and failing.released == 1


def test_capsules_that_were_released():
    for made in (numbers([1]), MadeStream([numbers([1])])):
        part = made.items if isinstance(made, Made) else made.stream
        ctypes.memset(ctypes.addressof(part) + type(part).release.offset, 0, 8)
        with pytest.raises(ValueError, match="released"):
            Column.from_arrow(made)


@pytest.mark.parametrize("source", [1, "a", None, [1], object()])
def test_what_has_no_capsules(source):
    with pytest.raises(TypeError):
        Column.from_arrow(source)


def test_arrays_that_are_not_legal():
    broken = numbers([1, 2])
    broken.items.length = -1
    with pytest.raises(errors.ArrowInvalid, match="negative"):
        Column.from_arrow(broken)
    said = "the Arrow array is not valid: the view of row 5 is not within its buffers, or does not begin as they do"
    assert str(errors.ArrowInvalid(8, 5)) == said


def floats(name=b""):
    return Made("g", [None, ctypes.create_string_buffer(16)], 1, name=name)


def texts(*rows):
    """Texts of these bytes."""
    offsets = b"".join(offset.to_bytes(4, "little") for offset in accumulate(map(len, rows), initial=0))
    buffers = [None, ctypes.create_string_buffer(offsets), ctypes.create_string_buffer(b"".join(rows))]
    return Made("u", buffers, len(rows))


def lists_of_floats(name=b""):
    offsets = ctypes.create_string_buffer(bytes(4) + b"\1\0\0\0")
    return Made("+l", [None, offsets], 1, name=name, children=[floats(b"item")])


@pytest.mark.parametrize(
    "source, kind, said",
    [
        (lambda: lists_of_floats(), errors.Unsupported, "lists of floats are not served"),
        (lambda: MadeStream([lists_of_floats()]), errors.Unsupported, "lists of floats are not served"),
        (lambda: Made("+s", [None], 1, children=[numbers([1], name=b"a"), lists_of_floats(b"b")]), errors.Unsupported,
         "column 'b' has lists of floats, which are not served"),
        (lambda: Made("tin", [None, ctypes.create_string_buffer(16)], 1), errors.Unsupported,
         "intervals of months, days and nanoseconds are not served"),
        (lambda: texts(b"a", b"b", b"\xff"), errors.TypeMismatch, "the text in row 2 of an array is not UTF-8"),
        (lambda: MadeStream([texts(b"a"), texts(b"a", b"\xff")]), errors.TypeMismatch,
         "the text in row 1 of an array is not UTF-8"),
    ],
)
def test_arrays_that_are_not_served(source, kind, said):
    with pytest.raises(kind) as refused:
        columns_from_arrow(source())
    assert str(refused.value) == f"from_arrow: {said}"


# each with what is below it, and what a sentence calls it
UNSERVED = {
    "n": "rows of the type null", "+s l": "structs", "+m +s": "maps", "+w:2 l": "lists of one size",
    "+vl l": "views of lists", "+ud:0 l": "unions", "d:40,2,256": "decimals of 256 bits",
    "tiD": "intervals of days and milliseconds", "tin": "intervals of months, days and nanoseconds",
    "+l +L l": "lists of lists", "+L e": "lists of floats",
}


def nested(formats, name=b""):
    """An array without rows of a format, whose child is of the next one."""
    format, *below = formats
    buffers = [None] if format == "+s" else [None, None]
    return Made(format, buffers, 0, name=name, children=[nested(below)] if below else [])


@pytest.mark.parametrize("formats, words", UNSERVED.items(), ids=UNSERVED.values())
def test_types_that_are_not_served_in_words(formats, words):
    """No sentence shows Arrow's codes of types."""

    def said(source):
        with pytest.raises(errors.Unsupported) as refused:
            columns_from_arrow(source)
        return str(refused.value)

    formats = formats.split()
    if formats[0] != "+s":  # which by itself is a batch
        assert said(nested(formats)) == said(MadeStream([nested(formats)])) == f"from_arrow: {words} are not served"
    batch = Made("+s", [None], 0, children=[numbers([], name=b"a"), nested(formats, b"b")])
    assert said(batch) == f"from_arrow: column 'b' has {words}, which are not served"


def test_lists_by_streams():
    lists = Column.from_lists(["a", "b", None], [0, 1, 0], [1, 2, 0], [True, True, False])
    again = Column.from_arrow(OnlyStream(lists))
    assert (again.type, again.to_list()) == ("list?", [["a"], ["b", None], None])
    assert Column.from_arrow(OnlyStream(Column.from_lists([1], [], []))).to_list() == []


class Wrong:
    """Hands out capsules of another name."""

    def __arrow_c_array__(self, requested_schema=None):
        schema, items = numbers([1]).__arrow_c_array__()
        return items, schema


def test_capsules_of_another_name():
    with pytest.raises(ValueError, match="^a capsule of the name arrow_schema is expected here$"):
        Column.from_arrow(Wrong())


def test_capsules_that_nobody_takes():
    """Dropped as they are, also while an exception is on its way, and when a consumer has moved what they held."""
    column = Column.of(["a", None]).to_runs()
    for _ in range(100):
        column.__arrow_c_array__()
        column.__arrow_c_stream__()
        with pytest.raises(ZeroDivisionError):
            _fails(column.__arrow_c_array__(), column.__arrow_c_stream__())
    capsules = column.__arrow_c_array__()
    schema, items = structs_of(*capsules)
    moved_schema, moved = ArrowSchema.from_buffer_copy(schema), ArrowArray.from_buffer_copy(items)
    for part in (schema, items):
        ctypes.memset(ctypes.addressof(part) + type(part).release.offset, 0, 8)
    del capsules, schema, items
    gc.collect()
    assert rows_of(moved_schema, moved) == ["a", None]
    moved.release(moved)
    moved_schema.release(moved_schema)


def _fails(*_):
    return 1 // 0


def test_capsules_at_the_end_of_the_interpreter():
    program = "import hivevigil; kept = hivevigil.Column.of([1, 2]).encode(); parts = kept.__arrow_c_array__()"
    ended = subprocess.run([sys.executable, "-X", "dev", "-c", program], env=FINDS, capture_output=True, text=True)
    assert (ended.returncode, ended.stderr) == (0, "")


def test_chunks_of_lists():
    def lists(sizes, rows):
        offsets = b"".join(offset.to_bytes(4, "little") for offset in accumulate(sizes, initial=0))
        return Made("+l", [None, ctypes.create_string_buffer(offsets)], len(sizes), children=[numbers(rows)])

    column = Column.from_arrow(MadeStream([lists([2, 0], [1, None]), lists([], []), lists([1], [3])]))
    assert (column.type, column.to_list()) == ("list?", [[1, None], [], [3]])
