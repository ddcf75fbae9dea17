"""Which bytes are messages, against the model of examples/bytes, which is written over Protocol Buffers' own library."""
import shutil
import sys
from pathlib import Path

import pytest

from hivevigil import Column, errors

pytest.importorskip("google.protobuf")
if not shutil.which("protoc"):
    pytest.skip("protoc is not there", allow_module_level=True)
sys.path.insert(0, str(Path(__file__).resolve().parents[2] / "examples" / "bytes"))
model, messages = (pytest.importorskip(name) for name in ("model", "messages"))


def is_read(data: bytes) -> bool:
    try:
        Column.from_bytes(data)
    except errors.BadMetadata:
        return False
    return True


@pytest.mark.filterwarnings("ignore::RuntimeWarning")  # Protocol Buffers warn of some bytes before they refuse them
@pytest.mark.parametrize("seed", range(3))
def test_messages_and_what_is_none(seed):
    """Random messages of each form, each changed in a byte or two, and in a field."""
    due = {data: model.column(data) is not None for data in messages.messages(900, seed)}
    assert {data: Column.is_message(data) for data in due} == due
    assert {data: is_read(data) for data in due} == due
    assert 100 < sum(due.values()) < len(due) - 100


def lists(offsets, sizes, validity=model.NEVER_NULL, rows=2):
    """Lists over two elements of u8."""
    message = messages.begun(model.LIST, model.LISTS, rows)
    message.validity = validity
    message.elements.CopyFrom(messages.begun(1, model.FLAT, 2))
    message.elements.validity, message.elements.items = model.NEVER_NULL, b"ab"
    message.offsets.CopyFrom(offsets)
    message.sizes.CopyFrom(sizes)
    return message


def runs(values, lengths, rows, offset=0):
    message = messages.begun(values.type, model.RUNS, rows)
    message.offset, message.ends_type = offset, model.U64
    message.run_lengths.extend(lengths)
    message.values.CopyFrom(values)
    return message


def flat(*numbers):
    return messages.flat_numbers(list(numbers))


def flags(*truths, rows, lengths, offset=0):
    return runs(messages.flat_truths(list(truths)), lengths, rows, offset)


def by_runs(message, validity):
    message.validity = model.BY_RUNS
    message.validity_runs.CopyFrom(validity)
    return message


MANY = 2**60
LISTS = [
    (lists(flat(0, 1), flat(2, 1)), True),
    (lists(flat(0, 1), flat(2, 2)), False),  # one past the elements
    (lists(flat(0, 3), flat(2, 0)), False),
    (lists(flat(0, 2), flat(2, 0)), True),  # no element, from the end on
    (lists(flat(0, 2**64 - 1), flat(2, 1)), False),
    (lists(flat(0, 1), flat(2)), False),  # a size too few
    (lists(flat(0, 9), flat(2, 9), model.ALL_NULL), True),
    (lists(flat(9), flat(9), model.ALL_NULL), False),
    (lists(runs(flat(0, 1), [1, 4], 2), flat(2, 1)), True),
    (lists(runs(flat(0, 1), [2, 4], 2, 1), flat(2, 2)), False),
    (lists(runs(flat(1, 0), [2, 4], 2, 1), runs(flat(1, 2), [2, 4], 2, 1)), True),
    (lists(runs(flat(1, 0), [3, 4], 2, 1), runs(flat(1, 2), [2, 4], 2, 1)), False),  # the second row is 1 and 2
    (lists(runs(flat(1), [MANY], MANY), runs(flat(1), [MANY], MANY), rows=MANY), True),
    (lists(runs(flat(1), [MANY], MANY), runs(flat(1, 2), [MANY - 1, 1], MANY), rows=MANY), False),
    (by_runs(lists(runs(flat(1), [MANY], MANY), runs(flat(1, 2), [MANY - 1, 1], MANY), rows=MANY),
             flags(True, False, rows=MANY, lengths=[MANY - 1, 1])), True),
    (by_runs(lists(runs(flat(1), [MANY], MANY), runs(flat(1, 2), [MANY - 1, 1], MANY), rows=MANY),
             flags(True, False, rows=MANY, lengths=[MANY, 1])), False),
    (by_runs(lists(flat(0, 9), flat(2, 9)), flags(True, False, rows=2, lengths=[3, 1], offset=2)), True),
    (by_runs(lists(flat(0, 9), flat(2, 9)), flags(True, False, rows=2, lengths=[4, 1], offset=2)), False),
    (by_runs(lists(flat(0, 1), flat(2, 1)), flags(True, rows=3, lengths=[3])), False),
]


@pytest.mark.parametrize("at", range(len(LISTS)))
def test_lists(at):
    """Rows of lists at the edge of their elements, flat and in runs, under null too, and 2^60 of them."""
    message, is_so = LISTS[at]
    data = model.written(message)
    assert (model.column(data) is not None) == is_so
    assert Column.is_message(data) == is_read(data) == is_so
    over = model.written(runs(message, [1] * 3, 2))  # under runs it has another number of rows than these have
    assert not Column.is_message(over)


@pytest.mark.parametrize("levels, is_so", [(14, True), (15, False), (16, False)])
def test_lists_in_runs_count_as_two_levels(levels, is_so):
    message = lists(runs(flat(0), [2], 2), flat(2, 2))
    for _ in range(levels):
        message = runs(message, [1, 1], 2)
    assert Column.is_message(model.written(message)) == is_so


def test_other_arguments():
    assert not Column.is_message(b"")
    assert Column.is_message(memoryview(bytearray(model.written(flat(7)))))
    with pytest.raises(TypeError):
        Column.is_message("text")
