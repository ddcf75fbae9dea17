"""The examples of docs/BYTES.md, byte by byte: what the page writes is read as the rows that it names, and written
again as these bytes."""
import re
from datetime import date, datetime, timezone
from decimal import Decimal
from pathlib import Path

import pytest

from hivevigil import Column, Table

PAGE = Path(__file__).resolve().parents[2] / "docs" / "BYTES.md"
# the type and the rows of each example, in the page's order; of 2**60 rows the first, and how many
EXAMPLES = [
    ("i16?", [7, 7, 7, None, None]),
    ("decimal(5, 2)?", [Decimal("1.50"), None]),
    ("utf8?", ["ab", None, "", "c"]),
    ("utf8", ("ab", 2**60)),
    ("list?", [[7, 8], [8, 9], None]),
    ("decimal(5, 2)?", [None, None, None]),
    ("list?", (None, 2**60)),
    ("list?", [None]),
]


def line_bytes(line: str, width: int) -> bytes:
    """The bytes at the front of a line; of "96 00 .. 00" as many as its number has."""
    front = re.match(r"( +([0-9a-f]{2}|\.\.)\b| +\.\.)+", line)[0]
    first, dots, last = front.partition("..")
    between = bytes(width - len(bytes.fromhex(first + last))) if dots else b""
    return bytes.fromhex(first) + between + bytes.fromhex(last)


def messages(start: str = "## An example, byte by byte", stop: str = "## What is refused") -> list[bytes]:
    page = PAGE.read_text(encoding="utf-8")
    part = page[page.index(start) : page.index(stop)]
    blocks = [block for block in part.split("\n\n") if re.match("    [0-9a-f]{2} ", block)]
    return [b"".join(line_bytes(line, 16 if "decimal" in block else 8) for line in block.splitlines())
            for block in blocks]


def test_the_page_has_these_examples():
    assert len(messages()) == len(EXAMPLES)


@pytest.mark.parametrize("at", range(len(EXAMPLES)))
def test_an_example_is_read_and_written(at):
    message, (type_of_rows, rows) = messages()[at], EXAMPLES[at]
    column = Column.from_bytes(message)
    assert column.type == type_of_rows and column.to_bytes() == message
    if isinstance(rows, list):
        assert column.to_list() == rows
    else:
        assert (len(column), column[0], column[-1]) == (rows[1], rows[0], rows[0])


def test_the_examples_of_logical_types():
    times, floats = messages("## Logical types", "## Tables")
    column = Column.from_bytes(times)
    at = [datetime.fromtimestamp(seconds, timezone.utc) for seconds in (100, 160)]
    assert (column.to_list(), str(column.logical_type), column.type) == ([*at, None], "timestamp[s, UTC]", "i64?")
    assert column.to_bytes() == times and len(times) == 54
    assert Column.of([*at, None], "timestamp[s, UTC]").to_bytes() == times
    column = Column.from_bytes(floats)
    assert (len(column), column[0], column.sum(), str(column.logical_type)) == (2**60, 1.5, 1.5 * 2.0**60, "float64")
    assert column.to_bytes() == floats and len(floats) == 37
    assert Column.constant(1.5, 2**60).to_bytes() == floats


def test_the_example_of_a_table():
    message, _ = messages("## Tables", "## Versions")
    table = Table.from_bytes(message)
    assert table.to_dict() == {"day": [date(1970, 1, 8), date(1970, 1, 8), None], "place": ["ab", "ab", "ab"]} and len(message) == 164
    assert table.types == {"day": "i32?", "place": "utf8"} and table.logical_types == {"day": "tdD"}
    assert table.to_bytes() == message


def test_the_example_of_differences():
    _, message = messages("## Tables", "## Versions")
    table = Table.from_bytes(message)
    times = [datetime.fromtimestamp(at, timezone.utc) for at in range(100, 401, 60)]
    assert table.to_dict() == {"at": times} and table.types == {"at": "i64"} and table["at"].form == "flat"
    assert table.to_bytes(differences=True) == message and (len(message), len(table.to_bytes())) == (127, 139)
