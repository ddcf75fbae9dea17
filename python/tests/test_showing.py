"""What a column looks like. Texts were written by hand; the strip is measured in its 600 units."""
import re
from decimal import Decimal
from xml.etree import ElementTree

import pytest
from hivevigil import Column
from hypothesis import given
from rows import samples

SVG = "{http://www.w3.org/2000/svg}"


@pytest.mark.parametrize(
    "column, shown",
    [
        (Column.of([1, None]), "<Column i64?: 2 rows, flat>\n  [1, None]"),
        (Column.of(["a"]), "<Column utf8: 1 row, flat>\n  ['a']"),
        (Column.of([], "u8"), "<Column u8: 0 rows, flat>\n  []"),
        (Column.of(range(11)), "<Column i64: 11 rows, flat>\n  [0, 1, 2, 3, 4, 5, 6, 7, 8, 9, ...]"),
        (Column.of([5, 5, 5]).encode()[:2], "<Column i64: 2 rows, constant>\n  0:2  5"),
        (Column.of([], "i8").encode(), "<Column i8: 0 rows in 0 runs>"),
        (Column.of([Decimal("1.50")] * 12).to_runs(), "<Column decimal(38, 2): 12 rows in 1 run>\n  0:12  1.50"),
        (Column.of([7, 7, None]).encode(), "<Column i64?: 3 rows in 2 runs>\n  0:2  7\n  2:3  None"),
        (
            Column.of(range(9)).encode()[1:],
            "<Column i64: 8 rows in 8 runs>\n" + "\n".join(f"  {at}:{at + 1}  {at + 1}" for at in range(8)),
        ),
        (
            Column.of(range(2000)).encode(),
            "<Column i64: 2,000 rows in 2,000 runs>\n"
            + "\n".join(f"  {at}:{at + 1}  {at}" for at in range(8))
            + "\n  and 1,992 more runs",
        ),
        (Column.of(["x" * 50]), f"<Column utf8: 1 row, flat>\n  ['{'x' * 35}...']"),
    ],
)
def test_text(column, shown):
    assert repr(column) == shown


def rects_of(column):
    """Left, width and title of each part of the strip."""
    strip = re.search(r"<svg.*</svg>", column._repr_html_())[0]
    strip = strip.replace("<svg ", '<svg xmlns="http://www.w3.org/2000/svg" ')
    parts = ElementTree.fromstring(strip).findall(f"{SVG}rect")
    frame = parts.pop()
    assert frame.get("fill") == "none"
    return [(float(p.get("x")), float(p.get("width")), p.find(f"{SVG}title").text, p.get("fill")) for p in parts]


def test_strip():
    parts = rects_of(Column.of([1, 1, 1, None, 3, 3]).encode())
    assert [part[:3] for part in parts] == [
        (0, 300, "rows 0 to 2: 1"), (300, 100, "row 3: None"), (400, 200, "rows 4 to 5: 3"),
    ]
    assert parts[1][3] == "url(#hivevigil-null)" and len({part[3] for part in parts}) == 3


def test_strip_of_many_rows():
    parts = rects_of(Column.from_runs([500_000, 1_000_000], ["left", "right"]))
    assert [part[:3] for part in parts] == [
        (0, 300, "about rows 0 to 499,999: 'left'"), (300, 300, "about rows 500,000 to 999,999: 'right'"),
    ]
    assert len(rects_of(Column.of(range(100_000)))) == 600


def test_values_are_escaped():
    html = Column.of(["<script>&", '"']).to_runs()._repr_html_()
    assert "<script>" not in html and "&lt;script&gt;&amp;" in html


@given(samples())
def test_every_column_is_shown(sample):
    assert repr(sample.column).startswith(f"<Column {sample.column.type}: {len(sample.rows)} row")
    html = sample.column._repr_html_()
    ElementTree.fromstring(re.sub("<br>", "<br/>", html))
    if sample.rows:
        parts = rects_of(sample.column)
        assert abs(sum(part[1] for part in parts) - 600) < 1
