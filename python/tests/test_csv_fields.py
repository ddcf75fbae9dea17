"""Fields of a CSV file next to what fractions and Python's csv module say of them."""
import bisect
import csv
import math
import re
import struct
from decimal import Decimal, localcontext
from fractions import Fraction

import pandas
import pytest
from hivevigil import Table
from hivevigil.csv_files import BadFile
from hypothesis import given, settings
from hypothesis import strategies as st

FORMATS = {"float16": ("e", "H", 0x7C00), "float32": ("f", "I", 0x7F800000)}  # and the infinity of each


@pytest.fixture(scope="module")
def folder(tmp_path_factory):
    return tmp_path_factory.mktemp("fields")


def bits(rows):
    """The bits of floats, so that -0.0 can be compared."""
    return [struct.pack("<d", row) for row in rows]


def nearest(text, width):
    """The float of a width nearest to the number of a text, at a tie the even one, found among all of them."""
    letter, word, finite = FORMATS[width]

    def at(place):
        return Fraction(struct.unpack(letter, struct.pack(word, place))[0])

    size = abs(Fraction(text))
    past = bisect.bisect_right(range(finite), size, key=at)
    two = [place for place in (past - 1, past) if place < finite]
    best = min(two, key=lambda place: (abs(at(place) - size), place % 2))
    return math.copysign(at(best), -1 if text.startswith("-") else 1)


@st.composite
def decimal_texts(draw, letter, word, finite):
    """Decimals next to the middle of two floats, where a second rounding goes wrong, and others."""
    place = draw(st.integers(0, finite - 2))
    two = [Decimal(struct.unpack(letter, struct.pack(word, bits))[0]) for bits in (place, place + 1)]
    with localcontext() as context:
        context.prec = 400
        step = draw(st.sampled_from([0, 0, 1, -1])) * Decimal(10) ** -draw(st.sampled_from([30, 170]))
        text = f"{draw(st.sampled_from([sum(two) / 2, two[0]])) + step:f}"
    return text if draw(st.booleans()) or text.startswith("-") else "-" + text


@given(st.data(), st.sampled_from(["float16", "float32"]))
@settings(max_examples=60)
def test_fields_are_the_nearest_floats_of_few_bits(folder, data, width):
    drawn = decimal_texts(*FORMATS[width])
    texts = ["0.1", "-0.0", "1e-300", *data.draw(st.lists(drawn, max_size=5))]
    (folder / "few.csv").write_text("".join(f"{text}\n" for text in ["a", *texts]))
    found = Table.from_csv(folder / "few.csv", types={"a": width})["a"]
    assert str(found.logical_type) == width
    assert bits(found.to_list()) == bits([nearest(text, width) for text in texts])


@pytest.mark.parametrize("width, last, past", [("float16", "65519.99", "65520"), ("float32", "3.4028235e38", "3.4028236e38")])
def test_numbers_past_the_floats_of_few_bits(tmp_path, width, last, past):
    (tmp_path / "far.csv").write_text(f"a\n{last}\n-inf\nnan\n")
    found = Table.from_csv(tmp_path / "far.csv", types={"a": width})["a"].to_list()
    assert found[:2] == [nearest(last, width), float("-inf")] and math.isnan(found[2])
    (tmp_path / "far.csv").write_text(f"a\n{past}\n")
    with pytest.raises(BadFile, match=f"row 0 is {re.escape(repr(past))}, which is not of {width}"):
        Table.from_csv(tmp_path / "far.csv", types={"a": width})


@given(st.lists(st.text(';|\t,"a \n', min_size=1), min_size=1, max_size=3, unique=True), st.sampled_from([";", "x;y|", ","]))
def test_names_with_marks_come_back(folder, names, text):
    table = Table({name: [text, f"{text}2"] for name in names})
    table.to_csv(folder / "marks.csv")
    assert Table.from_csv(folder / "marks.csv").to_dict() == table.to_dict()
    with open(folder / "marks.csv", newline="", encoding="utf-8") as file:
        assert next(csv.reader(file, strict=True)) == names
    assert pandas.read_csv(folder / "marks.csv", nrows=0, skip_blank_lines=False).columns.tolist() == names


@pytest.mark.parametrize("lines, names", [
    ('"a;b"\nx;y\n', ["a;b"]), ('"a,b";c\n1;2\n', ["a,b", "c"]), ('c;"a,b"\n1;2\n', ["c", "a,b"]),
    ('"a ""b;"""\tc\n1\t2\n', ['a "b;"', "c"]), ('5" pipe;6" pipe\n1;2\n', ['5" pipe', '6" pipe']),
    ('\ufeff"a|b";c\n1;2\n', ["a|b", "c"]),
])  # fmt: skip
def test_a_mark_in_quotes_does_not_divide(tmp_path, lines, names):
    (tmp_path / "quoted.csv").write_text(lines)
    assert Table.from_csv(tmp_path / "quoted.csv").names == names
