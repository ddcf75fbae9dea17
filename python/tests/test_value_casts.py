"""Texts cast to integers and integers to texts are those of Python, row by row, in every form; so are booleans."""
import pytest
from hivevigil import Column, errors
from hypothesis import example, given
from hypothesis import strategies as st

FORMS = st.sampled_from(["flat", "runs"])
LETTERS = {"u8": (0, 2**8), "i8": (-2**7, 2**7), "u32": (0, 2**32), "i64": (-2**63, 2**63), "u64": (0, 2**64)}
WHOLE = st.lists(st.tuples(st.none() | st.integers(-130, 300) | st.integers(-2**63, 2**63 - 1), st.integers(1, 9)), max_size=8)


def rows_of(runs):
    return [number for number, count in runs for _ in range(count)]


@given(WHOLE, st.sampled_from(sorted(LETTERS)), FORMS)
@example([(7, 2), (None, 1), (-3, 1)], "i64", "runs")
def test_integers_and_their_texts(runs, to, form):
    rows = rows_of(runs)
    column = Column.of(rows, "i64?")
    texts = (column if form == "flat" else column.to_runs()).cast("utf8?")
    assert texts.to_list() == [None if row is None else str(row) for row in rows]
    assert texts.type == "utf8?" and texts.form == form
    least, past = LETTERS[to]
    wrong = next((row for row, number in enumerate(rows) if number is not None and not least <= number < past), None)
    if wrong is None:
        assert texts.cast(f"{to}?").to_list() == rows
        return
    with pytest.raises(errors.CastOutOfRange) as refused:
        texts.cast(f"{to}?")
    assert str(refused.value) == f"cast to {to}?: row {wrong} is '{rows[wrong]}', which is not written as {to} is"


@pytest.mark.parametrize("text", ["", " 7", "7 ", "+7", "07", "-0", "7.0", "1e3", "٧", "seven", "1" * 30])
def test_texts_that_are_no_integers(text):
    for column in (Column.of(["1", "1", text]), Column.of(["1", "1", text]).to_runs()):
        with pytest.raises(errors.CastOutOfRange, match="cast to i64: row 2 is "):
            column.cast("i64")


@given(st.lists(st.booleans() | st.none(), max_size=20), st.sampled_from(sorted(LETTERS)), FORMS)
def test_booleans_as_integers(rows, to, form):
    column = Column.of(rows, "bool?")
    made = (column if form == "flat" else column.to_runs()).cast(f"{to}?")
    assert made.to_list() == [None if row is None else int(row) for row in rows]
    assert made.type == f"{to}?" and made.form == form


def test_many_rows_are_cast_by_their_runs():
    assert Column.constant("3", 2**60).cast(int).sum() == 3 * 2**60
    assert Column.constant(True, 2**60).cast("u8").sum() == 2**60
    assert Column.constant(5, 2**60).cast(str)[2**59] == "5"


def test_null_needs_a_type_that_has_it():
    with pytest.raises(errors.NullNotAllowed, match="cast to i64: row 1 is null"):
        Column.of(["7", None]).cast("i64")
    assert Column.of(["7"]).cast("i64", nullable=True).type == "i64?"


def test_what_is_not_cast():
    for column, to in [(Column.of([b"7"]), "i64"), (Column.of([7]), "bool"), (Column.of([True]), str), (Column.of(["t"]), "bool")]:
        with pytest.raises(errors.Unsupported):
            column.cast(to)
    with pytest.raises(errors.Unsupported):
        Column.of([7]).cast("date").cast(str)
