"""Two columns of times worked place by place: by their integers, where these count one unit. The model is datetime."""
import operator
from datetime import date, datetime, timedelta, timezone

import pytest
from hypothesis import given
from hypothesis import strategies as st

from hivevigil import Column
from hivevigil.errors import TypeMismatch

UTC = timezone.utc
KINDS = {
    "timestamp[us]": st.datetimes(), "date": st.dates(), "float64": st.floats(allow_nan=False),
    "timestamp[us, UTC]": st.datetimes(datetime(2, 1, 1), datetime(9998, 1, 1), timezones=st.just(UTC)),
    "duration[us]": st.timedeltas(timedelta(days=-(10**6)), timedelta(days=10**6)),
}
PICK = {
    "coalesce": lambda a, b: b if a is None else a,
    "lesser": lambda a, b: None if None in (a, b) else min(a, b),
    "greater": lambda a, b: None if None in (a, b) else max(a, b),
}  # fmt: skip


@given(st.sampled_from(list(KINDS)), st.sampled_from(list(PICK)), st.data())
def test_rows_are_picked_and_keep_their_type(name, how, data):
    if name == "float64":
        how = "coalesce"
    pairs = data.draw(st.lists(st.tuples(st.none() | KINDS[name], st.none() | KINDS[name]), min_size=1, max_size=5))
    lefts, rights = ([pair[side] for pair in pairs for _ in range(2)] for side in (0, 1))
    left, right = Column.of(lefts, f"{name}?"), Column.of(rights, f"{name}?")
    for one in (left, left.to_runs()):
        found = getattr(one, how)(right)
        assert str(found.logical_type) == name
        assert found.to_list() == [PICK[how](*pair) for pair in zip(lefts, rights)]
        value = data.draw(KINDS[name])
        assert getattr(one, how)(value).to_list() == [PICK[how](row, value) for row in lefts]


BEGIN = datetime(2024, 1, 1)
COLUMNS = {
    "timestamp[us]": [BEGIN], "timestamp[s]": [BEGIN], "timestamp[us, UTC]": [BEGIN.replace(tzinfo=UTC)],
    "duration[us]": [timedelta(1)], "duration[s]": [timedelta(1)], "date": [date(2024, 1, 1)],
}
ALIKE = [{"timestamp[us]", "duration[us]"}, {"timestamp[us, UTC]", "duration[us]"}, {"timestamp[s]", "duration[s]"}]


@pytest.mark.parametrize("left", COLUMNS)
@pytest.mark.parametrize("right", COLUMNS)
def test_integers_of_one_unit_are_worked(left, right):
    one, other = Column.of(COLUMNS[left], left), Column.of(COLUMNS[right], right)
    if left == right or {left, right} in ALIKE:
        for give in (operator.sub, operator.add):
            found = give(one, other)
            assert found.logical_type is None and found.equals(give(one.storage(), other.storage()))
        return
    for call in (lambda: one - other, lambda: one + other, lambda: one.coalesce(other), lambda: one.lesser(other)):
        with pytest.raises(TypeMismatch, match="column.cast counts times in another unit, and column.storage"):
            call()


def test_differences_are_counted_in_the_unit():
    rows = [BEGIN, BEGIN + timedelta(seconds=5), None, BEGIN - timedelta(days=400)]
    due = [None, 5_000_000, None, None]
    assert Column.of(rows).diff().to_list() == due
    assert (Column.of(rows) - Column.of([BEGIN] * 4)).to_list() == [
        None if row is None else (row - BEGIN) // timedelta(microseconds=1) for row in rows
    ]


def test_zones_of_two_names_are_of_one_kind():
    row, other = BEGIN.replace(tzinfo=UTC), (BEGIN + timedelta(hours=3)).replace(tzinfo=timezone(timedelta(hours=2)))
    left, right = Column.of([row, None], "timestamp[us, UTC]"), Column.of([other, other])
    assert left.greater(right).to_list() == [other, None] and left.coalesce(right).to_list() == [row, other]
    assert str(left.greater(right).logical_type) == "timestamp[us, UTC]"
