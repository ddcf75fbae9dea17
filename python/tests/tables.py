"""Tables of a few columns in every form, and the rows that they have to have: what the tests of tables draw from."""
from dataclasses import dataclass

from hivevigil import Table
from hypothesis import strategies as st
from rows import TYPES, samples

NAMES = st.sampled_from(["level", "place", "", "größe", 'a "b"', "x,y", "level "]) | st.text(
    st.characters(blacklist_categories=["Cs"], blacklist_characters="\0"), max_size=5
)


@dataclass
class TableSample:
    """A table, the rows of each column by name, and their types without the question mark."""

    table: Table
    rows: dict
    types: dict
    count: int

    @property
    def names(self):
        return list(self.rows)

    def lines(self):
        """The rows, each a tuple."""
        return list(zip(*self.rows.values())) if self.rows else [()] * self.count


def of_lines(names, lines):
    """The rows of each column of rows."""
    return {name: [line[place] for line in lines] for place, name in enumerate(names)}


@st.composite
def tables(draw, types=tuple(TYPES), least_columns=0, most_columns=4):
    """A table of columns that are cut to one length."""
    names = draw(st.lists(NAMES, min_size=least_columns, max_size=most_columns, unique=True))
    drawn = [draw(samples(types)) for _ in names]
    count = min((len(sample.rows) for sample in drawn), default=draw(st.integers(0, 5)))
    columns = {name: sample.column.slice(0, count) for name, sample in zip(names, drawn)}
    rows = {name: sample.rows[:count] for name, sample in zip(names, drawn)}
    types = {name: sample.type for name, sample in zip(names, drawn)}
    return TableSample(Table(columns, rows=None if names else count), rows, types, count)
