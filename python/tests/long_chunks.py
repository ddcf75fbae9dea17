"""Columns of 2^40 rows in chunks of Dask, cut at places by chance, near both ends and one another among them."""
from hivevigil.dask import ChunkedColumn
from hypothesis import strategies as st


@st.composite
def bounds(draw, total):
    """Where the chunks of as many rows begin and end; some chunks have no row."""
    places = st.integers(0, 130) | st.integers(total - 130, total) | st.integers(0, total)
    return [0, *sorted(draw(st.lists(places, max_size=5))), total]


def chunks_of(column, places):
    """A chunk of the column for each two places next to one another."""
    return ChunkedColumn.from_columns([column.slice(start, stop) for start, stop in zip(places, places[1:])])
