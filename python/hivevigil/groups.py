"""The rows of a column, grouped by runs of equal neighbouring rows of another: `values.group_by(keys)`."""
from __future__ import annotations

from contextlib import nullcontext
from typing import TYPE_CHECKING

from ._grouping import Asked, Grouping
from ._handles import Held
from .errors import ColumnLength

if TYPE_CHECKING:
    from .column import Column


class Groups:
    """The groups of a column by keys of any type but lists. As with itertools.groupby, each run of equal neighbouring
    keys is a group, null equal to null: keys that are sorted come once each.

    Each method returns two flat columns: the key of each group, and its answer, which is null where no value of the
    group is valid (a count is 0). `size()` counts rows; all others look only at the values that are not null. Numbers
    have sums and means; lists are only counted.
    """

    __slots__ = ("_keys", "_values")
    _keys: Column
    _values: Column

    def __init__(self, keys: Column, values: Column) -> None:
        self._keys, self._values = keys, values

    def sum(self) -> tuple[Column, Column]:
        """The sum of each group: 'i64?' or 'u64?' of integers, the duration of durations, of floats a 'float64' and of
        decimals one of 38 digits, each as `Column.sum` has it. OverflowError, with the group counted from 0 in its
        first field, where one does not fit 64 bits, or 38 digits."""
        return self._answers("sum")

    def mean(self) -> tuple[Column, Column]:
        """The mean of each group of integers, floats or decimals, as `Column.mean` has it, 'float64'."""
        return self._answers("mean")

    def size(self) -> tuple[Column, Column]:
        """The number of rows of each group, null or not, 'u64?'."""
        return self._answers("size")

    def count(self) -> tuple[Column, Column]:
        """The number of values of each group that are not null, 'u64?'."""
        return self._answers("count")

    def min(self) -> tuple[Column, Column]:
        """The least value of each group; of texts by their bytes, False is below True, and NaN is left out as null
        is."""
        return self._answers("min")

    def max(self) -> tuple[Column, Column]:
        """The greatest value of each group, in the order of `min`."""
        return self._answers("max")

    def first(self) -> tuple[Column, Column]:
        """The first value of each group that is not null."""
        return self._answers("first")

    def last(self) -> tuple[Column, Column]:
        """The last value of each group that is not null."""
        return self._answers("last")

    def _answers(self, name: str) -> tuple[Column, Column]:
        if self._keys._length != self._values._length:
            raise ColumnLength(self._keys._length, self._values._length)
        table = Held.of({"keys": self._keys, "values": self._values})
        found = Grouping(table, ["keys"], nullcontext).answers([Asked("answers", "values", name)])
        return found.column("keys"), found.column("answers")
