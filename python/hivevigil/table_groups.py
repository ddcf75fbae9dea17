"""What is asked of the groups of a table: `table.group_by(name).agg(..)`."""
from __future__ import annotations

from typing import TYPE_CHECKING, Any

from ._grouping import FOLDS, Asked, Grouping
from ._handles import checked, is_utf8
from ._table_making import about, checked_name
from .errors import NoName, in_words

if TYPE_CHECKING:
    from .table import Table

_ASKED = ("sum", "mean", *(fold for fold in FOLDS if fold != "sum"))


class TableGroups:
    """The rows of a table by runs of neighbours that are equal in all columns of keys, as Column.group_by has them."""

    __slots__ = ("_table", "_names")
    _table: Table
    _names: tuple[str, ...]

    def __init__(self, table: Table, *names: str) -> None:
        self._table, self._names = table, names

    def agg(self, answers: Any = None, **named: Any) -> Table:
        """A table of a row for each group: its keys, under the names of their columns, then the answers by name. Each
        is a pair of a column and one of sum, mean, size, count, min, max, first, last, or only 'size':

            table.group_by("station").agg(readings="size", highest=("level", "max"))
        """
        wanted = {**({} if answers is None else dict(answers)), **named}
        asked = [self._asked(name, question) for name, question in wanted.items()]
        return self._table._having(Grouping(self._table._held, self._names, about).answers(asked))

    def _asked(self, name: Any, question: Any) -> Asked:
        """What is asked by a pair, or by 'size', for which any column is as good."""
        column, fold = parts_of(checked_name(name), question)
        if column is not None and not is_utf8(checked(column)):
            raise NoName(column, self._table.names)
        return Asked(name, self._names[0] if column is None else column, fold)

    def __repr__(self) -> str:
        return f"<groups of {self._table.rows:,} rows by {', '.join(map(in_words, self._names))}>"


def parts_of(name: str, asked: Any) -> tuple[Any, str]:
    """The name of the column that is asked, None for the groups themselves, and what it is asked."""
    if isinstance(asked, str) and asked == "size":
        return None, "size"
    if not isinstance(asked, (tuple, list)) or len(asked) != 2 or asked[1] not in _ASKED:
        expected = f"'size', or a column and one of {', '.join(_ASKED)}"
        raise TypeError(f"agg: {in_words(name)} is asked by {expected}, not by {in_words(asked)}")
    return asked[0], asked[1]
