"""What a table looks like: a line for each column as text, and a strip for each as HTML."""
from __future__ import annotations

from collections.abc import Mapping
from html import escape

from ._showing import _counted, _runs_of, _strip, _words
from ._common_types import written_type
from .column import Column
from .errors import in_words

_COLUMNS_SHOWN, _ROWS_SHOWN, _NAME_LETTERS = 20, 5, 24


def _head(columns: Mapping[str, Column], rows: int) -> str:
    return f"Table: {_counted(rows, 'row')}, {_counted(len(columns), 'column')}"


def _form_of(column: Column) -> str:
    runs = _runs_of(column)
    return column.form if runs is None or column.form == "constant" else f"in {_counted(runs, 'run')}"


def _rows_of(column: Column) -> str:
    """The first rows of a column."""
    if column.type.startswith("list"):
        words = [str(in_words(row)) for row in column.slice(0, min(_ROWS_SHOWN, column._length))]
    else:
        words = _words(column.slice(0, min(_ROWS_SHOWN, column._length)))
    return ", ".join(words + ["..."] * (column._length > _ROWS_SHOWN))


def _more(columns: Mapping[str, Column]) -> str:
    left = len(columns) - _COLUMNS_SHOWN
    return f"and {_counted(left, 'more column')}" if left > 0 else ""


def text(columns: Mapping[str, Column], rows: int) -> str:
    """Rows and columns, then each column's name, type, form and first rows."""
    cells = [
        (_short(name), written_type(column), _form_of(column), _rows_of(column))
        for name, column in list(columns.items())[:_COLUMNS_SHOWN]
    ]
    widths = [max(map(len, part)) for part in zip(*cells)][:3]
    lines = ["  " + "  ".join([*map(str.ljust, line, widths), line[3]]).rstrip() for line in cells]
    more = [f"  {_more(columns)}"] if _more(columns) else []
    return "\n".join([f"<{_head(columns, rows)}>", *lines, *more])


def _short(name: str) -> str:
    """A name in one line, and as long as there is room for."""
    word = name if name.isprintable() and name.strip() == name and name else repr(name)
    return word if len(word) <= _NAME_LETTERS else word[: _NAME_LETTERS - 3] + "..."


def html(columns: Mapping[str, Column], rows: int) -> str:
    """The same as a table, with a strip for each column on which its rows lie from left to right."""
    lines = "".join(
        f"<tr><td>{escape(_short(name))}</td><td>{escape(written_type(column))}</td>"
        f"<td>{escape(_form_of(column))}</td><td>{escape(_rows_of(column))}</td><td>{_strip_of(column)}</td></tr>"
        for name, column in list(columns.items())[:_COLUMNS_SHOWN]
    )
    head = f"<b>{escape(_head(columns, rows))}</b>, {_counted(sum(one.nbytes for one in columns.values()), 'byte')}"
    titles = "".join(f"<th>{title}</th>" for title in ("column", "type", "form", "first rows", "rows"))
    more = f"<br>{_more(columns)}" if _more(columns) else ""
    return f"<div>{head}<br><table><tr>{titles}</tr>{lines}</table>{more}</div>"


def _strip_of(column: Column) -> str:
    strip = "" if column.type.startswith("list") else _strip(column)
    return f'<div style="width: 20em">{strip}</div>'
