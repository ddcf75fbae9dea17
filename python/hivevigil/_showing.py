"""What a column looks like: its first runs or rows as text, and a strip of its rows as HTML."""
from __future__ import annotations

import zlib
from datetime import date, time, timedelta
from decimal import Decimal
from fractions import Fraction
from html import escape
from itertools import groupby, repeat
from typing import TYPE_CHECKING, Any, Optional

from . import _runs, _times
from ._types import TYPES, WHOLE_NUMBERS
from ._values import Scalar
from .logical import LogicalType

if TYPE_CHECKING:
    from .column import Column

_RUNS_SHOWN, _ROWS_SHOWN, _LETTERS_SHOWN = 8, 10, 40
_SAMPLES, _HEIGHT = 600, 28  # of the strip, in units of its view box
_NULL_COLOUR = "url(#hivevigil-null)"
_NULL_PATTERN = (
    '<defs><pattern id="hivevigil-null" width="6" height="6" patternUnits="userSpaceOnUse">'
    '<rect width="6" height="6" fill="#eeeeee"/><path d="M0 6L6 0" stroke="#aaaaaa"/></pattern></defs>'
)


def _word(value: Scalar) -> str:
    """A value as Python writes it, a decimal without its class; of a long text its front and three points."""
    if isinstance(value, (Decimal, date, time, timedelta)):
        return str(value)
    text = repr(value)
    if len(text) <= _LETTERS_SHOWN or not isinstance(value, (str, bytes)):
        return text
    return repr(value[: _LETTERS_SHOWN - len("'...'")])[:-1] + "..." + text[-1]


def _word_of(logical: Optional[LogicalType], stored: Any) -> str:
    """What a row stores as it is shown: a time of which Python has no value as the text that it would have."""
    try:
        return _word(_times.value_of(logical, stored))
    except (OverflowError, ValueError):
        return _times.written(logical, stored) if logical is not None else repr(stored)


def _words(column: Column) -> list[str]:
    """Each row as it is shown."""
    logical = column._logical
    return [_word_of(logical, stored) for stored in (column if logical is None else column.storage())]


def _counted(number: int, what: str) -> str:
    return f"{number:,} {what}{'' if number == 1 else 's'}"


def _runs_of(column: Column) -> Optional[int]:
    """How many runs are stored."""
    return column.run_count() if column.form in ("runs", "constant") else None


def _head(column: Column) -> str:
    runs = _runs_of(column)
    in_form = column.form if runs is None or column.form == "constant" else f"in {_counted(runs, 'run')}"
    comma = "," if not in_form.startswith("in ") else ""
    logical = column.logical_type
    name = column.type if column._logical is None else f"{logical}{'?' * column.nullable}"
    name += f" {logical}" if logical is not None and logical.sort == "other" else ""
    return f"Column {name}: {_counted(column._length, 'row')}{comma} {in_form}"


def text(column: Column) -> str:
    """The type, rows and form, then the first runs, or the first rows of a flat column."""
    if column.freed:
        return "<Column: freed>"
    runs = _runs_of(column)
    if column.type.startswith("list"):
        return f"<{_head(column)}>"
    if runs is None:
        return f"<{_head(column)}>\n{_first_rows(column)}"
    first = list(_runs.stored_runs(column.storage(), _RUNS_SHOWN))
    width = max((len(f"{run.start}:{run.stop}") for run in first), default=0)
    lines = [f"  {f'{run.start}:{run.stop}'.ljust(width)}  {_word_of(column._logical, run.value)}" for run in first]
    more = [f"  and {_counted(runs - len(first), 'more run')}"] if runs > len(first) else []
    return "\n".join([f"<{_head(column)}>", *lines, *more])


def _first_rows(column: Column) -> str:
    words = _words(column.slice(0, min(_ROWS_SHOWN, column._length)))
    return f"  [{', '.join(words + ['...'] * (column._length > _ROWS_SHOWN))}]"


# ---- HTML ----


def html(column: Column) -> str:
    """The same with a strip on which the rows lie from left to right, coloured by value; null is hatched."""
    if column.freed or column.type.startswith("list"):
        return f"<pre>{escape(text(column))}</pre>"
    head = f"<b>{escape(_head(column))}</b>, {_counted(column.nbytes, 'byte')}"
    return f'<div style="max-width: 50em">{head}<br>{_strip(column)}{_table(column)}</div>'


def _strip(column: Column) -> str:
    length = column._length
    if length == 0:
        return ""
    count = min(length, _SAMPLES)
    rows = [at * length // count for at in range(count)]
    stored = column.storage()
    values = repeat(stored.at(0)) if column.form == "constant" else iter(stored.take(rows))
    samples: list[tuple[int, Scalar]] = list(zip(rows, values))
    stretches = [list(stretch) for _, stretch in groupby(samples, key=lambda sample: sample[1])]
    colour_of = _colours(stored)
    starts = [stretch[0][0] for stretch in stretches]
    rects = [
        _rect(start, stop, length, _word_of(column._logical, stretch[0][1]), colour_of(stretch[0][1]))
        for start, stop, stretch in zip(starts, [*starts[1:], length], stretches)
    ]
    frame = f'<rect width="{_SAMPLES}" height="{_HEIGHT}" fill="none" stroke="currentColor" stroke-opacity="0.4"/>'
    return (
        f'<svg viewBox="0 0 {_SAMPLES} {_HEIGHT}" width="100%" height="{_HEIGHT}" preserveAspectRatio="none" '
        f'role="img" aria-label="the rows from left to right">{_NULL_PATTERN}{"".join(rects)}{frame}</svg>'
    )


def _rect(start: int, stop: int, length: int, word: str, colour: str) -> str:
    left, right = _SAMPLES * start / length, _SAMPLES * stop / length
    about = "" if length <= _SAMPLES else "about "
    rows = f"rows {start:,} to {stop - 1:,}" if stop - start > 1 else f"row {start:,}"
    title = f"{about}{rows}: {word}"
    return (
        f'<rect x="{left:.2f}" width="{right - left:.2f}" height="{_HEIGHT}" fill="{colour}">'
        f"<title>{escape(title)}</title></rect>"
    )


def _colours(column: Column) -> Any:
    """Numbers from light to dark, other values each by a hue of its own, as long as there are few."""
    if TYPES[column._kind.number] not in (*WHOLE_NUMBERS, "decimal"):
        return lambda value: _NULL_COLOUR if value is None else f"hsl({_hue(value)}, 55%, 60%)"
    least, greatest = _exact(column.min()), _exact(column.max())
    span = greatest - least or 1
    return lambda value: (
        _NULL_COLOUR if value is None else f"hsl(215, 60%, {int(88 - 62 * (_exact(value) - least) / span)}%)"
    )


def _exact(value: Any) -> Fraction:
    return Fraction(value or 0)


def _hue(value: Any) -> int:
    data = value if isinstance(value, bytes) else str(value).encode()
    return zlib.crc32(data) % 360


def _table(column: Column) -> str:
    runs = _runs_of(column)
    if not runs:
        return f"<pre>{escape(_first_rows(column))}</pre>" if runs is None else ""
    first = _runs.stored_runs(column.storage(), _RUNS_SHOWN)
    cells = "".join(
        f"<tr><td>{run.start:,}</td><td>{run.stop:,}</td><td>{escape(word)}</td></tr>"
        for run, word in ((run, _word_of(column._logical, run.value)) for run in first)
    )
    more = f"<br>and {_counted(runs - _RUNS_SHOWN, 'more run')}" if runs > _RUNS_SHOWN else ""
    return f"<table><tr><th>from row</th><th>to before</th><th>value</th></tr>{cells}</table>{more}"
