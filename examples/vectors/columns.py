"""Columns by chance, each in some form."""

from __future__ import annotations

from draws import Draw, row, rows_of
from words import INTEGERS, Row, Type, equal, spaced, word, words
from writer import Column, Writer

FORMS = ["flat", "flat", "constant", "runs", "runs", "runs", "window", "sliced", "nested", "encoded", "invalid"]
WITHOUT_ROWS = ("constant", "invalid")
# The forms of a writer whose columns may have layers.
LAYERED_FORMS = [*FORMS, "layered", "layered", "layered"]


def column(
    writer: Writer, type: Type, length: int | None = None, rows: list[Row] | None = None, draw: Draw | None = None
) -> Column:
    """Writes lines that make a column in some form, of these rows where they are given; `draw` returns a row that is
    not null."""
    length = writer.length() if length is None else length
    draw = draw or (lambda: row(writer, type))
    name, form = writer.fresh(), writer.random.choice(LAYERED_FORMS if writer.layers else FORMS)
    if rows is not None and form in WITHOUT_ROWS:
        form = "runs"
    if form == "invalid" and not type.nullable:
        form = "flat"
    if form in WITHOUT_ROWS:
        return alike(writer, name, type, length, form, draw)
    if form in ("runs", "window", "sliced"):
        return windowed(writer, name, type, length, rows, form, draw)
    rows = rows_of(writer, type, length, draw) if rows is None else rows
    if form == "nested":
        return nested(writer, name, type, rows, draw)
    if form == "layered":
        return layered(writer, name, type, rows, draw, writer.random.choice([1, 1, 2]))
    writer.say(f"{name if form == 'flat' else 'w'} = {flat(writer, type, rows, draw)}")
    if form == "encoded":
        writer.say(f"{name} = encode_rows w")
    return Column(name, type, rows, "flat" if form == "flat" else "runs")


def flat(writer: Writer, type: Type, rows: list[Row], draw: Draw) -> str:
    """Returns the words that make a flat column, with something under some of the nulls."""
    said = []
    for value in rows:
        hides = value is None and writer.happens(0.3) and type.is_stored_whole
        said.append(f"null:{word(draw())}" if hides else word(value))
    return f"flat {type}{spaced(' '.join(said))}"


def alike(writer: Writer, name: str, type: Type, length: int, form: str, draw: Draw) -> Column:
    """Writes a line that makes a constant, or rows of which all are null."""
    if form == "invalid":
        writer.say(f"{name} = invalid {type} {length}")
        return Column(name, type, [None] * length, "flat")
    value = None if type.nullable and writer.happens(0.2) else draw()
    writer.say(f"{name} = constant {type} {word(value)} {length}")
    return Column(name, type, [value] * length, "constant")


def loose_runs(writer: Writer, rows: list[Row]) -> tuple[list[int], list[Row]]:
    """Returns the ends and values of runs of which some could be joined."""
    ends: list[int] = []
    values: list[Row] = []
    for index, value in enumerate(rows):
        if values and equal(values[-1], value) and writer.happens(0.8):
            ends[-1] = index + 1
        else:
            ends.append(index + 1)
            values.append(value)
    return ends, values


def say_runs(writer: Writer, name: str, ends: list[int], offset: int, length: int) -> None:
    """Writes a line that makes runs over the values `w`, with ends of a type that has them."""
    kinds = [kind for kind in ("u8", "u16", "u32", "u64") if INTEGERS[kind][1] >= max(ends, default=0)]
    writer.say(f"{name} = runs {writer.random.choice(kinds)} {offset} {length}{spaced(words(ends))} / w")


def nested(writer: Writer, name: str, type: Type, rows: list[Row], draw: Draw) -> Column:
    """Writes lines that make runs over runs."""
    ends, values = loose_runs(writer, rows)
    inner_ends, inner_values = loose_runs(writer, values)
    writer.say(f"w = {flat(writer, type, inner_values, draw)}")
    say_runs(writer, "w", inner_ends, 0, len(values))
    say_runs(writer, name, ends, 0, len(rows))
    return Column(name, type, rows, "runs")


def layered(writer: Writer, name: str, type: Type, rows: list[Row], draw: Draw, layers: int) -> Column:
    """Writes lines that make runs over as many layers of runs. In each the window may begin where the first run ends,
    and runs may begin after it."""
    before, after = writer.random.randint(0, 4), writer.random.randint(0, 4)
    more = rows_of(writer, type, before + after, draw)
    ends, values = loose_runs(writer, more[:before] + rows + more[before:])
    first = sum(end < before for end in ends)
    if layers > 0:
        layered(writer, "w", type, values[first:], draw, layers - 1)
    else:
        writer.say(f"w = {flat(writer, type, values[first:], draw)}")
    say_runs(writer, name, ends[first:], before, len(rows))
    return Column(name, type, rows, "runs")


def windowed(
    writer: Writer, name: str, type: Type, length: int, rows: list[Row] | None, form: str, draw: Draw
) -> Column:
    """Writes lines that make runs, of which some may begin before the window and end past it."""
    before = writer.random.randint(0, 5) if form != "runs" else 0
    after = writer.random.randint(0, 5) if form != "runs" else 0
    if rows is None:
        whole = rows_of(writer, type, before + length + after, draw)
    else:
        more = rows_of(writer, type, before + after, draw)
        whole = more[:before] + rows + more[before:]
    ends, values = loose_runs(writer, whole)
    values_line = flat(writer, type, values, draw)
    shown = whole[before : before + length]
    if form == "sliced":
        writer.say(f"w = {values_line}")
        say_runs(writer, name, ends, 0, len(whole))
        writer.say(f"{name} slice {before} {before + length}")
        # A slice whose rows are in one run is a constant.
        inside = {next(run for run, end in enumerate(ends) if end > place) for place in range(before, before + length)}
        return Column(name, type, shown, "constant" if len(inside) == 1 else "runs")
    # The first run has to reach the window: those before it are left out.
    first = next((run for run, end in enumerate(ends) if end > before), len(ends) - 1) if length > 0 else 0
    if first > 0:
        ends = ends[first:]
        values_line = flat(writer, type, values[first:], draw)
    writer.say(f"w = {values_line}")
    say_runs(writer, name, ends, before if length > 0 else 0, length)
    return Column(name, type, shown, "runs")


def column_of_lists(writer: Writer) -> Column:
    """Writes a line that makes a column of lists, which most lines refuse."""
    r, name = writer.random, writer.fresh()
    rows = [[r.randint(0, 9) for _ in range(r.randint(0, 3))] for _ in range(r.randint(0, 3))]
    writer.say(f"{name} = flat list(u8){spaced(words(rows))}")
    return Column(name, Type("list(u8)", False), rows, "flat")
