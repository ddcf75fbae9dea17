"""Floats by chance, and columns of them in any form."""

from __future__ import annotations

import random
from dataclasses import dataclass
from fractions import Fraction

from floats import FORMATS, Format, word
from words import Type, spaced, words
from writer import Writer

# A row: the bits of a float, or null.
Rows = list
FORMS = ["floats", "floats", "flat", "under", "decoded", "constant", "runs", "window", "sliced", "nested", "taken"]
FORMS += ["filtered", "filled", "encoded"]


@dataclass(frozen=True)
class FloatColumn:
    """The column `v` of floats: its format, whether rows may be null, the rows, and the form that made it."""

    format: Format
    nullable: bool
    rows: Rows
    form: str

    @property
    def is_flat(self) -> bool:
        """Says whether it is flat and has rows enough that a line asks for memory."""
        return self.form == "flat" and len(self.rows) > 2


def keys(format: Format, rows: Rows) -> list[int | None]:
    """Returns what a column stores of rows."""
    return [None if bits is None else format.key(bits) for bits in rows]


def keys_type(format: Format, nullable: bool) -> Type:
    """Returns the type of a column of floats."""
    return Type(format.key_kind, nullable)


def usual_bits(r: random.Random, format: Format, sign: int) -> int:
    """Returns the bits of a float as columns often have them."""
    one = format.nearest(1)
    small = [format.nearest(r.randint(-9, 9)), format.nearest(Fraction(r.randint(-99, 99), 10))]
    return r.choice([0, format.sign, one, one + sign, format.quiet_nan, format.infinity + sign, *small])


def near_tie(r: random.Random, format: Format) -> int | None:
    """Returns the bits of a float near the middle of two of a smaller format, where these are numbers."""
    smaller = r.choice([other for other in FORMATS.values() if other.width < format.width])
    bits = any_bits(r, smaller)
    if smaller.is_nan(bits) or smaller.is_infinite(bits) or smaller.is_infinite(bits + 1):
        return None
    middle = (smaller.number(bits) + smaller.number(bits + 1)) / 2
    return max(0, min(2 * format.sign - 1, format.nearest(middle) + r.choice([-1, 0, 0, 0, 1])))


def any_bits(r: random.Random, format: Format) -> int:
    """Returns the bits of a float: of a subnormal, of the greatest, of a NaN, of fractions, integers, ties, or any."""
    sign, drawn, fraction = r.choice([0, format.sign]), r.random(), format.fraction
    if drawn < 0.1:
        return sign + r.choice([1, 2, 3, (1 << fraction) - 1, 1 << fraction, (1 << fraction) + 1])
    if drawn < 0.2:
        return sign + format.infinity - r.randint(0, 3)
    if drawn < 0.3:
        payloads = [1, 1 << (fraction - 1), r.getrandbits(fraction), 1 << r.randint(0, fraction - 1)]
        return sign + format.infinity + r.choice(payloads)
    if drawn < 0.5:
        return format.nearest(Fraction(r.randint(-(10**6), 10**6), r.choice([1, 2, 3, 4, 7, 10, 1000])))
    if drawn < 0.6:
        return format.nearest(r.choice([1, -1]) * (2 ** r.randint(0, 64) + r.randint(-2, 2)))
    found = near_tie(r, format) if drawn < 0.7 and format.width > 16 else None
    return r.getrandbits(format.width) if found is None else found


def bits(r: random.Random, format: Format, usual: bool) -> int:
    """Returns the bits of a float, of a usual one or of any."""
    return usual_bits(r, format, r.choice([0, format.sign])) if usual else any_bits(r, format)


def float_rows(writer: Writer, format: Format, nullable: bool, count: int | None = None) -> Rows:
    """Returns rows with stretches of equal ones."""
    r = writer.random
    count = r.choice([0, 1, 2, 3, 3, 4, 5, 6, 8, 10, 14]) if count is None else count
    usual = r.random() < 0.5
    rows: Rows = []
    while len(rows) < count:
        row = None if nullable and r.random() < 0.2 else bits(r, format, usual)
        rows += [row] * r.choice([1, 1, 1, 2, 3, 5])
    return rows[:count]


def spelled(r: random.Random, format: Format, row: int | None) -> str:
    """Returns one of the words that mean a float: a name, its bits, an integer, many digits, or the shortest."""
    if row is None:
        return "null"
    if row == format.quiet_nan and r.random() < 0.7:
        return "nan"
    is_infinite = format.is_infinite(row)
    if format.is_nan(row) or is_infinite and r.random() < 0.2 or r.random() < 0.08:
        zeros = r.choice(["", "", "0"])
        return f"0x{zeros}{row:X}" if r.random() < 0.3 else f"0x{zeros}{row:x}"
    if is_infinite:
        return word(format, row)
    drawn, number, minus = r.random(), format.number(row), "-" if format.sign_of(row) else ""
    if drawn < 0.15 and number.denominator == 1 and abs(number) < 10**18:
        return f"{minus}{abs(int(number))}"
    if drawn < 0.25:
        return minus + f"{abs(format.value(row)):.25e}".replace("e+", "e")
    return word(format, row)


def say_floats(writer: Writer, name: str, format: Format, nullable: bool, rows: Rows) -> None:
    """Writes a line of `floats`."""
    said = " ".join(spelled(writer.random, format, row) for row in rows)
    writer.say(f"{name} = floats {format}{'?' * nullable}{spaced(said)}")


def make(writer: Writer, format: Format, nullable: bool, rows: Rows | None = None) -> FloatColumn:
    """Writes lines that make the column `v` in some form, of these rows where they are given."""
    rows = float_rows(writer, format, nullable) if rows is None else rows
    form = writer.random.choice(FORMS)
    if form == "constant":
        rows = say_constant(writer, format, nullable)
    elif form in ("flat", "under"):
        say_flat(writer, format, nullable, rows, form == "under")
    elif form in ("floats", "encoded", "decoded"):
        say_floats(writer, "v", format, nullable, rows)
        if form != "floats":
            writer.say(f"v {form[:-1]}")
    elif form == "filled":
        # What is filled is of a type without null.
        return FloatColumn(format, False, say_filled(writer, format, nullable), form)
    elif form in CUTS:
        CUTS[form](writer, format, nullable, rows)
    else:
        say_runs(writer, format, nullable, rows, form)
    return FloatColumn(format, nullable, rows, form)


def say_constant(writer: Writer, format: Format, nullable: bool) -> Rows:
    """Writes a line that makes a constant, and returns its rows."""
    row = writer.random.choice(float_rows(writer, format, nullable, 6))
    length = writer.random.choice([0, 1, 3, 20])
    writer.say(f"v = constant {keys_type(format, nullable)} {words(keys(format, [row]))} {length}")
    return [row] * length


def say_flat(writer: Writer, format: Format, nullable: bool, rows: Rows, hides: bool) -> None:
    """Writes a line that makes a flat column of keys, with some under each null where it hides them."""
    said = words(keys(format, rows)).split()
    if hides:
        said = [f"null:{format.key(any_bits(writer.random, format))}" if key == "null" else key for key in said]
    writer.say(f"v = flat {keys_type(format, nullable)}{spaced(' '.join(said))}")


def say_sliced(writer: Writer, format: Format, nullable: bool, rows: Rows) -> None:
    """Writes lines that make more rows, and cut these out."""
    before, after = writer.random.randint(0, 4), writer.random.randint(0, 4)
    front = float_rows(writer, format, nullable, before)
    back = float_rows(writer, format, nullable, after)
    say_floats(writer, "v", format, nullable, front + rows + back)
    writer.say(f"v slice {before} {before + len(rows)}")


def say_taken(writer: Writer, format: Format, nullable: bool, rows: Rows) -> None:
    """Writes lines that make the rows in another order, and take them in this one."""
    places = list(range(len(rows)))
    writer.random.shuffle(places)
    say_floats(writer, "v", format, nullable, [rows[place] for place in places])
    writer.say(f"v take u8{spaced(words(places.index(row) for row in range(len(rows))))}")


def say_filtered(writer: Writer, format: Format, nullable: bool, rows: Rows) -> None:
    """Writes lines that make more rows, and filter these."""
    mixed, mask = [], ""
    for row in rows:
        while writer.happens(0.3):
            mixed.append(bits(writer.random, format, True))
            mask += "0"
        mixed.append(row)
        mask += "1"
    say_floats(writer, "v", format, nullable, mixed)
    writer.say(f"v filter {mask or '-'}")


CUTS = {"sliced": say_sliced, "taken": say_taken, "filtered": say_filtered}


def say_filled(writer: Writer, format: Format, nullable: bool) -> Rows:
    """Writes lines that fill the nulls of a column, and returns its rows."""
    fill = bits(writer.random, format, True)
    rows = float_rows(writer, format, True)
    say_floats(writer, "v", format, True, rows)
    writer.say(f"v fill {keys_type(format, nullable)} {format.key(fill)}")
    return [fill if row is None else row for row in rows]


def loose_runs(writer: Writer, rows: Rows) -> tuple[list[int], Rows]:
    """Returns the ends and values of runs of which some could be joined."""
    ends: list[int] = []
    values: Rows = []
    for index, row in enumerate(rows):
        if values and values[-1] == row and writer.happens(0.7):
            ends[-1] = index + 1
        else:
            ends.append(index + 1)
            values.append(row)
    return ends, values


def say_runs(writer: Writer, format: Format, nullable: bool, rows: Rows, form: str) -> None:
    """Writes lines that make runs, over flat values, over runs where they are nested, or with a window."""
    r = writer.random
    ends, values = loose_runs(writer, rows)
    offset = 0
    if form == "window" and ends:
        offset = r.randint(0, 3)
        front = float_rows(writer, format, nullable, 1 if offset and r.random() < 0.5 else 0)
        ends = [offset] * len(front) + [end + offset for end in ends]
        values = front + values
        if r.random() < 0.5:
            values.append(float_rows(writer, format, nullable, 1)[0])
            ends.append(ends[-1] + r.randint(1, 3))
        elif r.random() < 0.5:
            ends[-1] += r.randint(0, 2)
    if form == "nested":
        say_floats(writer, "u", format, nullable, values)
    else:
        writer.say(f"u = flat {keys_type(format, nullable)}{spaced(words(keys(format, values)))}")
    window = f"{r.choice(['u8', 'u16', 'u32', 'u64'])} {offset} {len(rows)}"
    writer.say(f"v = runs {window}{spaced(words(ends))} / u")
