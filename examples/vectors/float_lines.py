"""Lines of columns of floats: rows, extremes, sums, comparisons, casts, and what commands leave of them."""

from __future__ import annotations

from fractions import Fraction
from functools import partial
from typing import Callable

import floats
from float_columns import FloatColumn, any_bits, bits, float_rows, keys, keys_type, make, spelled
from floats import F64, FORMATS, Format, NotThere, word
from words import COMPARISONS, INTEGERS, Type, constant_form, encoded_form, shown, spaced
from words import words as plain
from writer import Writer

Rows = list
Show = Callable[[Rows], None]


def any_format(writer: Writer) -> tuple[Format, bool]:
    """Returns a format, and whether rows may be null."""
    return writer.random.choice(list(FORMATS.values())), writer.happens(0.6)


def refuse_too(writer: Writer, asked: FloatColumn, question: str, answer: str, share: float) -> None:
    """Writes a question about a flat column with memory refused in turn, in this share of cases."""
    if asked.is_flat and writer.happens(share):
        writer.say(f"refuse v {question}", f"{answer} memory")


def rows_case(writer: Writer) -> None:
    """Writes lines that look at rows of a column in any form, and at one of them."""
    r, (format, nullable) = writer.random, any_format(writer)
    asked = make(writer, format, nullable)
    rows, said = asked.rows, floats.words(format, asked.rows)
    writer.say("v floats", said)
    say_form(writer, asked)
    if rows:
        index = r.randrange(len(rows))
        writer.say(f"v float_at {index}", word(format, rows[index]))
    if r.random() < 0.2:
        index = len(rows) + r.choice([0, 0, 1, 100])
        writer.say(f"v float_at {index}", f"refused 8 {index} {len(rows)}")
    refuse_too(writer, asked, "floats", said, 0.3)
    if rows and r.random() < 0.1:
        writer.say("refuse v float_at 0", f"{word(format, rows[0])} none")


def say_form(writer: Writer, asked: FloatColumn) -> None:
    """Writes the form of a column of runs that a line has encoded."""
    type, rows = keys_type(asked.format, asked.nullable), asked.rows
    if asked.form == "encoded" and rows and all(row is None for row in rows):
        # The command makes a constant of runs that are all null, and one run of that.
        writer.say("v form", f"runs u64 0 {len(rows)} {len(rows)} {{ {constant_form(type, None, 1)} }}")
    elif asked.form in ("floats", "encoded"):
        writer.say("v form", encoded_form(type, keys(asked.format, rows)))


def ends_case(writer: Writer) -> None:
    """Writes lines that ask for the least and the greatest number, and for the first and the last float."""
    format, nullable = any_format(writer)
    asked = make(writer, format, nullable)
    valid = [row for row in asked.rows if row is not None]
    numbers = [row for row in valid if not format.is_nan(row)]
    for question, rows in (("min_max_numbers", numbers), ("min_max_total", valid)):
        ends = (min(rows, key=format.key), max(rows, key=format.key)) if rows else ()
        answer = " ".join(word(format, row) for row in ends) or "none"
        writer.say(f"v {question}", answer)
        refuse_too(writer, asked, question, answer, 0.2)


def sum_case(writer: Writer) -> None:
    """Writes lines that ask for the exact sum, rounded once."""
    r, (format, nullable) = writer.random, any_format(writer)
    rows, drawn, minus = None, r.random(), format.sign
    if drawn < 0.15:
        five = [format.nearest(5), format.nearest(-5)]
        rows = r.choice([[minus], [minus] * 3, [0, minus], [minus, 0, minus], five])
    elif drawn < 0.5:
        drawn_rows = float_rows(writer, format, nullable, 12)
        rows = [row for row in drawn_rows if row is None or row % minus < format.infinity]
    asked = make(writer, format, nullable, rows)
    answer = word(F64, floats.total(format, asked.rows))
    writer.say("v sum_floats", answer)
    refuse_too(writer, asked, "sum_floats", answer, 0.2)


def constant(writer: Writer, format: Format, rows: Rows) -> int:
    """Returns the bits of a float to compare rows with: mostly one of them, or one next to it."""
    r, valid = writer.random, [row for row in rows if row is not None]
    if not valid or r.random() >= 0.6:
        return bits(r, format, True)
    found = r.choice(valid)
    if r.random() < 0.3:
        found = max(0, min(2 * format.sign - 1, found + r.choice([-1, 1])))
    return r.choice([0, format.sign]) if format.is_zero(found) else found


def compare_case(writer: Writer) -> None:
    """Writes lines that compare rows with a constant, by IEEE 754 and in the total order."""
    format, nullable = any_format(writer)
    asked = make(writer, format, nullable)
    for verb in ("compare_numbers", "compare_total"):
        other = constant(writer, format, asked.rows)
        for operation in writer.random.sample(list(COMPARISONS), 2):
            compare(writer, asked, verb, operation, other)


def compare(writer: Writer, asked: FloatColumn, verb: str, operation: str, other: int) -> None:
    """Writes a line that compares rows with a float, and lines that look at the answer."""
    format, type = asked.format, Type("bool", asked.nullable)
    holds = floats.holds if verb == "compare_numbers" else floats.holds_in_order
    truths = [None if row is None else holds(format, operation, row, other) for row in asked.rows]
    line = f"m = {verb} {operation} {format} {spelled(writer.random, format, other)} v"
    refuse = asked.is_flat and writer.happens(0.15)
    writer.say(f"refuse {line}" if refuse else line, "ok memory" if refuse else "ok")
    writer.say("m rows", shown(truths))
    writer.say("m type", str(type))
    if asked.form in ("floats", "flat", "encoded") and writer.happens(0.5):
        writer.say("m form", encoded_form(type, truths))


def make_each(writer: Writer, line: str, form: str, rows: Rows, one: Callable[[int], int], show: Show) -> None:
    """Writes a line that makes something of each row, or is refused where a row does not become it."""
    try:
        made = [None if row is None else one(row) for row in rows]
    except NotThere:
        refuse = form == "flat" and writer.happens(0.2)
        writer.say(f"refuse {line}" if refuse else line, "refused 14 memory" if refuse else "refused 14")
        return
    refuse = form == "flat" and len(rows) > 2 and writer.happens(0.15)
    writer.say(f"refuse {line}" if refuse else line, "ok memory" if refuse else "ok")
    show(made)


def show_floats(writer: Writer, format: Format, nullable: bool) -> Show:
    """Returns what writes the lines that look at a column `x` of floats."""

    def show(made: Rows) -> None:
        writer.say("x floats", floats.words(format, made))
        writer.say("x form", encoded_form(keys_type(format, nullable), keys(format, made)))

    return show


def cast_case(writer: Writer) -> None:
    """Writes lines that cast to another format, exactly and rounded."""
    r, (format, nullable) = writer.random, any_format(writer)
    to = r.choice(list(FORMATS.values()))
    rows = None
    if r.random() < 0.5:
        # Floats that the other format has.
        small = min(format, to, key=lambda other: other.width)
        drawn = float_rows(writer, small, nullable)
        rows = [None if row is None else floats.cast(small, format, row) for row in drawn]
    asked = make(writer, format, nullable, rows)
    show = show_floats(writer, to, asked.nullable)
    for verb, one in (("cast_floats", floats.cast), ("round_floats", floats.rounded)):
        make_each(writer, f"x = {verb} {to} v", asked.form, asked.rows, partial(one, format, to), show)


def near_power(writer: Writer, low: int, high: int) -> int:
    """Returns an integer near a power of two, of those from low to high."""
    r = writer.random
    sign, power = r.choice([1, -1]), 2 ** r.choice([8, 11, 12, 16, 24, 25, 53, 54, 63])
    return max(low, min(high, sign * (power + r.randint(-3, 3))))


def integer_rows(writer: Writer, kind: str, nullable: bool) -> Rows:
    """Returns rows of integers, small ones, or such as formats do not have."""
    r, (low, high) = writer.random, INTEGERS[kind]
    rows: Rows = []
    count, small = r.choice([0, 1, 2, 3, 4, 6, 10]), r.random() < 0.4
    while len(rows) < count:
        if nullable and r.random() < 0.2:
            row = None
        elif small:
            row = r.choice([r.randint(max(low, -9), 9), r.randint(max(low, -2048), min(high, 2048))])
        else:
            row = r.choice([r.randint(low, high), high, low, 0, 1, *[near_power(writer, low, high)] * 4])
        rows += [row] * r.choice([1, 1, 2, 3])
    return rows[:count]


def make_plain(
    writer: Writer, name: str, type: Type, rows: Rows, forms: list[str], lengths: list[int]
) -> tuple[Rows, str]:
    """Writes lines that make a column of integers in one of these forms, and returns its rows and form; a constant has
    one of these numbers of rows."""
    form = writer.random.choice(forms)
    if form == "constant" and rows:
        rows = rows[:1] * writer.random.choice(lengths)
        writer.say(f"{name} = {constant_form(type, rows[0], len(rows))}")
        return rows, form
    writer.say(f"{name} = flat {type}{spaced(plain(rows))}")
    if form == "encoded":
        writer.say(f"{name} encode")
    return rows, "encoded" if form == "encoded" else "flat"


def of_integers_case(writer: Writer) -> None:
    """Writes lines that make floats of integers, exactly and the nearest."""
    r = writer.random
    kind = r.choice(list(INTEGERS))
    nullable = r.random() < 0.6
    drawn = integer_rows(writer, kind, nullable)
    forms = ["flat", "flat", "constant", "encoded"]
    rows, form = make_plain(writer, "n", Type(kind, nullable), drawn, forms, [1, 3, 30])
    to = r.choice(list(FORMATS.values()))
    show = show_floats(writer, to, nullable)
    for verb, one in (("floats_of_integers", partial(floats.of_integer, to)), ("round_integers", to.nearest)):
        make_each(writer, f"x = {verb} {to} n", form, rows, one, show)


def to_integers_case(writer: Writer) -> None:
    """Writes a line that makes integers of floats."""
    r, (format, nullable) = writer.random, any_format(writer)
    kind = r.choice(list(INTEGERS))
    rows = whole_rows(writer, format, nullable, *INTEGERS[kind]) if r.random() < 0.75 else None
    asked = make(writer, format, nullable, rows)
    type = Type(kind, asked.nullable)

    def show(made: Rows) -> None:
        writer.say("n rows", shown(made))
        writer.say("n form", encoded_form(type, made))

    one = partial(floats.to_integer, format, kind)
    make_each(writer, f"n = integers_of_floats {kind} v", asked.form, asked.rows, one, show)


def whole_rows(writer: Writer, format: Format, nullable: bool, low: int, high: int) -> Rows:
    """Returns floats that are integers from low to high, now and then with a zero with a minus, or null."""
    r = writer.random
    rows: Rows = []
    for _ in range(r.choice([0, 1, 2, 3, 5, 8])):
        number = r.choice([r.randint(max(low, -9), 9), low, high, r.randint(low, high), 0])
        found = format.nearest(number)
        if not format.is_infinite(found) and low <= format.number(found) <= high:
            rows += [found] * r.choice([1, 1, 2])
    if r.random() < 0.2:
        rows.append(format.sign)
    if nullable and rows and r.random() < 0.5:
        rows[r.randrange(len(rows))] = None
    return rows


def encode_case(writer: Writer) -> None:
    """Writes lines that encode bits, with every pattern kept or with one for each value, and decode them."""
    format, nullable = any_format(writer)
    type = Type(format.bits_kind, nullable)
    drawn = float_rows(writer, format, nullable)
    forms = ["flat", "flat", "encoded", "constant"]
    rows, form = make_plain(writer, "b", type, drawn, forms, [1, 2, 30])
    show_keys = show_floats(writer, format, nullable)

    def show(made: Rows) -> None:
        show_keys(made)
        writer.say("y = decode_floats x")
        writer.say("y rows", shown(made))
        writer.say("y type", str(type))

    make_each(writer, "x = encode_floats b", form, rows, lambda row: row, show)
    make_each(writer, "x = canonical_floats b", form, rows, partial(floats.canonical, format), show)


def order_case(writer: Writer) -> None:
    """Writes lines of commands and of other columns, which go by keys, with their floats."""
    r, (format, nullable) = writer.random, any_format(writer)
    rows = make(writer, format, nullable).rows

    def order(row: int | None) -> tuple:
        return (0, 0) if row is None else (1, format.key(row))

    ordered = {"sort": sorted(rows, key=order), "reverse": rows[::-1], "distinct": sorted(set(rows), key=order)}
    for verb, made in ordered.items():
        writer.say(f"s = {verb} v")
        writer.say("s floats", floats.words(format, made))
    if rows:
        start = r.randint(0, len(rows))
        end = r.randint(start, len(rows))
        writer.say(f"v slice {start} {end}")
        writer.say("v floats", floats.words(format, rows[start:end]))
        writer.say("v sum_floats", word(F64, floats.total(format, rows[start:end])))


def refused_lines(writer: Writer, kind: str) -> list[str]:
    """Returns lines that a column `v` of this type refuses."""
    r, formats = writer.random, list(FORMATS)
    lines = ["v floats", "v float_at 0", "v float_at 7", "v min_max_numbers", "v min_max_total", "v sum_floats"]
    lines.append("x = decode_floats v")
    lines += [f"x = {verb} {r.choice(formats)} v" for verb in ("cast_floats", "round_floats")]
    lines.append(f"x = integers_of_floats {r.choice(list(INTEGERS))} v")
    for verb, other in (("compare_numbers", "1.0"), ("compare_total", "-inf")):
        lines.append(f"x = {verb} {r.choice(list(COMPARISONS))} {r.choice(formats)} {other} v")
    if kind not in [format.bits_kind for format in FORMATS.values()]:
        lines += ["x = encode_floats v", "x = canonical_floats v"]
    if kind not in INTEGERS:
        lines += [f"x = floats_of_integers {r.choice(formats)} v", f"x = round_integers {r.choice(formats)} v"]
    return lines


def refusals_case(writer: Writer) -> None:
    """Writes lines that columns of other types refuse, and constants that have more bits than the column's format."""
    r = writer.random
    kind = r.choice(["u8", "u16", "i8", "u32", "u64", "bool", "utf8", "decimal(9,2)"])
    mark = "?" if r.random() < 0.5 else ""
    rows = {"bool": "true false", "utf8": '"a" "b"'}.get(kind, "1 0")
    writer.say(f"v = flat {kind}{mark} {rows}")
    for line in r.sample(refused_lines(writer, kind), 4):
        refuse = r.random() < 0.2
        writer.say(f"refuse {line}" if refuse else line, "refused 12 none" if refuse else "refused 12")
    if r.random() < 0.5:
        format, to = r.choice([("f16", "f32"), ("f16", "f64"), ("f32", "f64")])
        writer.say(f"v = floats {format} 1.0 2.0")
        verb = r.choice(["compare_numbers", "compare_total"])
        writer.say(f"x = {verb} {r.choice(list(COMPARISONS))} {to} -1.0 v", "refused 14")
        writer.say(f"refuse x = {verb} {r.choice(list(COMPARISONS))} {to} nan v", "refused 14 none")


def exact_decimal(number: Fraction) -> str:
    """Returns all digits of a fraction whose denominator is a power of two."""
    places = number.denominator.bit_length() - 1
    digits = str(number.numerator * 5**places).rjust(places + 1, "0")
    return f"{digits[:-places]}.{digits[-places:]}" if places else digits


def read_case(writer: Writer) -> None:
    """Writes lines that read a decimal in the middle of two floats, and one just above."""
    r = writer.random
    format = FORMATS[r.choice(["f32", "f64"])]
    below = any_bits(r, format) % format.sign
    if below + 1 >= format.infinity:
        return
    middle = exact_decimal((format.number(below) + format.number(below + 1)) / 2)
    if len(middle) > 250:
        return
    minus = r.choice(["", "-"])
    above = f"{middle}1" if "." in middle else f"{middle}.01"
    writer.say(f"v = floats {format} {minus}{middle} {minus}{above}")
    sign = format.sign if minus else 0
    writer.say("v floats", floats.words(format, [below + below % 2 + sign, below + 1 + sign]))
