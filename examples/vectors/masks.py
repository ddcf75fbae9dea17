"""Lines that filter columns of every form by masks in runs, which select the rows where they are true."""

from __future__ import annotations

from dataclasses import dataclass
from itertools import accumulate

from draws import any_kind, row
from words import Row, Type, flat_form, least_unsigned, runs_of, shown, spaced, words
from writer import Writer

BOOLEANS = (Type("bool", False), Type("bool", True))
# As few selected rows as are taken one by one: fewer than the first number, or than the runs, over the second.
THRESHOLDS = [(25, 4), (25, 4), (0, 1), (10, 64), (1, 0), (100, 8)]


@dataclass(frozen=True)
class Runs:
    """Runs of a window: where they end, their values, the position of row 0, and how many rows there are."""

    ends_kind: str
    ends: list[int]
    values: list[Row]
    offset: int
    length: int

    def rows(self) -> list[Row]:
        """Returns the rows that the window shows."""
        starts = [0, *self.ends]
        whole = [value for start, end, value in zip(starts, self.ends, self.values) for _ in range(end - start)]
        return whole[self.offset : self.offset + self.length]

    def form(self, values_form: str) -> str:
        """Returns the form over values of this form."""
        return f"runs {self.ends_kind} {self.offset} {self.length}{spaced(words(self.ends))} {{ {values_form} }}"

    def kept(self, bits: list[bool]) -> Runs:
        """Returns the runs with a selected row, each after as many rows as are selected up to its end."""
        counts = [0, *accumulate(bits)]
        reached = [counts[max(0, min(end - self.offset, self.length))] for end in self.ends]
        parts = [run for run, count in enumerate(reached) if count > (reached[run - 1] if run else 0)]
        ends = [reached[run] for run in parts]
        return Runs(self.ends_kind, ends, [self.values[run] for run in parts], 0, sum(bits))


def drawn_runs(writer: Writer, type: Type, length: int, count: int) -> Runs:
    """Returns runs of this number of rows, of which some may begin before the window and end past it."""
    r = writer.random
    offset, after = r.choice([0, 0, 3, 40]), r.choice([0, 0, 7, 90])
    if length == 0:
        offset, after, count = 0, 0, 0
    whole = offset + length + after
    # The first run reaches into the window; a run may lie after it.
    between = range(offset + 1, whole)
    ends = sorted({*r.sample(between, min(count - 1, len(between))), whole}) if length else []
    values = [None if type.nullable and writer.happens(0.25) else row(writer, type) for _ in ends]
    return Runs(r.choice([least_unsigned(whole), "u16", "u32", "u64"]), ends, values, offset, length)


def say(writer: Writer, name: str, type: Type, runs: Runs, is_nested: bool) -> str:
    """Writes lines that make the column, whose values may be runs too. Returns the form of the values."""
    form = flat_form(type, runs.values)
    writer.say(f"w = flat {type}{spaced(words(runs.values))}")
    if is_nested:
        ends = list(range(1, len(runs.values) + 1))
        writer.say(f"w = runs u16 0 {len(ends)}{spaced(words(ends))} / w")
        form = Runs("u16", ends, runs.values, 0, len(ends)).form(form)
    window = f"{runs.ends_kind} {runs.offset} {runs.length}"
    writer.say(f"{name} = runs {window}{spaced(words(runs.ends))} / w")
    return form


def left(type: Type, runs: Runs, values_form: str, bits: list[bool], least: int, factor: int) -> str:
    """Returns the form that a filter leaves of a run column whose kernel is registered."""
    rows = [row for row, bit in zip(runs.rows(), bits) if bit]
    if all(bits):
        if not type.is_integer:
            return runs.form(values_form)
    elif any(bits) and (len(rows) < least or len(rows) * factor < len(runs.ends)):
        return flat_form(type, rows)
    part = Runs(runs.ends_kind, *runs_of(rows), 0, len(rows)) if type.is_integer else runs.kept(bits)
    return part.form(flat_form(type, part.values))


def mask_of(writer: Writer, length: int) -> tuple[Type, Runs]:
    """Returns a mask in runs: mostly in fewer than its bits have words, now and then all true, or not at all."""
    type = writer.random.choice(BOOLEANS)
    count = writer.random.choice([1, 1, 2, 2, 3, 4, 5, 9, 30])
    mask = drawn_runs(writer, type, length, count)
    share = writer.random.random()
    if share < 0.25:
        nothing = [False, None] if type.nullable else [False]
        values = [True if share < 0.12 else writer.random.choice(nothing) for _ in mask.values]
        mask = Runs(mask.ends_kind, mask.ends, values, mask.offset, length)
    return type, mask


def look_at(writer: Writer, name: str, type: Type, rows: list[Row], form: str) -> None:
    """Writes lines that look at what a filter leaves."""
    writer.say(f"{name} form", form)
    if len(rows) <= 12:
        writer.say(f"{name} rows", shown(rows))


def refused(writer: Writer, type: Type, length: int) -> None:
    """Writes masks of another type, of another length, and of both: the type is looked at first."""
    shift = writer.random.choice([-1, 1, 70])
    number, other = Type("u8", writer.happens(0.5)), max(0, length + shift)
    for kind, count in ((number, length), (number, other), (BOOLEANS[writer.happens(0.5)], other)):
        say(writer, "n", kind, drawn_runs(writer, kind, count, 2), False)
        answer = "refused 12" if kind == number else f"refused 10 {count} {length}"
        if count != length or kind == number:
            writer.say("c filter column n", answer)
            if count >= 128:
                writer.say("refuse c filter column n", f"{answer} none")


def runs_case(writer: Writer) -> None:
    """Writes a filter of runs by a mask in runs, under thresholds and with the kernel or without."""
    r = writer.random
    type = Type(any_kind(r), writer.happens(0.5))
    length = r.choice([0, 1, 63, 64, 65, 127, 128, 129, 200, 320])
    runs = drawn_runs(writer, type, length, r.choice([1, 2, 3, 5, 12]))
    values_form = say(writer, "c", type, runs, writer.happens(0.25))
    mask_type, mask = mask_of(writer, length)
    say(writer, "m", mask_type, mask, writer.happens(0.15))
    least, factor = r.choice(THRESHOLDS)
    bits = [bit is True for bit in mask.rows()]
    rows = [row for row, bit in zip(runs.rows(), bits) if bit]
    if writer.happens(0.3):
        refused(writer, type, length)
    writer.say(f"thresholds 0 {least} {factor} 0 0 0 0")
    has_kernel = writer.happens(0.9)
    writer.say("kernels filter" if has_kernel else "kernels none")
    refuse = "refuse " if writer.happens(0.3) else ""
    writer.say(f"{refuse}c filter column m", "ok memory" if refuse else "ok")
    form = left(type, runs, values_form, bits, least, factor) if has_kernel else flat_form(type, rows)
    look_at(writer, "c", type, rows, form)
    writer.say("kernels all")
    writer.say("thresholds crate")


def other_case(writer: Writer) -> None:
    """Writes a filter of a column that is not in runs by a mask in runs: flat rows stay flat, a constant is written out,
    as what any command leaves of one is."""
    r = writer.random
    type = Type(any_kind(r), writer.happens(0.5))
    length = r.choice([0, 1, 64, 128, 200])
    mask_type, mask = mask_of(writer, length)
    say(writer, "m", mask_type, mask, False)
    bits = [bit is True for bit in mask.rows()]
    if writer.happens(0.4):
        value = None if type.nullable and writer.happens(0.3) else row(writer, type)
        writer.say(f"c = constant {type} {words([value])} {length}")
        rows = [value] * sum(bits)
        form = flat_form(type, rows) if rows or value is not None else f"flat {type} invalid"
    else:
        whole = [None if type.nullable and writer.happens(0.25) else row(writer, type) for _ in range(length)]
        writer.say(f"c = flat {type}{spaced(words(whole))}")
        rows = [row for row, bit in zip(whole, bits) if bit]
        form = flat_form(type, rows)
    writer.say("c filter column m")
    look_at(writer, "c", type, rows, form)


def lists_case(writer: Writer) -> None:
    """Writes a filter of runs of lists by a mask in runs."""
    r = writer.random
    type = Type("list(u8)", writer.happens(0.5))
    count = r.randint(1, 4)
    lists = [[r.randint(0, 9) for _ in range(r.randint(0, 3))] for _ in range(count)]
    if type.nullable:
        lists[0] = None
    length = 64 * count
    runs = Runs("u32", [64 * (run + 1) for run in range(count)], lists, 0, length)
    mask_type, mask = mask_of(writer, length)
    say(writer, "m", mask_type, mask, False)
    say(writer, "c", type, runs, False)
    bits = [bit is True for bit in mask.rows()]
    writer.say("c filter column m")
    writer.say("c type", str(type))
    writer.say("c rows", shown(row for row, bit in zip(runs.rows(), bits) if bit))


def long_case(writer: Writer) -> None:
    """Writes a filter of 2^40 rows and more, which no memory has a bit for each of."""
    r = writer.random
    type = Type(r.choice(["i64", "u8", "utf8", "bool"]), writer.happens(0.5))
    ends, stops = (sorted(r.sample(range(1, 2**44), 5)) for _ in range(2))
    offset, length = r.randint(0, ends[0] - 1), 2**40
    ends[-1] = max(ends[-1], offset + length)
    values = [None if type.nullable and writer.happens(0.25) else row(writer, type) for _ in ends]
    truths = [r.choice([True, False, None]) for _ in stops]
    start = r.randint(0, stops[0] - 1)
    stops[-1] = max(stops[-1], start + length)
    truths[2:4] = [True, False]
    say(writer, "c", type, Runs("u64", ends, values, offset, length), False)
    say(writer, "m", BOOLEANS[1], Runs("u64", stops, truths, start, length), False)
    writer.say("c filter column m")
    writer.say("c form", long_form(type, ends, values, offset, stops, truths, start, length))


def long_form(
    type: Type,
    ends: list[int],
    values: list[Row],
    offset: int,
    stops: list[int],
    truths: list[Row],
    start: int,
    length: int,
) -> str:
    """Returns the form that a filter leaves, by the stretches of rows in which both columns stay in one run."""
    cuts = sorted({0, length, *(end - offset for end in ends), *(stop - start for stop in stops)})
    cuts = [cut for cut in cuts if 0 <= cut <= length]
    kept: list[tuple[int, int]] = []
    for low, high in zip(cuts, cuts[1:]):
        run = next(run for run, end in enumerate(ends) if end - offset > low)
        if truths[next(place for place, stop in enumerate(stops) if stop - start > low)] is True:
            kept.append((run, high - low))
    count = sum(rows for _, rows in kept)
    if count == 0:
        return f"runs u64 0 0 {{ {flat_form(type, [])} }}"
    if count == length and not type.is_integer:
        return Runs("u64", ends, values, offset, length).form(flat_form(type, values))
    part: list[list] = []
    row = 0
    for run, rows in kept:
        row += rows
        value = values[run]
        if part and (part[-1][2] == run or type.is_integer and part[-1][1] == value):
            part[-1][0] = row
        else:
            part.append([row, value, run])
    made = Runs("u64", [end for end, _, _ in part], [value for _, value, _ in part], 0, count)
    return made.form(flat_form(type, made.values))
