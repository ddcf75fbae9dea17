"""Lines that look rows up by codes and by indices: both columns in runs, in runs of runs, of one value, and flat."""

from __future__ import annotations

from dataclasses import replace
from functools import partial

from columns import layered
from draws import any_kind, integer, row
from masks import Runs, drawn_runs
from words import INTEGERS, Row, Type, constant_form, equal, flat_form, shown, spaced, words
from writer import Writer

# The forms of a column that may have very many rows.
IN_RUNS = ["runs", "runs", "nested", "nested", "over_one", "constant"]
FORMS = [*IN_RUNS, "flat"]
NO_INTEGERS = ["bool", "utf8", "binary", (5, 2)]
LONG = 2**40


def visible(runs: Runs) -> range:
    """Returns the places of the runs that show a row."""
    if runs.length == 0:
        return range(0)
    first = next(run for run, end in enumerate(runs.ends) if end > runs.offset)
    last = next(run for run, end in enumerate(runs.ends) if end >= runs.offset + runs.length)
    return range(first, last + 1)


def row_at(runs: Runs, place: int) -> Row:
    """Returns one row: the value of the first run that ends after it."""
    return next(value for end, value in zip(runs.ends, runs.values) if end > runs.offset + place)


def of_one(runs: Runs) -> Runs:
    """Returns runs that all have the value of the first."""
    return replace(runs, values=[runs.values[0]] * len(runs.values)) if runs.values else runs


def say(writer: Writer, name: str, type: Type, runs: Runs, form: str) -> Runs:
    """Writes lines that make the column in this form. Returns the runs that it shows."""
    if form == "flat":
        writer.say(f"{name} = flat {type}{spaced(words(runs.rows()))}")
        return runs
    if form in ("constant", "over_one") and runs.length > 0:
        runs = of_one(runs)
    if form == "constant" and runs.length > 0:
        writer.say(f"{name} = {constant_form(type, runs.values[0], runs.length)}")
        return runs
    if form == "over_one" and runs.length > 0:
        writer.say(f"w = {constant_form(type, runs.values[0], len(runs.values))}")
    elif form == "nested":
        layered(writer, "w", type, runs.values, partial(row, writer, type), writer.random.choice([0, 0, 1]))
    else:
        writer.say(f"w = flat {type}{spaced(words(runs.values))}")
    writer.say(f"{name} = runs {runs.ends_kind} {runs.offset} {runs.length}{spaced(words(runs.ends))} / w")
    return runs


def codes_of(writer: Writer, type: Type, runs: Runs, count: int, faulty: bool) -> Runs:
    """Returns runs of codes of this number of rows, mostly. Hidden runs have any integers; a fault is in a run that
    shows a row."""
    low, high = INTEGERS[type.kind]
    places = visible(runs)
    values: list[Row] = [integer(writer.random, type.kind) for _ in runs.ends]
    for run in places:
        is_null = type.nullable and writer.happens(0.2) or count == 0 and type.nullable
        values[run] = None if is_null else writer.random.randint(0, max(0, min(count - 1, high)))
    outside = [code for code in (count, count + 7, high, -1, low) if low <= code <= high and not 0 <= code < count]
    if faulty and places and outside:
        values[writer.random.choice(places)] = writer.random.choice(outside)
    return replace(runs, values=values)


def fault(codes: Runs, count: int) -> str | None:
    """Returns the refusal of the first code that is negative or past this number of rows, if there is one."""
    for run in visible(codes):
        code = codes.values[run]
        if code is not None and not 0 <= code < count:
            return f"refused 8 {code} {count}"
    return None


def found(codes: Runs, dictionary: Runs) -> tuple[list[int], list[Row]]:
    """Returns for each visible run of codes the row before which it ends, and what the dictionary has for it."""
    places = visible(codes)
    ends = [min(codes.ends[run] - codes.offset, codes.length) for run in places]
    looked_up = [None if codes.values[run] is None else row_at(dictionary, codes.values[run]) for run in places]
    return ends, looked_up


def joined(ends: list[int], values: list[Row]) -> tuple[list[int], list[Row]]:
    """Returns the runs with equal neighbours as one."""
    kept = [run for run, value in enumerate(values) if run + 1 == len(values) or not equal(value, values[run + 1])]
    return [ends[run] for run in kept], [values[run] for run in kept]


def rows_of(ends: list[int], values: list[Row]) -> list[Row]:
    """Returns the rows of runs with these ends."""
    return [value for start, end, value in zip([0, *ends], ends, values) for _ in range(end - start)]


def left(type: Type, codes: Runs, ends: list[int], values: list[Row], keeps_runs: bool) -> str:
    """Returns the form of what is looked up. Runs of codes are kept where the kernel serves them, over integers and
    booleans."""
    if keeps_runs and type.is_integer:
        ends, values = joined(ends, values)
        return Runs(codes.ends_kind, ends, values, 0, codes.length).form(flat_form(type, values))
    if keeps_runs and type.is_boolean:
        own = [codes.ends[run] for run in visible(codes)]
        offset = codes.offset if codes.length > 0 else 0
        return Runs(codes.ends_kind, own, values, offset, codes.length).form(flat_form(type, values))
    return flat_form(type, rows_of(ends, values))


def look_up(writer: Writer, columns: tuple[Type, Runs, str, Type, Runs], has_kernel: bool, is_take: bool) -> None:
    """Writes a line that looks the codes `c` up in `d`, or takes the rows of `d` at the indices `c`, and lines that look
    at what is left."""
    codes_type, codes, codes_form, type, dictionary = columns
    name = "d" if is_take else "c"
    work = "d take column c" if is_take else "c codes d"
    if refusal := fault(codes, dictionary.length):
        return writer.say(work, refusal)
    refuse = "refuse " if writer.happens(0.2) else ""
    writer.say(f"{refuse}{work}", "ok memory" if refuse else "ok")
    ends, values = found(codes, dictionary)
    made = Type(type.kind, type.nullable or codes_type.nullable)
    if type.is_list:
        writer.say(f"{name} type", str(made))
        return writer.say(f"{name} rows", shown(rows_of(ends, values)))
    in_runs = codes_form in ("runs", "nested") or codes_form == "over_one" or codes.length == 0 and codes_form != "flat"
    writer.say(f"{name} form", left(made, codes, ends, values, has_kernel and in_runs))
    if codes.length <= 12:
        writer.say(f"{name} rows", shown(rows_of(ends, values)))


def code_type(writer: Writer, count: int) -> Type:
    """Returns a type of codes of which most can be of this many rows."""
    kinds = [kind for kind, (_, high) in INTEGERS.items() if high >= min(count, 1000)]
    return Type(writer.random.choice(kinds), writer.happens(0.5))


def runs_case(writer: Writer) -> None:
    """Writes codes looked up in a dictionary, each in any form, with the kernel or without."""
    r = writer.random
    type = Type(any_kind(r), writer.happens(0.5))
    count = r.choice([0, 1, 2, 5, 40, 300])
    form, codes_form = r.choice(FORMS), r.choice(FORMS)
    is_take = codes_form != "flat" and writer.happens(0.4)
    dictionary = say(writer, "d", type, drawn_runs(writer, type, count, r.choice([1, 2, 3, 8])), form)
    codes_type = code_type(writer, count)
    length = r.choice([0, 1, 3, 9, 12, 65, 200])
    window = drawn_runs(writer, codes_type, length, r.choice([1, 2, 4, 9]))
    codes = say(writer, "c", codes_type, codes_of(writer, codes_type, window, count, writer.happens(0.2)), codes_form)
    has_kernel = writer.happens(0.8)
    writer.say("kernels all" if has_kernel else "kernels none")
    look_up(writer, (codes_type, codes, codes_form, type, dictionary), has_kernel, is_take)
    writer.say("kernels all")


def lists_case(writer: Writer) -> None:
    """Writes codes looked up in runs of lists."""
    r = writer.random
    type = Type("list(u8)", writer.happens(0.5))
    lists = [[r.randint(0, 9) for _ in range(r.randint(0, 3))] for _ in range(r.randint(1, 4))]
    if type.nullable:
        lists[0] = None
    stretch = r.choice([1, 64, LONG // 4])
    dictionary = Runs("u64", [stretch * (run + 1) for run in range(len(lists))], lists, 0, stretch * len(lists))
    say(writer, "d", type, dictionary, "runs")
    codes_type = code_type(writer, dictionary.length)
    window = drawn_runs(writer, codes_type, r.choice([0, 1, 12]), 3)
    codes = codes_of(writer, codes_type, window, dictionary.length, writer.happens(0.1))
    codes_form = r.choice(["runs", "nested", "flat"])
    say(writer, "c", codes_type, codes, codes_form)
    look_up(writer, (codes_type, codes, codes_form, type, dictionary), True, writer.happens(0.3))


def long_runs(writer: Writer, type: Type, length: int) -> Runs:
    """Returns runs of as many rows, of which the first may begin before the window and the last end past it."""
    most = max(length // 8, 2)
    ends = sorted(writer.random.sample(range(1, length + 2 * most), writer.random.randint(1, 5)))
    offset = writer.random.randint(0, ends[0] - 1)
    ends[-1] = max(ends[-1], offset + length)
    values = [None if type.nullable and writer.happens(0.25) else row(writer, type) for _ in ends]
    return Runs("u64", ends, values, offset, length)


def long_case(writer: Writer) -> None:
    """Writes codes looked up in 2^40 rows, which no memory has room for. Where there are as many codes, the dictionary
    is of integers or booleans, so that runs are left."""
    r = writer.random
    are_many = writer.happens(0.5)
    kind = r.choice(["i64", "u8", "bool"]) if are_many else any_kind(r)
    type = Type(kind, writer.happens(0.5))
    dictionary = say(writer, "d", type, long_runs(writer, type, LONG), r.choice(IN_RUNS))
    codes_type = Type(r.choice(["u64", "i64"]), writer.happens(0.5))
    codes_form = r.choice(["runs", "nested", "over_one"] if are_many else FORMS)
    window = long_runs(writer, codes_type, LONG) if are_many else drawn_runs(writer, codes_type, r.choice([1, 7, 12]), 4)
    codes = codes_of(writer, codes_type, window, LONG, writer.happens(0.25))
    codes = say(writer, "c", codes_type, codes, codes_form)
    is_take = codes_form != "flat" and writer.happens(0.4)
    look_up(writer, (codes_type, codes, codes_form, type, dictionary), True, is_take)


def types_case(writer: Writer) -> None:
    """Writes codes of types that are not integers, as many as no memory has room for: the type is looked at first."""
    r = writer.random
    type = Type(any_kind(r), writer.happens(0.5))
    say(writer, "d", type, long_runs(writer, type, LONG), r.choice(IN_RUNS))
    codes_type = Type(r.choice(NO_INTEGERS), writer.happens(0.5))
    say(writer, "c", codes_type, long_runs(writer, codes_type, LONG), r.choice(["runs", "nested", "constant"]))
    work = r.choice(["c codes d", "d take column c"])
    writer.say(work, "refused 12")
    writer.say(f"refuse {work}", "refused 12 none")
