#!/usr/bin/env python3
"""Columns of 2^40 rows in a few runs in both databases, held against a model whose rows are runs of Python.

    python3 long_test.py sqlite EXTENSION [COUNT]      asks the extension for SQLite, and prints how much agrees
    python3 long_test.py postgres [COUNT]              prints the same questions for psql, after same.sql

A function that went by rows would need hours and terabytes: in SQLite each answer is within 2 GiB and a minute, in
PostgreSQL within a statement_timeout. Columns come in runs, as one value in all rows, or as booleans and as integers of
8 bits. What is answered is a column by its bytes, or a value as text. Needs a Python whose sqlite3 loads extensions.
"""

import operator
import random
import resource
import signal
import sqlite3
import struct
import sys
from fractions import Fraction
from itertools import accumulate, groupby

from typed_test import TYPES, asked_of_sqlite, constant, in_runs, kept, part, typed

ROWS = 2**40
MOST = 2**63 - 1
OPERATORS = {"=": operator.eq, "<>": operator.ne, ">": operator.gt, ">=": operator.ge, "<": operator.lt,
             "<=": operator.le}
ARITHMETIC = {"add": operator.add, "subtract": operator.sub, "multiply": operator.mul}
SQLITE, POSTGRES = "sqlite", "postgres"


# ---- Columns: a kind of rows, and stretches of a count and a value ----

class Rows:
    """Integers, floats by their numbers, or texts, of one number of rows."""

    def __init__(self, kind, stretches):
        self.kind, self.stretches = kind, stretches

    def bytes_made(self, chance):
        """The message as a program may have written it."""
        values = [value for _, value in self.stretches]
        if self.kind == "real":
            return typed("g", in_runs([(count, key_of(value)) for count, value in self.stretches], 8, None in values))
        if self.kind == "text":
            return in_runs(self.stretches, TYPES["utf8"], None in values)
        if len(set(values)) == 1 and values[0] is not None:
            return constant(values[0], sum(count for count, _ in self.stretches), TYPES["i64"])
        if None not in values and set(values) <= {0, 1} and chance.random() < 0.5:
            return as_booleans(self.stretches)
        if all(value is None or 0 <= value < 256 for value in values) and chance.random() < 0.5:
            return in_runs(self.stretches, TYPES["u8"], None in values)
        return in_runs(self.stretches, TYPES["i64"], None in values)

    def bytes_kept(self):
        """The only bytes that a database writes of these rows."""
        if self.kind == "real":
            return kept([(count, key_of(value)) for count, value in self.stretches], "g", TYPES["i64"])
        return kept(self.stretches, "", TYPES["utf8" if self.kind == "text" else "i64"])


def as_booleans(stretches):
    """Runs of booleans without null, whose bits follow the number of their values."""
    lengths = in_runs([(count, 0) for count, _ in stretches], TYPES["u8"], False)
    head = lengths[: lengths.rindex(b"\x5a")]
    bits = sum(value << at for at, (_, value) in enumerate(stretches)).to_bytes((len(stretches) + 7) // 8, "little")
    flat = b"\x08\x01\x10\x09\x18\x01\x20" + bytes([len(stretches)]) + b"\x28\x01\x3a" + bytes([len(bits)]) + bits
    return head.replace(b"\x08\x01\x10\x01", b"\x08\x01\x10\x09", 1) + b"\x5a" + bytes([len(flat)]) + flat


def key_of(number):
    """The place of a float in the total order, counted from 0.0."""
    if number is None:
        return None
    bits = struct.unpack("<q", struct.pack("<d", number))[0]
    return bits if bits >= 0 else bits ^ MOST


def random_rows(chance, kind, rows=None):
    values = {"integer": [None, 0, 1, 2, -3, 7, 200], "truth": [0, 1], "real": [None, 0.0, 1.5, -2.25, 0.1, 1e300],
              "text": [None, "", "a", "b", "Zürich"]}[kind]
    rows = ROWS + chance.randrange(1000) if rows is None else rows
    ends = sorted({rows, *(chance.choice([1, 2, 65536, rows - 1, chance.randrange(1, rows)])
                           for _ in range(chance.randrange(6)))})
    return Rows("integer" if kind == "truth" else kind,
                [(end - start, chance.choice(values)) for start, end in zip([0] + ends, ends)])


# ---- The model ----

def pairs(left, right):
    """The stretches of both rows at each place."""
    ends = [list(accumulate(count for count, _ in rows.stretches)) for rows in (left, right)]
    start = 0
    for end in sorted({*ends[0], *ends[1]}):
        values = [rows.stretches[next(at for at, stop in enumerate(stops) if stop > start)][1]
                  for rows, stops in zip((left, right), ends)]
        yield end - start, *values
        start = end


def joined(stretches):
    return [(sum(count for count, _ in same), value)
            for value, same in groupby(stretches, key=lambda pair: pair[1]) for same in [list(same)]]


def worked(left, right, work):
    """A row for each place, null where either is, unless the work serves null."""
    return Rows("integer", [(count, work(one, other)) for count, one, other in pairs(left, right)])


def null_in(work):
    return lambda one, other: None if one is None or other is None else int(work(one, other))


def both(one, other):
    return 0 if one == 0 or other == 0 else None if one is None or other is None else 1


def either(one, other):
    return 1 if one or other else None if one is None or other is None else 0


def sum_of(stretches):
    """The sum in the order of the rows, None of none, or the row with which it leaves 64 bits."""
    total, row, found = 0, 0, None
    for count, value in stretches:
        if value is not None:
            room = (MOST - total) // value if value > 0 else (total + MOST + 1) // -value if value < 0 else count
            if room < count:
                return OverflowError(row + room)
            total, found = total + count * value, True
        row += count
    return total if found else None


def exact_sum(stretches):
    """The sum of all rows, however far it goes on the way; None of none."""
    found = [count * value for count, value in stretches if value is not None]
    return sum(found) if found else None


def rounded_sum(stretches):
    """The exact sum of floats, rounded once; None of none."""
    exact = exact_sum([(count, None if value is None else Fraction(value)) for count, value in stretches])
    try:
        return None if exact is None else float(exact)
    except OverflowError:
        return float("inf") if exact > 0 else float("-inf")


def grouped(keys, values):
    """A row for each run of equal keys, with its count, sum, least, greatest, first and last."""
    for key, same in groupby(list(pairs(keys, values)), key=lambda place: place[1]):
        same = [(count, value) for count, _, value in same]
        valid = [(count, value) for count, value in same if value is not None]
        numbers = [value for _, value in valid] or [None]
        least, greatest = (None, None) if numbers == [None] else (min(numbers), max(numbers))
        yield (key, sum(count for count, _ in same), sum(count for count, _ in valid), exact_sum(valid), least, greatest,
               numbers[0], numbers[-1])


def steps_of(rows):
    """Each row as its difference to the one before that is not null."""
    made, last = [], 0
    for count, value in joined(rows.stretches):
        if value is None:
            made.append((count, None))
        else:
            made += [(1, value - last), (count - 1, 0)]
            last = value
    return Rows("integer", [pair for pair in made if pair[0]])


def bucketed_steps(stretches, width):
    """The bucket of each row of the totals, where a step is positive or 0."""
    made, total = [], 0
    for count, step in stretches:
        if step is None:
            made.append((count, None))
            continue
        while count:
            bucket = (total + step) // width * width
            few = min(count, (bucket + width - 1 - total) // step) if step else count
            made.append((few, bucket))
            total, count = total + few * step, count - few
    return Rows("integer", made)


# ---- Questions: a call, the messages of its columns, and what is answered ----

def questions_of_one(chance, rows, database):
    message, stretches, kind = [rows.bytes_made(chance)], rows.stretches, rows.kind
    count = sum(number for number, _ in stretches)
    found = [value for _, value in stretches if value is not None]
    least, greatest = (min(found), max(found)) if found else (None, None)
    text = "_text" if kind == "text" and database == POSTGRES else ""
    start, stop = sorted(chance.randrange(count + 1) for _ in range(2))
    row = chance.choice([0, count - 1, start])
    yield "hv_rows({0})", message, count
    yield "hv_count({0})", message, sum(number for number, value in stretches if value is not None)
    if found or not text:
        yield f"hv_at{text}({{0}}, {row})", message, next((value for _, value in part(stretches, row, row + 1) if _), None)
        yield f"hv_min{text}({{0}})", message, least
        yield f"hv_max{text}({{0}})", message, greatest
        yield f"hv_first{text}({{0}})", message, found[0] if found else None
        yield f"hv_last{text}({{0}})", message, found[-1] if found else None
    yield "hv_concat({0})", message, rows
    yield f"hv_slice({{0}}, {start}, {stop})", message, Rows(kind, part(stretches, start, stop))
    if not found:
        return
    limit = chance.choice(found)
    shown = {"integer": str(limit), "real": repr(limit), "text": f"'{limit}'"}[kind]
    if kind == "text" and database == POSTGRES:
        shown += "::text"
    yield f"hv_append({{0}}, {shown}, {count})", message, Rows(kind, stretches + [(count, limit)])
    name = chance.choice(list(OPERATORS))
    holds = OPERATORS[name]
    yield (f"hv_filter({{0}}, '{name}', {shown})", message,
           Rows(kind, [(number, value) for number, value in stretches if value is not None and holds(value, limit)]))
    yield (f"hv_compare({{0}}, '{name}', {shown})", message,
           Rows("integer", [(number, value if value is None else int(holds(value, limit)))
                            for number, value in stretches]))
    yield f"hv_repeat({shown}, {count})", [], Rows(kind, [(count, limit)])
    if database == POSTGRES:
        other = Rows(kind, [(number, chance.choice([value, value, limit])) for number, value in stretches])
        yield "({0} = {1})", message + [other.bytes_made(chance)], rows.bytes_kept() == other.bytes_kept()
        yield "hv_hash({0}) = hv_hash({1})", message + [rows.bytes_kept()], True
    if kind == "real":
        for call in ("hv_sum", "hv_sum_all"):
            total = rounded_sum(stretches)
            if database == POSTGRES and total in (float("inf"), float("-inf")):
                total = ValueError(f"{call}: double precision out of range")
            yield call + "({0})", message, total
    if kind == "integer":
        yield from questions_of_integers(chance, rows, message, database)


def questions_of_integers(chance, rows, message, database):
    stretches, width = rows.stretches, chance.choice([1, 3, 60])
    total, exact = sum_of(stretches), exact_sum(stretches)
    if isinstance(total, OverflowError):
        total = ValueError("hv_sum: bigint out of range" if database == POSTGRES
                           else f"hv_sum: integer overflow with row {total}")
    yield "hv_sum({0})", message, total
    if database == POSTGRES or abs(exact) < MOST:
        yield "hv_sum_all({0})", message, exact
    yield "hv_not({0})", message, Rows("integer", [(count, None if value is None else int(value == 0))
                                                   for count, value in stretches])
    steps = steps_of(rows)
    yield "hv_steps({0})", message, steps
    yield (f"hv_buckets({{0}}, {width})", message,
           Rows("integer", [(count, None if value is None else value // width * width) for count, value in stretches]))
    few = steps.bytes_made(chance)
    yield f"hv_step_buckets({{0}}, {width})", [few], Rows("integer", [
        (count, None if value is None else value // width * width) for count, value in stretches])
    if len(joined(stretches)) == 1 or chance.random() < 0.2:
        yield "hv_totals({0})", [few], rows
    seconds = [(count, None if value is None else abs(value)) for count, value in stretches]
    width = chance.choice([2**34, 2**39, 2**47])
    yield (f"hv_step_buckets({{0}}, {width})", [Rows("integer", seconds).bytes_made(chance)],
           bucketed_steps(seconds, width))
    made = typed("tss:", in_runs(stretches, TYPES["i64"], None in [value for _, value in stretches]))
    yield ("hv_cast({0}, 'tsm:')", [made],
           kept([(count, None if value is None else 1000 * value) for count, value in stretches], "tsm:", TYPES["i64"]))


def questions_of_two(chance, left, right, database):
    messages = [left.bytes_made(chance), right.bytes_made(chance)]
    name = chance.choice(list(OPERATORS))
    yield f"hv_compare({{0}}, '{name}', {{1}})", messages, worked(left, right, null_in(OPERATORS[name]))
    if left.kind == "integer":
        for call, work in ARITHMETIC.items():
            yield f"hv_{call}({{0}}, {{1}})", messages, worked(left, right, null_in(work))
        yield "hv_and({0}, {1})", messages, worked(left, right, both)
        yield "hv_or({0}, {1})", messages, worked(left, right, either)


def as_text(names, lines, table, database):
    """A query that has the rows of a table as one text, and what it answers."""
    cast, gather = ("::text", "string_agg") if database == POSTGRES else ("", "group_concat")
    row = " || '|' || ".join(f"coalesce({name}{cast}, 'null')" for name in names)
    shown = ["|".join("null" if value is None else str(value) for value in line) for line in lines]
    return f"(SELECT {gather}({row}, ' ') FROM {table})", " ".join(shown)


def questions_of_groups(chance, keys, values, database):
    groups = list(grouped(keys, values))
    if any(total is not None and abs(total) > MOST for _, _, _, total, *_ in groups):
        return
    text = "_text" if keys.kind == "text" and database == POSTGRES else ""
    call, wanted = as_text(["key", "rows", "count", "sum", "min", "max", "first", "last"], groups,
                           f"hv{text}_groups({{0}}, {{1}})", database)
    yield call, [keys.bytes_made(chance), values.bytes_made(chance)], wanted


def questions_of_runs(chance, rows, database):
    text = "_text" if rows.kind == "text" and database == POSTGRES else ""
    lines, row = [], 0
    for count, value in joined(rows.stretches):
        lines, row = lines + [(row, row + count, value)], row + count
    call, wanted = as_text(["start", "stop", "value"], lines, f"hv{text}_runs({{0}})", database)
    yield call, [rows.bytes_made(chance)], wanted


def questions_of_masks(chance, rows, mask, database):
    wanted = [(count, value) for count, value, truth in pairs(rows, mask) if truth]
    yield "hv_filter({0}, {1})", [rows.bytes_made(chance), mask.bytes_made(chance)], Rows(rows.kind, wanted)


def questions(chance, database):
    kind = chance.choice(["integer", "integer", "truth", "real", "text"])
    left = random_rows(chance, kind)
    rows = sum(count for count, _ in left.stretches)
    right, mask = random_rows(chance, kind, rows), random_rows(chance, chance.choice(["truth", "integer"]), rows)
    yield from ((*asked, left.kind) for asked in questions_of_one(chance, left, database))
    has_type = [any(value is not None for _, value in side.stretches) for side in (left, right)]
    if all(has_type):
        yield from ((*asked, left.kind) for asked in questions_of_two(chance, left, right, database))
    yield from ((*asked, left.kind) for asked in questions_of_masks(chance, left, mask, database))
    if kind != "real" and has_type[0]:
        yield from ((*asked, left.kind) for asked in questions_of_groups(chance, left, mask, database))
        yield from ((*asked, left.kind) for asked in questions_of_runs(chance, left, database))


# ---- The databases ----

def of_sqlite(extension, count):
    db = sqlite3.connect(":memory:")
    db.enable_load_extension(True)
    db.execute("SELECT load_extension(?)", (extension,))
    resource.setrlimit(resource.RLIMIT_AS, (2**31, 2**31))
    chance, agree = random.Random(20261130), 0
    for _ in range(count):
        for call, arguments, wanted, _ in questions(chance, SQLITE):
            signal.alarm(60)
            found = asked_of_sqlite(db, call, arguments)
            wanted = wanted.bytes_kept() if isinstance(wanted, Rows) else wanted
            assert str(found) == str(wanted), f"{call} of {[given.hex() for given in arguments]}: {found}, not {wanted}"
            agree += 1
    print(f"SQLite: {agree} answers over columns of 2^40 rows in a few runs, as of runs in Python")


def of_postgres(count):
    chance = random.Random(20261201)

    def quoted(text):
        return "'" + text.replace("'", "''") + "'"

    def question(call, arguments, wanted, kind):
        column = ["hvfloat8" if given.startswith(b"\x08\x02\xb2\x01\x01g") else "hvcolumn" for given in arguments]
        query = "SELECT " + call.format(*(f"'\\x{given.hex()}'::bytea::{of}" for given, of in zip(arguments, column)))
        if isinstance(wanted, ValueError):
            return f"SELECT refused({quoted(query)}, {quoted(str(wanted))});"
        if isinstance(wanted, Rows):
            wanted = wanted.bytes_kept()
        if isinstance(wanted, bytes):
            return f"SELECT same({quoted(query + '::bytea')}, {quoted(f'''SELECT '{chr(92)}x{wanted.hex()}'::bytea''')});"
        if wanted is None:
            answer = "SELECT NULL"
        else:
            answer = "SELECT " + (quoted(wanted) if isinstance(wanted, str) else
                                  f"'{wanted!r}'::double precision" if isinstance(wanted, float) else str(wanted))
        return f"SELECT same({quoted(query)}, {quoted(answer)});"

    lines = [question(*asked) for _ in range(count) for asked in questions(chance, POSTGRES)]
    print("SET statement_timeout = '60s';", "\\o /dev/null", *lines, "\\o", "RESET statement_timeout;", sep="\n")
    print(f"SELECT 'PostgreSQL: {len(lines)} answers over columns of 2^40 rows in a few runs, as of runs in Python';")


if __name__ == "__main__":
    if sys.argv[1] == SQLITE:
        of_sqlite(sys.argv[2], int(sys.argv[3]) if len(sys.argv) > 3 else 300)
    else:
        of_postgres(int(sys.argv[2]) if len(sys.argv) > 2 else 100)
