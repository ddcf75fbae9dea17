#!/usr/bin/env python3
"""Columns with a logical type in both databases, against bytes that are made by hand here and Python's datetime.

    python3 typed_test.py sqlite EXTENSION [COUNT]      asks the extension for SQLite, and prints how much agrees
    python3 typed_test.py postgres [COUNT]              prints the same questions for psql, after same.sql

The messages of examples/corpus/typed.txt, random columns in three forms, and damaged messages. What SQLite answers is
read by the package for Python too, where it is found. Needs a Python whose sqlite3 loads extensions.
"""

import random
import sqlite3
import struct
import sys
from datetime import date, datetime, time, timedelta
from itertools import groupby
from pathlib import Path
from zoneinfo import ZoneInfo

TOP = Path(__file__).resolve().parents[2]
# by the number that a message has for the type: how struct packs a row
LETTERS = {1: "B", 2: "H", 3: "I", 4: "Q", 5: "b", 6: "h", 7: "i", 8: "q"}
TYPES = {"u8": 1, "i16": 6, "i32": 7, "i64": 8, "utf8": 11}
NANOSECONDS = {"s": 10**9, "m": 10**6, "u": 1000, "n": 1}
FORMATS = ["tdD", "tdm", "tts", "ttm", "ttu", "ttn", "tss:", "tsm:", "tsu:", "tsn:", "tss:UTC", "tsu:Europe/Berlin",
           "tsn:UTC", "tDs", "tDm", "tDu", "tDn"]
NO_NUMBER = "has no number of the logical type"
OTHER_SORT = "the column does not count what the logical type does"
NO_FORMAT = "a logical type is '' or a format of dates and times, as 'tdD' and 'tsu:UTC'"


# ---- Bytes by hand, of columns as pairs of a count and a value ----

def varint(number):
    made = b""
    while number > 127:
        made, number = made + bytes([number & 127 | 128]), number >> 7
    return made + bytes([number])


def flat(values, kind, nullable):
    valid = sum((value is not None) << row for row, value in enumerate(values))
    bits = valid.to_bytes((len(values) + 7) // 8, "little")
    head = b"\x08\x01\x10" + bytes([kind]) + b"\x18\x01\x20" + varint(len(values))
    head += b"\x28\x04" if nullable else b"\x28\x01"
    if nullable:
        head += b"\x32" + varint(len(bits)) + bits
    if kind == TYPES["utf8"]:
        texts = [(value or "").encode() for value in values]
        lengths = b"".join(varint(len(text)) for text in texts)
        joined = b"".join(texts)
        return head + b"\x62" + varint(len(lengths)) + lengths + b"\x6a" + varint(len(joined)) + joined
    items = b"".join(struct.pack("<" + LETTERS[kind], value or 0) for value in values)
    return head + b"\x3a" + varint(len(items)) + items


def in_runs(stretches, kind, nullable):
    rows = sum(count for count, _ in stretches)
    ends = 1 if rows < 2**8 else 2 if rows < 2**16 else 3 if rows < 2**32 else 4
    lengths = b"".join(varint(count) for count, _ in stretches)
    values = flat([value for _, value in stretches], kind, nullable)
    return (b"\x08\x01\x10" + bytes([kind]) + b"\x18\x02\x20" + varint(rows) + b"\x40\x00\x48" + bytes([ends])
            + b"\x52" + varint(len(lengths)) + lengths + b"\x5a" + varint(len(values)) + values)


def constant(value, rows, kind):
    return (b"\x08\x01\x10" + bytes([kind]) + b"\x18\x03\x20" + varint(rows) + b"\x28\x01\x3a"
            + varint(struct.calcsize("<" + LETTERS[kind])) + struct.pack("<" + LETTERS[kind], value))


def typed(name, message):
    if not name:
        return message
    name = name.encode()
    return b"\x08\x02\xb2\x01" + varint(len(name)) + name + b"\xba\x01" + varint(len(message)) + message


def kept(stretches, name, kind):
    """What a database writes: as few runs as possible, no type over only null."""
    joined = [(sum(count for count, _ in group), value)
              for value, group in groupby([pair for pair in stretches if pair[0]], key=lambda pair: pair[1])
              for group in [list(group)]]
    values = [value for _, value in joined]
    if all(value is None for value in values):
        name, kind = "", TYPES["i64"]
    return typed(name, in_runs(joined, kind, None in values))


# ---- What formats say ----

def stored(name):
    return TYPES["i32"] if name in ("tdD", "tts", "ttm", "tiM") else TYPES["i64"]


def unit(name):
    return 86400 * 10**9 if name == "tdD" else NANOSECONDS[name[2]]


def sort(name):
    return (name[1].replace("d", "s"), name[1] == "s" and len(name) > 4)


def fits(number, name):
    return -(2**31) <= number < 2**31 if stored(name) == TYPES["i32"] else -(2**63) <= number < 2**63


def recounted(stretches, before, after):
    """The same times in another unit, or the sentence that refuses them."""
    if before and after and sort(before) != sort(after):
        return OTHER_SORT
    made, row = [], 0
    for count, value in stretches:
        number, rest = value, 0
        if value is not None and before and after:
            number, rest = divmod(value * unit(before), unit(after))
        if count and value is not None and (rest or after and not fits(number, after)):
            return f"row {row} {NO_NUMBER}"
        made, row = made + [(count, number)], row + count
    return made


def python_value(number, name):
    """What Column.from_bytes has to show, by datetime; None where it has no such value, as below a microsecond."""
    micros, rest = divmod(number * unit(name), 1000)
    try:
        if rest:
            return None
        if name[1] == "D":
            return timedelta(microseconds=micros)
        moment = datetime(1970, 1, 1) + timedelta(microseconds=micros)
        if name[1] == "t":
            return moment.time() if 0 <= micros < 86400 * 10**6 else None
        if name[1] == "d":
            return moment.date() if moment.time() == time(0) else None
        zone = name[4:]
        return moment.replace(tzinfo=ZoneInfo("UTC")).astimezone(ZoneInfo(zone)) if zone else moment
    except OverflowError:
        return None


# ---- Questions: what a database is asked of columns, and the bytes, the text or the sentence that it answers ----

def random_stretches(chance, name):
    """Times near today and far from it, in stretches, with null."""
    per_day = 86400 * 10**9 // unit(name)
    few = [None, 0, 1, -1, 20454 * per_day, 20454 * per_day + chance.randrange(per_day), -719162 * per_day]
    if name[1] == "t":
        few = [None, 0, 1, per_day - 1, chance.randrange(per_day)]
    few += [chance.choice([2**31 - 1, -(2**31), 10**9]), chance.randrange(-(2**31), 2**31) * 10**3]
    if stored(name) == TYPES["i64"]:
        few += [2**63 - 1, -(2**63)]
    few = [value for value in few if value is None or fits(value, name)]
    return [(chance.choice([1, 1, 2, 3, 300, 70000]), chance.choice(few)) for _ in range(chance.randrange(8))]


def forms(chance, stretches, name):
    """The message as a program may have written it: with runs, flat, or one value."""
    kind, nullable = stored(name), any(value is None for _, value in stretches)
    rows = [value for count, value in stretches for _ in range(count)]
    if len({value for value in rows}) == 1 and rows[0] is not None and chance.random() < 0.5:
        return typed(name, constant(rows[0], len(rows), kind))
    if len(rows) < 1000 and chance.random() < 0.5:
        return typed(name, flat(rows, kind, nullable or chance.random() < 0.3))
    return typed(name, in_runs(stretches, kind, nullable))


def part(stretches, start, stop):
    made, row = [], 0
    for count, value in stretches:
        low, high = max(start, row), min(stop, row + count)
        made, row = made + [(max(0, high - low), value)], row + count
    return made


def questions(chance, name):
    stretches = random_stretches(chance, name)
    if not stretches:
        return
    message, kind = forms(chance, stretches, name), stored(name)
    rows = sum(count for count, _ in stretches)
    numbers = [value for _, value in stretches if value is not None]
    start, stop = sorted(chance.randrange(rows + 1) for _ in range(2))
    limit = chance.choice(numbers or [0])
    yield "hv_concat({0})", [message], kept(stretches, name, kind)
    yield "hv_slice({0}, %d, %d)" % (start, stop), [message], kept(part(stretches, start, stop), name, kind)
    above = [(count, value) for count, value in stretches if value is not None and value >= limit]
    yield "hv_filter({0}, '>=', %d)" % limit, [message], kept(above, name, kind)
    mask = in_runs([(count, None if value is None else int(value >= limit)) for count, value in stretches], 8, True)
    yield "hv_filter({0}, {1})", [message, mask], kept(above, name, kind)
    yield "hv_append({0}, %d, 3)" % limit, [message], kept(stretches + [(3, limit)], name, kind)
    yield "hv_append({0}, NULL, 2)", [message], kept(stretches + [(2, None)], name, kind)
    if numbers:
        yield "hv_logical_type({0})", [message], name
    width = chance.choice([1, 7, 60, 86400, 10**6])
    floors = [(count, value if value is None else value // width * width) for count, value in stretches]
    past = next((sum(count for count, _ in floors[:at]) for at, (_, value) in enumerate(floors)
                 if value is not None and not fits(value, name)), None)
    if past is None:
        yield "hv_buckets({0}, %d)" % width, [message], kept(floors, name, kind)
    elif kind == TYPES["i32"]:
        yield "hv_buckets({0}, %d)" % width, [message], ValueError(f"hv_buckets: row {past} {NO_NUMBER}")
    other = chance.choice(FORMATS)
    for before, after, given in ((name, other, message), (name, "", message),
                                 ("", name, in_runs(stretches, 8, True)), ("", other, in_runs(stretches, 8, True))):
        wanted = recounted(stretches, before, after)
        if isinstance(wanted, str):
            wanted = ValueError("hv_cast: " + wanted) if numbers else kept(stretches, "", 8)
        else:
            wanted = kept(wanted, after, stored(after))
        yield "hv_cast({0}, '%s')" % after, [given], wanted


def damaged(chance, name):
    """A message that is cut short, or has another byte: it is refused as the message of the numbers would be."""
    message = bytearray(forms(chance, random_stretches(chance, name) or [(1, 7)], name))
    return bytes(message[: chance.randrange(len(message))])


def corpus():
    """Each message with its stretches and the name and type with which it is written again."""
    for line in (TOP / "examples/corpus/typed.txt").read_text(encoding="utf-8").splitlines():
        label, name, made, rows, message = line.split("\t")
        count, rows = int(rows.split()[0]), [eval(row, {"null": None}) for row in rows.split(": ")[1].split(" ")]
        stretches = [(1, row) for row in rows] if count == len(rows) else [(count, rows[0])]
        kind = [word.strip("?") for word in made.split() if word.strip("?") in TYPES][-1]
        yield label, name, stretches, TYPES[kind], bytes.fromhex(message)


def as_double(key, name):
    """The key of the same float in 64 bits."""
    letter, width = {"e": ("<h", "<e"), "f": ("<i", "<f"), "g": ("<q", "<d")}[name]
    bits = struct.unpack(letter, struct.pack(letter, key))[0]
    most = 2 ** (8 * struct.calcsize(letter) - 1) - 1
    raw = bits if bits >= 0 else bits ^ most
    number = struct.unpack(width, struct.pack(letter, raw))[0]
    wide = struct.unpack("<q", struct.pack("<d", number))[0]
    return wide if wide >= 0 else wide ^ (2**63 - 1)


def corpus_questions(is_postgres):
    for label, name, stretches, kind, message in corpus():
        column = "hvcolumn"
        if name in ("e", "f", "g") and name != "g" and not (is_postgres and name == "f"):
            stretches = [(count, value if value is None else as_double(value, name)) for count, value in stretches]
            kind, column, written = TYPES["i64"], "hvfloat8", "g"
        else:
            column, written = {"f": "hvfloat4", "g": "hvfloat8"}.get(name, "hvcolumn"), name
        yield "hv_concat({0})", [message], kept(stretches, written, kind), column


def asked_of_sqlite(db, call, arguments):
    places = call.format(*(f"?{place + 1}" for place in range(len(arguments))))
    try:
        return db.execute(f"SELECT {places}", arguments).fetchone()[0]
    except sqlite3.Error as refused:
        return ValueError(str(refused))


def read_in_python(answer, name, wanted):
    """The times that the package for Python makes of the bytes."""
    from hivevigil import Column

    rows = [value for count, value in wanted for _ in range(min(count, 3))]
    times = [value if value is None else python_value(value, name) for value in rows]
    if any(time is None and row is not None for time, row in zip(times, rows)):
        return 0
    column = Column.from_bytes(answer)
    starts = [sum(count for count, _ in wanted[:at]) for at in range(len(wanted))]
    found = [column[start + row] for start, (count, _) in zip(starts, wanted) for row in range(min(count, 3))]
    assert found == times, f"{name}: {found} and not {times}"
    if name.startswith("ts"):
        zones = [[moment and moment.utcoffset() for moment in moments] for moments in (found, times)]
        assert zones[0] == zones[1], f"{name}: {zones}"
    return 1


def of_sqlite(extension, count):
    db = sqlite3.connect(":memory:")
    db.enable_load_extension(True)
    db.execute("SELECT load_extension(?)", (extension,))
    chance, agree, read = random.Random(20261129), 0, 0
    for call, arguments, wanted, _ in corpus_questions(False):
        found = asked_of_sqlite(db, call, arguments)
        assert found == wanted, f"{call} of {arguments[0].hex()}: {found}, and should {wanted.hex()}"
        agree += 1
    for turn in range(count):
        name = chance.choice(FORMATS)
        for call, arguments, wanted in questions(chance, name):
            found = asked_of_sqlite(db, call, arguments)
            assert str(found) == str(wanted), f"{call} of {[given.hex() for given in arguments]}: {found}, not {wanted}"
            agree += 1
        stretches = random_stretches(chance, name)
        if has_package() and stretches:
            answer = asked_of_sqlite(db, "hv_concat({0})", [typed(name, in_runs(stretches, stored(name), True))])
            read += any(value is not None for _, value in stretches) and read_in_python(answer, name, stretches)
        refused = asked_of_sqlite(db, "hv_cast({0}, '')", [damaged(chance, name)])
        assert str(refused) == "hv_cast: the blob is not a column", refused
    assert str(asked_of_sqlite(db, "hv_cast({0}, 'tsx')", [in_runs([(1, 1)], 8, False)])) == "hv_cast: " + NO_FORMAT
    print(f"SQLite: {agree} answers over columns with a logical type as bytes by hand, {read} of them read by Python, "
          f"{count} damaged ones refused")


def has_package():
    sys.path.insert(0, str(TOP / "python"))
    try:
        import hivevigil
    except ImportError:
        return False
    return hivevigil is not None


def of_postgres(count):
    chance = random.Random(20261130)

    def quoted(text):
        return "'" + text.replace("'", "''") + "'"

    def question(call, arguments, wanted, column="hvcolumn"):
        query = "SELECT " + call.format(*(f"'\\x{given.hex()}'::bytea::{column}" for given in arguments))
        if isinstance(wanted, ValueError):
            return f"SELECT refused({quoted(query)}, {quoted(str(wanted))});"
        cast = "::bytea" if isinstance(wanted, bytes) else ""
        answer = f"'\\x{wanted.hex()}'::bytea" if cast else quoted(wanted)
        return f"SELECT same({quoted(query + cast)}, {quoted('SELECT ' + answer)});"

    lines = [question(*asked) for asked in corpus_questions(True)]
    for turn in range(count):
        name = chance.choice(FORMATS)
        lines += [question(*asked) for asked in questions(chance, name)]
        refused = ValueError("hvcolumn: the bytes are not a column")
        lines.append(question("hv_cast({0}, '')", [damaged(chance, name)], refused))
    lines.append(question("hv_cast({0}, 'tsx')", [in_runs([(1, 1)], 8, False)], ValueError("hv_cast: " + NO_FORMAT)))
    print("\\o /dev/null", *lines, "\\o", sep="\n")
    print(f"SELECT 'PostgreSQL: {len(lines)} answers over columns with a logical type as bytes by hand';")


if __name__ == "__main__":
    if sys.argv[1] == "sqlite":
        of_sqlite(sys.argv[2], int(sys.argv[3]) if len(sys.argv) > 3 else 300)
    else:
        of_postgres(int(sys.argv[2]) if len(sys.argv) > 2 else 100)
