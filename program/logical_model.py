"""What dates, times, durations and floats are as fields of a CSV file, by Python's datetime, fractions and struct, which
share nothing with the library.

A row is what its column stores: of a date its days, of a time, a timestamp or a duration its units, and of a float its
key, the place of its bits in the total order.
"""

import bisect
import math
import random
import re
import struct
from datetime import date, datetime, time, timedelta
from decimal import Decimal
from fractions import Fraction

NANOSECONDS = {"s": 10**9, "ms": 10**6, "us": 10**3, "ns": 1, "D": 86_400 * 10**9}
FORMATS = {"e": "float16", "f": "float32", "g": "float64", "tdD": "date", "tdm": "date[ms]"} | {
    letters + letter + colon: f"{sort}[{unit}]"
    for letters, sort, colon in (("tt", "time", ""), ("ts", "timestamp", ":"), ("tD", "duration", ""))
    for letter, unit in zip("smun", NANOSECONDS)
}
FLOATS = {16: "eh", 32: "fi", 64: "dq"}  # letters of struct: of the float, and of an integer of its width
EPOCH, FIRST_DAY = datetime(1970, 1, 1), date(1970, 1, 1).toordinal()
NUMBER = re.compile(r"-?(0|[1-9]\d*)(\.\d+)?([eE][+-]?\d{1,4})?", re.ASCII)
NAMED_FLOATS = {"nan", "NaN", *(sign + name for sign in ("", "+", "-") for name in ("inf", "Inf", "Infinity"))}


# ---- Types by their names: "date?", "timestamp[us, UTC]?", "float64"


def name_of_format(format: str) -> str | None:
    """The type that a format of Arrow names, which has no zero byte; None of another."""
    zone = format[4:] if format[:2] == "ts" and format[3:4] == ":" and "\0" not in format else ""
    name = FORMATS.get(format.removesuffix(zone))
    return name[:-1] + f", {zone}]" if name and zone else name


def format_of(kind: str) -> str:
    """The format of Arrow that names a type."""
    zone = kind.partition(", ")[2].rstrip("]?")
    name = kind.rstrip("?").partition(",")[0].rstrip("]") + "]" * ("[" in kind)
    return next(format for format, found in FORMATS.items() if found == name) + zone


def sort_of(kind: str) -> str:
    return re.match("[a-z]*", kind)[0]


def unit_of(kind: str) -> str:
    found = re.search(r"\[(\w+)", kind)
    return found[1] if found else "D"


def float_bits(kind: str) -> int:
    return int(re.search(r"\d+", kind)[0])


def storage_of(kind: str) -> str:
    """The type of the integers that a column of a logical type stores, with its '?'; another type as it is."""
    sort, null = sort_of(kind), "?" * kind.endswith("?")
    if sort == "float":
        return f"i{float_bits(kind)}{null}"
    if sort not in ("date", "time", "timestamp", "duration"):
        return kind
    is_narrow = (sort, unit_of(kind)) in {("date", "D"), ("time", "s"), ("time", "ms")}
    return f"i{32 if is_narrow else 64}{null}"


def is_logical(kind: str) -> bool:
    return storage_of(kind) != kind


# ---- Files of columns: a message, within one of version 2 where the column has a logical type


def varint(number: int) -> bytes:
    return bytes([number]) if number < 128 else bytes([number % 128 + 128]) + varint(number // 128)


def file_of(format: str, message: bytes) -> bytes:
    """The file of the column of a message, which has the type that a format of Arrow names, or none where it is empty:
    version 2, the format in field 22, and the message in field 23."""
    if not format:
        return message
    name = format.encode()
    return b"\x08\x02\xb2\x01" + varint(len(name)) + name + b"\xba\x01" + varint(len(message)) + message


def field_at_front(data: bytes, key: bytes) -> tuple[bytes, bytes] | None:
    """The bytes of the field with which the data begin, and what comes after them; None where no such field is there."""
    rest = data.removeprefix(key)
    for size in range(1, 11) if rest != data else ():
        length = sum((byte & 127) << 7 * place for place, byte in enumerate(rest[:size]))
        if rest[:size] == varint(length) and length <= len(rest) - size:
            return rest[size : size + length], rest[size + length :]
    return None


def parts_of(data: bytes) -> tuple[str, bytes] | None:
    """The format and the message of a file; None where it is in version 2 and not as `file_of` makes it."""
    if not data.startswith(b"\x08\x02"):
        return "", data
    try:
        name, rest = field_at_front(data[2:], b"\xb2\x01")
        message, end = field_at_front(rest, b"\xba\x01")
        return (name.decode(), message) if name and not end else None
    except (TypeError, UnicodeDecodeError):
        return None


# ---- Floats


def key_of(number: float, bits: int = 64) -> int:
    """The place of a float of this width in the total order."""
    both = FLOATS[bits]
    (stored,) = struct.unpack("<" + both[1], struct.pack("<" + both[0], number))
    return stored if stored >= 0 else -(stored + 2 ** (bits - 1)) - 1


def number_of(key: int, bits: int) -> float:
    both = FLOATS[bits]
    stored = key if key >= 0 else -(key + 1) - 2 ** (bits - 1)
    return struct.unpack("<" + both[0], struct.pack("<" + both[1], stored))[0]


def is_float(text: str) -> bool:
    """Whether the text is a float in its shortest digits, or of at most 15."""
    if not NUMBER.fullmatch(text):
        return text in NAMED_FLOATS
    is_plain = "e" not in text.lower() and sum(map(str.isdigit, text)) <= 15
    return is_plain or math.isfinite(float(text)) and Decimal(repr(float(text))) == Decimal(text)


# ---- Dates and times, None of another text


def days_of(text: str) -> int | None:
    try:
        found = re.fullmatch(r"(\d{4})-(\d\d)-(\d\d)", text, re.ASCII)
        return found and date(*map(int, found.groups())).toordinal() - FIRST_DAY
    except ValueError:
        return None


def clock_of(text: str) -> tuple[int, int] | None:
    """Nanoseconds from midnight, and the digits after the second."""
    found = re.fullmatch(r"(\d\d):(\d\d)(:(\d\d)(\.(\d{1,9}))?)?", text, re.ASCII)
    try:
        at = found and time(int(found[1]), int(found[2]), int(found[4] or 0))
    except ValueError:
        return None
    if at is None:
        return None
    length = timedelta(hours=at.hour, minutes=at.minute, seconds=at.second)
    fraction = found[6] or ""
    return int(length / timedelta(seconds=1)) * 10**9 + int(Fraction(f"0.{fraction or 0}") * 10**9), len(fraction)


def instant_of(text: str) -> tuple[int, bool, int] | None:
    """Nanoseconds from 1970, whether there is an offset, and the digits after the second."""
    found = re.fullmatch(r"([^T ]{10})[T ]([^Z+-]+)(Z|[+-](\d\d):(\d\d))?", text, re.ASCII)
    days, clock = (days_of(found[1]), clock_of(found[2])) if found else (None, None)
    if days is None or clock is None:
        return None
    ahead = 0
    if found[4]:
        if int(found[4]) > 23 or int(found[5]) > 59:
            return None
        ahead = (int(found[4]) * 60 + int(found[5])) * (-1 if found[3][0] == "-" else 1)
    return days * NANOSECONDS["D"] + clock[0] - ahead * 60 * 10**9, bool(found[3]), clock[1]


def type_of(texts: list[str]) -> str | None:
    """The logical type of a column of these fields, which are not all numbers of a decimal; None of others."""
    if all(map(is_float, texts)):
        return "float64?"
    if all(days_of(text) is not None for text in texts):
        return "date?"
    clocks, instants = list(map(clock_of, texts)), list(map(instant_of, texts))
    found = clocks if None not in clocks else instants
    if None in found or found is instants and len({has_offset for _, has_offset, _ in instants}) > 1:
        return None
    unit = ["s", "ms", "us", "ns"][-(-max(each[-1] for each in found) // 3)]
    if found is clocks:
        return f"time[{unit}]?"
    if unit == "ns" and not all(-(2**63) <= each[0] < 2**63 for each in instants):
        return None
    return f"timestamp[{unit}, UTC]?" if instants[0][1] else f"timestamp[{unit}]?"


# ---- Rows


def exact(text: str, kind: str):
    """What a text means for a column of a type, in units: a fraction, or of floats a number, NaN or an infinity."""
    sort = sort_of(kind)
    if sort == "float":
        return float(text) if text in NAMED_FLOATS else Fraction(text)
    if sort == "duration":
        return Fraction(text) * 10**9 / NANOSECONDS[unit_of(kind)]
    nanoseconds = {
        "date": lambda: days_of(text) * NANOSECONDS["D"], "time": lambda: clock_of(text)[0],
        "timestamp": lambda: instant_of(text)[0],
    }[sort]()
    return Fraction(nanoseconds, NANOSECONDS[unit_of(kind)])


def row_of(text: str, kind: str) -> int:
    """What a column stores of a field."""
    if sort_of(kind) == "float":
        return key_of(float(text), float_bits(kind))
    count = exact(text, kind)
    assert count.denominator == 1, (text, kind)
    return int(count)


def nearest(text: str, bits: int) -> float:
    """The finite float nearest to a number, at a tie the even one, found among all of them."""
    size, keys = abs(Fraction(text)), range(key_of(math.inf, bits))
    at = lambda key: Fraction(number_of(key, bits))
    above = bisect.bisect_left(keys, size, key=at)
    two = keys[max(above - 1, 0) : above + 1]
    return math.copysign(at(min(two, key=lambda key: (abs(at(key) - size), key % 2))), -text.startswith("-") or 1)


def number_shown(row: int, kind: str):
    """A row as what conditions compare: floats as numbers."""
    if sort_of(kind) != "float":
        return row
    number = number_of(row, float_bits(kind))
    return Fraction(number) if math.isfinite(number) else number


def fraction_digits(nanoseconds: int) -> str:
    return "" if not nanoseconds else f".{nanoseconds:09}" if nanoseconds % 1000 else f".{nanoseconds // 1000:06}"


def shown(row: int, kind: str) -> str | None:
    """A row as a field; None where it is a date or a time that is not written so."""
    sort = sort_of(kind)
    if sort == "float":
        return repr(number_of(row, float_bits(kind)))
    nanoseconds = row * NANOSECONDS[unit_of(kind)]
    if sort == "duration":
        size = Decimal(abs(nanoseconds)).scaleb(-9).normalize()
        return ("-" if nanoseconds < 0 else "") + f"{size:f}"
    seconds, rest = divmod(nanoseconds, 10**9)
    if sort == "time":
        is_of_day = 0 <= nanoseconds < NANOSECONDS["D"]
        return (EPOCH + timedelta(seconds=seconds)).time().isoformat() + fraction_digits(rest) if is_of_day else None
    try:
        moment = EPOCH + timedelta(seconds=seconds)
    except OverflowError:
        return None
    if sort == "date":
        return moment.date().isoformat() if nanoseconds % NANOSECONDS["D"] == 0 else None
    return moment.isoformat() + fraction_digits(rest) + "+00:00" * ("," in kind)


def best(rows: list[int], kind: str, choose) -> int | None:
    """The least or the greatest row; of floats NaN is left out."""
    return choose((row for row in rows if number_shown(row, kind) == number_shown(row, kind)), default=None)


def total(rows: list[int], kind: str) -> str | None:
    """The sum of rows as a field; None where such rows have none."""
    if sort_of(kind) == "duration":
        return shown(sum(rows), kind)
    if sort_of(kind) != "float":
        return None
    numbers = [number_of(row, float_bits(kind)) for row in rows]
    others = [number for number in numbers if not math.isfinite(number)]
    if others:
        return repr(sum(others))
    if numbers and all(str(number) == "-0.0" for number in numbers):
        return "-0.0"
    exact_sum = sum(map(Fraction, numbers), Fraction(0))
    try:
        return repr(float(exact_sum))
    except OverflowError:
        return "inf" if exact_sum > 0 else "-inf"


# ---- Random fields, and values to compare with


def random_clock(chance: random.Random, places: int) -> str:
    found = f"{chance.randrange(24):02}:{chance.randrange(60):02}"
    if chance.random() < 0.3:
        return found
    return found + f":{chance.randrange(60):02}" + (f".{chance.randrange(10**places):0{places}}" if places else "")


def random_day(chance: random.Random) -> str:
    days = chance.choice([1, 58, 59, 60, 364, 365, chance.randrange(3_652_059), chance.randrange(719_000, 740_000)])
    return (date.min + timedelta(days=days)).isoformat()


def random_field(chance: random.Random, sort: str) -> str:
    places = chance.choice([0, 0, 3, 6, 9])
    match sort:
        case "day":
            return random_day(chance)
        case "clock":
            return random_clock(chance, places)
        case "moment":
            return random_day(chance) + chance.choice("T ") + random_clock(chance, min(places, 6))
        case "moment now":
            return f"20{chance.randrange(10, 90)}-02-01T" + random_clock(chance, places)
        case "moment of a zone":
            return random_field(chance, "moment now") + chance.choice(["Z", "Z", "+02:00", "-11:30", "+00:00"])
        case "float":
            return repr(chance.choice([
                chance.random(), chance.uniform(-1e6, 1e6), chance.random() * 10.0 ** chance.randrange(-320, 300), 1e300,
                5e-324, -0.0, float(chance.randrange(-3, 3)), 2.0**60, 1e16, 123456789.125,
            ]))
        case "named float":
            return chance.choice(["nan", "NaN", "inf", "-inf", "+Infinity", "1e5", "-2E-3", "0.10", "1.0", "-0.0", "7"])
        case "near a float":
            return chance.choice(["0.1000000000000000055", "1e400", "-nan", "1e", "1.e5", "9007199254740993.5", "1e5"])
    return chance.choice([
        "2023-02-29", "0000-01-01", "2024-13-01", "24:00", "10:60", "1:00", "10:00:00.", "10:00:00.1234567890",
        "2024-03-01T10:00+02", "2024-03-01T10:00+24:00", "2024-03-01X10:00", "2024-03-01", "10:00", "2024-03-01T10:00",
        "2024-03-01T10:00Z", "9999-12-31T23:59:59.999999999", "\u0661\u0662:00",
    ])


SORTS = [
    "day", "day", "clock", "clock", "moment", "moment now", "moment of a zone", "float", "float", "named float",
    "near a float", "near a time",
]


def near_float(chance: random.Random, number: float) -> str:
    """A float by all its digits, or a decimal that is next to it, which no float has."""
    if not math.isfinite(number):
        return repr(number)
    return f"{Decimal(number):f}" + ("" if chance.random() < 0.4 or "." not in f"{Decimal(number):f}" else "1")


def random_value(chance: random.Random, rows: list[int], kind: str) -> str:
    """A value to compare with: near to a row, or another."""
    some = [row for row in rows if row is not None][:3]
    match sort_of(kind):
        case "float":
            near = [near_float(chance, number_of(row, float_bits(kind))) for row in some]
            return chance.choice([*near, "nan", "inf", "-Infinity", "0", "-0.0", "1e400", "-1e400", "1e-400", "0.1"])
        case "duration":
            return chance.choice([*(shown(row, kind) for row in some), "0", "1.0000000001", "-0.5", "9" * 38])
        case "date":
            return chance.choice([*(shown(row, kind) for row in some), "0001-01-01", "9999-12-31", "2024-02-29"])
        case "time":
            return chance.choice([*(shown(row, kind) for row in some), "00:00", "23:59:59.999999999", "12:00:00.5"])
    zone = "Z" if "," in kind else ""
    near = [shown(row, kind).removesuffix("+00:00") for row in some]
    finer = [text if "." in text else text + ".000000001" for text in near]
    return chance.choice([*near, *finer, "0001-01-01 00:00", "9999-12-31T23:59:59.999999999"]) + zone
