"""Floats of the model: their bits, their keys, and their words."""

import re
import struct
from fractions import Fraction

from .columns import BadLine, Unmodelled

BITS = {"f16": 16, "f32": 32, "f64": 64}
KEYS = {"f16": "i16", "f32": "i32", "f64": "i64"}
FORMATS = {keys: name for name, keys in KEYS.items()}
CODES = {"f16": "<e", "f32": "<f", "f64": "<d"}
NAN = {"f16": 0x7E00, "f32": 0x7FC00000, "f64": 0x7FF8000000000000}
FLOAT = re.compile(r"0x[0-9A-Fa-f]+|nan|-?inf|-?\d+(?:\.\d+)?(?:e-?\d+)?")
MANTISSA = {"f16": 10, "f32": 23, "f64": 52}


def key_of(bits: int, name: str) -> int:
    """The place of a float in the total order, counted from 0.0."""
    sign = 1 << BITS[name] - 1
    return bits if bits < sign else -(bits - sign) - 1


def bits_of(key: int, name: str) -> int:
    return key if key >= 0 else (-key - 1) + (1 << BITS[name] - 1)


def number_of(bits: int, name: str) -> float:
    return struct.unpack(CODES[name], bits.to_bytes(BITS[name] // 8, "little"))[0]


def pack(number: float, name: str) -> int:
    """The bits of the nearest float of a format to one of f64."""
    if number != number:
        return NAN[name]
    try:
        return int.from_bytes(struct.pack(CODES[name], number), "little")
    except OverflowError:
        return int.from_bytes(struct.pack(CODES[name], float("inf") if number > 0 else float("-inf")), "little")


def nearest(exact: Fraction, name: str) -> int:
    """The bits of the float nearest to a fraction, at a tie the even one."""
    sign = 1 << BITS[name] - 1 if exact < 0 else 0
    size, most = abs(exact), MANTISSA[name]
    least = 2 - (1 << BITS[name] - most - 2) - most
    if not size:
        return sign
    power = least
    while size / Fraction(2) ** power >= 2 ** (most + 1):
        power += 1
    units = round(size / Fraction(2) ** power)
    if units == 2 ** (most + 1):
        units, power = units // 2, power + 1
    exponent = power - least + (1 if units >= 2**most else 0)
    infinity = (1 << BITS[name] - most - 1) - 1
    if exponent >= infinity:
        return sign | infinity << most
    return sign | exponent << most | units & (2**most - 1)


def rounded(bits: int, name: str, to: str) -> int:
    """The bits of the nearest float of another format to one other than NaN."""
    number = number_of(bits, name)
    if number != number:
        raise Unmodelled("NaN")
    if number - number != 0:
        return pack(number, to)
    return nearest(Fraction(number), to) | (1 << BITS[to] - 1 if bits >> BITS[name] - 1 else 0)


def read_float(word: str, name: str) -> int:
    """The bits of the float that a word is."""
    if not FLOAT.fullmatch(word):
        raise BadLine
    if word.startswith("0x"):
        if int(word, 16) >> BITS[name]:
            raise BadLine
        return int(word, 16)
    if word == "nan":
        return NAN[name]
    if word in ("inf", "-inf"):
        return pack(float(word), name)
    exact = Fraction(word)
    bits = nearest(Fraction(number_of(nearest(exact, "f64"), "f64")), name) if name == "f16" else nearest(exact, name)
    return bits | (1 << BITS[name] - 1 if word.startswith("-") else 0)


def write_float(bits: int, name: str) -> str:
    """The word of a float: of NaN its bits, else the shortest decimal that reads back as the same."""
    number = number_of(bits, name)
    if number != number:
        return f"0x{bits:0{BITS[name] // 4}x}"
    if number in (float("inf"), float("-inf")):
        return "inf" if number > 0 else "-inf"
    wide = "f64" if name == "f64" else "f32"
    for places in range(17):
        text = f"{number:.{places}e}"
        if pack(float(text), wide) == pack(number, wide):
            return spelled(text, 16 if wide == "f64" else 13, 4 if wide == "f64" else 5)
    raise Unmodelled(name)


def spelled(text: str, most: int, zeros: int) -> str:
    """A decimal with an exponent only past `most` digits before the point, or past `zeros` zeros right after it."""
    sign = "-" if text[0] == "-" else ""
    digits, exponent = text.lstrip("-").split("e")
    digits, power = digits.replace(".", "").rstrip("0") or "0", int(exponent)
    if power >= most or power < -zeros - 1:
        return f"{sign}{digits[0]}{'.' + digits[1:] if digits[1:] else ''}e{power}"
    if power < 0:
        return f"{sign}0.{'0' * (-power - 1)}{digits}"
    whole = digits[: power + 1].ljust(power + 1, "0")
    return f"{sign}{whole}.{digits[power + 1 :] or '0'}"
