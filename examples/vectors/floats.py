"""Floats by their bits: what each means, the nearest to a number, casts, sums and arithmetic, and their words.

`struct` says what bits mean; numbers are fractions, and `nearest` rounds them by the definition of IEEE 754.
"""

from __future__ import annotations

import struct
from dataclasses import dataclass
from fractions import Fraction
from math import floor, log10
from typing import Iterable

from words import COMPARISONS, INTEGERS

OPERATIONS = ("+", "-", "*", "/")


class NotThere(Exception):
    """Says that a format or a type does not have a number."""


def rounded_ratio(top: int, below: int, exponent: int) -> int:
    """Returns top / below in units of 2^exponent as the nearest integer, at a tie the even one."""
    top, below = top << max(-exponent, 0), below << max(exponent, 0)
    whole, rest = divmod(top, below)
    return whole + (2 * rest > below or (2 * rest == below and whole % 2 == 1))


@dataclass(frozen=True)
class Format:
    """A format of floats: its name, and how many bits floats and their fractions have; by `struct` the letters of a
    float and of its bits; more digits before a point, or zeros after it, than these are written with an exponent."""

    name: str
    width: int
    fraction: int
    letters: tuple[str, str]
    whole_digits: int
    leading_zeros: int

    def __str__(self) -> str:
        return self.name

    @property
    def sign(self) -> int:
        """Returns the bit of the sign, which is also the bits of -0.0."""
        return 1 << (self.width - 1)

    @property
    def infinity(self) -> int:
        """Returns the bits of infinity."""
        return ((1 << (self.width - 1 - self.fraction)) - 1) << self.fraction

    @property
    def quiet_nan(self) -> int:
        """Returns the bits of the quiet NaN with a plus and no payload."""
        return self.infinity | 1 << (self.fraction - 1)

    @property
    def key_kind(self) -> str:
        """Returns the type of integers that a column stores."""
        return f"i{self.width}"

    @property
    def bits_kind(self) -> str:
        """Returns the type of integers that has the bits."""
        return f"u{self.width}"

    @property
    def lowest(self) -> int:
        """Returns the exponent of the least step between floats."""
        return 2 - (1 << (self.width - 2 - self.fraction)) - self.fraction

    def is_nan(self, bits: int) -> bool:
        """Says whether the bits are a NaN."""
        return bits % self.sign > self.infinity

    def is_infinite(self, bits: int) -> bool:
        """Says whether the bits are an infinity."""
        return bits % self.sign == self.infinity

    def is_zero(self, bits: int) -> bool:
        """Says whether the bits are a zero."""
        return bits % self.sign == 0

    def sign_of(self, bits: int) -> int:
        """Returns the bit of the sign."""
        return bits & self.sign

    def value(self, bits: int) -> float:
        """Returns the float of Python that the bits are."""
        letter, bits_letter = self.letters
        return struct.unpack(f"<{letter}", struct.pack(f"<{bits_letter}", bits))[0]

    def number(self, bits: int) -> Fraction:
        """Returns the exact number of a finite float."""
        return Fraction(self.value(bits))

    def key(self, bits: int) -> int:
        """Returns the integer that a column stores: in the order of the floats."""
        return bits if bits < self.sign else self.sign - 1 - bits

    def bits_of_key(self, key: int) -> int:
        """Returns the bits that a column stores as this integer."""
        return key if key >= 0 else self.sign - 1 - key

    def nearest(self, number: Fraction | int, minus: bool = False) -> int:
        """Returns the bits of the float that is nearest to a number, at a tie the even one; `minus` is the sign of a
        zero."""
        top, below = abs(Fraction(number)).as_integer_ratio()
        step = max(self.lowest, top.bit_length() - below.bit_length() - self.fraction - 1)
        steps = rounded_ratio(top, below, step)
        if steps >> (self.fraction + 1):
            # It is past the floats with steps of this size, or has become the first one past them.
            step += 1
            steps = rounded_ratio(top, below, step)
        # Past the first 2^fraction steps of the least size, as many are in each further exponent: the bits count them.
        bits = steps + ((step - self.lowest) << self.fraction) if steps else 0
        negative = number < 0 or (number == 0 and minus)
        return min(bits, self.infinity) + (self.sign if negative else 0)


F16 = Format("f16", 16, 10, ("e", "H"), 13, 5)
F32 = Format("f32", 32, 23, ("f", "I"), 13, 5)
F64 = Format("f64", 64, 52, ("d", "Q"), 16, 4)
FORMATS = {format.name: format for format in (F16, F32, F64)}
BY_KEY_KIND = {format.key_kind: format for format in FORMATS.values()}


def decimals_of(format: Format, bits: int, number: Fraction, unit: Fraction) -> list[int]:
    """Returns the multiples of a unit that are next to a number and read back as these bits."""
    below = int(number / unit)
    return [digits for digits in (below, below + 1) if format.nearest(digits * unit) == bits]


def shortest(format: Format, bits: int) -> tuple[str, int]:
    """Returns the digits of the shortest decimal that reads back as a finite float above 0 (the nearest of these),
    and how many of them are before the point."""
    number = format.number(bits)
    point = floor(log10(number.numerator) - log10(number.denominator)) + 1
    point += (number >= Fraction(10) ** point) - (number < Fraction(10) ** (point - 1))
    # What has some digits has one more too, which is 0: so the least count is found by halving.
    low, high = 1, 17
    while low < high:
        count = (low + high) // 2
        if decimals_of(format, bits, number, Fraction(10) ** (point - count)):
            high = count
        else:
            low = count + 1
    unit = Fraction(10) ** (point - low)
    found = decimals_of(format, bits, number, unit)
    digits = str(min(found, key=lambda digits: (abs(digits * unit - number), digits % 2)))
    return digits.rstrip("0"), point + len(digits) - low


def word(format: Format, bits: int | None) -> str:
    """Returns the word of a float, as answers have it."""
    if bits is None:
        return "null"
    if format.is_nan(bits):
        return hex(bits)
    minus, size = "-" if format.sign_of(bits) else "", bits % format.sign
    if size == format.infinity:
        return f"{minus}inf"
    if size == 0:
        return f"{minus}0.0"
    if format is F16:
        format, size = F32, F32.nearest(F16.number(size))
    digits, point = shortest(format, size)
    if len(digits) <= point <= format.whole_digits:
        return f"{minus}{digits.ljust(point, '0')}.0"
    if 0 < point <= format.whole_digits:
        return f"{minus}{digits[:point]}.{digits[point:]}"
    if -format.leading_zeros <= point <= 0:
        return f"{minus}0.{'0' * -point}{digits}"
    return f"{minus}{digits[0]}{'.' * (len(digits) > 1)}{digits[1:]}e{point - 1}"


def words(format: Format, rows: Iterable[int | None]) -> str:
    """Returns the answer of `floats`."""
    return " ".join(word(format, bits) for bits in rows) or "-"


def read(format: Format, text: str) -> int | None:
    """Returns the bits that a word of a float means, or None for null; one of `f16` is the nearest to that of `f64`."""
    if text == "null":
        return None
    if text == "nan":
        return format.quiet_nan
    minus = text.startswith("-")
    if text.endswith("inf"):
        return format.infinity + minus * format.sign
    if text.startswith("0x"):
        return int(text, 16)
    if format is F16:
        return rounded(F64, F16, F64.nearest(Fraction(text), minus))
    return format.nearest(Fraction(text), minus)


def cast(format: Format, to: Format, bits: int) -> int:
    """Returns the bits of the same float in another format; of a NaN its payload."""
    minus = to.sign if format.sign_of(bits) else 0
    if format.is_nan(bits):
        payload, moved = bits % (1 << format.fraction), to.fraction - format.fraction
        if moved < 0 and payload % (1 << -moved):
            raise NotThere
        return to.infinity + (payload << moved if moved >= 0 else payload >> -moved) + minus
    if format.is_infinite(bits):
        return to.infinity + minus
    found = to.nearest(format.number(bits), bool(minus))
    if to.is_infinite(found) or to.number(found) != format.number(bits):
        raise NotThere
    return found


def rounded(format: Format, to: Format, bits: int) -> int:
    """Returns the bits of the nearest float in another format; the quiet NaN where it does not have a NaN's payload."""
    if not format.is_nan(bits) and not format.is_infinite(bits):
        return to.nearest(format.number(bits), bool(format.sign_of(bits)))
    try:
        return cast(format, to, bits)
    except NotThere:
        return to.quiet_nan + (to.sign if format.sign_of(bits) else 0)


def of_integer(to: Format, number: int) -> int:
    """Returns the bits of the float that an integer is."""
    bits = to.nearest(number)
    if to.is_infinite(bits) or to.number(bits) != number:
        raise NotThere
    return bits


def to_integer(format: Format, kind: str, bits: int) -> int:
    """Returns the integer that a float is."""
    if format.is_nan(bits) or format.is_infinite(bits):
        raise NotThere
    number, (low, high) = format.number(bits), INTEGERS[kind]
    if number.denominator != 1 or not low <= number <= high:
        raise NotThere
    return int(number)


def holds(format: Format, operation: str, left: int, right: int) -> bool:
    """Says whether a comparison holds by IEEE 754."""
    if format.is_nan(left) or format.is_nan(right):
        return operation == "ne"
    return COMPARISONS[operation](format.value(left), format.value(right))


def holds_in_order(format: Format, operation: str, left: int, right: int) -> bool:
    """Says whether a comparison holds in the total order."""
    return COMPARISONS[operation](format.key(left), format.key(right))


def canonical(format: Format, bits: int) -> int:
    """Returns the bits that stand for a value: 0.0 for both zeros, the quiet NaN for all."""
    return 0 if bits == format.sign else format.quiet_nan if format.is_nan(bits) else bits


def total(format: Format, rows: Iterable[int | None]) -> int:
    """Returns the bits in `f64` of the exact sum of rows, rounded once."""
    valid = [bits for bits in rows if bits is not None]
    signs = {format.sign_of(bits) for bits in valid if format.is_infinite(bits)}
    if any(map(format.is_nan, valid)) or len(signs) == 2:
        return F64.quiet_nan
    if signs:
        return F64.infinity + (F64.sign if signs.pop() else 0)
    number = sum(map(format.number, valid), Fraction(0))
    return F64.nearest(number, bool(valid) and all(bits == format.sign for bits in valid))


def arithmetic(format: Format, operation: str, left: int, right: int) -> int:
    """Returns the bits of what two floats give, every NaN being the quiet one."""
    if format.is_nan(left) or format.is_nan(right):
        return format.quiet_nan
    if operation in "+-":
        return added(format, left, right if operation == "+" else right ^ format.sign)
    minus = format.sign_of(left ^ right)
    if operation == "*":
        if format.is_infinite(left) or format.is_infinite(right):
            has_zero = format.is_zero(left) or format.is_zero(right)
            return format.quiet_nan if has_zero else format.infinity | minus
        return format.nearest(format.number(left) * format.number(right), bool(minus))
    if format.is_infinite(left):
        return format.quiet_nan if format.is_infinite(right) else format.infinity | minus
    if format.is_infinite(right):
        return minus
    if format.is_zero(right):
        return format.quiet_nan if format.is_zero(left) else format.infinity | minus
    return format.nearest(format.number(left) / format.number(right), bool(minus))


def added(format: Format, left: int, right: int) -> int:
    """Returns the bits of the sum of two floats that are not NaN."""
    if format.is_infinite(left) and format.is_infinite(right) and left != right:
        return format.quiet_nan
    if format.is_infinite(left) or format.is_infinite(right):
        return left if format.is_infinite(left) else right
    number = format.number(left) + format.number(right)
    return format.nearest(number, number == 0 and bool(format.sign_of(left & right)))
