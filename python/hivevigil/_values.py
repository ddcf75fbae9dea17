"""Single values, numbers of rows and operators: checked before they cross to C, and read when they come back."""
from __future__ import annotations

import ctypes
import operator
import struct
from datetime import date, time, timedelta
from decimal import Decimal
from numbers import Rational, Real
from typing import Any, Optional, Union

from ._library import Kind, Total, Value
from ._types import OPERATORS, SCALES, TYPES, WHOLE_NUMBERS, range_of, text_of
from .errors import OutOfBounds, in_words

Scalar = Union[int, float, bool, Decimal, str, bytes, date, time, timedelta, None]
_UNSIGNED, _SIGNED, _TRUTH, _DECIMAL, _TEXT, _BYTES, _DOUBLE, _SCALED = range(1, 9)
MOST_ROWS = _LOW = 2**64 - 1
_OF_128_BITS = range(-(2**127), 2**127)
_SORTS = {
    **dict.fromkeys(WHOLE_NUMBERS, "an integer"), "bool": "a boolean", "utf8": "a text", "binary": "bytes",
    "list": "a list, which no call takes",
}
NOT_FLOAT = "floats are values of float64, float32 and float16"


def is_truth(value: Any) -> bool:
    """Whether a value is Python's bool, or NumPy's, which is another class."""
    return isinstance(value, bool) or type(value).__module__ == "numpy" and type(value).__name__ in ("bool_", "bool")


def is_missing_class(kind: type) -> bool:
    """Whether values of a class are null: None, pandas.NA and pandas.NaT, numpy.ma.masked."""
    library = kind.__module__.partition(".")[0]
    return kind is type(None) or (library, kind.__name__) in (
        ("pandas", "NAType"), ("pandas", "NaTType"), ("numpy", "MaskedConstant"),
    )


def is_missing(value: Any) -> bool:
    """Whether a value is null."""
    return value is None or is_missing_class(type(value)) or _is_nat(value)


def _is_nat(value: Any) -> bool:
    """Whether a value is NumPy's NaT, which has the class of its times."""
    return type(value).__name__ in ("datetime64", "timedelta64") and bool(value != value)


def is_whole(value: Any) -> bool:
    """Whether a value is an integer, NumPy's too; booleans and floats are not."""
    if type(value) is int:
        return True
    if is_truth(value) or isinstance(value, type) or not hasattr(value, "__index__"):
        return False
    try:
        return isinstance(operator.index(value), int)
    except TypeError:  # an array, which has the method for each number of items
        return False


def whole(value: Any, what: str) -> int:
    """The integer that a value is."""
    if type(value) is int:
        return value
    if not is_whole(value):
        raise TypeError(f"{what} is an integer, not {in_words(value)}")
    return operator.index(value)


def checked_text(value: str, where: str = "") -> bytes:
    """The bytes of a text as UTF-8; half of a surrogate pair has none."""
    try:
        return value.encode()
    except UnicodeEncodeError as error:
        half = f"U+{ord(value[error.start]):04X}"
        raise ValueError(f"{where}{in_words(value)} is not UTF-8: {half} is half of a surrogate pair") from None


def row_of(row: Any, length: int) -> int:
    """The row that an index names, from the end where it is negative."""
    at = whole(row, "a row")
    from_start = at + length if at < 0 else at
    if not 0 <= from_start < length:
        raise OutOfBounds(at, length)
    return from_start


def size_of(value: Any, what: str) -> int:
    """A number of rows or bytes, as size_t has it."""
    size = whole(value, what)
    if size < 0:
        raise ValueError(f"{what} is negative: {in_words(size)}")
    if size > _LOW:
        raise OverflowError(f"{what} is past 2**64 - 1: {in_words(size)}")
    return size


def operator_of(sign: Any) -> int:
    """The number of an operator that is written as in Python."""
    if not isinstance(sign, str) or sign not in OPERATORS:
        raise ValueError(f"{in_words(sign)} is not an operator: the operators are {' '.join(OPERATORS)}")
    return OPERATORS.index(sign)


def unscaled(value: Any, precision: int, scale: int) -> int:
    """A decimal as the integer of its least place: 1.5 with scale 2 is 150. Never rounded."""
    if not (isinstance(value, Decimal) or is_whole(value)):
        raise TypeError(f"a decimal is a decimal.Decimal or an integer, not {in_words(value)}{why_not(value)}")
    sign, digits, exponent = (value if isinstance(value, Decimal) else Decimal(operator.index(value))).as_tuple()
    if not isinstance(exponent, int):
        raise ValueError(f"{value} is not a number that a decimal column has")
    places = exponent + scale
    if len(digits) + places > precision and any(digits):
        written = value if isinstance(value, Decimal) else in_words(value)
        raise OverflowError(f"{written} does not fit decimal({precision}, {scale})")
    if places < 0 and any(digits[places:]):
        raise ValueError(f"{value} has more than {scale} places, and nothing is rounded")
    number = int("".join(map(str, digits[:places] if places < 0 else digits)) or "0")
    if number and places > 0:
        number *= 10**places
    return -number if sign else number


def why_not(value: Any) -> str:
    """What a sentence about a refused value says more: which types have floats."""
    return f": {NOT_FLOAT}" if isinstance(value, Real) and not isinstance(value, Rational) else ""


def decimal_of(number: int, scale: int) -> Decimal:
    """The decimal of an integer of its least place, exact in every context."""
    digits = tuple(map(int, str(abs(number))))
    return Decimal((int(number < 0), digits, -scale))


def passed(kind: Kind, value: Any) -> tuple[Value, bytes, int]:
    """A value of a column's type as C takes it, with the bytes of a text and their number."""
    name = TYPES[kind.number]
    if is_missing(value):
        return Value(), b"", 0
    if name == "bool" and is_truth(value):
        return Value(0, 0, _TRUTH, bool(value)), b"", 0
    if name == "utf8" and isinstance(value, str):
        text = checked_text(value)
        return Value(0, 0, _TEXT, 0), text, len(text)
    if name == "binary" and isinstance(value, (bytes, bytearray, memoryview)):
        return Value(0, 0, _BYTES, 0), bytes(value), memoryview(value).nbytes
    if name == "decimal":
        return stored(name, unscaled(value, kind.precision, kind.scale))
    if name not in WHOLE_NUMBERS or not is_whole(value):
        raise TypeError(f"a value of type {text_of(kind)} is {_SORTS[name]}, not {in_words(value)}{why_not(value)}")
    number = operator.index(value)
    if number not in range_of(name):
        raise OverflowError(f"{in_words(number)} does not fit {name}")
    return stored(name, number)


def stored(name: str, number: int) -> tuple[Value, bytes, int]:
    """A number of a type, of decimals in units of the least place, as C takes it."""
    if name == "decimal":
        return Value(number & _LOW, number >> 64, _DECIMAL, 0), b"", 0
    return (Value(number, 0, _UNSIGNED, 0) if name[0] == "u" else Value(0, number, _SIGNED, 0)), b"", 0


def scaled_passed(number: int, scale: int) -> Optional[Value]:
    """A number with this many of its digits after the point, as C takes numbers of any type; None where it has no room."""
    if number not in _OF_128_BITS or scale not in SCALES:
        return None
    return Value(number & _LOW, number >> 64, _SCALED, 0, scale)


def double_passed(number: float) -> Value:
    """A float of 64 bits, as C takes numbers of any type."""
    return Value(struct.unpack("=Q", struct.pack("=d", number))[0], 0, _DOUBLE)


def shown(value: Value, kind: Kind, text: ctypes.Array[ctypes.c_char]) -> Scalar:
    """A value that C answered about a column of this type; `text` is the buffer that was passed with it."""
    if value.kind == _TRUTH:
        return bool(value.truth)
    if value.kind not in (_TEXT, _BYTES):
        return number_in(value, kind.scale)
    data = text.raw[: value.as_unsigned]
    return data.decode() if value.kind == _TEXT else data


def number_in(answer: Union[Value, Total], scale: int) -> Union[int, float, Decimal, None]:
    """The number that C answered, a decimal of this scale; None where it answered none."""
    if answer.kind == _DOUBLE:
        return ctypes.c_double.from_buffer(answer).value
    if answer.kind in (_DECIMAL, _SCALED):
        return decimal_of((answer.as_signed << 64) + answer.as_unsigned, scale)
    return (None, answer.as_unsigned, answer.as_signed)[answer.kind]
