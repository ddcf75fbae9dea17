"""The rows of two columns worked place by place: + - * / & | ~, at the cost of the runs of both.

The library takes two columns. A single value is a constant column, which is one run.
"""
from __future__ import annotations

from typing import TYPE_CHECKING, Any

from . import _comparing, _decimals, _float_pairs, _floats
from ._library import calls
from ._making import is_array
from ._rows import constant_of
from ._values import is_missing, is_whole
from .errors import CastOutOfRange, TypeMismatch, Unsupported, in_words
from .logical import sort_of_class

if TYPE_CHECKING:
    from .column import Column

# each with its number in hivevigil.h, and what a sentence says was not done
SIGNS = {
    "+": (6, "added"), "-": (7, "subtracted"), "*": (8, "multiplied"), "&": (9, "connected"), "|": (10, "connected"),
    "coalesce": (11, "picked from"), "lesser": (12, "picked from"), "greater": (13, "picked from"), "/": (14, "divided"),
}
_PICKS = ("coalesce", "lesser", "greater")  # whose answers are rows of the two


class Pairs:
    """What a column answers to Python's operators that give a value for two rows.

    Integers of one type give integers of that type, null where either row is null; OverflowError names the first row
    whose answer the type does not have. Decimals give decimals, exactly: sums at the greater scale of both, in a digit
    more than either side has there, and products at the sum of the scales, in all digits of both and one more, of 38 at
    most. Floats give what
    IEEE 754 says in the type with more bits, and no row is refused; integers next to floats, and those that are
    divided, count as float64, exactly. Booleans are connected as SQL's AND and OR have it, where null is unknown:
    `False & None` is False, `True | None` is True.
    """

    __slots__ = ()

    def __add__(self, other: Any) -> Column:
        return worked(self, "+", other)

    def __radd__(self, other: Any) -> Column:
        return worked(self, "+", other, is_left=False)

    def __sub__(self, other: Any) -> Column:
        return worked(self, "-", other)

    def __rsub__(self, other: Any) -> Column:
        return worked(self, "-", other, is_left=False)

    def __mul__(self, other: Any) -> Column:
        return worked(self, "*", other)

    def __rmul__(self, other: Any) -> Column:
        return worked(self, "*", other, is_left=False)

    def __truediv__(self, other: Any) -> Column:
        return worked(self, "/", other)

    def __rtruediv__(self, other: Any) -> Column:
        return worked(self, "/", other, is_left=False)

    def __and__(self, other: Any) -> Column:
        return worked(self, "&", other)

    def __rand__(self, other: Any) -> Column:
        return worked(self, "&", other, is_left=False)

    def __or__(self, other: Any) -> Column:
        return worked(self, "|", other)

    def __ror__(self, other: Any) -> Column:
        return worked(self, "|", other, is_left=False)

    def __neg__(self) -> Column:
        """0 minus each row, which an unsigned type has only of 0; of floats -0.0 minus each."""
        column: Any = self
        return worked(self, "-", -0.0 if _floats.is_float(column._logical) else 0, is_left=False)

    def __invert__(self) -> Column:
        """The other boolean of each row, null for null."""
        column: Any = self
        if not column.type.startswith("bool"):
            raise Unsupported().saying(f"~ is of booleans, not of {column.type}")
        return column._made(calls.hv_not, column)  # type: ignore[no-any-return]


def worked(column: Any, sign: str, other: Any, is_left: bool = True) -> Column:
    """What the sign gives of each row and the row of another column at its place, or one value."""
    if not isinstance(other, Pairs):
        column = _float_pairs.as_floats(column, sign, other)
    beside = other if isinstance(other, Pairs) else _constant(column, sign, other)
    left, right = (column, beside) if is_left else (beside, column)
    is_of_floats = sign == "/" or any(_floats.is_float(each._logical) for each in (left, right))
    if is_of_floats and sign in _float_pairs.NUMBERS and _float_pairs.are_numbers(left, right):
        return _float_pairs.worked(left, sign, right)
    if is_of_floats and (sign != "coalesce" or left._logical != right._logical):  # keys of floats are not integers
        raise TypeMismatch().saying(_not_done(left, sign, right))
    _refuse_other_times(left, right, sign)
    if sign not in ("*", "&", "|"):
        left, right = _decimals.together(left, right, sign)
    try:
        made: Column = column._made(calls.hv_combine, left, SIGNS[sign][0], left._beside(right))
        return made._meaning(left._logical if sign in _PICKS and right._logical is not None else None)
    except CastOutOfRange as past:
        row = past.fields[0]
        said = f"row {row} is {left.at(row)} {sign} {right.at(row)}, which does not fit {_answers(left, sign, right)}"
        raise past.saying(said) from None
    except (TypeMismatch, Unsupported) as refused:
        raise refused.saying(_not_done(left, sign, right)) from None


def _not_done(left: Any, sign: str, right: Any) -> str:
    """The sentence that two columns are not worked; & and | are taken before comparisons."""
    hint = f": comparisons are put in parentheses, as (column > 1) {sign} (column < 5)" if sign in "&|" else ""
    if sign == "*" and _decimals.are_decimals(left, right):
        hint = f": no column has the scale {left._kind.scale + right._kind.scale}"
    return f"{_type_of(left)} and {_type_of(right)} are not {SIGNS[sign][1]}{hint}"


def _answers(left: Any, sign: str, right: Any) -> str:
    """The type of sums, differences or products, without null."""
    return _decimals.answers(left, sign, right) if _decimals.are_decimals(left, right) else _type_of(left)


def _refuse_other_times(left: Any, right: Any, sign: str) -> None:
    """Refuses times whose integers count two units, or of which only one has a zone; rows are picked of one kind."""
    one, other = left._logical, right._logical
    if one is None or other is None:
        return
    if sign in _PICKS:
        is_alike = _comparing.are_compared(one, other)
    else:
        are_timestamps = one.sort == other.sort == "timestamp"
        is_alike = one.unit == other.unit and not (are_timestamps and bool(one.zone) != bool(other.zone))
    if not is_alike:
        hint = "column.cast counts times in another unit, and column.storage() has the integers"
        raise TypeMismatch().saying(f"{one} and {other} are not {SIGNS[sign][1]}: {hint}")


def _refuse_times(column: Any, sign: str, value: Any) -> None:
    """Refuses a date or a time next to rows of times, whose integers are worked; says what does it."""
    if sort_of_class(type(value)) not in ("date", "time", "timestamp", "duration") or is_missing(value):
        return
    logical = column._logical
    how = f"column {sign} 5 is their integers, which .cast('{logical}') makes times again"
    raise TypeError(f"rows of type {logical} are worked by their integers, and not with {in_words(value)}: {how}")


def _type_of(column: Any) -> str:
    return str(column._logical) if _floats.is_float(column._logical) else str(column.type.rstrip("?"))


def _constant(column: Any, sign: str, value: Any) -> Column:
    """A value in each row of a column, of its type; of decimals at its scale, or for a product at that of the value."""
    if isinstance(value, (list, tuple, range)) or is_array(value) and getattr(value, "ndim", 1) > 0:
        made = f"Column.of(..) makes one of {in_words(value)}"
        raise TypeError(f"a column is worked with a column or one value: {made}")
    is_time = column._logical is not None and not _floats.is_float(column._logical)
    if is_time and (sign not in _PICKS or is_whole(value)):  # work is on the integers
        _refuse_times(column, sign, value)
        column = column.storage()
    if sign in "+-*" and _decimals.is_decimal(column):
        return _decimals.beside(column, sign, value)
    return constant_of(column, value)
