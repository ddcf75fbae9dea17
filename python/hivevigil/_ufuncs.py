"""What NumPy's functions give of columns. Those of Python's operators are the operators of columns, on whichever side a
number of NumPy is; the others are worked on arrays, as NumPy has them. Those of numpy.ma, which are the operators of a
masked array on the left, do not ask a column: they take its rows without what is null, and are refused."""
from __future__ import annotations

from typing import Any

from . import _pairs

_WORKED = {
    "add": "+", "subtract": "-", "multiply": "*", "divide": "/", "true_divide": "/", "bitwise_and": "&",
    "bitwise_or": "|",
}
_COMPARED = {"equal": "==", "not_equal": "!=", "less": "<", "less_equal": "<=", "greater": ">", "greater_equal": ">="}
_TURNED = {"<": ">", "<=": ">=", ">": "<", ">=": "<="}
_UNARY = {"negative": _pairs.Pairs.__neg__, "invert": _pairs.Pairs.__invert__}
# of operators that a column does not have: NumPy would work them on other integers, and without null
_NOT_SERVED = {
    "floor_divide": "//", "remainder": "%", "fmod": "%", "divmod": "divmod", "power": "**", "left_shift": "<<",
    "right_shift": ">>", "bitwise_xor": "^", "matmul": "@",
}


class Ufuncs:
    """A column as an operand of NumPy's functions."""

    __slots__ = ()

    def __array_ufunc__(self, ufunc: Any, method: str, *inputs: Any, **options: Any) -> Any:
        """What an operator gives where NumPy is asked first, since a number of its own is on the left."""
        name = ufunc.__name__
        if method == "__call__" and not options:
            if name in _UNARY:
                return _UNARY[name](self)  # type: ignore[arg-type]
            if name in _WORKED or name in _COMPARED:
                return _of_two(name, *inputs)
            if name in _NOT_SERVED:
                hint = "numpy.asarray(column) is an array, on which NumPy has it"
                raise TypeError(f"{_NOT_SERVED[name]} is not an operator of columns: {hint}")
        if any(isinstance(each, Ufuncs) for each in options.get("out", ())):
            raise TypeError(f"numpy.{name}: a column is never written into")
        import numpy

        arrays = (numpy.asarray(each) if isinstance(each, Ufuncs) else each for each in inputs)
        return getattr(ufunc, method)(*arrays, **options)


def _of_two(name: str, left: Any, right: Any) -> Any:
    """What an operator gives of a column on the left, or on the right of something else."""
    is_left = isinstance(left, Ufuncs)
    column, other = (left, right) if is_left else (right, left)
    if type(other).__name__ == "ndarray" and other.ndim == 0:  # as which NumPy passes its numbers on
        other = other[()]
    if name in _WORKED:
        return _pairs.worked(column, _WORKED[name], other, is_left)
    sign = _COMPARED[name]
    return column.compare(sign if is_left else _TURNED.get(sign, sign), other)


def refused_as_masked() -> TypeError:
    """What says that numpy.ma, which asks each operand for its `_data` and its mask, is given none of a column."""
    hint = "Column.of(..) makes one of a masked array, and column.to_numpy() is an array for numpy.ma"
    return TypeError(f"a column is worked and compared with a column or one value: {hint}")
