"""Lines of columns of any types, most of which are refused."""

from __future__ import annotations

from functools import partial

from columns import column, column_of_lists
from decimals import column_of, decimal_numeric, decimals_of, integers_of, rescale, sum_decimals
from draws import MOST_DIGITS, PRECISIONS, Draw, decimal, precision_and_scale, type_of
from float_pairs import drawer, float_numeric
from floats import BY_KEY_KIND, OPERATIONS
from groups import fold_by, total
from orders import count, hashed, reorder, test
from pairs import ARITHMETIC, boolean, choose, compare, equals, numeric, pick
from words import INTEGERS, Type
from writer import Column, Writer


def any_three(writer: Writer) -> None:
    """Writes each line of other columns for three of any types."""
    writer.lengths()
    r = writer.random
    left, right, mask = (
        column_of_lists(writer) if writer.happens(0.25) else column(writer, type_of(writer), r.randint(0, 3))
        for _ in range(3)
    )
    numeric(writer, left, "+", right)
    boolean(writer, left, "or", right)
    compare(writer, left, r.choice(["eq", "lt"]), right)
    pick(writer, left, r.choice(["coalesce", "lesser"]), right)
    choose(writer, mask, left, right)
    test(writer, "not", left)
    test(writer, "is_null", right)
    reorder(writer, "sort", left)
    reorder(writer, "reverse", right)
    count(writer, "counts", left)
    fold_by(writer, r.choice(["sum", "last", "keys"]), left, right)
    total(writer, "totals", mask)
    equals(writer, left, right)
    hashed(writer, left)


def drawn(writer: Writer, type: Type, length: int) -> Column:
    """Writes lines that make a column; decimals have any number of digits."""
    digits = min(type.kind[0], MOST_DIGITS) if type.is_decimal else 0
    draw: Draw | None = partial(decimal, writer.random, digits) if type.is_decimal else None
    return column(writer, type, length, draw=draw)


def any_column(writer: Writer, length: int) -> Column:
    """Writes lines that make a column of any type, often of decimals or of what may be floats."""
    r, share = writer.random, writer.random.random()
    if share < 0.1:
        return column_of_lists(writer)
    if share < 0.5:
        precision = r.choice(PRECISIONS)
        return column_of(writer, (precision, r.choice([0, 2, -1, 100, -100])), length, 3)
    if share < 0.75:
        return column(writer, Type(r.choice(list(BY_KEY_KIND)), writer.happens(0.5)), length)
    return drawn(writer, type_of(writer), length)


def any_two(writer: Writer) -> None:
    """Writes lines of floats and of decimals for two columns of any types."""
    r, length = writer.random, writer.random.randint(0, 4)
    left = any_column(writer, length)
    right = any_column(writer, r.choice([length, length, length + 1]))
    if writer.happens(0.3) and not left.type.is_list:
        type = Type(left.type.kind, writer.happens(0.5))
        right = drawn(writer, type, r.choice([length, length + 1]))
    for operation in r.sample(OPERATIONS, 2):
        float_numeric(writer, left, operation, right)
    for operation in r.sample(list(ARITHMETIC), 2):
        decimal_numeric(writer, left, operation, right)
    for line in r.sample(["rescale", "decimals_of", "integers_of", "sum", "pick"], 3):
        if line == "rescale":
            rescale(writer, left, *precision_and_scale(writer))
        elif line == "decimals_of":
            decimals_of(writer, right, *precision_and_scale(writer))
        elif line == "integers_of":
            integers_of(writer, right, r.choice(list(INTEGERS)))
        elif line == "sum":
            sum_decimals(writer, left)
        elif writer.decimals:
            pick(writer, left, "coalesce", right)
