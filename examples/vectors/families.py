"""Families of lines: what each is of, and how many cases of it chance makes."""

from __future__ import annotations

from dataclasses import dataclass
from typing import Callable

import decimals
import float_lines
import groups
import lookups
import masks
import mixed
import orders
import pairs
import typed_lines
from float_pairs import floats_case
from writer import Writer


@dataclass(frozen=True)
class Family:
    """A family: how often a case is of it among others, what its lines are of, what writes a case, and how many cases
    are in lines.txt."""

    weight: int
    title: str
    case: Callable[[Writer], None]
    stored: int


# Columns from the rows of others, of any kind.
ROWS = {
    "numeric": Family(
        4,
        "columns from the rows of others, by chance: sums, differences, products, and the first row without one",
        pairs.numeric_case,
        45,
    ),
    "boolean": Family(2, "and, or, of columns in any form, null being unknown", pairs.boolean_case, 20),
    "compare": Family(3, "the six comparisons, of each kind of rows", pairs.compare_case, 35),
    "pick": Family(3, "the first row that is not null, the lesser, the greater", pairs.pick_case, 30),
    "choose": Family(2, "rows of two columns, chosen by a mask", pairs.choose_case, 35),
    "one": Family(3, "not, is_null, is_valid, and hashes by SipHash of another program", orders.single_case, 30),
    "order": Family(
        4, "rows sorted and reversed, distinct rows and how many there are of each", orders.order_case, 45
    ),
    "fold": Family(4, "values folded by runs of equal keys", groups.fold_case, 45),
    "totals": Family(2, "running totals", groups.total_case, 25),
    "equal": Family(
        2, "columns that are equal and that are not, in two forms, and their hashes", pairs.equal_case, 30
    ),
    "mixed": Family(1, "columns of any three types, most of which a line refuses", mixed.any_three, 20),
}
# Columns of floats.
FLOATS = {
    "rows": Family(10, "rows of columns of floats in any form, and one of them", float_lines.rows_case, 30),
    "ends": Family(
        8,
        "the least and the greatest number, and the first and the last in the total order",
        float_lines.ends_case,
        24,
    ),
    "sum": Family(8, "exact sums, rounded once", float_lines.sum_case, 24),
    "compare": Family(
        8, "comparisons with a constant, by IEEE 754 and in the total order", float_lines.compare_case, 24
    ),
    "cast": Family(8, "casts to other formats, exact and rounded", float_lines.cast_case, 24),
    "of_integers": Family(6, "integers as floats, exact and nearest", float_lines.of_integers_case, 18),
    "to_integers": Family(6, "floats as integers", float_lines.to_integers_case, 18),
    "encode": Family(
        6, "bits encoded with each pattern kept, and with one for each value", float_lines.encode_case, 18
    ),
    "order": Family(4, "the commands and lines that go by keys", float_lines.order_case, 12),
    "refusals": Family(5, "columns of other types, and constants of other formats", float_lines.refusals_case, 15),
    "read": Family(3, "decimals at ties, and just above", float_lines.read_case, 9),
}
# Two columns of floats, and decimals.
NUMBERS = {
    "floats": Family(
        6,
        "two columns of floats, by chance: near ties, subnormals, infinities and zeros, in every form",
        floats_case,
        165,
    ),
    "decimals": Family(
        5,
        "two columns of decimals, by chance: each precision, answers of 38 digits, and the first row that has more",
        decimals.numeric_case,
        150,
    ),
    "rescale": Family(3, "decimals in another precision and scale, by chance", decimals.rescale_case, 95),
    "constant_rescale": Family(
        1, "decimals of few digits in other precisions and scales", decimals.few_digits_case, 25
    ),
    "decimals_of": Family(2, "integers as decimals", decimals.decimals_of_case, 60),
    "integers_of": Family(2, "decimals as integers", decimals.integers_of_case, 75),
    "sum": Family(
        2,
        "exact sums of decimals, and the first row with which one has more than 38 digits",
        decimals.sum_case,
        90,
    ),
    "mixed": Family(2, "columns of any two types, most of which these lines refuse", mixed.any_two, 45),
    "picks": Family(
        3,
        "picks of decimals, by chance: the first row that is not null, the lesser, the greater, and by a mask",
        decimals.pick_case,
        85,
    ),
}
# Filters by masks in runs.
MASKS = {
    "runs": Family(
        6,
        "runs filtered by masks in runs, windows of both with hidden runs: under thresholds, with the kernel and without",
        masks.runs_case,
        150,
    ),
    "others": Family(2, "flat columns and constants filtered by masks in runs", masks.other_case, 30),
    "lists": Family(1, "runs of lists filtered by masks in runs", masks.lists_case, 12),
    "long": Family(1, "runs of 2^40 rows filtered by masks of as many, at the cost of the runs", masks.long_case, 20),
}
# Rows looked up by codes and by indices.
LOOKUPS = {
    "runs": Family(
        6,
        "codes and indices in any form, looked up in columns in any form: hidden runs, refusals, with the kernel or not",
        lookups.runs_case,
        150,
    ),
    "lists": Family(1, "codes and indices looked up in runs of lists", lookups.lists_case, 20),
    "long": Family(
        2,
        "codes and indices looked up in 2^40 rows in runs or of one value, at the cost of the runs",
        lookups.long_case,
        60,
    ),
    "types": Family(1, "codes and indices of other types than integers, in 2^40 rows", lookups.types_case, 12),
}
# Messages that keep a logical type: all but the last are lines of fixed columns, and no chance makes them.
TYPED = {
    "names": Family(
        0,
        "messages that keep a logical type (docs/BYTES.md): each type's name in Arrow, and names of any letters",
        typed_lines.names_case,
        1,
    ),
    "unkept": Family(0, "without a logical type a message is that of the column", typed_lines.unkept_case, 1),
    "prefixes": Family(0, "messages that end early, at each of their bytes", typed_lines.prefixes_case, 1),
    "damages": Family(0, "bytes with one fault each", typed_lines.damages_case, 1),
    "chance": Family(
        1,
        "names by chance, and messages with a byte before the column's changed, put in or left out",
        typed_lines.chance_case,
        12,
    ),
}


def by_chance(writer: Writer, families: dict[str, Family], count: int) -> None:
    """Writes cases of any of the families, by their weights."""
    weighted = [family for family in families.values() for _ in range(family.weight)]
    for _ in range(count):
        writer.names = 0
        writer.random.choice(weighted).case(writer)


def in_turn(writer: Writer, families: dict[str, Family], count: int) -> None:
    """Writes cases of each family in turn: of one of weight 10 a tenth of the count, and one at least."""
    for family in families.values():
        for _ in range(max(1, count * family.weight // 100)):
            family.case(writer)


def as_stored(writer: Writer, families: dict[str, Family], more: str = "", times: int = 1) -> None:
    """Writes the cases of each family that are stored, or some times as many, after its title and more words."""
    for family in families.values():
        writer.title(family.title + more)
        for _ in range(family.stored * times):
            writer.names = 0
            family.case(writer)
