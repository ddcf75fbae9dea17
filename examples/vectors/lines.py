#!/usr/bin/env python3
"""Writes lines of vectors with their answers, which the rows themselves give: nothing of the library is used.

    python3 examples/vectors/lines.py SEED COUNT            lines of COUNT cases of each group, by chance from SEED
        --group rows|floats|numbers|masks|lookups|typed     of this group only
        --wide                                              some columns have hundreds of rows
    python3 examples/vectors/lines.py --stored GROUP        the lines of a group, or of `picks` or `layers`, in
                                                            lines.txt

To hold the library against new lines:

    python3 examples/vectors/lines.py 7 300 > /tmp/lines; sh examples/vectors/run.sh /tmp/lines

which ends in `N agree, 0 differ, M not served`; README.md says what the modules are.
"""

from __future__ import annotations

import argparse

from families import FLOATS, LOOKUPS, MASKS, NUMBERS, ROWS, TYPED, as_stored, by_chance, in_turn
from writer import Writer

WITHOUT_PICKS = {name: family for name, family in NUMBERS.items() if name != "picks"}
PICKS = {"picks": NUMBERS["picks"]}
# By group the families that are stored, and the seed and choices of decimals and of layers that made them.
STORED = {
    "rows": (ROWS, 2026, False, False),
    "floats": (FLOATS, 1, False, False),
    "numbers": (WITHOUT_PICKS, 2911, False, False),
    "picks": (PICKS, 2912, True, False),
    "typed": (TYPED, 2913, True, False),
    "masks": (MASKS, 2914, True, False),
    "lookups": (LOOKUPS, 3012, True, False),
    "layers": (ROWS, 3011, True, True),
}
GROUPS = {"numbers": (NUMBERS, by_chance), "rows": (ROWS, by_chance), "floats": (FLOATS, in_turn)}
GROUPS["masks"] = (MASKS, by_chance)
GROUPS["lookups"] = (LOOKUPS, by_chance)
GROUPS["typed"] = (TYPED, by_chance)


def stored_lines(group: str) -> list[str]:
    """Returns the lines of a group as lines.txt has them."""
    families, seed, decimals, layers = STORED[group]
    writer = Writer(seed, decimals=decimals, layers=layers)
    if layers:
        as_stored(writer, families, "; in layers of runs too, with hidden runs in each", 2)
    else:
        as_stored(writer, families)
    return writer.lines


def new_lines(group: str, seed: int, count: int, wide: bool) -> list[str]:
    """Returns lines of this number of cases of a group."""
    families, write = GROUPS[group]
    writer = Writer(seed, wide)
    write(writer, families, count)
    return writer.lines


def main() -> None:
    """Prints the lines that are asked for."""
    parser = argparse.ArgumentParser(description=__doc__, formatter_class=argparse.RawDescriptionHelpFormatter)
    parser.add_argument("seed", type=int, nargs="?")
    parser.add_argument("count", type=int, nargs="?")
    parser.add_argument("--group", choices=GROUPS)
    parser.add_argument("--wide", action="store_true")
    parser.add_argument("--stored", choices=STORED)
    given = parser.parse_args()
    if given.stored:
        lines = stored_lines(given.stored)
    elif given.count is None:
        parser.error("a seed and a count are needed, or --stored")
    else:
        groups = [given.group] if given.group else list(GROUPS)
        lines = [line for group in groups for line in new_lines(group, given.seed, given.count, given.wide)]
    print("\n".join(lines))


if __name__ == "__main__":
    main()
