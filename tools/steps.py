#!/usr/bin/env python3
"""Functions whose table of steps is large: the prover takes half a minute and up to a gigabyte for a million characters.

    python3 tools/steps.py               reads the libraries that `rt ci` or a check left in crates/*/out; ends in 'N
                                         passed, M failed, K skipped', N the libraries without a table that is too large
    python3 tools/steps.py --largest N   prints the N largest tables
    python3 tools/steps.py --list        rewrites tools/steps.txt, where tables have become smaller

The table of a function has each step of its code, with the types of what lives there written out, and so the drop of
each column at each exit where it still lives; docs/GATE.md says how to make one smaller. A table has at most MOST
characters. Those that have more are in tools/steps.txt with the thousands that each may have: a number there may only
fall, and no name may be added. Nothing is proved here: a built library keeps the tables.
"""

import json
import sys
from collections.abc import Iterable
from pathlib import Path

ROOT = Path(__file__).resolve().parent.parent
ALLOWED = ROOT / "tools/steps.txt"
MOST = 700_000
# Where a library keeps what the prover made of its code: the name of a part on a line, and its text on the next, which
# may have a further line without a name.
MADE = "lang/antt/made.json"
FIRST, LAST = "proofs/", "/Lts"


def sizes(lines: Iterable[str], crate: str) -> dict[str, int]:
    """The characters of the table of each function, in the parts of a library of this crate."""
    found: dict[str, int] = {}
    name = ""
    for line in lines:
        if name.startswith(FIRST) and name.endswith(LAST):
            found["::".join([crate, *name[len(FIRST) : -len(LAST)].split("/")])] = len(line.rstrip("\n"))
        name = json.loads(line) if line.startswith('"') else ""
    return found


def libraries(root: Path) -> dict[str, dict[str, int]]:
    """The tables of the functions of each library that was built in a tree."""
    found = {}
    for library in sorted(root.glob("crates/*/out/rlib/*.rlib")):
        made = library / MADE
        if made.is_file():
            with open(made, encoding="utf-8") as lines:
                found[library.stem] = sizes(lines, library.stem)
    return found


def thousands(size: int) -> int:
    """The thousands of characters, the last of them begun."""
    return -(-size // 1000)


def allowed(text: str) -> dict[str, int]:
    """The thousands of characters that a function may have by tools/steps.txt."""
    rows = (line.split() for line in text.split("\n") if line and not line.startswith("#"))
    return {name: int(number) for number, name in rows}


def too_large(tables: dict[str, int], most: dict[str, int]) -> list[str]:
    """Which functions of a library have a larger table than they may have, and how large."""
    return [
        f"{name}: a table of {thousands(size)} thousand characters, and {most.get(name, thousands(MOST))} may be"
        for name, size in tables.items()
        if thousands(size) > most.get(name, thousands(MOST))
    ]


def lowered(tables: dict[str, int], most: dict[str, int], crates: Iterable[str]) -> dict[str, int]:
    """What tools/steps.txt has to have: no number that is larger than before, and none for a table that is small now.
    What it has for crates of which no library was read stays."""
    read = set(crates)
    left = {name: number for name, number in most.items() if name.split("::")[0] not in read}
    for name, number in most.items():
        size = tables.get(name, 0)
        if name not in left and size > MOST:
            left[name] = min(number, thousands(size))
    return left


def page(most: dict[str, int]) -> str:
    """The text of tools/steps.txt, the largest first."""
    head = "# Tables of steps of more than 700 thousand characters, in thousands; lowered by tools/steps.py --list.\n"
    return head + "".join(f"{number} {name}\n" for name, number in sorted(most.items(), key=lambda it: (-it[1], it[0])))


def judge(read: dict[str, dict[str, int]], most: dict[str, int]) -> int:
    """Prints which tables are too large, and the line that the gate counts; returns the status."""
    if not any(read.values()):
        print("no library is there to read: the tables of steps are not looked at")
        print("0 passed, 0 failed, 1 skipped")
        return 0
    faults = {crate: too_large(tables, most) for crate, tables in read.items()}
    for line in sum(faults.values(), []):
        print(line)
    failed = sum(len(lines) for lines in faults.values())
    print(f"{sum(not lines for lines in faults.values())} passed, {failed} failed, 0 skipped")
    return 1 if failed else 0


def main(words: list[str]) -> int:
    read = libraries(ROOT)
    tables = {name: size for each in read.values() for name, size in each.items()}
    most = allowed(ALLOWED.read_text(encoding="utf-8"))
    if words[:1] == ["--largest"]:
        for name, size in sorted(tables.items(), key=lambda it: -it[1])[: int(words[1])]:
            print(f"{thousands(size):7} {name}")
        return 0
    if words == ["--list"]:
        ALLOWED.write_text(page(lowered(tables, most, read)), encoding="utf-8")
        return 0
    return judge(read, most)


if __name__ == "__main__":
    sys.exit(main(sys.argv[1:]))
