#!/usr/bin/env python3
"""Names in crates.txt that nothing uses: a crate waits in the gate for each that its line names.

    python3 tools/unused_crates.py        ends in 'N passed, M failed', N the lines without such a name

A name is used where it is a word in the crate's src/, specs/, proofs/ or must-fail/.
"""

import re
import sys
from pathlib import Path

ROOT = Path(__file__).resolve().parent.parent
FOLDERS = ("src", "specs", "proofs", "must-fail")


def lines(text: str) -> dict[str, list[str]]:
    """Each crate of a crates.txt, and the libraries that its line names."""
    crates = {}
    for line in text.splitlines():
        before, colon, after = line.partition("#")[0].partition(":")
        if colon:
            crates[before.split()[0]] = after.split()
    return crates


def words(crate: Path) -> set[str]:
    """All words of a crate's files."""
    files = (path for folder in FOLDERS for path in (crate / folder).rglob("*") if path.is_file())
    return {word for path in files for word in re.findall(r"\w+", path.read_text(encoding="utf-8"))}


def unused(root: Path) -> dict[str, list[str]]:
    """For each crate the names of its line that are nowhere in it."""
    crates = lines((root / "crates.txt").read_text(encoding="utf-8"))
    return {crate: sorted(set(names) - words(root / "crates" / crate)) for crate, names in crates.items()}


def main() -> int:
    failed = {crate: names for crate, names in unused(ROOT).items() if names}
    for crate, names in failed.items():
        print(f"crates.txt: {crate} does not use {', '.join(names)}")
    print(f"{len(lines((ROOT / 'crates.txt').read_text(encoding='utf-8'))) - len(failed)} passed, {len(failed)} failed")
    return 1 if failed else 0


if __name__ == "__main__":
    sys.exit(main())
