#!/usr/bin/env python3
"""Where a further kernel has to be named: each line that names an existing one, crate by crate from below.

    python3 tools/new_kernel.py FillNull fill_null        the variant and the function of the existing one

Its sources and definitions are listed with their lines, and the pages of docs/ and the headers after them; tests are
left out, and of proofs each folder of the function. `docs/ARCHITECTURE.md`, "Where a further kernel goes", says what is
written at each place. Ends in 'N lines, M folders of proofs'.
"""

import re
import sys
from pathlib import Path

ROOT = Path(__file__).resolve().parent.parent
# Crates only for tests: a further kernel has tests of its own there.
TESTS = {"column_tests", "conformance", "refusing"}


def order_of(crates_txt: str) -> list[str]:
    """The crates from below, as crates.txt lists them."""
    return re.findall(r"^(\w+):", crates_txt, re.M)


def lines_with(text: str, names: list[str]) -> list[tuple[int, str]]:
    """The numbered lines of a text in which one of the names is a word. Long lists of imports are cut short."""
    word = re.compile(rf"\b(?:{'|'.join(map(re.escape, names))})\b")
    return [(number, line.strip()[:100]) for number, line in enumerate(text.split("\n"), 1) if word.search(line)]


def files_of(root: Path) -> list[Path]:
    """What may name a kernel: the sources and definitions of each crate from below, then pages and headers."""
    crates = [name for name in order_of((root / "crates.txt").read_text(encoding="utf-8")) if name not in TESTS]
    folders = [root / "crates" / name / part for name in crates for part in ("src", "specs")]
    sources = [path for folder in folders for path in sorted(folder.rglob("*")) if path.suffix in (".rt", ".antt")]
    return sources + sorted((root / "docs").glob("*.md")) + sorted((root / "include").glob("*.h*"))


def proofs_of(root: Path, function: str) -> list[str]:
    """The folders of proofs that bear the function's name."""
    found = (path for path in root.glob(f"crates/*/proofs/**/{function}") if path.is_dir())
    return sorted(str(path.relative_to(root)) for path in found)


def places(root: Path, names: list[str]) -> list[tuple[str, int, str]]:
    """Each line that names the kernel, with its file and number."""
    return [
        (str(path.relative_to(root)), number, line)
        for path in files_of(root)
        for number, line in lines_with(path.read_text(encoding="utf-8"), names)
    ]


def main() -> int:
    names = sys.argv[1:]
    if len(names) != 2:
        print(__doc__)
        return 2
    found, folders = places(ROOT, names), proofs_of(ROOT, names[1])
    for path, number, line in found:
        print(f"{path}:{number}: {line}")
    for folder in folders:
        print(folder)
    print(f"{len(found)} lines, {len(folders)} folders of proofs")
    return 0 if found else 1


if __name__ == "__main__":
    sys.exit(main())
