#!/usr/bin/env python3
"""Names in pages that no file has any more: a reader looks for what a page names.

    python3 tools/page_names.py        names each; ends in 'N passed, M failed', N the pages

A name is a word, or a path of words, in backquotes: `filter_ends`, `ArrayRef::flat_view`. It is found where each of its
words is one of a file that is not a page, or of a file's path. Words of less than four letters and parts of words
(`_decimal`) are not looked at, nor are the pages of wrong bodies and the page on the Rust crate, which has its names.
The page on what 2.0 took away has names of 1.x. OTHERS has words of programs and toolchains that this repository does
not hold, and of what it once held.
"""

import re
import subprocess
import sys
from pathlib import Path

ROOT = Path(__file__).resolve().parent.parent
WITHOUT = ("docs/DIFFERENCES.md", "docs/MOVING.md", "must-fail/")
NAME = re.compile(r"`([A-Za-z]\w*(?:::\w+)*)(?:\(\))?`")
WORD = re.compile(r"[A-Za-z]\w*")
# By word whose it is.
OTHERS = {
    "also_shares": "the toolchain",
    "RT_SECONDS": "the toolchain",
    "manylinux": "Python's packages",
    "perf": "Linux",
    "array_agg": "PostgreSQL",
    "work_mem": "PostgreSQL",
    "BatchError": "this library up to 1.10",
    "ColumnBatch": "this library up to 1.10",
    "decimal_sum": "this library up to 1.10",
    "hv_decimal_combine": "this library up to 1.10",
    "hv_decimal_sum": "this library up to 1.10",
    "hv_float_at": "this library up to 1.10",
    "hv_float_min_max": "this library up to 1.10",
    "hv_float_sum": "this library up to 1.10",
    "hv_is_typed_message": "this library up to 1.10",
    "hv_read_typed": "this library up to 1.10",
    "hv_typed_size": "this library up to 1.10",
    "hv_write_typed": "this library up to 1.10",
}
# What is not a name: the toolchain's sum of a gate, and letters of a file of vectors.
NO_NAME = re.compile(r"[0-9a-f]{16}|x00FF")


def unknown(page: str, known: set[str]) -> list[tuple[int, str]]:
    """The names of a page that have a word which nothing knows, with their lines."""
    return [
        (number, name)
        for number, line in enumerate(page.split("\n"), 1)
        for name in NAME.findall(line)
        for word in [word for word in name.split("::") if len(word) > 3 and not NO_NAME.fullmatch(word)]
        if word not in known and word not in OTHERS
    ]


def words_of(root: Path, paths: list[str]) -> set[str]:
    """All words of the files that are not pages, and of all paths."""
    words = {word for path in paths for word in WORD.findall(path)}
    for path in paths:
        if not path.endswith((".md", ".png")) and not path == "examples/vectors/lines.txt":
            words.update(WORD.findall((root / path).read_text(encoding="utf-8", errors="ignore")))
    return words


def main() -> int:
    listed = subprocess.run(["git", "ls-files"], cwd=ROOT, capture_output=True, text=True, check=True)
    paths = [path for path in listed.stdout.split("\n") if path]
    known = words_of(ROOT, paths)
    pages = [path for path in paths if path.endswith(".md") and not any(part in path for part in WITHOUT)]
    found = {path: unknown((ROOT / path).read_text(encoding="utf-8"), known) for path in pages}
    for path, names in found.items():
        for number, name in names:
            print(f"{path}:{number}: no file has {name}")
    failed = sum(bool(names) for names in found.values())
    print(f"{len(pages) - failed} passed, {failed} failed")
    return 1 if failed else 0


if __name__ == "__main__":
    sys.exit(main())
