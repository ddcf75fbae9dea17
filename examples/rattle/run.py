#!/usr/bin/env python3
"""Runs the program that README.md of this folder shows, by `rt try`, which proves nothing.

    python3 examples/rattle/run.py -- rain < examples/rattle/rain.csv

Each fenced block of the page after a line `src/NAME`: is a file of the crate, and the indented line that begins with
the crate's name is its line of crates.txt. All is done in a copy.
"""

import re
import shutil
import subprocess
import sys
import tempfile
from pathlib import Path

HERE = Path(__file__).resolve().parent
ROOT = HERE.parent.parent
NAME = "csv_sums"
FILE = re.compile(r"^`(src/\w+\.rt)`:\n\n```rust\n(.*?)^```$", re.M | re.S)


def lay_out(folder: Path) -> Path:
    """Copies the crates, and puts the page's crate into the copy."""
    page = (HERE / "README.md").read_text(encoding="utf-8")
    shutil.copytree(ROOT / "crates", folder / "crates", ignore=shutil.ignore_patterns("out"))
    shutil.copy(ROOT / "HANDLES", folder)
    line = re.search(rf"^    ({NAME}: .*)$", page, re.M)[1]
    (folder / "crates.txt").write_text((ROOT / "crates.txt").read_text(encoding="utf-8") + line + "\n")
    crate = folder / "crates" / NAME
    (crate / "src").mkdir(parents=True)
    for name, text in FILE.findall(page):
        (crate / name).write_text(text, encoding="utf-8")
    return crate


def main() -> int:
    with tempfile.TemporaryDirectory() as folder:
        return subprocess.run(["rt", "try", *sys.argv[1:]], cwd=lay_out(Path(folder))).returncode


if __name__ == "__main__":
    sys.exit(main())
