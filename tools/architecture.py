#!/usr/bin/env python3
"""The page of each crate, crates/NAME/README.md, held against the crate: what it has to say, and each file by name.

    python3 tools/architecture.py        names what is missing or gone; ends in 'N passed, M failed', N the pages

A page is one screen: its title is the crate's name, then come the idea in a line of its own, what is proved, and the
files. The item `src/` of "Files" names the files of `src/`, the item `specs/` those of `specs/`. A file in a folder may
be left out where the folder is named, and so are `lib`, `main` and `Lib`. Crates of tests only name no files. Any other
word in backquotes of these two items has to be somewhere in the crate's sources. Pages of the repository have their
own limits (PAGES).
"""

import re
import sys
from pathlib import Path

ROOT = Path(__file__).resolve().parent.parent
SCREEN = 72
PAGES = {"docs/DECISIONS.md": 260, "docs/PERFORMANCE.md": 205, "docs/PROVED.md": 160}
TESTS = {"column_tests", "conformance"}
LEFT_OUT = {"lib", "main", "Lib"}


def items_of(page: str) -> tuple[set[str], set[str]]:
    """The names that the items `src/` and `specs/` of a page have."""
    files = page.split("\n## Files\n", 1)[1] if "\n## Files\n" in page else ""
    items = dict(re.findall(r"^- `(src|specs)/`:(.*?)(?=^- `|\Z)", files, re.M | re.S))
    names = lambda text: {name.strip("/") for name in re.findall(r"`([\w/]+)`", text)}
    return names(items.get("src", "")), names(items.get("specs", ""))


def files_of(folder: Path, ending: str) -> set[str]:
    """The files below a folder, as paths without their ending."""
    found = (path.relative_to(folder).with_suffix("") for path in folder.rglob(f"*{ending}"))
    return {str(path) for path in found} - LEFT_OUT


def unnamed(files: set[str], names: set[str]) -> set[str]:
    """The files that are named neither themselves nor by a folder that they are in."""
    return {path for path in files if not {path, *path.split("/")} & names}


def faults_of_files(root: Path, crate: str, files: set[str], definitions: set[str]) -> list[str]:
    """What the page's list of files lacks, and what it names that is gone."""
    sources, specs = root / "crates" / crate / "src", root / "crates" / crate / "specs"
    said = [f"no name for {path}.rt" for path in sorted(unnamed(files_of(sources, ".rt"), files))]
    said += [f"no name for {path}.antt" for path in sorted(unnamed(files_of(specs, ".antt"), definitions))]
    paths = {part for path in files_of(sources, ".rt") for part in (path, *path.split("/"))}
    texts = " ".join(path.read_text(encoding="utf-8") for path in sorted(sources.rglob("*.rt")))
    known = paths | set(re.findall(r"\w+", texts))
    said += [f"{name} is not a file" for name in sorted(files - known)]
    return said + [f"{name} is not a definition" for name in sorted(definitions - files_of(specs, ".antt"))]


def faults_of_page(crate: str, page: str) -> list[str]:
    """What a page has to say and does not, and that it is longer than a screen."""
    said = [] if page.startswith(f"# `{crate}`\n") else ["its title is not the crate's name"]
    said += [f"no {part.strip()!r}" for part in ("\n**Idea.** ", "\n## What is proved\n") if part not in page]
    lines = page.count("\n")
    return said + ([f"{lines} lines, and a screen has {SCREEN}"] if lines > SCREEN else [])


def faults_of(root: Path, crate: str) -> list[str]:
    """What is wrong with the page of one crate."""
    path = root / "crates" / crate / "README.md"
    if not path.exists():
        return ["there is no such page"]
    page = path.read_text(encoding="utf-8")
    return faults_of_page(crate, page) + ([] if crate in TESTS else faults_of_files(root, crate, *items_of(page)))


def main() -> int:
    crates = re.findall(r"^(\w+)(?: staticlib)?:", (ROOT / "crates.txt").read_text(encoding="utf-8"), re.M)
    found = {f"crates/{crate}/README.md": faults_of(ROOT, crate) for crate in crates}
    for page, most in PAGES.items():
        lines = (ROOT / page).read_text(encoding="utf-8").count("\n")
        found[page] = [f"{lines} lines, and {most} may be"] if lines > most else []
    for page, faults in found.items():
        for fault in faults:
            print(f"{page}: {fault}")
    failed = sum(bool(faults) for faults in found.values())
    print(f"{len(found) - failed} passed, {failed} failed")
    return 1 if failed else 0


if __name__ == "__main__":
    sys.exit(main())
