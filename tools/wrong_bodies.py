#!/usr/bin/env python3
"""Wrong bodies that are text, in the pages crates/NAME/must-fail/*.md: the gate tries a sample of them (ledger.py).

    python3 tools/wrong_bodies.py                 looks that each can still be applied; ends in 'N passed, M failed'
    python3 tools/wrong_bodies.py try NAME ..     tries all of these crates, and says which were refused

Each is a title, a paragraph from `NAME` in backquotes to a colon, and, indented by four spaces, the lines of an edit:
`file:`, and then `old:` and `new:` in turn. An `old:` text has to stand exactly once in its file, in what the earlier
pairs of the same edit made.
Before these lines `crate:` names another crate than that of the page, and `only:` a function with `prints:` a text:
such an edit does not compile, and a check of only the function has to fail and print the text. `by:` names a function
by its path below the crate, if a caller refuses the edit, and not the function that it changes. A page has no other
indented lines, and one wrong body at least.

A try takes a check of the crate and 10 to 40 seconds for each; it begins with what `rt check` kept. Edits of the same
crate that the gate tries are tried with those of its pages.
"""

import argparse
import re
import subprocess
import sys
from dataclasses import dataclass, field
from pathlib import Path

ROOT = Path(__file__).resolve().parent.parent
TITLE = re.compile(r"`([a-z0-9-]+)`.*:$", re.S)
NO_TITLE = re.compile(r"`[a-z0-9]+-[a-z0-9-]+`.*(?<!:)$", re.S)
LINE = re.compile(r"    (crate|only|prints|by|file|old|new): ?(.*)")
EDIT_KEYS = ("file", "old", "new")


class Unfit(Exception):
    """Why an edit cannot be applied to the sources."""


@dataclass
class WrongBody:
    """An edit of one crate, as a page has it."""

    page: Path
    name: str
    lines: list[tuple[str, str]] = field(default_factory=list)

    def value(self, key: str) -> str | None:
        """What its first line of this key says."""
        return next((value for found, value in self.lines if found == key), None)

    def crate(self) -> Path:
        """The folder of the crate that is edited: that of the page where the edit names none."""
        named = self.value("crate")
        return ROOT / "crates" / named if named else self.page.parent.parent

    def compiles(self) -> bool:
        """Whether the prover has to refuse it, and not what reads the sources before."""
        return self.value("prints") is None

    def text(self) -> str:
        """The edit as a file of must-fail/ has it."""
        return "".join(f"{key}: {value}\n" for key, value in self.lines if key in EDIT_KEYS)

    def edited(self, others: dict[Path, str] | None = None) -> dict[Path, str]:
        """The files that it changes, as they read with the edit, and with those of others where these are given."""
        if (self.value("only") is None) != self.compiles():
            raise Unfit("'only:' and 'prints:' stand together")
        sources = dict(others or {})
        path = old = None
        for key, value in self.lines:
            if key == "file":
                path = self.crate() / value
                sources.setdefault(path, read(path))
            elif key in EDIT_KEYS and path is None:
                raise Unfit("no 'file:' line before the first text")
            elif key == "old":
                old = value
                once(sources[path], value, path)
            elif key == "new":
                if old is None:
                    raise Unfit("a 'new:' line with no 'old:' line before it")
                sources[path] = sources[path].replace(old, value)
                old = None
        if old is not None:
            raise Unfit("an 'old:' line with no 'new:' line after it")
        if path is None:
            raise Unfit("no lines")
        if self.value("new") is None:
            raise Unfit("no text is changed")
        return sources

    def fault(self) -> str | None:
        """Why the edit cannot be applied to the sources, if so."""
        try:
            self.edited()
        except Unfit as unfit:
            return str(unfit)
        return None


def read(path: Path) -> str:
    """The text of a source."""
    try:
        return path.read_text(encoding="utf-8")
    except OSError as error:
        raise Unfit(f"{path.relative_to(ROOT)}: {error.strerror}") from error


def once(source: str, text: str, path: Path) -> None:
    """The text is once in the source."""
    count = source.count(text)
    if count != 1:
        name = path.relative_to(ROOT)
        raise Unfit(f"an 'old:' text is in {name} {count} times, and not once: {text[:60]}")


def pages() -> list[Path]:
    """All pages, by the names of their crates; a ledger (tools/ledger.py) is not one of them."""
    return sorted(page for page in ROOT.glob("crates/*/must-fail/*.md") if page.name != "ledger.md")


def wrong_bodies(page: Path) -> tuple[list[WrongBody], list[str]]:
    """Those of a page, in its order, and what is wrong with the page itself."""
    found: list[WrongBody] = []
    faults: list[str] = []
    paragraph = ""
    for number, line in enumerate(page.read_text(encoding="utf-8").splitlines(), start=1):
        if not line and NO_TITLE.match(paragraph):
            faults.append(f"line {number - 1} is the end of a title, and has no colon: {paragraph[:60]}")
        paragraph = f"{paragraph}\n{line}".strip() if line else ""
        if title := TITLE.match(paragraph):
            found.append(WrongBody(page, title[1]))
        elif (part := LINE.match(line)) and found:
            found[-1].lines.append((part[1], part[2]))
        elif line.startswith("    "):
            faults.append(f"line {number} is of no edit: {line.strip()[:60]}")
    if not found:
        faults.append("no wrong body is in it")
    return found, faults


def crates_with_pages() -> list[str]:
    """The crates that have a page, by name."""
    return sorted({page.parent.parent.name for page in pages()})


def look() -> int:
    """Whether each wrong body can be applied."""
    passed = failed = 0
    for page in pages():
        found, faults = wrong_bodies(page)
        told = [(page.name, fault) for fault in faults]
        told += [(wrong.name, fault) for wrong in found if (fault := wrong.fault())]
        for name, fault in told:
            print(f"{page.parent.parent.name}/{name}: {fault}")
        failed += len(told)
        passed += sum(wrong.fault() is None for wrong in found)
    print(f"{passed} passed, {failed} failed")
    return 1 if failed or not passed else 0


def try_crate(crate: str) -> int:
    """Tries the wrong bodies of a crate's pages."""
    folder = ROOT / "crates" / crate / "must-fail"
    found = [wrong for page in pages() if page.parent == folder for wrong in wrong_bodies(page)[0]]
    statuses = [try_by_a_check(wrong) for wrong in found if not wrong.compiles()]
    if proved := [wrong for wrong in found if wrong.compiles()]:
        statuses.append(try_by_proofs(crate, proved))
    return max(statuses, default=1)


def try_by_proofs(crate: str, found: list[WrongBody]) -> int:
    """Has the prover try wrong bodies of one crate; they stand in must-fail/ meanwhile."""
    folder = ROOT / "crates" / crate / "must-fail"
    placed: list[Path] = []
    try:
        for wrong in found:
            path = folder / f"{wrong.name}.edit"
            if path.exists():
                print(f"{crate}/{wrong.name}: is an edit too", file=sys.stderr)
                return 1
            path.write_text(wrong.text(), encoding="utf-8")
            placed.append(path)
        return subprocess.run(["rt", "must-fail", crate], cwd=ROOT, check=False).returncode
    finally:
        for path in placed:
            path.unlink()


def try_by_a_check(wrong: WrongBody) -> int:
    """Has a check read a wrong body that does not compile; it is in the sources meanwhile."""
    edited = wrong.edited()
    before = {path: path.read_bytes() for path in edited}
    command = ["rt", "check", "--only", wrong.value("only")]
    try:
        for path, text in edited.items():
            path.write_text(text, encoding="utf-8")
        run = subprocess.run(command, cwd=wrong.crate(), capture_output=True, text=True, check=False)
    finally:
        for path, source in before.items():
            path.write_bytes(source)
    is_refused = run.returncode != 0 and wrong.value("prints") in run.stdout + run.stderr
    print(f"{wrong.crate().name}/{wrong.name}: {'refused' if is_refused else 'NOT refused so'}")
    return 0 if is_refused else 1


def main() -> int:
    parser = argparse.ArgumentParser(description="Wrong bodies that stand as text.")
    parser.add_argument("crates", nargs="*", metavar="try NAME", help="try all wrong bodies of these crates")
    words = parser.parse_args().crates
    if not words:
        return look()
    if words[0] != "try" or not words[1:]:
        parser.error("the words are: try NAME ..")
    unknown = [name for name in words[1:] if name not in crates_with_pages()]
    if unknown:
        parser.error(f"no wrong bodies as text in: {' '.join(unknown)}")
    return max(try_crate(name) for name in words[1:])


if __name__ == "__main__":
    sys.exit(main())
