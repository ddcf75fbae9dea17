#!/usr/bin/env python3
"""The ledger of wrong bodies: which goal the prover refused each at, and of which text.

    python3 tools/ledger.py                      looks: each has a line, none is stale; ends in 'N passed, M failed'
    python3 tools/ledger.py try NAME ..          tries these (CRATE, CRATE/NAME, or `stale`) and writes their lines
    python3 tools/ledger.py sample MINUTES KEY   tries stale ones, then the others in the order that KEY (a commit)
                                                 gives, for that many processor minutes; fails if one with a line is
                                                 not refused any more
    python3 tools/ledger.py open                 takes those that have a line by now out of tools/ledger_open.txt
    python3 tools/ledger.py evidence FILE        gives the lines the evidence that FILE has, of tools/mutants.py

A try checks the functions that an edit changes, in a copy of the crate, over the libraries in crates/*/out/rlib of this
clone or, by `--libraries CLONE`, of another. `try` puts edits of a crate into one check, one for each function and
`--most` at most. As many checks run at once as there are processors and memory.

A line of crates/NAME/must-fail/ledger.md, indented by four spaces, has in this order:

    name      of the wrong body; the lines have the order of the pages
    hash      of the edit and of each function that it changes: text and contract, without comments and spaces
    kit       the first word of `rt version`
    function  whose goal refused it, by its path below the crate
    label     of this goal, or of the error where the edit does not compile, as its page says
    how       `false`: the prover found values at which the goal is false; `goal`: it found no proof of the goal;
              `written`: a written proof did not fit, which shows less: it may refuse a right edit at this place too;
              `text`: the edit does not compile, as its page says
    seconds   of processor that the try took; its share, where one check tried several
    evidence  may follow: a line of vectors or a test whose answer differs with the edit, or why there is none
              (tools/evidence.py); it has to name what is there

A wrong body is refused where a goal of a function that it changes is, or of a caller that its page names by a line
`by:`. An edit that the prover cannot read and a refusal without a goal do not count. What a callee promises is not in
the hash: the sample, which comes to each in turn, is for that. tools/ledger_open.txt names the wrong bodies that have
no line yet, as CRATE/NAME: a look counts them as skipped. It may only become shorter.
"""

import argparse
import functools
import hashlib
import re
import subprocess
import sys
from collections.abc import Iterable
from dataclasses import astuple, dataclass, replace
from pathlib import Path

import evidence
import wrong_bodies
from evidence import Result, Vectors
from wrong_bodies import WrongBody

OPEN = "tools/ledger_open.txt"
OPEN_HEAD = "# {number} wrong bodies have no verdict yet; `python3 tools/ledger.py open` takes out those that have one\n"
# The pages that say how many have no verdict.
SAID_IN = ("docs/PROVED.md", "docs/GATE.md")
HEAD = """# Which goal refused each wrong body

`python3 tools/ledger.py try {crate}` tries them and writes this page.
A line has the name, the hash of the edit and of what it changes, the toolchain, the function, the goal, how it was
refused, and the processor seconds; `tools/ledger.py` says more of each.

"""
FUNCTION = re.compile(r"^([ \t]*)(?:pub(?:\([^)]*\))? )?(?:const |unsafe |extern \"C\" )*fn (\w+)", re.M)
OWNER = re.compile(r"^(?:pub )?(?:unsafe )?(?:impl\b|trait (\w+))", re.M)


@dataclass(frozen=True)
class Function:
    """A function of a source: its path below the crate, and its text with its contract."""

    path: str
    text: str


@dataclass(frozen=True)
class Line:
    """A line of a ledger."""

    name: str
    mark: str
    kit: str
    function: str
    label: str
    how: str
    seconds: int
    evidence: str = ""

    def text(self) -> str:
        """The line as the file has it."""
        return " ".join(str(word) for word in astuple(self)).rstrip() + "\n"


def line_of(text: str) -> Line | None:
    """The line that a text is, or None."""
    words = text.split(" ", 7)
    if len(words) < 7 or not words[6].isdigit():
        return None
    return Line(*words[:6], int(words[6]), *words[7:])


def owner_of(head: str) -> str:
    """The name by which the prover has the methods of an `impl`: of the type, followed by those of the trait if any.

    The words of the trait's arguments follow too, but for parameters and the type itself: `impl<A> Index<u8, A> for
    Bits` is `BitsIndexU8`.
    """
    text = head.split("{")[0].split("\n")[0].split(" where ")[0].removeprefix("unsafe ").removeprefix("impl")
    depth = end = 0
    if text.startswith("<"):
        for end, sign in enumerate(text.replace("->", "  "), start=1):
            depth += (sign == "<") - (sign == ">")
            if depth == 0:
                break
    parameters = re.findall(r"(?:^<|, )(?:const )?('?\w+)", text[:end])
    trait, _, owner = text[end:].strip().rpartition(" for ")
    name = re.split(r"[<({\[]", owner.strip("&").split("::")[-1])[0].split(" ")[-1]
    words = [word for word in re.findall(r"'?\w+", trait) if word not in (*parameters, name) and word[0] != "'"]
    return "".join(word[0].upper() + word[1:] for word in (name, *words)) if trait else name


def function_at(module: str, source: str, place: int) -> Function | None:
    """The function around a place of a source, from its `fn` to the brace that closes it, or None outside of all."""
    end_of_line = source.find("\n", place) % (len(source) + 1)
    for head in reversed(list(FUNCTION.finditer(source, 0, end_of_line))):
        close = re.compile(rf"^{head[1]}}}$", re.M).search(source, head.end())
        stop = close.end() if close else len(source)
        if place < stop:
            owners = list(OWNER.finditer(source, 0, head.start())) if head[1] else []
            owner = owners[-1][1] or owner_of(source[owners[-1].start() :]) if owners else ""
            # A function of a macro has as many paths as the macro has calls: its module is named for all of them.
            names = [module, owner, "" if head[1] and not owner else head[2]]
            return Function("::".join(filter(None, names)), source[head.start() : stop])
    return None


def module_of(wrong: WrongBody, path: Path) -> str:
    """The module that a source is, by its path below the crate; empty for the root."""
    parts = path.relative_to(wrong.crate() / "src").with_suffix("").parts
    return "::".join(part for part in parts if part not in ("lib", "main", "mod"))


def places(wrong: WrongBody) -> list[tuple[Path, str]]:
    """Where an edit changes the sources: each file with an old text that is in it as it is."""
    found, path = [], wrong.crate()
    for key, value in wrong.lines:
        if key == "file":
            path = wrong.crate() / value
        elif key == "old" and value in wrong_bodies.read(path):
            found.append((path, value))
    return found


@functools.cache
def homes(sources: Path, owner: str) -> list[Path]:
    """The sources that declare a type."""
    declared = re.compile(rf"^(?:pub(?:\([^)]*\))? )?(?:struct|enum) {owner}\b", re.M)
    return [path for path in sorted(sources.rglob("*.rt")) if declared.search(wrong_bodies.read(path))]


def at_home(wrong: WrongBody, found: Function) -> Function:
    """A function by the path that the prover has for it: a type's own methods are in the module that declares it."""
    *_, owner, name = ["", *found.path.split("::")]
    of_type = homes(wrong.crate() / "src", owner) if owner[:1].isupper() else []
    modules = [module_of(wrong, path) for path in of_type]
    module = found.path.rpartition(f"{owner}::")[0].removesuffix("::")
    if not modules or module in modules:
        return found
    return Function("::".join(filter(None, [modules[0], owner, name])), found.text)


def functions_of(wrong: WrongBody) -> list[Function]:
    """The functions that an edit changes. What it changes outside of functions is a function without a path."""
    found = []
    for path, old in places(wrong):
        source = wrong_bodies.read(path)
        at = source.find(old)
        outside = Function("", source[source.rfind("\n\n", 0, at) + 1 : source.find("\n\n", at)])
        function = function_at(module_of(wrong, path), source, at)
        found.append(at_home(wrong, function) if function else outside)
    return list(dict.fromkeys(each for each in found if each.path or not each.text.strip().startswith("use ")))


def bare(text: str) -> str:
    """A text without comments and spaces."""
    return re.sub(r"\s+", "", re.sub(r"//.*", "", text))


def mark_of(wrong: WrongBody) -> str:
    """The hash of a wrong body: its lines, and what it changes."""
    edit = "".join(f"{key}: {value}\n" for key, value in wrong.lines)
    parts = [edit, *(bare(each.text) for each in functions_of(wrong))]
    return hashlib.sha256("\0".join(parts).encode()).hexdigest()[:12]


def name_of(wrong: WrongBody) -> str:
    """The name of a wrong body with that of the crate whose page has it."""
    return f"{wrong.page.parent.parent.name}/{wrong.name}"


def edits() -> list[WrongBody]:
    """The wrong bodies that are files, and not text of a page: the gate tries these each time."""
    found = []
    for path in sorted(wrong_bodies.ROOT.glob("crates/*/must-fail/*.edit")):
        lines = [line.partition(": ") for line in path.read_text(encoding="utf-8").splitlines()]
        found.append(WrongBody(path, path.stem, [(key, value) for key, _, value in lines]))
    return found


def every() -> list[WrongBody]:
    """All wrong bodies, by crates, those of pages in the order of the page, and then those that are files."""
    of_pages = [wrong for page in wrong_bodies.pages() for wrong in wrong_bodies.wrong_bodies(page)[0]]
    return sorted(of_pages + edits(), key=lambda wrong: wrong.page.parent.parent.name)


def ledger_of(crate: str) -> Path:
    """The ledger of a crate."""
    return wrong_bodies.ROOT / "crates" / crate / "must-fail/ledger.md"


def read(path: Path, indent: str = "    ") -> list[str]:
    """The indented lines of a file, without what they are indented by; none where the file is not there."""
    lines = path.read_text(encoding="utf-8").splitlines() if path.is_file() else []
    return [line.removeprefix(indent) for line in lines if line.startswith(indent) and line and line[0] != "#"]


def kept_lines() -> dict[str, Line]:
    """The lines of all ledgers that can be read, by the crate and the name."""
    found = {}
    for path in sorted(wrong_bodies.ROOT.glob("crates/*/must-fail/ledger.md")):
        lines = [line for line in map(line_of, read(path)) if line]
        found.update({f"{path.parent.parent.name}/{line.name}": line for line in lines})
    return found


def write(crate: str, found: Iterable[Line]) -> None:
    """Puts lines into the ledger of a crate, in the order of its pages; lines of no wrong body go."""
    path = ledger_of(crate)
    lines = {line.name: line for line in [*filter(None, map(line_of, read(path))), *found]}
    names = [wrong.name for wrong in every() if wrong.page.parent.parent.name == crate]
    text = "".join(f"    {lines[name].text()}" for name in names if name in lines)
    path.write_text(HEAD.format(crate=crate) + text, encoding="utf-8")


def is_stale(wrong: WrongBody, known: dict[str, Line]) -> bool:
    """Whether a wrong body has no line, or one of another text."""
    line = known.get(name_of(wrong))
    return wrong.fault() is None and (line is None or line.mark != mark_of(wrong))


def faults_of_ledgers(names: list[str]) -> list[str]:
    """What is wrong with the lines of the ledgers themselves: they cannot be read, or are not those of the pages."""
    found = []
    for path in sorted(wrong_bodies.ROOT.glob("crates/*/must-fail/ledger.md")):
        crate, lines = path.parent.parent.name, read(path)
        found += [f"{crate}: a line that cannot be read: {line[:60]}" for line in lines if not line_of(line)]
        have = [f"{crate}/{line.split()[0]}" for line in lines]
        found += [f"{name}: a line of no wrong body" for name in have if name not in names]
        if sorted(have, key=names.index if set(have) <= set(names) else None) != have or len(set(have)) < len(have):
            found.append(f"{crate}: lines are not in the order of its pages, each once")
    return found


def faults_of_open(names: list[str], known: dict[str, Line]) -> list[str]:
    """What is wrong with the list of those that have no line yet, and with the pages that say how many these are."""
    path = wrong_bodies.ROOT / OPEN
    names_open = read(path, "")
    found = [f"{name}: is in {OPEN}, and is no wrong body" for name in names_open if name not in names]
    found += [f"{name}: has a line, so take it out of {OPEN}: open" for name in names_open if name in known]
    head = path.read_text(encoding="utf-8").splitlines()[:1] if path.is_file() else []
    most = int(re.sub(r"\D", "", head[0]) or 0) if head else 0
    if len(names_open) > most:
        found.append(f"{OPEN} has {len(names_open)} names, and {most} may be: it may only become shorter")
    for page in SAID_IN if head else []:
        said = re.findall(r"(\d+)\s+wrong\s+bodies\s+have\s+no\s+verdict", wrong_bodies.read(wrong_bodies.ROOT / page))
        if said != [str(len(names_open))]:
            found.append(f"{page}: does not say once that {len(names_open)} wrong bodies have no verdict")
    return found


def vectors() -> Vectors:
    """The lines of the vectors; none where there is no file of them."""
    path = wrong_bodies.ROOT / evidence.VECTORS
    return Vectors(wrong_bodies.read(path) if path.is_file() else "")


def faults_of_evidence(known: dict[str, Line]) -> list[str]:
    """What is wrong with the evidence of lines."""
    lines, root = vectors(), wrong_bodies.ROOT
    told = {name: evidence.fault(line.evidence, root, lines) for name, line in known.items() if line.evidence}
    return [f"{name}: {fault}" for name, fault in told.items() if fault]


def write_evidence(results: Iterable[Result]) -> int:
    """Gives lines the evidence of results of the same text. A line or test that one has stays, if it is still there."""
    found, known = {result.name: result for result in results}, kept_lines()
    faults = faults_of_evidence(known)
    given: dict[str, list[Line]] = {}
    for name, line in known.items():
        is_kept = line.evidence.startswith(evidence.SEEN) and not any(fault.startswith(f"{name}: ") for fault in faults)
        if name in found and found[name].mark == line.mark and not is_kept:
            given.setdefault(name.split("/")[0], []).append(replace(line, evidence=found[name].evidence))
    for crate, changed in given.items():
        write(crate, changed)
    print(f"{sum(map(len, given.values()))} lines were given evidence; {evidence_told(kept_lines())}")
    return 0


def evidence_told(known: dict[str, Line]) -> str:
    """How many lines have evidence, and how many of those that have to show more than their proof."""
    written = [line for line in known.values() if line.how == "written"]
    shown = [sum(bool(line.evidence) for line in lines) for lines in (known.values(), written)]
    return f"evidence of {shown[0]} of {len(known)}, and of {shown[1]} of {len(written)} that a written proof refused"


def write_open() -> int:
    """Takes what has a line by now out of the list of those that have none, and out of the numbers that pages say."""
    known, names, path = kept_lines(), [name_of(wrong) for wrong in every()], wrong_bodies.ROOT / OPEN
    left = [name for name in read(path, "") if name in names and name not in known]
    path.write_text(OPEN_HEAD.format(number=len(left)) + "".join(f"{name}\n" for name in left), encoding="utf-8")
    for page in (wrong_bodies.ROOT / page for page in SAID_IN):
        text = re.sub(r"\d+(\s+wrong\s+bodies\s+have\s+no\s+verdict)", rf"{len(left)}\1", wrong_bodies.read(page))
        page.write_text(text, encoding="utf-8")
    print(f"{len(left)} wrong bodies have no verdict yet")
    return 0


def look() -> int:
    """Whether each wrong body has its line, of the text as it is."""
    known, all_of, open_ones = kept_lines(), every(), set(read(wrong_bodies.ROOT / OPEN, ""))
    names = [name_of(wrong) for wrong in all_of]
    told = [f"{name}: two have this name" for name in sorted({name for name in names if names.count(name) > 1})]
    told += faults_of_ledgers(names) + faults_of_open(names, known) + faults_of_evidence(known)
    stale = [name_of(wrong) for wrong in all_of if is_stale(wrong, known) and name_of(wrong) not in open_ones]
    told += [f"{name}: {'changed since it was tried' if name in known else 'was never tried'}" for name in stale]
    for fault in told:
        print(fault)
    if any(line.evidence for line in known.values()):
        print(evidence_told(known))
    untried = len(open_ones & set(names))
    skipped = f", {untried} skipped" if untried else ""
    print(f"{len(all_of) - len(stale) - untried} passed, {len(told)} failed{skipped}")
    return 1 if told or not all_of else 0


def chosen(words: list[str]) -> list[WrongBody]:
    """The wrong bodies that words name: a crate, one of a crate, or `stale`."""
    known = kept_lines()
    found = []
    for wrong in every():
        name = name_of(wrong)
        if name in words or name.split("/")[0] in words or "stale" in words and is_stale(wrong, known):
            found.append(wrong)
    return found


def in_turn(key: str) -> list[WrongBody]:
    """All wrong bodies of pages in the order in which a sample tries them: stale ones first, the others by the key."""
    known = kept_lines()
    of_pages = [wrong for wrong in every() if wrong.page.suffix == ".md"]
    ranks = {name_of(wrong): hashlib.sha256(f"{key} {name_of(wrong)}".encode()).digest() for wrong in of_pages}
    return sorted(of_pages, key=lambda wrong: (not is_stale(wrong, known), ranks[name_of(wrong)]))


def main() -> int:
    parser = argparse.ArgumentParser(description="The ledger of wrong bodies.")
    parser.add_argument("words", nargs="*", metavar="try NAME .. | sample MINUTES KEY | open | evidence FILE")
    parser.add_argument("--libraries", type=Path, default=wrong_bodies.ROOT, metavar="CLONE")
    parser.add_argument("--most", type=int, default=8, metavar="N")
    options = parser.parse_args()
    words = options.words
    if words in ([], ["open"]):
        return write_open() if words else look()
    if words[0] == "evidence" and len(words) == 2:
        return write_evidence(evidence.results_of(Path(words[1]).read_text(encoding="utf-8")))
    import ledger_tries

    prover = ledger_tries.Prover(options.libraries.resolve())
    if words[0] == "try" and (found := chosen(words[1:])):
        return ledger_tries.try_all(prover, found, options.most)
    if words[0] == "sample" and len(words) == 3 and words[1].isdigit():
        return ledger_tries.sample(prover, in_turn(words[2]), 60 * int(words[1]))
    names = "NAME .. (a crate, CRATE/NAME or stale)"
    parser.error(f"the words are: try {names}, sample MINUTES KEY, open, or evidence FILE")


if __name__ == "__main__":
    sys.exit(main())
