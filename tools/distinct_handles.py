#!/usr/bin/env python3
"""Names the calls in which one handle, or one place that is written, is lent as two arguments.

    python3 tools/distinct_handles.py    ends in 'N passed, M failed', N the sources that were read

What a call writes, and each handle that it is given, overlaps no other argument: that is what include/hivevigil.h asks
of a caller, and the proofs of the exports rest on it. Read are the headers, the program, the examples and bench in C
and C++, and the calls of Rust and Python. A function or a macro of ours owes the same for two of its own parameters
where it passes both to one such call, and so on for what calls it. A call is flagged where the texts of two such
arguments are equal, after casts, parentheses and pointers that only name another place. Not found is one place under
two names that a program gives it while it runs: wrappers test for that (22).
"""

import re
import sys
from pathlib import Path
from typing import Iterator, NamedTuple

from declarations import HEADER, ROOT, calls_of

PLACES = ("include", "program", "examples", "bench", "rust/src", "rust/tests", "rust/examples", "python/hivevigil")
ENDINGS = {".c", ".h", ".hpp", ".cpp", ".rs", ".py"}
# What is not C's: a comment, or a text, is blanked.
BLANKED = {
    ".py": r'"""[\s\S]*?"""|#.*|"(?:\\.|[^"\\\n])*"|' + r"'(?:\\.|[^'\\\n])*'",
    "": r'/\*[\s\S]*?\*/|//.*|"(?:\\.|[^"\\])*"|' + r"'(?:\\.|[^'\\])'",
}
DEFINED = re.compile(r"\b(\w+)\s*\(([^;{}()]*(?:\([^()]*\)[^;{}()]*)*)\)\s*(?:const\s*|noexcept\s*)*\{")
MACRO = re.compile(r"#define (\w+)\(([^)]*)\)((?:.*\\\n)*.*)")
POINTER = re.compile(r"\bhv_\w+ \*(?:const )?(\w+) = (&?[\w.>\[\]-]+);")
BRACKET, CALL = re.compile(r"[(){}\[\]]"), re.compile(r"\(?\b(\w+)\)?\s*\(")
KEYWORDS = {"if", "for", "while", "switch", "return", "sizeof", "catch", "do", "defined"}
NOWHERE = {"", "NULL", "nullptr", "0", "None", "HV_EMPTY", "NO_TEXT_ROOM"}
Pairs = dict[str, set[tuple[int, int]]]


class Function(NamedTuple):
    name: str
    parameters: list[str]
    body: str
    start: int


def blanked(text: str, ending: str) -> str:
    """The source with blanks in place of comments and texts, so that places in it stay."""
    pattern = BLANKED.get(ending, BLANKED[""])
    return re.sub(pattern, lambda found: re.sub(r"[^\n]", " ", found[0]), text)


def closing(text: str, start: int) -> int:
    """Where the bracket ends that opens before `start`."""
    depth = 1
    for found in BRACKET.finditer(text, start):
        depth += 1 if found[0] in "({[" else -1
        if depth == 0:
            return found.start()
    return len(text)


def split(text: str) -> list[str]:
    """The arguments of a list, at the commas that no bracket surrounds."""
    parts, depth = [""], 0
    for letter in text:
        depth += (letter in "({[") - (letter in ")}]")
        if letter == "," and depth == 0:
            parts.append("")
        else:
            parts[-1] += letter
    return parts


def places(argument: str, named: dict[str, str]) -> set[str]:
    """What an argument may be: without blanks, casts, hv_lent and outer parentheses, each arm of `a ? b : c`, and
    what a pointer names that was set once."""
    found = re.sub(r"\s*\\\n\s*|\s+", " ", argument).strip()
    found = re.sub(r"^\((?:const )?\w+ \*\) ?", "", found)
    while match := re.fullmatch(r"(?:hv_lent(?:_builder)?)?\((.*)\)", found):
        found = match[1].strip()
    if arms := re.fullmatch(r"[^?]*\?([^:]*):(.*)", found):
        return places(arms[1], named) | places(arms[2], named)
    return {named.get(found, found)}


def calls_in(text: str, names: Pairs) -> Iterator[tuple[str, list[str], int]]:
    """Each call of one of these: the name, the arguments, and where it is; `(hv_name)` is the export."""
    for found in CALL.finditer(text):
        if found[1] in names:
            yield found[1], split(text[found.end() : closing(text, found.end())]), found.start()


def functions_of(text: str) -> Iterator[Function]:
    """The functions and the macros that a source defines, with the names of their parameters."""
    for found in DEFINED.finditer(text):
        if found[1] not in KEYWORDS:
            names = [re.findall(r"\w+", part)[-1:] for part in split(found[2])]
            yield Function(found[1], ["".join(n) for n in names], text[found.end() : closing(text, found.end())],
                           found.end())
    for found in MACRO.finditer(text):
        yield Function(found[1], [part.strip() for part in found[2].split(",")], found[3], found.start(3))


def owed(header: str) -> Pairs:
    """Of each call of the header the pairs of parameters that may not be one place: pointers of which one at least is
    a handle, or is written."""
    pairs: Pairs = {}
    for call in calls_of(header):
        pointers = [(place, each) for place, each in enumerate(call.parameters) if each.is_pointer]
        written = {place for place, each in pointers
                 if each.base in ("hv_column", "hv_builder") or not each.type.startswith("const ")}
        pairs[call.name] = {(one, other) for one, _ in pointers for other, _ in pointers
                            if one < other and {one, other} & written}
    return pairs


def passes_on(function: Function, pairs: Pairs) -> set[tuple[int, int]]:
    """The pairs of parameters that a function passes to a call that owes them to be two places."""
    at = {name: place for place, name in enumerate(function.parameters) if name}
    found = set()
    for name, arguments, _ in calls_in(function.body, pairs):
        for one, other in pairs[name]:
            if other < len(arguments):
                lent = [at[p] for place in (one, other) for p in places(arguments[place], {}) if p in at]
                if len(set(lent)) == 2:
                    found.add((min(lent), max(lent)))
    return found


def all_owed(functions: list[Function], pairs: Pairs) -> Pairs:
    """The pairs of the calls, and of the functions over them, over these, and so on."""
    pairs = {name: set(found) for name, found in pairs.items()}
    while True:
        more = [(each.name, passes_on(each, pairs)) for each in functions]
        more = [(name, found) for name, found in more if not found <= pairs.get(name, set())]
        if not more:
            return pairs
        for name, found in more:
            pairs.setdefault(name, set()).update(found)


def lent_twice(text: str, pairs: Pairs) -> Iterator[tuple[int, str, str]]:
    """The calls that are lent one place as two arguments: the line, the name, and the place."""
    starts = sorted(each.start for each in functions_of(text))
    for name, arguments, start in calls_in(text, pairs):
        begin = max((each for each in starts if each <= start), default=0)
        named = {found[1]: found[2] for found in POINTER.finditer(text, begin, start)}
        for one, other in sorted(pairs[name]):
            if other < len(arguments):
                same = places(arguments[one], named) & places(arguments[other], named)
                for place in sorted(same - NOWHERE):
                    yield text.count("\n", 0, start) + 1, name, place


def sources() -> list[Path]:
    found = [path for place in PLACES for path in sorted((ROOT / place).rglob("*")) if path.suffix in ENDINGS]
    return [path for path in found if "target" not in path.parts and "build" not in path.parts]


def faults() -> tuple[list[str], int]:
    """What is lent twice, and how many sources were read. A function of a source is known within it, and one of a
    header everywhere."""
    texts = {path: blanked(path.read_text(), path.suffix) for path in sources()}
    header = [each for path, text in texts.items() if path.suffix in (".h", ".hpp") for each in functions_of(text)]
    everywhere = all_owed(header, owed((ROOT / HEADER).read_text()))
    found = []
    for path, text in texts.items():
        pairs = all_owed(list(functions_of(text)), everywhere)
        found += [f"{path.relative_to(ROOT)}:{line}: {name} is lent {place} twice"
                  for line, name, place in lent_twice(text, pairs)]
    return found, len(texts)


def main() -> int:
    found, read = faults()
    print(*found, f"{read} passed, {len(found)} failed", sep="\n")
    return 1 if found else 0


if __name__ == "__main__":
    sys.exit(main())
