#!/usr/bin/env python3
"""The public call heads its file: what a reader comes for is above what it calls.

    python3 tools/public_first.py        names the files that begin otherwise; ends in 'N passed, M failed', N the files

A call is a function, a trait, or an `impl` that has functions. It is public where users of the crate see it, shared
where other files of the crate do, and else a helper; an `impl` is seen as its type and its trait are. The first call
of a file has to be of the widest sort that the file has. Macros, constants, types and modules may stand before it, and
tests are not calls. EXCEPTIONS names at most three files, each with its reason.
"""

import re
import subprocess
import sys
from pathlib import Path

ROOT = Path(__file__).resolve().parent.parent
HELPER, SHARED, PUBLIC = range(3)
SORTS = ("a helper", "what other files of the crate call", "a public call")
# By file why its public call is further down.
EXCEPTIONS: dict[str, str] = {}
ITEM = re.compile(r"^(pub(?:\([a-z]+\))? )?(?:const )?(?:unsafe )?(?:extern \"C\" )?(fn|struct|enum|trait|impl)\b(.*)")
METHOD = re.compile(r"^    (pub(?:\([a-z]+\))? )?(?:const )?(?:unsafe )?fn \w+", re.M)


def sort_of(visibility: str | None) -> int:
    """How widely what is written after this word is seen."""
    if not visibility:
        return HELPER
    return PUBLIC if visibility.strip() == "pub" else SHARED


def items_of(text: str) -> list[tuple[re.Match[str], str, bool]]:
    """The items of a file: how each begins, its lines, and whether it is a test."""
    lines = text.split("\n")
    heads = [(number, match) for number, line in enumerate(lines) if (match := ITEM.match(line))]
    stops = [number for number, _ in heads[1:]] + [len(lines)]
    return [
        (match, "\n".join(lines[number:stop]), lines[number - 1].startswith("#[test"))
        for (number, match), stop in zip(heads, stops)
    ]


def sort_of_impl(head: str, body: str, names: dict[str, int]) -> int | None:
    """How widely an `impl` is seen, or None where it has no function: that of a trait as the type and the trait are,
    those of other files being taken for public; else as its type is, or in another file than that as its functions are,
    and as a helper where all of them are private."""
    sorts = [sort_of(visibility) for visibility in METHOD.findall(body)]
    if not sorts:
        return None
    named = re.sub(r"^<(?:[^<>]|<[^<>]*>)*>|'\w+", "", head)
    trait, _, implemented = named.rpartition(" for ")
    typed = re.findall(r"\w+", implemented)[0]
    if trait:
        return min(names.get(re.findall(r"\w+", trait)[0], PUBLIC), names.get(typed, PUBLIC))
    return names.get(typed, max(sorts)) if max(sorts) > HELPER else HELPER


def calls_of(text: str) -> list[int]:
    """How widely each call of a file is seen, in their order."""
    items = items_of(text)
    kinds = ("struct", "enum", "trait")
    names = {re.findall(r"\w+", match[3])[0]: sort_of(match[1]) for match, _, _ in items if match[2] in kinds}
    calls: list[int | None] = []
    for match, body, is_test in items:
        if match[2] == "impl":
            calls.append(sort_of_impl(match[3], body, names))
        elif match[2] == "fn" and not is_test:
            calls.append(PUBLIC if match[3].startswith(" main(") else sort_of(match[1]))
        elif match[2] == "trait" and match[1]:
            calls.append(sort_of(match[1]))
    return [sort for sort in calls if sort is not None]


def fault_of(text: str) -> str | None:
    """What is wrong with the order of a file."""
    calls = calls_of(text)
    if not calls or calls[0] == max(calls):
        return None
    return f"{SORTS[calls[0]]} comes before {SORTS[max(calls)]}"


def main() -> int:
    listed = subprocess.run(["git", "ls-files", "crates/*.rt"], cwd=ROOT, capture_output=True, text=True, check=True)
    paths = [path for path in listed.stdout.split() if (ROOT / path).exists()]
    faults = {path: fault_of((ROOT / path).read_text(encoding="utf-8")) for path in paths}
    said = [f"{path}: {fault}" for path, fault in faults.items() if fault and path not in EXCEPTIONS]
    said += [f"{path}: an exception that is none" for path in EXCEPTIONS if not faults.get(path)]
    if len(EXCEPTIONS) > 3:
        said.append(f"{len(EXCEPTIONS)} exceptions, and 3 may be")
    for line in said:
        print(line)
    print(f"{len(paths) - len(said)} passed, {len(said)} failed")
    return 1 if said else 0


if __name__ == "__main__":
    sys.exit(main())
