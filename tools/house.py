#!/usr/bin/env python3
"""How the inside of the crates is built: what may only become less, and further figures.

    python3 tools/house.py              holds the counts of tools/house.txt; ends in 'N passed, M failed'
    python3 tools/house.py --figures    prints these and further figures
    python3 tools/house.py --counts     rewrites tools/house.txt, where counts have fallen

A count is of a thing that a type or a definition with a name should say once: functions that take a window as a loose
offset and count, arms that cannot be reached, phrases of clauses and proofs for which there is a definition. Crates
are at most CRATES, so that one listing shows the layers.
"""

import re
import subprocess
import sys
from dataclasses import dataclass
from pathlib import Path

ROOT = Path(__file__).resolve().parent.parent
ALLOWED = ROOT / "tools/house.txt"
CRATES = 42
HEAD = re.compile(r"^ *(pub(?:\([a-z]+\))? )?(?:const )?(?:unsafe )?(?:extern \"C\" )?fn (\w+)", re.M)
OFFSET, COUNT = re.compile(r"\boffset: usize\b"), re.compile(r"\b(?:count|length|len): usize\b")
# Phrases by what they say, and how each is found in sources, definitions and proofs.
PHRASES = {
    "flags (form_of ..)": r"(?<![\w-])flags \(form_of ",
    "map unsigned_abs (map E.number ..)": r"(?<![\w-])map unsigned_abs \(map E\.number ",
    "optional_indices .. (mask_bits ..)": r"\boptional_indices T\.number \S+ \(mask_bits ",
}


@dataclass
class Function:
    """A function of a source: its name, whether other files may call it, its head up to the clauses, and all of it."""

    name: str
    is_public: bool
    head: str
    text: str


def functions(text: str) -> list[Function]:
    """The functions of a source, each up to the next one."""
    starts = list(HEAD.finditer(text))
    ends = [match.start() for match in starts[1:]] + [len(text)]
    found = []
    for match, end in zip(starts, ends):
        whole = text[match.start() : end]
        head = re.split(r"\n *(?:requires|ensures|where)\b|\{\n|;\n", whole, maxsplit=1)[0]
        found.append(Function(match[2], bool(match[1]), head, whole))
    return found


def windows(sources: dict[str, str]) -> int:
    """How many functions take a window as an offset and a count."""
    heads = [function.head for text in sources.values() for function in functions(text)]
    return sum(bool(OFFSET.search(head) and COUNT.search(head)) for head in heads)


def counts_of(sources: dict[str, str], statements: dict[str, str]) -> dict[str, int]:
    """What may only become less: in sources (.rt), and in these and statements (.antt)."""
    everything = "\n".join([*sources.values(), *statements.values()])
    found = {"functions with a loose offset and count": windows(sources)}
    found["unreachable!()"] = sum(text.count("unreachable!(") for text in sources.values())
    return found | {phrase: len(re.findall(pattern, everything)) for phrase, pattern in PHRASES.items()}


def with_one_caller(sources: dict[str, str]) -> tuple[int, int]:
    """How many private functions one place calls, and how many private functions there are."""
    one = every = 0
    for crate in sorted({path.split("/")[1] for path in sources}):
        texts = [text for path, text in sources.items() if path.startswith(f"crates/{crate}/")]
        code = re.sub(r"(?m)//.*$|^ *(?:pub )?use [^;]*;", "", "\n".join(texts))
        words: dict[str, int] = {}
        for word in re.findall(r"\b\w+\b", code):
            words[word] = words.get(word, 0) + 1
        private = [f.name for text in texts for f in functions(text) if not f.is_public and private_name(f.name)]
        every += len(private)
        one += sum(words[name] == 2 for name in private)
    return one, every


def private_name(name: str) -> bool:
    """Whether a function may be private: methods of the standard library's traits are not."""
    return name not in ("fmt", "clone", "drop", "from", "next", "eq", "main", "default")


def lines_of(pattern: str, sources: dict[str, str]) -> int:
    return sum(len(re.findall(pattern, text, re.M)) for text in sources.values())


def figures(sources: dict[str, str], specs: dict[str, str], proofs: dict[str, str]) -> dict[str, int]:
    """Further figures, which nothing holds."""
    one, every = with_one_caller(sources)
    heads = [function.head for text in sources.values() for function in functions(text)]
    return {
        "lines of sources": sum(text.count("\n") for text in sources.values()),
        "lines of definitions": sum(text.count("\n") for text in specs.values()),
        "lines of proofs": sum(text.count("\n") for text in proofs.values()),
        "functions": len(heads),
        "lines of signatures": sum(head.count("\n") + 1 for head in heads),
        "requires": lines_of(r"^ *requires\b", sources),
        "ensures": lines_of(r"^ *ensures\b", sources),
        "private functions": every,
        "private functions with one caller": one,
    }


def read(pattern: str) -> dict[str, str]:
    """The files of crates that git lists by this pattern, with their texts."""
    listed = subprocess.run(["git", "ls-files", pattern], cwd=ROOT, capture_output=True, text=True, check=True)
    paths = (path for path in listed.stdout.split("\n") if path and (ROOT / path).exists())
    return {path: (ROOT / path).read_text(encoding="utf-8") for path in paths}


def allowed(text: str) -> dict[str, int]:
    """The numbers of tools/house.txt, by what is counted."""
    rows = (line.split(" ", 1) for line in text.split("\n") if line and not line.startswith("#"))
    return {name: int(number) for number, name in rows}


def faults_of(found: dict[str, int], most: dict[str, int], crates: list[str]) -> list[str]:
    """Which counts have risen, and whether there are too many crates."""
    said = [
        f"{name}: {number}, and {most.get(name, 0)} may be (python3 tools/house.py --counts where it has fallen)"
        for name, number in found.items()
        if number > most.get(name, 0)
    ]
    return said + [f"{len(crates)} crates, and {CRATES} may be: join one with its layer"] * (len(crates) > CRATES)


def main() -> int:
    sources = read("crates/*.rt")
    specs, proofs = read("crates/*/specs/*.antt"), read("crates/*/proofs/*.antt")
    crates = re.findall(r"^(\w+)(?: staticlib)?:", (ROOT / "crates.txt").read_text(encoding="utf-8"), re.M)
    found = counts_of(sources, specs | proofs)
    if sys.argv[1:] == ["--figures"]:
        for name, number in ({"crates": len(crates)} | found | figures(sources, specs, proofs)).items():
            print(f"{number:7} {name}")
        return 0
    if sys.argv[1:] == ["--counts"]:
        head = "# How often each of these may be found in crates/; written by tools/house.py --counts.\n"
        ALLOWED.write_text(head + "".join(f"{number} {name}\n" for name, number in found.items()), encoding="utf-8")
        return 0
    faults = faults_of(found, allowed(ALLOWED.read_text(encoding="utf-8")), crates)
    for line in faults:
        print(line)
    print(f"{len(found) + 1 - len(faults)} passed, {len(faults)} failed")
    return 1 if faults else 0


if __name__ == "__main__":
    sys.exit(main())
