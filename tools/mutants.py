#!/usr/bin/env python3
"""Which line of the vectors or test sees each wrong body that stands as text (crates/NAME/must-fail/*.md).

    python3 tools/mutants.py FOLDER [FILE]      FOLDER keeps the library for a next call; FILE has other lines
        --programs                              also runs programs of examples/c and examples/cpp with those not seen
        --most N                                tries N lines with each, if not all that reach it

The library for C is built once, without proof, in some ten minutes: a function that has wrong bodies begins with a
question which of them is to run. `examples/vectors/runner/mutants.cpp` then answers lines with each in turn, in some
minutes more. A line of the output has the number of the wrong body, its crate and its name, and then a line whose
answer differs, at which the process crashes (the library has the checks of `rt try`), or at which it runs on for
seconds, or a program that fails, or else why there is none: no line reaches the function, or none that does differs.
What is not a body of a function of the library is not built: constants, macros, contracts, and crates that the library
does not use.

It ends in 'N seen, M not seen, K not built'. FOLDER is made anew where the sources or the pages have changed. What the
file of vectors or a program sees is in FOLDER/evidence.txt too, which `tools/ledger.py evidence` reads, with what was
there and still holds. A program that is linked with
FOLDER/libhivevigil.a runs with the wrong body whose number HV_MUTANT has in its environment, and leaves in the file
HV_MUTANT_REACHED the numbers of all that it reaches.
"""

import argparse
import hashlib
import json
import os
import re
import shutil
import subprocess
import sys
from collections import Counter
from pathlib import Path

import evidence
import ledger
import mutant_programs
import mutant_sources
import unproved_archive
import wrong_bodies
from evidence import Result, Vectors
from mutant_sources import Unbuilt
from wrong_bodies import ROOT, WrongBody

VECTORS = ROOT / "examples/vectors/lines.txt"
RUNNER = ROOT / "examples/vectors/runner/mutants.cpp"
# How many lines are tried that begin with the words by which one is known.
TRIED = 3
# The crate that is asked which wrong body runs; the library asks C in its place.
ASKED = """//! Which wrong body runs.

#![tactic(auto)]

/// Returns whether the wrong body with this number is to run.
#[inline(never)]
pub fn is_mutant(number: u32) -> bool {
    number == 4294967295
}
"""
# What the library asks, where no runner answers it.
ANSWERS = """#include <stdbool.h>
#include <stdint.h>
#include <stdio.h>
#include <stdlib.h>

static long chosen = -1;
static bool is_reached[{count} + 1];

static void tell_reached(void) {{
    FILE *file = fopen(getenv("HV_MUTANT_REACHED"), "w");
    for (long number = 1; file && number <= {count}; number++)
        if (is_reached[number]) fprintf(file, "%ld\\n", number);
    if (file) fclose(file);
}}

bool hv_is_mutant(uint32_t number) {{
    if (chosen < 0) {{
        const char *given = getenv("HV_MUTANT");
        chosen = given ? atol(given) : 0;
        if (getenv("HV_MUTANT_REACHED")) atexit(tell_reached);
    }}
    if (number <= {count}) is_reached[number] = true;
    return number == (uint64_t)chosen;
}}
"""
DEFINITION = re.compile(
    r'^define internal ([^@\n]*)(@"?mutant::is_mutant[^(\n]*)\((.*?)\)[^{\n]*\{\n.*?^\}\n', re.M | re.S
)
REFUSED = re.compile(r"^(/\S+\.rt):(\d+):\d+: error", re.M)
CHOSEN = re.compile(r"mutant::is_mutant\((\d+)\)")


def numbered() -> dict[int, WrongBody]:
    """All wrong bodies, from 1, in the order of the pages."""
    found = [wrong for page in wrong_bodies.pages() for wrong in wrong_bodies.wrong_bodies(page)[0]]
    return dict(enumerate(found, start=1))


def linked(crate: str = "hivevigil") -> set[str]:
    """The crates of this repository that a crate is made of."""
    lines = re.findall(r"^(\w+)(?: staticlib)?:(.*)$", (ROOT / "crates.txt").read_text(encoding="utf-8"), re.M)
    uses = {name: words.split() for name, words in lines}
    found, more = set(), [crate]
    while more:
        name = more.pop()
        if name in uses and name not in found:
            found.add(name)
            more += uses[name]
    return found


def edits(wrong: WrongBody, crates: set[str]) -> dict[Path, str]:
    """The sources that a wrong body changes, as they read with it, where it can be built."""
    if wrong.crate().name not in crates:
        raise Unbuilt("the library does not use the crate")
    if not wrong.compiles():
        raise Unbuilt("it is not to compile")
    edited = wrong.edited()
    if not any(mutant_sources.changed(wrong_bodies.read(path), text) for path, text in edited.items()):
        raise Unbuilt("it changes what is in no body")
    return edited


def write_sources(work: Path, found: dict[int, WrongBody], unbuilt: dict[int, str], crates: set[str]) -> None:
    """Writes the crates with all wrong bodies of these in them, but for those that are not built, to which it adds."""
    shutil.rmtree(work / "crates", ignore_errors=True)
    shutil.copytree(ROOT / "crates", work / "crates", ignore=shutil.ignore_patterns("out"))
    wrong_by_path: dict[Path, dict[int, str]] = {}
    for number, wrong in found.items():
        try:
            for path, text in {} if number in unbuilt else edits(wrong, crates).items():
                wrong_by_path.setdefault(path, {})[number] = text
        except Unbuilt as why:
            unbuilt[number] = str(why)
    for path, wrong_texts in wrong_by_path.items():
        made = mutant_sources.with_choices(wrong_bodies.read(path), wrong_texts)
        (work / path.relative_to(ROOT)).write_text(made, encoding="utf-8")
    add_asked_crate(work)


def add_asked_crate(work: Path) -> None:
    """Adds the crate that is asked which wrong body runs, below each other."""
    sources = work / "crates/mutant/src"
    sources.mkdir(parents=True)
    (sources / "lib.rt").write_text(ASKED, encoding="utf-8")
    lines = (ROOT / "crates.txt").read_text(encoding="utf-8")
    with_it = re.sub(r"^(\w+(?: staticlib)?:)", r"\1 mutant", lines, flags=re.M)
    (work / "crates.txt").write_text(f"mutant:\n{with_it}", encoding="utf-8")
    shutil.copy(ROOT / "HANDLES", work / "HANDLES")


def asks_c(text: str) -> str:
    """The text of the module, with the number of the wrong body asked of C."""
    found = DEFINITION.search(text)
    if not found:
        unproved_archive.fail("the module has no mutant::is_mutant")
    types = ", ".join(re.findall(r"(?:^|, )(\w+)", found[3]))
    without = text[: found.start()] + text[found.end() :]
    return without.replace(found[2], "@hv_is_mutant") + f"\ndeclare {found[1]}@hv_is_mutant({types})\n"


def culprits(log: str) -> set[int]:
    """The wrong bodies whose text the errors of a log are in."""
    found = set()
    for path, line in REFUSED.findall(log):
        above = "\n".join(Path(path).read_text(encoding="utf-8").splitlines()[: int(line)])
        if numbers := CHOSEN.findall(above):
            found.add(int(numbers[-1]))
    return found


def build(kit: Path, work: Path, found: dict[int, WrongBody]) -> dict[int, str]:
    """Builds the library with all wrong bodies that compile, and says of each other why it is not in it."""
    unbuilt: dict[int, str] = {}
    while True:
        shutil.rmtree(work / "kit", ignore_errors=True)
        write_sources(work, found, unbuilt, linked())
        crate = work / "crates/hivevigil"
        exports = unproved_archive.add_tests(crate)
        try:
            module = unproved_archive.module_of_tests(kit, work, crate)
            break
        except SystemExit:
            more = culprits((work / "try.log").read_text(errors="replace")) - set(unbuilt)
            if not more:
                raise
            unbuilt |= dict.fromkeys(more, "it does not compile next to the right body")
    # The lines take seconds as they are; what makes them faster takes minutes.
    unproved_archive.compile_archive(kit, work, module, exports, work / "libhivevigil.a", asks_c, "-O0")
    (work / "answers.c").write_text(ANSWERS.format(count=len(found)), encoding="utf-8")
    compiler = [os.environ.get("CC", "cc"), "-O2", "-fPIC", "-c"]
    subprocess.run([*compiler, "answers.c", "-o", "answers.o"], cwd=work, check=True)
    subprocess.run(["ar", "x", kit / "c/liblibc_c.a", "heap.pic.o"], cwd=work, check=True)
    subprocess.run(["ar", "rs", "libhivevigil.a", "heap.pic.o", "answers.o"], cwd=work, check=True)
    return unbuilt


def compile_runner(work: Path) -> None:
    """Compiles what answers the lines, and links it with the library, where this or the runner has changed."""
    program, library = work / "mutants", work / "libhivevigil.a"
    parts = [library, *RUNNER.parent.iterdir(), *ROOT.glob("include/*")]
    if program.exists() and program.stat().st_mtime > max(part.stat().st_mtime for part in parts):
        return
    # What the runner does itself takes little: it is compiled as quickly as can be.
    compiler = [os.environ.get("CXX", "c++"), "-std=c++17", "-O0", f"-I{ROOT / 'include'}"]
    links = [*mutant_programs.WRAPPED, mutant_programs.ONLY_USED]
    subprocess.run([*compiler, RUNNER, library, *links, "-o", program], check=True)


def mark_of_sources() -> str:
    """A hash of what the library is made of."""
    paths = [*ROOT.glob("crates/*/src/**/*.rt"), *ROOT.glob("crates/*/must-fail/*.md"), ROOT / "crates.txt"]
    texts = [str(path.relative_to(ROOT)).encode() + path.read_bytes() for path in sorted(paths)]
    return hashlib.sha256(b"\0".join(texts)).hexdigest()


def seen_by_lines(answers: str, lines: Vectors) -> dict[int, str]:
    """What the runner says of each wrong body: evidence where a line sees it, or else why there is none."""
    told = [line.split(" ", 2) for line in answers.splitlines()]
    return {int(words[0]): f"line: {lines.name(int(words[1]))}" if len(words) > 2 else words[1] for words in told}


def write_known(work: Path, found: dict[int, WrongBody], lines: Vectors) -> Path:
    """Writes for the runner which lines saw wrong bodies before: those of the ledgers, and of the results of FOLDER."""
    results = work / "evidence.txt"
    text = results.read_text(encoding="utf-8") if results.is_file() else ""
    known = {name: line.evidence for name, line in ledger.kept_lines().items()}
    known |= {result.name: result.evidence for result in evidence.results_of(text)}
    told = []
    for number, wrong in found.items():
        kind, _, words = known.get(ledger.name_of(wrong), "").partition(" ")
        told += [f"{number} {place}\n" for place in (lines.places(words, TRIED) if kind == "line:" else [])]
    (work / "known").write_text("".join(told), encoding="utf-8")
    return work / "known"


def report(found: dict[int, WrongBody], unbuilt: dict[int, str], told: dict[int, str]) -> Counter[str]:
    """Prints what became of each wrong body, and counts."""
    counts: Counter[str] = Counter()
    for number, wrong in found.items():
        how = f"not built: {unbuilt[number]}" if number in unbuilt else told[number]
        is_seen = how.startswith(evidence.SEEN)
        counts["seen" if is_seen else "not built" if number in unbuilt else "not seen"] += 1
        print(number, ledger.name_of(wrong), how)
    return counts


def kept_results(path: Path, found: dict[int, WrongBody], lines: Vectors) -> dict[int, str]:
    """The evidence that a file of results has of wrong bodies as they are now: no text of them has changed, and each
    line and test is still there."""
    results = evidence.results_of(path.read_text(encoding="utf-8")) if path.is_file() else []
    numbers = {(ledger.name_of(wrong), ledger.mark_of(wrong)): number for number, wrong in found.items()}
    known = {numbers.get((result.name, result.mark), 0): result.evidence for result in results}
    return {number: how for number, how in known.items() if number and not evidence.fault(how, ROOT, lines)}


def with_kept(told: dict[int, str], kept: dict[int, str]) -> dict[int, str]:
    """What became of each wrong body, where one that this run did not see has the evidence of an earlier one."""
    return told | {number: how for number, how in kept.items() if not told.get(number, "").startswith(evidence.SEEN)}


def write_results(path: Path, found: dict[int, WrongBody], told: dict[int, str]) -> None:
    """Writes what is seen as tools/ledger.py reads it."""
    seen = {number: how for number, how in sorted(told.items()) if how.startswith(evidence.SEEN)}
    wrongs = {number: found[number] for number in seen}
    results = [Result(ledger.name_of(each), ledger.mark_of(each), seen[number]) for number, each in wrongs.items()]
    path.write_text("".join(result.text() for result in results), encoding="utf-8")


def main() -> int:
    parser = argparse.ArgumentParser(description=__doc__.partition("\n")[0])
    parser.add_argument("folder", type=Path, help="where the library is kept")
    parser.add_argument("file", type=Path, nargs="?", default=VECTORS, help="the lines, if not those of the vectors")
    parser.add_argument("--programs", action="store_true", help="runs programs of examples too")
    parser.add_argument("--most", type=int, help="how many lines are tried with each, if not all that reach it")
    words = parser.parse_args()
    work = words.folder.resolve()
    work.mkdir(parents=True, exist_ok=True)
    found, kept = numbered(), work / "unbuilt.json"
    mark = mark_of_sources()
    if not kept.exists() or json.loads(kept.read_text())["mark"] != mark:
        kit = unproved_archive.machine_kit()
        kept.write_text(json.dumps({"mark": mark, "unbuilt": build(kit, work, found)}))
    unbuilt = {int(number): why for number, why in json.loads(kept.read_text())["unbuilt"].items()}
    compile_runner(work)
    lines = Vectors(words.file.read_text(encoding="utf-8"))
    command = [work / "mutants", words.file, str(len(found)), write_known(work, found, lines)]
    command += [str(words.most)] if words.most else []
    told = seen_by_lines(subprocess.run(command, check=True, stdout=subprocess.PIPE, text=True).stdout, lines)
    if words.file == VECTORS:
        told = with_kept(told, kept_results(work / "evidence.txt", found, lines))
    if words.programs:
        unseen = [number for number, how in told.items() if how in ("unseen", "unreached") and number not in unbuilt]
        told |= mutant_programs.seen(work, unseen)
    counts = report(found, unbuilt, told)
    if words.file == VECTORS:
        write_results(work / "evidence.txt", found, told)
    print(f"{counts['seen']} seen, {counts['not seen']} not seen, {counts['not built']} not built")
    return 0


if __name__ == "__main__":
    sys.exit(main())
