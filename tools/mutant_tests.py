#!/usr/bin/env python3
"""Which test of a crate of tests sees each wrong body that is text, also of crates that the library for C lacks.

    python3 tools/mutant_tests.py FOLDER CRATE      CRATE is column_tests or conformance

The tests of the crate are built once, without proof, with all wrong bodies of the crates below (tools/mutants.py), in
some minutes, and run with each that they reach. A line of the output has the number of the wrong body, its crate and
its name, and the source with a test that fails, or else `unseen`. It ends in 'N seen, M not seen'. What is seen is in
FOLDER/evidence.txt, as tools/ledger.py reads it; FOLDER is another one than that of tools/mutants.py.
"""

import argparse
import os
import shutil
import subprocess
import sys
from pathlib import Path

import ledger
import mutant_programs
import mutants
import unproved_archive
from unproved_archive import TARGET


def tests_module(kit: Path, work: Path, crate: str) -> Path:
    """The module of the tests of a crate, with all wrong bodies that compile."""
    found, unbuilt = mutants.numbered(), {}
    while True:
        shutil.rmtree(work / "kit", ignore_errors=True)
        mutants.write_sources(work, found, unbuilt, mutants.linked(crate))
        try:
            return unproved_archive.module_of_tests(kit, work, work / "crates" / crate)
        except SystemExit:
            more = mutants.culprits((work / "try.log").read_text(errors="replace")) - set(unbuilt)
            if not more:
                raise
            unbuilt |= dict.fromkeys(more, "it does not compile next to the right body")


def build(work: Path, crate: str) -> Path:
    """The program of the tests: `--list` names them, and a name runs one."""
    kit = unproved_archive.machine_kit()
    text, program = work / "module.ll", work / "tests"
    module = tests_module(kit, work, crate)
    llvm = ["-S", "-emit-llvm", "-O0", "-Xclang", "-disable-llvm-passes"]
    unproved_archive.tool(kit, "clang", *TARGET, *llvm, module, "-o", text)
    text.write_text(mutants.asks_c(text.read_text()).replace(" sanitize_address", ""))
    quick = ["-O0", "-fPIC", "-ffunction-sections", "-c"]
    unproved_archive.tool(kit, "clang", *TARGET, *quick, text, "-o", work / "tests.o")
    (work / "answers.c").write_text(mutants.ANSWERS.format(count=len(mutants.numbered())), encoding="utf-8")
    parts = ["tests.o", "answers.c", kit / "c/libos_c.a", kit / "c/liblibc_c.a", mutant_programs.ONLY_USED]
    subprocess.run([os.environ.get("CC", "cc"), *parts, "-o", program], cwd=work, check=True)
    return program


def tests_of(program: Path, crate: str) -> list[mutant_programs.Program]:
    """Each test as a program; its source is the module that its name begins with."""
    listed = subprocess.run([program, "--list"], check=True, capture_output=True, text=True).stdout.splitlines()
    names = [line.removesuffix(": test") for line in listed if line.endswith(": test")]
    sources = [f"crates/{crate}/src/{'/'.join(name.split('::')[:-1]) or 'lib'}.rt" for name in names]
    told = program.with_name("reached")
    made = [mutant_programs.program_of(source, [str(program), name], told) for source, name in zip(sources, names)]
    return [test for test in made if test]


def main() -> int:
    parser = argparse.ArgumentParser(description=__doc__.partition("\n")[0])
    parser.add_argument("folder", type=Path, help="where the tests are built")
    parser.add_argument("crate", help="the crate whose tests they are")
    words = parser.parse_args()
    work, found = words.folder.resolve(), mutants.numbered()
    work.mkdir(parents=True, exist_ok=True)
    tests = tests_of(build(work, words.crate), words.crate)
    reached = sorted(set().union(*(test.reaches for test in tests)))
    seen = mutant_programs.seen_by(tests, reached)
    for number in reached:
        print(number, ledger.name_of(found[number]), seen.get(number, "unseen"))
    mutants.write_results(work / "evidence.txt", found, seen)
    print(f"{len(seen)} seen, {len(reached) - len(seen)} not seen")
    return 0


if __name__ == "__main__":
    sys.exit(main())
