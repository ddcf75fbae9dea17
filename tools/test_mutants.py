#!/usr/bin/env python3
"""Tests of mutants.py, its sources and programs: bodies, choices, programs that see some, and what is reported."""

import contextlib
import io
import shutil
import subprocess
import tempfile
import unittest
from pathlib import Path
from unittest import mock

import ledger
import mutant_programs
import mutant_sources
import mutant_tests
import mutants
import wrong_bodies
from evidence import Vectors
from mutant_sources import Unbuilt

SOURCE = """use low::first;

pub trait Counted {
    fn count(&self) -> usize
        ensures positive { 0 < result };
}

impl Counted for Rows {
    fn count(&self) -> usize {
        if self.is_empty() {
            return 0;
        }
        self.rows
    }
}

pub(crate) fn doubled(rows: usize) -> usize
    requires small { rows < 2 ^ 63 }
    ensures record { result ≡ record {
      rows = 2;
    } }
{
    first(rows) + rows
}

const LEAST: usize = 1;
"""
TWICE = SOURCE.replace("first(rows) + rows", "first(rows)")
ZERO = SOURCE.replace("return 0", "return 1")


class BodiesTests(unittest.TestCase):
    """Where the bodies of a source are."""

    def test_a_body_is_found_below_clauses_and_none_where_a_trait_has_none(self):
        found = mutant_sources.bodies(SOURCE)
        self.assertEqual([body.name for body in found], ["count", "doubled"])
        texts = [SOURCE[body.start : body.end].strip() for body in found]
        self.assertTrue(texts[0].startswith("if self.is_empty()"))
        self.assertEqual(texts[1], "first(rows) + rows")

    def test_an_edit_changes_one_body_or_several(self):
        self.assertEqual([body.name for body in mutant_sources.changed(SOURCE, TWICE)], ["doubled"])
        both = ZERO.replace("first(rows) + rows", "first(rows)")
        self.assertEqual([body.name for body in mutant_sources.changed(SOURCE, both)], ["count", "doubled"])

    def test_text_behind_the_brace_of_a_head_is_in_the_body(self):
        edited = SOURCE.replace("fn count(&self) -> usize {", "fn count(&self) -> usize { let more = 1;")
        texts = list(mutant_sources.changed(SOURCE, edited).values())
        self.assertEqual(len(texts), 1)
        self.assertTrue(texts[0].startswith(" let more = 1;\n        if self.is_empty()"))

    def test_what_is_in_no_body_is_not_built(self):
        with self.assertRaises(Unbuilt):
            mutant_sources.changed(SOURCE, SOURCE.replace("usize = 1", "usize = 2"))


class ChoicesTests(unittest.TestCase):
    """Sources with wrong bodies in them."""

    def test_each_wrong_body_runs_by_its_number_and_else_the_right_one(self):
        other = SOURCE.replace("first(rows) + rows", "rows")
        made = mutant_sources.with_choices(SOURCE, {7: TWICE, 9: other, 3: ZERO})
        chosen = "".join(made[made.rindex("    } }\n{") :].split()).removeprefix("}}")
        first, second = "ifmutant::is_mutant(7){first(rows)}", "elseifmutant::is_mutant(9){rows}"
        self.assertTrue(chosen.startswith("{" + first + second + "else{first(rows)+rows}}const"))
        self.assertEqual(made.count("mutant::is_mutant"), 3)
        self.assertEqual(made.count("{"), made.count("}"))

    def test_imports_are_those_of_the_wrong_body(self):
        edited = TWICE.replace("use low::first;", "use low::{first, second};")
        made = mutant_sources.with_choices(SOURCE, {1: edited})
        self.assertTrue(made.startswith("use low::{first, second};\n"))

    def test_an_error_is_of_the_wrong_body_that_it_is_in(self):
        with tempfile.TemporaryDirectory() as folder:
            path = Path(folder) / "lib.rt"
            path.write_text(mutant_sources.with_choices(SOURCE, {7: TWICE, 3: ZERO}), encoding="utf-8")
            lines = path.read_text(encoding="utf-8").splitlines()
            place = next(number for number, line in enumerate(lines, 1) if line.strip() == "return 1;")
            self.assertEqual(mutants.culprits(f"{path}:{place}:9: error[type]: no\nrun=none\n"), {3})


class ModuleTests(unittest.TestCase):
    """The text of the module."""

    def test_the_number_is_asked_of_c(self):
        text = (
            'define internal i1 @"mutant::is_mutant"(i32 %0) #3 {\n  ret i1 false\n}\n'
            'define i32 @main() {\n  %1 = call i1 @"mutant::is_mutant"(i32 7)\n}\n'
        )
        made = mutants.asks_c(text)
        self.assertNotIn("mutant::is_mutant", made)
        self.assertIn("%1 = call i1 @hv_is_mutant(i32 7)", made)
        self.assertTrue(made.endswith("declare i1 @hv_is_mutant(i32)\n"))


class ReportTests(unittest.TestCase):
    """What is printed, counted and written."""

    LINES = Vectors("# two lines\na = flat u8 1 2\na sum => 3\n")

    def test_a_line_that_sees_a_wrong_body_is_named_by_its_words(self):
        told = mutants.seen_by_lines("1 3 differs\n2 unseen\n3 unreached\n4 2 crashes\n5 3 runs on\n", self.LINES)
        self.assertEqual(told[1], "line: a sum => 3")
        self.assertEqual((told[2], told[3]), ("unseen", "unreached"))
        self.assertEqual((told[4], told[5]), ("line: a = flat u8 1 2", "line: a sum => 3"))

    def test_each_wrong_body_has_a_line_and_is_counted_once(self):
        page = Path("crates/low/must-fail/by-hand.md")
        names = ["seen-at-a-line", "not-seen", "a-constant", "seen-by-a-test"]
        found = {number: wrong_bodies.WrongBody(page, name) for number, name in enumerate(names, 1)}
        told = {1: "line: a sum => 3", 2: "unseen", 3: "unreached", 4: "test: examples/c/sums.c"}
        out = io.StringIO()
        with contextlib.redirect_stdout(out):
            counts = mutants.report(found, {3: "it changes what is in no body"}, told)
        lines = out.getvalue().splitlines()
        self.assertEqual(lines[:2], ["1 low/seen-at-a-line line: a sum => 3", "2 low/not-seen unseen"])
        self.assertEqual(lines[2], "3 low/a-constant not built: it changes what is in no body")
        self.assertEqual(lines[3], "4 low/seen-by-a-test test: examples/c/sums.c")
        self.assertEqual(counts, {"seen": 2, "not seen": 1, "not built": 1})

    def test_results_have_what_is_seen_with_its_hash(self):
        page = Path("crates/low/must-fail/by-hand.md")
        found = {number: wrong_bodies.WrongBody(page, name) for number, name in ((1, "first"), (2, "second"))}
        with tempfile.TemporaryDirectory() as folder, mock.patch.object(ledger, "mark_of", lambda wrong: "0123"):
            mutants.write_results(Path(folder) / "results", found, {2: "line: a sum => 3", 1: "unseen"})
            text = (Path(folder) / "results").read_text(encoding="utf-8")
        self.assertEqual(text, "low/second 0123 line: a sum => 3\n")

    def test_a_crate_that_the_library_does_not_use_is_not_built(self):
        with tempfile.TemporaryDirectory() as folder, mock.patch.object(mutants, "ROOT", Path(folder)):
            (Path(folder) / "crates.txt").write_text("low:\nbeside: low\ntop staticlib: low\n", encoding="utf-8")
            self.assertEqual(mutants.linked("top"), {"top", "low"})


class ProgramsTests(unittest.TestCase):
    """Programs that see wrong bodies, of a library that has three and fails with the second."""

    LIBRARY = mutants.ANSWERS.format(count=3)
    SOURCE = """#include <stdbool.h>
#include <stdint.h>

bool hv_is_mutant(uint32_t number);

int main(void) {
    return hv_is_mutant(1) ? 0 : hv_is_mutant(2);
}
"""

    def setUp(self):
        folder = tempfile.TemporaryDirectory()
        self.addCleanup(folder.cleanup)
        self.root = Path(folder.name)
        (self.root / "examples/c").mkdir(parents=True)
        (self.root / "examples/c/second.c").write_text(self.SOURCE, encoding="utf-8")
        (self.root / "examples/c/fails.c").write_text("int main(void) { return 1; }\n", encoding="utf-8")
        (self.root / "answers.c").write_text(self.LIBRARY, encoding="utf-8")
        patch = mock.patch.object(mutant_programs, "ROOT", self.root)
        patch.start()
        self.addCleanup(patch.stop)

    @unittest.skipUnless(shutil.which("cc") and shutil.which("ar"), "no compiler of C")
    def test_a_program_sees_what_it_fails_with_of_what_it_reaches(self):
        subprocess.run(["cc", "-c", "answers.c"], cwd=self.root, check=True)
        subprocess.run(["ar", "rcs", "libhivevigil.a", "answers.o"], cwd=self.root, check=True)
        seen = mutant_programs.seen(self.root, [1, 2, 3])
        self.assertEqual(seen, {2: "test: examples/c/second.c"})

    def test_a_test_is_in_the_source_of_its_module(self):
        program = self.root / "tests"
        listed = 'echo "bits::parts::cut: test"; echo "whole: test"; echo "tests: 2"'
        program.write_text(f'#!/bin/sh\n[ "$1" = --list ] && {{ {listed}; exit; }}\necho 2 >"$HV_MUTANT_REACHED"\n')
        program.chmod(0o755)
        tests = mutant_tests.tests_of(program, "low")
        self.assertEqual([test.source for test in tests], ["crates/low/src/bits/parts.rt", "crates/low/src/lib.rt"])
        self.assertEqual([test.command[1] for test in tests], ["bits::parts::cut", "whole"])
        self.assertEqual(tests[0].reaches, {2})


if __name__ == "__main__":
    unittest.main()
