"""Tests of ended_scripts.py."""

import os
import shutil
import subprocess
import tempfile
import unittest
from pathlib import Path

from ended_scripts import CALLS, FULL, SERVED, SHORT, Ended, Program, bad_at, is_short, judge

# Copies its input, in blocks for which it asks anew, and ends with 3 where a call fails.
COPIES = """
#include <stdlib.h>
#include <unistd.h>
int main(void) {
    for (;;) {
        char *block = malloc(4);
        long size = block ? read(0, block, 4) : -1;
        if (size == 0) return 0;
        if (size < 0 || write(1, block, (unsigned long)size) != size) return 3;
        free(block);
    }
}
"""


class Answers(Program):
    """A program that ends each script in the same way."""

    def __init__(self, ended: Ended) -> None:
        self.ended = ended

    def run(self, script: bytes, out: Path | None = None, **told: int) -> Ended:
        return self.ended


class EndedScripts(unittest.TestCase):
    def test_only_whole_first_answers_may_stand_before_memory_ends(self) -> None:
        for out, is_due in ((b"", True), (b"ok\n", True), (b"ok", False), (b"no\n", False), (b"ok\nok\n", False)):
            self.assertEqual(is_short(Ended(3, out, SHORT), b"ok\nrows\n"), is_due)
        self.assertFalse(is_short(Ended(0, b"ok\n"), b"ok\nrows\n"))
        self.assertFalse(is_short(Ended(3, b"ok\n", b"cannot read input\n"), b"ok\nrows\n"))

    def test_a_program_that_answers_all_in_one_way_is_told(self) -> None:
        count, others = judge(Answers(Ended(2, bad_at(1), counts=(40, 1))))
        self.assertEqual(count, 18)
        self.assertIn("served script", others)
        self.assertIn("request 40 refused", others)
        self.assertIn("line 'jump'", others)

    def test_no_answer_is_missing(self) -> None:
        script, answers = SERVED
        self.assertEqual(script.count(b"\n"), answers.count(b"\n"))

    @unittest.skipUnless(shutil.which(os.environ.get("CC", "cc")), "no C compiler")
    def test_calls_fail_where_they_are_told_to(self) -> None:
        with tempfile.TemporaryDirectory() as folder:
            work = Path(folder)
            (work / "copies.c").write_text(COPIES, encoding="utf-8")
            for source, flags in ((work / "copies.c", ["-O0"]), (CALLS, ["-shared", "-fPIC"])):
                made = work / source.with_suffix(".so").name
                subprocess.run([os.environ.get("CC", "cc"), *flags, source, "-o", made, "-ldl"], check=True)
            program = Program(work / "copies.so", work / "failing_calls.so", work)
            self.assertEqual(program.run(b"lines"), Ended(0, b"lines"))
            self.assertEqual(program.run(b"lines").counts, (3, 3))
            self.assertEqual(program.run(b"lines", refuse_only=2), Ended(3, b"line"))
            self.assertEqual(program.run(b"lines", refuse_from=1).counts, (1, 0))
            self.assertEqual(program.run(b"lines", fail_read=2), Ended(3, b"line"))
            self.assertEqual(program.run(b"lines", out=FULL), Ended(3))
            self.assertEqual(program.run(b"", endless_reads=1, fail_read=3), Ended(3, b"  "))


if __name__ == "__main__":
    unittest.main()
