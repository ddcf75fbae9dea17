#!/usr/bin/env python3
"""Tests of wrong_bodies.py over small crates in a folder of their own, and an `rt` that only says what it was asked."""

import contextlib
import io
import os
import tempfile
import unittest
from pathlib import Path
from unittest import mock

import wrong_bodies

SOURCE = "let first = 1;\nlet second = 2;\nlet third = 2;\n"

# Says in which folder it was called, how, and what the source reads; a check fails with an error.
RT = """#!/bin/sh
cd "$TRIED_ROOT" || exit 2
{
    echo "$@" in "$(basename "$OLDPWD")"
    cat crates/low/src/lib.rt crates/low/must-fail/*.edit 2> /dev/null
} >> calls
[ "$1" = check ] || exit 0
echo 'src/lib.rt:1:5: error[private-field]: field `ends` is private' >&2
exit 1
"""


class Tree(unittest.TestCase):
    """A crate `low` with one source, and the pages that a test writes."""

    def setUp(self):
        folder = tempfile.TemporaryDirectory()
        self.addCleanup(folder.cleanup)
        self.root = Path(folder.name)
        self.stand_in(mock.patch.object(wrong_bodies, "ROOT", self.root))
        self.write("crates/low/src/lib.rt", SOURCE)

    def stand_in(self, patch):
        """Starts a patch that ends with the test."""
        patch.start()
        self.addCleanup(patch.stop)

    def write(self, name, text):
        path = self.root / name
        path.parent.mkdir(parents=True, exist_ok=True)
        path.write_text(text, encoding="utf-8")
        return path

    def page(self, *lines, crate="low", page="by-hand"):
        """Writes a page with one wrong body of these lines."""
        body = "".join(f"    {line}\n" for line in lines)
        self.write(f"crates/{crate}/must-fail/{page}.md", f"# Wrong bodies\n\n`an-edit`:\n\n{body}")


class LookTests(Tree):
    """Whether wrong bodies fit the sources."""

    def looked(self):
        """The status of a look and the lines that it prints."""
        out = io.StringIO()
        with contextlib.redirect_stdout(out):
            status = wrong_bodies.look()
        return status, out.getvalue().splitlines()

    def assert_fits(self):
        self.assertEqual(self.looked(), (0, ["1 passed, 0 failed"]))

    def assert_unfit(self, fault, name="low/an-edit"):
        status, lines = self.looked()
        self.assertEqual(status, 1)
        self.assertIn(f"{name}: {fault}", lines)

    def test_a_text_that_stands_once_fits(self):
        self.page("file: src/lib.rt", "old: first = 1", "new: first = 0")
        self.assert_fits()

    def test_each_page_of_a_crate_is_read(self):
        self.page("file: src/lib.rt", "old: first = 1", "new: first = 0", page="private-ends")
        self.page("file: src/lib.rt", "old: first = 1", "new: first = 2")
        self.assertEqual(self.looked(), (0, ["2 passed, 0 failed"]))

    def test_a_text_that_is_gone_or_stands_twice_does_not_fit(self):
        self.page("file: src/lib.rt", "old: fourth = 1", "new: fourth = 0")
        self.assert_unfit("an 'old:' text is in crates/low/src/lib.rt 0 times, and not once: fourth = 1")
        self.page("file: src/lib.rt", "old: = 2;", "new: = 3;")
        self.assert_unfit("an 'old:' text is in crates/low/src/lib.rt 2 times, and not once: = 2;")

    def test_a_later_pair_fits_what_the_earlier_one_made(self):
        self.page("file: src/lib.rt", "old: second = 2", "new: second = 3", "old: = 2;", "new: = 4;")
        self.assert_fits()
        pairs = ["old: first = 1", "new: first = 2", "file: src/lib.rt", "old: = 1", "new: = 2"]
        self.page("file: src/lib.rt", *pairs)
        self.assert_unfit("an 'old:' text is in crates/low/src/lib.rt 0 times, and not once: = 1")

    def test_a_file_that_is_gone_does_not_fit(self):
        self.page("file: src/gone.rt", "old: a", "new: b")
        self.assert_unfit("crates/low/src/gone.rt: No such file or directory")

    def test_lines_out_of_order_do_not_fit(self):
        self.page("old: first", "new: last")
        self.assert_unfit("no 'file:' line before the first text")
        self.page("file: src/lib.rt", "new: last")
        self.assert_unfit("a 'new:' line with no 'old:' line before it")
        self.page("file: src/lib.rt", "old: first")
        self.assert_unfit("an 'old:' line with no 'new:' line after it")
        self.page()
        self.assert_unfit("no lines")

    def test_an_edit_without_texts_does_not_fit(self):
        self.page("file: src/lib.rt")
        self.assert_unfit("no text is changed")

    def test_a_page_has_edits_alone(self):
        self.write("crates/low/must-fail/notes.md", "# Notes\n\nThe line\n\n    let first = 1;\n")
        self.assert_unfit("line 5 is of no edit: let first = 1;", "low/notes.md")
        self.assert_unfit("no wrong body is in it", "low/notes.md")

    def test_a_title_may_have_two_lines(self):
        lines = "    file: src/lib.rt\n    old: first = 1\n    new: first = 0\n"
        self.write("crates/low/must-fail/by-hand.md", f"# Wrong bodies\n\n`an-edit`, refused by\nits clause:\n\n{lines}")
        self.assert_fits()

    def test_a_title_without_a_colon_is_a_fault(self):
        lines = "    file: src/lib.rt\n    old: first = 1\n    new: first = 0\n"
        page = f"# Wrong bodies\n\n`an-edit`, refused by\n\n`its` clause:\n\n{lines}"
        self.write("crates/low/must-fail/by-hand.md", page)
        self.assert_unfit("line 3 is the end of a title, and has no colon: `an-edit`, refused by", "low/by-hand.md")

    def test_no_page_at_all_is_a_failure(self):
        self.assertEqual(self.looked(), (1, ["0 passed, 0 failed"]))

    def test_another_crate_may_be_edited(self):
        self.page("crate: low", "file: src/lib.rt", "old: first = 1", "new: first = 0", crate="high")
        self.assert_fits()

    def test_what_is_printed_is_printed_of_a_function(self):
        self.page("prints: error", "file: src/lib.rt", "old: first = 1", "new: first = 0")
        self.assert_unfit("'only:' and 'prints:' stand together")
        self.page("only: f", "file: src/lib.rt", "old: first = 1", "new: first = 0")
        self.assert_unfit("'only:' and 'prints:' stand together")


class TryTests(Tree):
    """The same crate, with an `rt` that takes the place of the toolchain's."""

    def setUp(self):
        super().setUp()
        self.write("bin/rt", RT).chmod(0o755)
        path = f"{self.root / 'bin'}{os.pathsep}{os.environ['PATH']}"
        self.stand_in(mock.patch.dict(os.environ, PATH=path, TRIED_ROOT=str(self.root)))

    def tried(self, crate):
        """The status of a try and the line that it prints."""
        out = io.StringIO()
        with contextlib.redirect_stdout(out):
            status = wrong_bodies.try_crate(crate)
        return status, out.getvalue()

    def calls(self):
        return (self.root / "calls").read_text(encoding="utf-8")

    def test_an_edit_stands_in_the_folder_while_it_is_tried(self):
        self.page("file: src/lib.rt", "old: first = 1", "new: first = 0")
        self.assertEqual(self.tried("low"), (0, ""))
        edit = "file: src/lib.rt\nold: first = 1\nnew: first = 0\n"
        self.assertEqual(self.calls(), f"must-fail low in {self.root.name}\n{SOURCE}{edit}")
        self.assertEqual(list(self.root.glob("crates/low/must-fail/*.edit")), [])

    def test_an_edit_of_the_same_name_is_left_alone(self):
        self.page("file: src/lib.rt", "old: first = 1", "new: first = 0")
        edit = self.write("crates/low/must-fail/an-edit.edit", "of another")
        with contextlib.redirect_stderr(io.StringIO()):
            self.assertEqual(self.tried("low")[0], 1)
        self.assertEqual(edit.read_text(encoding="utf-8"), "of another")

    def test_a_source_reads_as_before_after_a_check(self):
        lines = ["file: src/lib.rt", "old: first = 1", "new: first = 0"]
        self.page("crate: low", "only: f", "prints: error[private-field]", *lines, crate="high")
        self.assertEqual(self.tried("high"), (0, "low/an-edit: refused\n"))
        edited = SOURCE.replace("first = 1", "first = 0")
        self.assertEqual(self.calls(), f"check --only f in low\n{edited}")
        self.assertEqual((self.root / "crates/low/src/lib.rt").read_text(encoding="utf-8"), SOURCE)

    def test_another_error_is_no_refusal(self):
        lines = ["file: src/lib.rt", "old: first = 1", "new: first = 0"]
        self.page("crate: low", "only: f", "prints: error[no-such-name]", *lines, crate="high")
        self.assertEqual(self.tried("high"), (1, "low/an-edit: NOT refused so\n"))


if __name__ == "__main__":
    unittest.main()
