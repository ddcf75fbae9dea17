#!/usr/bin/env python3
"""Tests of ledger.py and ledger_tries.py over small crates in a folder of their own, and a prover that a script is."""

import contextlib
import io
import os
import tempfile
import unittest
from pathlib import Path
from types import SimpleNamespace
from unittest import mock

import evidence
import ledger
import ledger_tries
import wrong_bodies
from evidence import Vectors
from ledger import Line, function_at, line_of, owner_of
from ledger_tries import Batch, Prover, Refusal, batches, refusal

SOURCE = """use std::vec::Vec;

/// Adds one.
pub fn next(number: u32) -> u32
    requires small { number < 100 }
    ensures answer { result ≡ number + 1 }
{
    // The next one.
    number + 1
}

impl<T: Copy, A> Index<u8, A> for Bits<T> {
    fn index(&self, at: u8) -> bool {
        self.bits[at]
    }
}

impl Bits<u8> {
    fn first(&self) -> bool {
        self.bits[0]
    }
}
"""
PAGE = """# Wrong bodies

`two-are-added`:

    file: src/lib.rt
    old:     number + 1
    new:     number + 2

`the-second-is-first`:

    file: src/lib.rt
    old: self.bits[0]
    new: self.bits[1]
"""
MARK = "0123456789ab"

# Refuses what adds two, cannot read `self.third`, and proves the rest. Each call is a line of `calls`.
PROVER = """#!/bin/sh
echo "$@" >> "$CALLS"
if grep -q 'self.third' src/lib.rt; then
    echo 'src/lib.rt:20:9: error[no-such-field]: `Bits` has no field `third`'
    exit 1
fi
case "$*" in *next*)
    if grep -q 'number + 2' src/lib.rt; then
        echo 'fn low::next: no proof: expected answers in ./proofs/next/Answers.antt; `search` did not prove `returns`'
        echo 'note: `returns` of proofs/next/Answers.antt may be false: the known facts allow `number` = `0`'
    else
        echo 'fn low::next: no holes'
    fi ;;
esac
case "$*" in *Bits::first*)
    if grep -q 'self.other' src/lib.rt && [ -f proofs/Bits/first/Answers.antt ]; then
        echo './proofs/Bits/first/Answers.antt:4:5: error: `bounds-self` is not in scope'
        echo 'fn low::Bits::first: not proved'
    elif grep -q 'self.other' src/lib.rt; then
        echo 'fn low::Bits::first: no proof: expected answers in ./proofs/x; `search` did not prove `bounds-other`'
        echo 'note: `bounds-other` of proofs/Bits/first/Answers.antt may be false: the known facts allow `other` = `[]`'
    else
        echo 'fn low::Bits::first: no holes'
    fi ;;
esac
"""


class Tree(unittest.TestCase):
    """A crate `low` with one source and a page of two wrong bodies."""

    def setUp(self) -> None:
        folder = tempfile.TemporaryDirectory()
        self.addCleanup(folder.cleanup)
        self.root = Path(folder.name)
        self.stand_in(mock.patch.object(wrong_bodies, "ROOT", self.root))
        self.write("crates/low/src/lib.rt", SOURCE)
        self.write("crates/low/must-fail/by-hand.md", PAGE)

    def stand_in(self, patch) -> None:
        """Starts a patch that ends with the test."""
        patch.start()
        self.addCleanup(patch.stop)

    def write(self, name: str, text: str) -> Path:
        path = self.root / name
        path.parent.mkdir(parents=True, exist_ok=True)
        path.write_text(text, encoding="utf-8")
        return path

    def lines(self) -> list[str]:
        return ledger.read(self.root / "crates/low/must-fail/ledger.md")

    def write_lines(self, *lines: str) -> None:
        self.write("crates/low/must-fail/ledger.md", "# Lines\n\n" + "".join(f"    {line}\n" for line in lines))

    def write_true_lines(self) -> None:
        """Writes the ledger as it would be after a try of both."""
        marks = [(wrong.name, ledger.mark_of(wrong)) for wrong in ledger.every()]
        ledger.write("low", [Line(name, mark, "kit", "f", "returns", "goal", 1) for name, mark in marks])


class ReadTests(Tree):
    """Functions of sources, and lines."""

    def test_a_function_reaches_from_its_head_to_its_brace(self) -> None:
        found = function_at("rows", SOURCE, SOURCE.find("number + 1\n}"))
        self.assertEqual(found.path, "rows::next")
        self.assertTrue(found.text.startswith("pub fn next(") and found.text.endswith("number + 1\n}"))
        self.assertIsNone(function_at("rows", SOURCE, SOURCE.find("std::vec")))

    def test_a_method_has_the_name_of_its_type_and_of_its_trait(self) -> None:
        self.assertEqual(function_at("", SOURCE, SOURCE.find("self.bits[at]")).path, "BitsIndexU8::index")
        self.assertEqual(function_at("a::b", SOURCE, SOURCE.find("self.bits[0]")).path, "a::b::Bits::first")
        self.assertEqual(owner_of("impl<'a, F: Fn(u8) -> bool> Iterator for &'a mut Words<'a, F> {"), "WordsIterator")

    def test_a_method_of_a_type_of_another_file_is_of_that_module(self) -> None:
        self.write("crates/low/src/bits/views.rt", "pub struct Bits<T> {\n    bits: T,\n}\n")
        paths = [[each.path for each in ledger.functions_of(wrong)] for wrong in ledger.every()]
        self.assertEqual(paths, [["next"], ["bits::views::Bits::first"]])

    def test_a_trait_at_its_own_type_is_not_named_twice(self) -> None:
        self.assertEqual(owner_of("impl SummedIn<u64> for u64 {"), "U64SummedIn")
        self.assertEqual(owner_of("impl SummedIn<u64> for u8 {"), "U8SummedInU64")

    def test_a_function_of_a_macro_is_named_by_its_module(self) -> None:
        source = "macro_rules! m {\n    ($t:ty) => {\n        fn f() {\n            1\n        }\n    };\n}\n"
        self.assertEqual(function_at("stored", source, source.find("1")).path, "stored")

    def test_a_line_is_read_as_it_is_written(self) -> None:
        line = Line("a-slip", MARK, "rattle-kit-13f", "rows::next", "returns", "goal", 17, "line 7 of the vectors")
        self.assertEqual(line_of(line.text().rstrip()), line)
        self.assertIsNone(line_of("a-slip 0123 kit f returns goal soon"))
        self.assertIsNone(line_of("a-slip 0123"))


class EvidenceTests(Tree):
    """What lines of the ledger say that a user sees."""

    VECTORS = "# bits\nb = flat bool true\nb at 0 => true\nb at 0 => false\nb at 0 => false\n"

    def setUp(self) -> None:
        super().setUp()
        self.write(evidence.VECTORS, self.VECTORS)
        self.write("examples/c/bits.c", "")
        self.write_true_lines()

    def given(self, *results: str) -> list[str]:
        """The evidence of both lines, after these results: a name without its crate, the hash or `MARK`, evidence."""
        marks = {wrong.name: ledger.mark_of(wrong) for wrong in ledger.every()}
        texts = [f"low/{result}".replace("MARK", marks[result.split()[0]]) for result in results]
        with contextlib.redirect_stdout(io.StringIO()):
            ledger.write_evidence(evidence.results_of("\n".join(texts)))
        return [line_of(line).evidence for line in self.lines()]

    def test_results_go_into_the_lines_of_the_same_text(self) -> None:
        first, second = "two-are-added MARK line: b at 0 => true", "the-second-is-first 0123 test: examples/c/bits.c"
        self.assertEqual(self.given(first, second), ["line: b at 0 => true", ""])
        self.assertEqual(self.given(second.replace("0123", "MARK"))[1], "test: examples/c/bits.c")

    def test_what_a_line_has_stays_while_it_is_there(self) -> None:
        self.given("two-are-added MARK line: b at 0 => true", "the-second-is-first MARK none: cost")
        later = ["two-are-added MARK test: examples/c/bits.c", "the-second-is-first MARK line: b at 0 => false"]
        self.assertEqual(self.given(*later), ["line: b at 0 => true", "line: b at 0 => false"])
        self.write(evidence.VECTORS, "b = flat bool true\n")
        self.assertEqual(self.given(*later), ["test: examples/c/bits.c", "line: b at 0 => false"])

    def test_evidence_that_is_not_there_fails(self) -> None:
        for bad, why in [
            ("line: b at 1", "is a line that is not in examples/vectors/lines.txt: b at 1"),
            ("line: b at 0 => tru", "is a line that is not in examples/vectors/lines.txt: b at 0 => tru"),
            ("test: examples/c/bytes.c", "is a test that is not there: examples/c/bytes.c"),
            ("line 7", "is none of line:, test:, none:"),
        ]:
            self.write_true_lines()
            self.given(f"two-are-added MARK {bad}")
            out = io.StringIO()
            with contextlib.redirect_stdout(out):
                status = ledger.look()
            self.assertEqual((status, out.getvalue().split("\n")[0]), (1, f"low/two-are-added: its evidence {why}"))

    def test_a_look_counts_evidence(self) -> None:
        self.given("two-are-added MARK line: b at 0", "the-second-is-first MARK none: only the cost changes")
        out = io.StringIO()
        with contextlib.redirect_stdout(out):
            status = ledger.look()
        self.assertEqual(status, 0)
        self.assertIn("evidence of 2 of 2, and of 0 of 0 that a written proof refused\n", out.getvalue())

    def test_a_line_is_named_by_words_that_no_other_begins_with(self) -> None:
        rows = " ".join(["true"] * 20)
        long = [f"b rows => {rows} {last}" for last in ("true false", "false true true", "false true")]
        lines = Vectors("\n".join([self.VECTORS, *long]))
        self.assertEqual(lines.name(3), "b at 0 => true")
        self.assertEqual(lines.name(4), "b at 0 => false")
        self.assertEqual(lines.name(7), long[0].removesuffix(" false"))
        self.assertEqual(lines.name(8), long[1])
        self.assertEqual(lines.places("b at 0 =>", 2), [4, 5])
        self.assertEqual((lines.places(long[1], 2), lines.places("b at 0 => t", 2)), ([8], []))


class LookTests(Tree):
    """Whether each wrong body has its line."""

    def looked(self) -> tuple[int, list[str]]:
        out = io.StringIO()
        with contextlib.redirect_stdout(out):
            status = ledger.look()
        return status, out.getvalue().splitlines()

    def test_lines_of_the_text_as_it_is_pass(self) -> None:
        self.write_true_lines()
        self.assertEqual(self.looked(), (0, ["2 passed, 0 failed"]))

    def test_one_without_a_line_fails(self) -> None:
        self.assertEqual(self.looked()[1][0], "low/two-are-added: was never tried")
        self.assertEqual(self.looked()[0], 1)

    def test_comments_and_spaces_of_a_function_may_change(self) -> None:
        self.write_true_lines()
        text = SOURCE.replace("// The next one.", "// One more, and no more.").replace("number < 100", "number  <  100")
        self.write("crates/low/src/lib.rt", text)
        self.assertEqual(self.looked()[0], 0)

    def test_another_contract_makes_only_the_lines_of_its_function_stale(self) -> None:
        self.write_true_lines()
        self.write("crates/low/src/lib.rt", SOURCE.replace("number < 100", "number < 10"))
        self.assertEqual(self.looked(), (1, ["low/two-are-added: changed since it was tried", "1 passed, 1 failed"]))

    def test_another_edit_is_stale(self) -> None:
        self.write_true_lines()
        page = self.root / "crates/low/must-fail/by-hand.md"
        page.write_text(page.read_text(encoding="utf-8").replace("self.bits[1]", "self.bits[2]"), encoding="utf-8")
        self.assertIn("low/the-second-is-first: changed since it was tried", self.looked()[1])

    def test_two_of_one_name_fail(self) -> None:
        page = self.root / "crates/low/must-fail/by-hand.md"
        text = page.read_text(encoding="utf-8").replace("the-second-is-first", "two-are-added")
        page.write_text(text, encoding="utf-8")
        self.write_true_lines()
        self.assertIn("low/two-are-added: two have this name", self.looked()[1])

    def test_a_line_of_no_wrong_body_or_out_of_order_fails(self) -> None:
        self.write_true_lines()
        first, second = self.lines()
        self.write_lines(second, first)
        self.assertIn("low: lines are not in the order of its pages, each once", self.looked()[1])
        self.write_lines(first, second, second.replace("the-second", "the-third"))
        self.assertIn("low/the-third-is-first: a line of no wrong body", self.looked()[1])
        self.write_lines(first, second, "half a line")
        self.assertIn("low: a line that cannot be read: half a line", self.looked()[1])

    def write_open(self, number: int) -> None:
        """Writes that so many have no verdict, into the list, with its names, and into pages."""
        names = "low/two-are-added\nlow/the-second-is-first\n"
        self.write("tools/ledger_open.txt", f"# {number} wrong bodies have no verdict of their text yet\n{names}")
        for page in ledger.SAID_IN:
            self.write(page, "So far 2 wrong\nbodies have no verdict.\n")

    def test_what_has_no_verdict_yet_is_skipped(self) -> None:
        self.write_open(2)
        self.assertEqual(self.looked(), (0, ["0 passed, 0 failed, 2 skipped"]))

    def test_the_list_of_these_may_not_grow(self) -> None:
        self.write_open(1)
        fault = "tools/ledger_open.txt has 2 names, and 1 may be: it may only become shorter"
        self.assertEqual(self.looked(), (1, [fault, "0 passed, 1 failed, 2 skipped"]))

    def test_pages_say_how_many_have_no_verdict(self) -> None:
        self.write_open(2)
        self.write("docs/GATE.md", "All have a verdict.")
        self.assertEqual(self.looked()[1][0], "docs/GATE.md: does not say once that 2 wrong bodies have no verdict")

    def test_what_has_a_line_by_now_is_taken_out(self) -> None:
        self.write_open(2)
        first = ledger.every()[0]
        ledger.write("low", [Line(first.name, ledger.mark_of(first), "kit", "f", "returns", "goal", 1)])
        self.assertIn("low/two-are-added: has a line, so take it out of tools/ledger_open.txt: open", self.looked()[1])
        with contextlib.redirect_stdout(io.StringIO()):
            self.assertEqual(ledger.write_open(), 0)
        self.assertEqual(self.looked(), (0, ["1 passed, 0 failed, 1 skipped"]))
        self.assertIn("So far 1 wrong\nbodies", (self.root / "docs/GATE.md").read_text(encoding="utf-8"))

    def test_no_wrong_body_at_all_is_a_failure(self) -> None:
        (self.root / "crates/low/must-fail/by-hand.md").unlink()
        self.assertEqual(self.looked(), (1, ["0 passed, 0 failed"]))


class OutputTests(unittest.TestCase):
    """What the lines of a check say of a function."""

    def test_a_counterexample_comes_before_a_goal_without_one(self) -> None:
        text = (
            "fn low::a::f: no proof: expected answers in ./proofs/a/f/Answers.antt; "
            "`search` did not prove `b`, `returns`\n"
            "note: `returns` of proofs/a/f/Answers.antt may be false: the known facts allow `x` = `0`\n"
        )
        self.assertEqual(refusal(text, "low", ["a::f"]), Refusal("a::f", "returns", "false"))
        self.assertEqual(refusal(text.split("\n")[0], "low", ["a::f"]), Refusal("a::f", "b", "goal"))
        self.assertIsNone(refusal(text, "low", ["a::g"]))
        self.assertIsNone(refusal(text, "high", ["a::f"]))

    def test_a_written_proof_names_its_goal(self) -> None:
        text = (
            "./proofs/a/f/Answers.antt:5:31: error: `returns`: expected type `1 ≡ 2`, but this has type `1 ≡ 1`\n"
            "fn low::a::f: not proved; it stands on `Rattle.low.proofs.a.f.Answers.returns`, which antt refuses\n"
        )
        self.assertEqual(refusal(text, "low", ["a::f"]), Refusal("a::f", "returns", "written"))
        self.assertIsNone(refusal(text.replace("expected type", "`x` is not in scope: expected type"), "low", ["a::f"]))
        self.assertIsNone(refusal(text.replace("expected type", "record `A`\n  has no field `x`"), "low", ["a::f"]))
        lost = text.replace("expected type", "`goal.returns`\n  module `G` has no `returns` that can be named from here")
        self.assertIsNone(refusal(lost, "low", ["a::f"]))

    def test_a_goal_of_a_cycle_of_calls_names_its_function(self) -> None:
        text = (
            "./proofs/+f/Answers.antt:5:31: error: `a::A::g-returns`: expected type `1 ≡ 2`, but this has type `1 ≡ 1`\n"
            "fn low::a::A::g: not proved\nfn low::b::f: not proved\n"
        )
        self.assertEqual(refusal(text, "low", ["a::A::g"]), Refusal("a::A::g", "returns", "written"))
        self.assertIsNone(refusal(text, "low", ["b::f"]))
        own = text.replace("+f", "b/+f").replace("a::A::g-returns", "returns")
        self.assertEqual(refusal(own, "low", ["b::f"]), Refusal("b::f", "returns", "written"))

    def test_a_function_that_only_rests_on_another_is_not_refused(self) -> None:
        text = "fn low::a::f: depends on a hole in `Rattle.low.proofs.a.g.Answers.returns`\nfn low::a::g: no holes\n"
        self.assertIsNone(refusal(text, "low", ["a::f"]))
        self.assertFalse(ledger_tries.is_proved(text, "low", ["a::f"]))
        self.assertTrue(ledger_tries.is_proved(text, "low", ["a::g"]))

    def test_a_closure_is_of_its_function(self) -> None:
        self.assertTrue(ledger_tries.is_of("a::fn::f::map", ["a::f"]))
        self.assertTrue(ledger_tries.is_of("fn::f::map", ["f"]))
        self.assertFalse(ledger_tries.is_of("a::fine", ["a::f"]))


class Base:
    """A crate `base` below, as the toolchain reads it."""

    name = "base"
    rlib = ""

    def __init__(self, folder: str) -> None:
        self.folder = folder

    def below(self) -> list["Base"]:
        return []

    def stamp(self) -> str:
        return "stamp of base"


class TryTests(Tree):
    """Tries by a prover that is a script, over libraries that are built or not."""

    def setUp(self) -> None:
        super().setUp()
        self.write("bin/rt", "#!/bin/sh\necho kit-9 logic 1\n").chmod(0o755)
        script = self.write("bin/rattle", PROVER)
        script.chmod(0o755)
        calls = str(self.root / "calls")
        path = f"{self.root / 'bin'}{os.pathsep}{os.environ['PATH']}"
        self.stand_in(mock.patch.dict(os.environ, PATH=path, CALLS=calls))
        base = Base(str(self.root / "crates/base"))
        low = SimpleNamespace(
            name="low",
            rlib="",
            folder=str(self.root / "crates/low"),
            below=lambda: [base],
            words=lambda flags, keeps: flags,
        )
        kit = SimpleNamespace(RATTLE=str(script), guarded=lambda: [], crates_below=lambda top: [base, low])
        self.stand_in(mock.patch.object(ledger_tries, "toolchain", lambda: kit))
        self.write("crates/base/out/rlib/base.rlib/format", "1")

    def tried(self, most: int = 8) -> tuple[int, list[str]]:
        out = io.StringIO()
        with contextlib.redirect_stdout(out):
            status = ledger_tries.try_all(Prover(self.root), ledger.every(), most)
        return status, out.getvalue().splitlines()

    def sampled(self, limit: float) -> tuple[int, list[str]]:
        out = io.StringIO()
        with contextlib.redirect_stdout(out):
            status = ledger_tries.sample(Prover(self.root), ledger.in_turn("key"), limit)
        return status, out.getvalue().splitlines()

    def calls(self) -> list[str]:
        path = self.root / "calls"
        return path.read_text(encoding="utf-8").splitlines() if path.is_file() else []

    def test_one_check_tries_edits_of_different_functions(self) -> None:
        status, lines = self.tried()
        self.assertEqual(self.calls(), ["check --jobs 1 --allow-holes --only next --only Bits::first"])
        self.assertIn("low/two-are-added: refused by returns of next, false; 0 s", lines)
        self.assertIn("low/the-second-is-first: NOT refused: Bits::first proved in spite of it; 0 s", lines)
        self.assertEqual((status, lines[-1]), (1, "1 passed, 1 failed"))

    def test_only_what_is_refused_gets_a_line_and_sources_stay(self) -> None:
        self.tried()
        mark = ledger.mark_of(ledger.every()[0])
        self.assertEqual(self.lines(), [f"two-are-added {mark} kit-9 next returns false 0"])
        self.assertEqual((self.root / "crates/low/src/lib.rt").read_text(encoding="utf-8"), SOURCE)

    def test_one_that_cannot_be_read_is_tried_by_itself(self) -> None:
        page = self.root / "crates/low/must-fail/by-hand.md"
        page.write_text(page.read_text(encoding="utf-8").replace("self.bits[1]", "self.third"), encoding="utf-8")
        _, lines = self.tried()
        self.assertEqual(len(self.calls()), 3)
        self.assertIn("low/two-are-added: refused by returns of next, false; 0 s", lines)
        self.assertIn("low/the-second-is-first: NOT tried: src/lib.rt:20:9: error[no-such-field]", lines[0])

    def test_where_only_names_of_a_proof_do_not_fit_a_counterexample_is_sought_without_it(self) -> None:
        page = self.root / "crates/low/must-fail/by-hand.md"
        page.write_text(page.read_text(encoding="utf-8").replace("self.bits[1]", "self.other[0]"), encoding="utf-8")
        self.write("crates/low/proofs/Bits/first/Answers.antt", "")
        _, lines = self.tried()
        self.assertEqual(len(self.calls()), 2)
        self.assertIn("low/the-second-is-first: refused by bounds-other of Bits::first, false; 0 s", lines)

    def test_a_goal_without_an_answer_is_of_the_function_of_its_place(self) -> None:
        batch = batches(ledger.every(), 8)[0]
        line = SOURCE[: SOURCE.find("self.bits[0]")].count("\n") + 1
        text = f"note: src/lib.rt:{line}:9: it is not proved that the index is below the length (`bounds-self-bits`)"
        self.assertEqual(ledger_tries.unanswered(text, batch), [Refusal("Bits::first", "bounds-self-bits", "goal")])
        text = text.replace("`bounds", "`Bits::first-bounds")
        self.assertEqual(ledger_tries.unanswered(text, batch), [Refusal("Bits::first", "bounds-self-bits", "goal")])

    def test_a_page_may_name_the_caller_that_refuses(self) -> None:
        page = self.root / "crates/low/must-fail/by-hand.md"
        text = page.read_text(encoding="utf-8").replace("    old: self.bits[0]", "    by: next\n    old: self.bits[0]")
        page.write_text(text, encoding="utf-8")
        self.assertEqual([len(batch.wrongs) for batch in batches(ledger.every(), 8)], [1, 1])
        _, lines = self.tried()
        self.assertIn("low/the-second-is-first: NOT refused: Bits::first next proved in spite of it; 0 s", lines)

    def test_what_is_of_no_function_needs_a_page_that_names_one(self) -> None:
        page = self.root / "crates/low/must-fail/by-hand.md"
        page.write_text(page.read_text(encoding="utf-8").replace("self.bits[0]", "for Bits<T> {"), encoding="utf-8")
        _, lines = self.tried()
        self.assertTrue(any(line.startswith("low/the-second-is-first: NOT tried: it changes no") for line in lines))

    def test_two_edits_of_one_function_are_two_checks(self) -> None:
        first = ledger.every()[0]
        self.assertEqual([len(batch.wrongs) for batch in batches([first, first], 8)], [1, 1])
        self.assertEqual([len(batch.wrongs) for batch in batches(ledger.every(), 1)], [1, 1])

    def test_a_sample_fails_on_what_is_proved(self) -> None:
        self.write_true_lines()
        before = self.lines()
        status, lines = self.sampled(3600)
        self.assertEqual((status, lines[-1]), (1, "1 passed, 1 failed, 0 skipped"))
        self.assertEqual(self.lines(), before)

    def test_a_sample_says_what_is_proved_and_had_no_line(self) -> None:
        status, lines = self.sampled(3600)
        self.assertEqual((status, lines[-1]), (0, "1 passed, 0 failed, 1 skipped"))
        self.assertIn("low/the-second-is-first: NOT refused: Bits::first proved in spite of it; 0 s", lines)
        self.assertFalse((self.root / "crates/low/must-fail/ledger.md").exists())

    def test_a_sample_ends_with_its_time(self) -> None:
        self.stand_in(mock.patch.object(ledger_tries, "workers", lambda: 1))
        run = ledger_tries.run
        self.stand_in(mock.patch.object(ledger_tries, "run", lambda *args: ledger_tries.Run(run(*args).text, 45)))
        with mock.patch.object(ledger_tries, "SAMPLED", 1):
            self.sampled(40)
        self.assertEqual(len(self.calls()), 1)

    def test_a_check_of_a_sample_has_several_of_a_crate(self) -> None:
        self.sampled(3600)
        self.assertEqual(len(self.calls()), 1)

    def test_a_sample_begins_with_what_is_stale(self) -> None:
        self.write_true_lines()
        for name in ("two-are-added", "the-second-is-first"):
            marks = {wrong.name: ledger.mark_of(wrong) for wrong in ledger.every()}
            self.write_lines(*(line.replace(marks[name], MARK) for line in self.lines()))
            self.assertEqual(ledger.in_turn("any")[0].name, name)
            self.write_true_lines()

    def test_a_library_of_other_sources_counts_as_none(self) -> None:
        self.write("crates/base/out/rlib/stamp", "stamp of base")
        self.assertEqual(Prover(self.root).lacks("low"), [])
        self.write("crates/base/out/rlib/stamp", "another stamp")
        self.assertEqual(Prover(self.root).lacks("low"), ["base"])

    def test_a_try_says_what_is_not_built(self) -> None:
        (self.root / "crates/base/out/rlib/base.rlib/format").unlink()
        said = "low: not tried; `rt check` in its folder builds what is below it: base"
        self.assertEqual(self.tried(), (1, [said, "0 passed, 1 failed"]))

    def test_a_sample_needs_the_libraries_below(self) -> None:
        (self.root / "crates/base/out/rlib/base.rlib/format").unlink()
        status, lines = self.sampled(3600)
        self.assertEqual((status, lines[-1]), (0, "0 passed, 0 failed, 1 skipped"))
        self.assertEqual(self.calls(), [])


if __name__ == "__main__":
    unittest.main()
