#!/usr/bin/env python3
"""Tests of model.py: what it answers of the stored lines, and what it says of lines by hand."""

import unittest
from pathlib import Path

from model import Lines, checked
from plain.columns import Unmodelled

VECTORS = Path(__file__).with_name("lines.txt")
# What docs/BYTES.md shows byte by byte.
RUNS = "08 01 10 06 18 02 20 05 40 00 48 01 52 02 03 02 5A 13 08 01 10 06 18 01 20 02 28 04 32 01 01 3A 04 07 00 00 00"
TEXTS = "08 01 10 0B 18 01 20 04 28 04 32 01 0D 62 04 02 00 00 01 6A 03 61 62 63"


def answers(*lines: str) -> list[str]:
    """What a new model answers."""
    model = Lines()
    return [model.answer(line) for line in lines]


class Stored(unittest.TestCase):
    def test_lines_that_see_wrong_bodies_are_not_answered_otherwise(self) -> None:
        stored = VECTORS.read_text(encoding="utf-8").split("\n")
        start = next(place for place, line in enumerate(stored) if line.startswith("# messages of lists under fifteen"))
        agree, differ, _ = checked(stored[start:])
        self.assertEqual(differ, [])
        self.assertGreater(agree, 1_200)


class ByHand(unittest.TestCase):
    def test_messages_of_the_page_are_read_and_written(self) -> None:
        self.assertEqual(answers(f"a = from bytes {RUNS}", "a rows", "a bytes"), ["ok", "7 7 7 null null", RUNS])
        self.assertEqual(answers(f"a = from bytes {TEXTS}", "a rows", "a bytes"), ["ok", '"ab" null "" "c"', TEXTS])

    def test_a_message_with_a_longer_varint_or_a_byte_more_is_damaged(self) -> None:
        longer = RUNS.replace("20 05", "20 85 00", 1)
        self.assertEqual(answers(f"a = from bytes {longer}", f"a = from bytes {RUNS} 00"), ["refused 17"] * 2)

    def test_a_null_of_a_type_without_null_is_not_read(self) -> None:
        lines = ["a = flat u8 1 2", "b = flat u8 null", "a take u8 0 null", "a rows", "a take u8? 0 null", "a rows"]
        self.assertEqual(answers(*lines), ["ok", "bad line", "bad line", "1 2", "ok", "1 null"])

    def test_rows_are_taken_at_indices_of_another_column(self) -> None:
        lines = ["a = flat u8 1 2", "i = flat i64? 1 null 0", "a take column i", "a rows", "a type"]
        self.assertEqual(answers(*lines), ["ok", "ok", "ok", "2 null 1", "u8?"])

    def test_another_answer_is_named(self) -> None:
        lines = ["a = flat u8 1 2", "a at 1 => 3", "a at 2 => refused 8 2 2", "a = runs u8 0 9 9 / b"]
        agree, differ, unknown = checked(lines)
        self.assertEqual((agree, differ), (2, ["line 2: a at 1 => 3, and not 2"]))
        self.assertEqual(unknown, ["line 4: a = runs u8 0 9 9 / b"])

    def test_what_a_line_without_an_answer_may_change_is_not_known(self) -> None:
        model = Lines()
        model.answer("a = flat u8 1 2")
        with self.assertRaises(Unmodelled):
            model.answer("a run slice 0 1 ; sum")
        with self.assertRaises(Unmodelled):
            model.answer("a rows")

    def test_runs_of_many_rows_are_not_written_out(self) -> None:
        lines = ["v = flat i64 1 2", f"a = runs u64 0 {2**60} {2**59} {2**60} / v", "a sum", f"a at {2**59}"]
        self.assertEqual(answers(*lines)[2:], [str(3 * 2**59), "2"])


if __name__ == "__main__":
    unittest.main()
