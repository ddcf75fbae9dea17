"""Tests of steps.py."""

import contextlib
import io
import json
import tempfile
import unittest
from pathlib import Path

from steps import ALLOWED, MADE, MOST, allowed, judge, libraries, lowered, page, sizes, too_large


def part(name: str, characters: int) -> list[str]:
    """Two lines of a library: the name of a part, and a text of this number of characters."""
    return [json.dumps(name) + "\n", "x" * characters + "\n", "what the part is over, on a line without a name\n"]


def library(root: Path, crate: str, lines: list[str]) -> None:
    """Makes a library of a crate that has these parts."""
    made = root / "crates" / crate / "out/rlib" / f"{crate}.rlib" / MADE
    made.parent.mkdir(parents=True)
    made.write_text("".join(lines), encoding="utf-8")


def judged(read: dict[str, dict[str, int]], most: dict[str, int]) -> tuple[int, list[str]]:
    """The status of `judge`, and the lines that it prints."""
    with contextlib.redirect_stdout(io.StringIO()) as out:
        status = judge(read, most)
    return status, out.getvalue().splitlines()


class Steps(unittest.TestCase):
    def test_a_table_is_that_of_a_function_by_its_path(self) -> None:
        lines = part("proofs/runs/Runs/slice/Lts", 5) + part("proofs/runs/Runs/slice/Proof", 9) + part("facade", 7)
        self.assertEqual(sizes(lines, "low"), {"low::runs::Runs::slice": 5})

    def test_libraries_are_found_where_rt_leaves_them(self) -> None:
        with tempfile.TemporaryDirectory() as folder:
            self.assertEqual(libraries(Path(folder)), {})
            library(Path(folder), "low", part("proofs/f/Lts", 3))
            library(Path(folder), "high", part("proofs/g/Lts", 4))
            self.assertEqual(libraries(Path(folder)), {"low": {"low::f": 3}, "high": {"high::g": 4}})

    def test_a_table_may_have_as_many_as_all_may(self) -> None:
        self.assertEqual(too_large({"low::f": MOST}, {}), [])
        said = ["low::f: a table of 701 thousand characters, and 700 may be"]
        self.assertEqual(too_large({"low::f": MOST + 1}, {}), said)

    def test_one_of_the_list_may_have_what_the_list_says(self) -> None:
        self.assertEqual(too_large({"low::f": 900_000}, {"low::f": 900}), [])
        said = ["low::f: a table of 901 thousand characters, and 900 may be"]
        self.assertEqual(too_large({"low::f": 900_001}, {"low::f": 900}), said)

    def test_the_list_only_becomes_shorter_and_its_numbers_smaller(self) -> None:
        most = {"low::f": 900, "low::g": 800, "low::gone": 800, "low::grown": 800, "high::h": 990}
        tables = {"low::f": 850_001, "low::g": 700_000, "low::grown": 990_000, "low::new": 990_000}
        self.assertEqual(lowered(tables, most, ["low"]), {"high::h": 990, "low::f": 851, "low::grown": 800})

    def test_the_list_is_written_as_it_is_read(self) -> None:
        most = {"low::f": 851, "high::h": 990}
        self.assertEqual(allowed(page(most)), most)
        text = ALLOWED.read_text(encoding="utf-8")
        self.assertEqual(page(allowed(text)), text)

    def test_without_a_library_nothing_fails_and_one_is_skipped(self) -> None:
        for read in ({}, {"low": {}}):
            status, lines = judged(read, {})
            self.assertEqual((status, lines[-1]), (0, "0 passed, 0 failed, 1 skipped"))

    def test_the_last_line_counts_libraries_and_what_is_too_large_in_them(self) -> None:
        read = {"low": {"low::f": 10, "low::g": MOST}, "high": {"high::h": MOST + 1, "high::i": MOST + 1}}
        status, lines = judged(read, {})
        self.assertEqual((status, len(lines), lines[-1]), (1, 3, "1 passed, 2 failed, 0 skipped"))
        status, lines = judged(read, {"high::h": 701, "high::i": 701})
        self.assertEqual((status, lines), (0, ["2 passed, 0 failed, 0 skipped"]))


if __name__ == "__main__":
    unittest.main()
