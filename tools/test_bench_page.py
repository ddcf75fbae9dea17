"""Tests of bench_page.py."""

import re
import tempfile
import unittest
from pathlib import Path

from bench_page import (
    MEMORY,
    RATIOS,
    SINGLE,
    causes_of,
    form_of,
    greatest,
    made_pages,
    mean_of,
    merged,
    new_page,
    place_of,
    question_of,
    question_rows,
    questions,
    results,
    single_calls,
    slower,
    summary,
    with_speed,
    with_tables,
)


def table(head: str, *rows: str) -> str:
    return "\n".join([head, "|---|", *rows])


OLD = "\n".join(
    [
        "# Page",
        table(RATIOS, "| sum | 2.00 4.00 | 1.00 | 1.00 | 1.68 |", "| take | 1.00 | 1.00 | 1.00 | 1.00 |"),
        "",
        table(SINGLE, "| slice | half | 8.0 ns a call | 4.0 | 2.00 |", "| slice | 1 run | 1.0 ns a call | 4.0 | 0.25 |"),
        "",
        table(MEMORY, "| take | u64 | 1 B | 1 B | 1 | 1 |"),
        "text",
    ]
)
FORMS = table(
    RATIOS,
    "| sum | 1.00 0.50 0.50 | 1.00 1.00 1.00 | 1.00 1.00 1.00 | 0.86 |",
    "| sum, beside 64 bits | 0.80 2.00 | 0.90 0.90 | 1.10 1.00 | 1.06 |",
    "| decode of texts | 4.00 | 1.00 | 1.00 | 1.59 |",
    "| decode, beside turns, of texts | 2.00 | 4.00 | 1.00 | 2.00 |",
)
MEASURED = "\n".join(
    [
        "2026-11-30, A processor, rustc 1.95.0.",
        "The library: version 1.9.0, commit abc, proved.",
        "",
        "3 rounds of 5 turns.",
        "630 questions: ours / the fastest Rust form 1.00, 100 above 1.15.",
        "",
        FORMS,
        "",
        table(
            SINGLE,
            "| slice, beside buffers | half | 8.0 ns a call | 4.0 | 2.00 |",
            "| slice, beside arrays | half | 8.0 ns a call | 8.0 | 1.00 |",
            "| sum, ten rows of i64, with null | a call | 9.0 ns a call | 3.0 | 3.00 |",
        ),
        "",
        "Memory that a call takes.",
        "",
        table(MEMORY, "| take | u64 | 1 B | 1 B | 1 | 1 |"),
        "",
    ]
)


class BenchPage(unittest.TestCase):
    def test_a_row_takes_the_place_of_its_own(self) -> None:
        page = with_tables(OLD, table(SINGLE, "| slice | 1 run | 2.0 ns a call | 4.0 | 0.50 |"))
        self.assertEqual(page, OLD.replace("1.0 ns a call | 4.0 | 0.25", "2.0 ns a call | 4.0 | 0.50"))

    def test_a_new_row_comes_after_the_one_before_it(self) -> None:
        old = ["| a | 1 | 1 | 1 | 1 |", "| b | 1 | 1 | 1 | 1 |"]
        new = ["| a | 2 | 2 | 2 | 2 |", "| c | 2 | 2 | 2 | 2 |"]
        self.assertEqual(merged(RATIOS, old, new), [new[0], new[1], old[1]])

    def test_a_new_row_that_follows_none_is_first(self) -> None:
        self.assertEqual(merged(RATIOS, ["| a | 1 | 1 | 1 | 1 |"], ["| c | 2 | 2 | 2 | 2 |"])[0], "| c | 2 | 2 | 2 | 2 |")

    def test_a_question_counts_once_relative_to_its_fastest_form(self) -> None:
        found = questions(FORMS)
        self.assertEqual(found["sum"], [1.0, 0.8, 2.0, 1.0, 1.0, 1.0, 1.0, 1.1, 1.0])
        self.assertEqual(found["decode of texts"], [4.0, 4.0, 1.0])
        self.assertEqual(list(found), ["sum", "decode of texts"])

    def test_a_form_that_some_types_lack_is_of_the_last_ones(self) -> None:
        self.assertEqual(greatest([[1.0, 2.0, 3.0], [4.0, 1.0]]), [1.0, 4.0, 3.0])

    def test_a_name_has_a_question_and_a_form(self) -> None:
        for name, question, form in (
            ("sum", "sum", "plain"),
            ("encode, beside words, with null", "encode, with null", "words"),
            ("decode, beside one level, of nested runs", "decode of nested runs", "one level"),
            ("encode, ten rows, beside bits, of i64, with null", "encode, ten rows of i64, with null", "bits"),
        ):
            self.assertEqual((question_of(name), form_of(name)), (question, form))

    def test_a_single_call_counts_once_relative_to_its_fastest_form(self) -> None:
        line = single_calls(MEASURED)["slice", "half"]
        self.assertEqual((line[0], line[3]), (2.0, "buffers"))

    def test_what_is_slower_is_named_the_slowest_first(self) -> None:
        said = slower(FORMS)
        self.assertIn("below: decode 2.52 (1 of 1).", re.sub(r"\s+", " ", said))
        self.assertNotIn("sum", said)

    def test_a_slow_line_without_a_cause_says_so(self) -> None:
        rows = question_rows(FORMS, {"sum": "tested"})
        self.assertEqual(rows[0], "| sum | 1.06 / - | | | | | |")
        self.assertEqual(rows[1], "| decode | | | | 2.52 / - | | not known |")

    def test_a_new_page_has_what_was_measured(self) -> None:
        page = new_page(MEASURED, "| Sizes |", "| Growth |")
        self.assertTrue(page.startswith("# Results of 30 November 2026\n\nA processor, rustc 1.95.0. The library"))
        self.assertIn("On one core, 3 rounds of 5 turns.", page)
        self.assertEqual(questions(page), questions(FORMS))
        made = summary(page, "2026-11-30.md", {})
        self.assertIn("| **Questions over many rows** | ", made)
        self.assertIn("sum 9.0 ns (3.0)", made)
        self.assertIn("| **Calls on ten rows** | 3.00 | 1 | 1 |", made)

    def test_the_first_page_has_the_mean(self) -> None:
        said = "Calls take 9.99 times as\nlong as the fastest plain Rust forms."
        mean = mean_of([ratio for ratios in questions(FORMS).values() for ratio in ratios])
        self.assertEqual(with_speed(said, FORMS), said.replace("9.99", f"{mean:.2f}"))

    def test_a_row_has_a_line_a_kind_and_null_or_not(self) -> None:
        self.assertEqual(place_of("sum"), ("sum", 0, 0))
        self.assertEqual(place_of("encode rows, beside words, of booleans, with null"), ("encode rows, beside words", 2, 1))
        self.assertEqual(place_of("built of a hundred batches of nested runs"), ("built of a hundred batches", 4, 0))

    def test_causes_are_by_line(self) -> None:
        self.assertEqual(causes_of("# A\n\n| Line | Why |\n|---|---|\n| sum | because |"), {"sum": "because"})

    def test_the_newest_page_is_named_by_its_date_only(self) -> None:
        with tempfile.TemporaryDirectory() as folder:
            for name in ("2026-11-26.md", "2026-11-27.md", "2026-11-28-columns.md"):
                Path(folder, name).touch()
            self.assertEqual(results(Path(folder)).name, "2026-11-27.md")

    def test_pages_are_as_the_newest_results_make_them(self) -> None:
        for path, made in made_pages(results()).items():
            with self.subTest(path.name):
                self.assertEqual(path.read_text(encoding="utf-8"), made)

    def test_the_first_page_says_how_fast_calls_are(self) -> None:
        made = made_pages(results())
        self.assertEqual(sum("as the fastest plain Rust" in re.sub(r"\s+", " ", page) for page in made.values()), 1)


if __name__ == "__main__":
    unittest.main()
