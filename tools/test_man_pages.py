"""Tests of man_pages.py: what it makes of Markdown and of comments of C, and that the pages have every option and every
call."""

import re
import unittest

from declarations import HEADER
from document_numbers import calls
from man_pages import ROOT, declarations, inline, pages, paragraphs, table, wrapped


def text(path: str) -> str:
    return (ROOT / path).read_text(encoding="utf-8")


class MakePages(unittest.TestCase):
    def test_the_pages_are_those_of_their_sources(self) -> None:
        for name, page in pages(ROOT).items():
            self.assertEqual(text(name), page, f"{name}: python3 tools/man_pages.py --write")

    def test_each_option_of_the_help_is_on_the_page(self) -> None:
        help = text("program/help.hpp")
        page = text("man/hivevigil.1").replace(r"\-", "-")
        read = re.findall(r'\{"([a-z]+)", \w+_argument', text("program/arguments.cpp"))
        options = set(re.findall(r"^  (?:-h, )?(--[a-z]+)", help, re.M))
        self.assertEqual(options, set(re.findall(r"^\\fB(?:-h\\fP, \\fB)?(--[a-z]+)", page, re.M)))
        self.assertEqual(options, {f"--{name}" for name in read})

    def test_each_call_is_on_the_page(self) -> None:
        page = text("man/hivevigil.3")
        found = set(re.findall(r"\b(hv_\w+)\((?:const|u?int|size_t|hv_|void)", page))
        self.assertEqual(len(found - {"hv_not_nullable", "hv_all_valid", "hv_valid_bits"}), calls(text(HEADER)))

    def test_markdown_is_roff(self) -> None:
        self.assertEqual(inline("`--to` is **one** of\nthem"), r"\fB\-\-to\fP is \fBone\fP of them")
        self.assertEqual(inline(".dot"), r"\&.dot")
        rows = ["| A | B |", "|---|---|", r"| `x` | one \| two |"]
        self.assertEqual(table(rows), [".TP", r"\fBx\fP", "one | two"])

    def test_comments_are_paragraphs_and_items(self) -> None:
        self.assertEqual(paragraphs("One\ntwo.\n - three\n   four"), [".PP", "One two.", r".IP \(bu 2", "three four"])

    def test_bodies_and_marks_are_left_out(self) -> None:
        code = "HV_CALL hv_kind hv_a(void) {\n    return 1;\n}\nHV_ANSWER hv_b(int c); /* of c */"
        self.assertEqual(declarations(code), [("hv_kind hv_a(void);", ""), ("int32_t hv_b(int c);", "of c")])

    def test_lines_end_between_parameters(self) -> None:
        lines = wrapped("int32_t hv_a(" + ", ".join(f"const hv_column *column_{at}" for at in range(5)) + ");")
        self.assertTrue(all(line.endswith((",", ");")) for line in lines))


if __name__ == "__main__":
    unittest.main()
