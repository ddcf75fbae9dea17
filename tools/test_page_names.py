"""Tests of page_names.py."""

import tempfile
import unittest
from pathlib import Path

from page_names import unknown, words_of


class PageNames(unittest.TestCase):
    def test_a_name_is_known_by_all_of_its_words(self) -> None:
        page = "`filter_ends` and `ArrayRef::flat_view()`\nthen `ArrayRef::gone`, `old_name`\n"
        found = unknown(page, {"filter_ends", "ArrayRef", "flat_view"})
        self.assertEqual(found, [(2, "ArrayRef::gone"), (2, "old_name")])

    def test_parts_short_words_and_words_of_others_are_not_looked_at(self) -> None:
        self.assertEqual(unknown("`_decimal` `u64` `work_mem` `dac8208d650f15bf` `a b`", set()), [])

    def test_pages_make_no_word_known_and_paths_do(self) -> None:
        with tempfile.TemporaryDirectory() as folder:
            root = Path(folder)
            for path, text in (("page.md", "`gone`"), ("source.rt", "fn here() {}")):
                (root / path).write_text(text, encoding="utf-8")
            words = words_of(root, ["page.md", "source.rt"])
        self.assertEqual({"page", "source", "here"} - words, set())
        self.assertNotIn("gone", words)


if __name__ == "__main__":
    unittest.main()
