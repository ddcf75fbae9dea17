"""Tests of architecture.py."""

import tempfile
import unittest
from pathlib import Path

from architecture import SCREEN, faults_of, faults_of_files, faults_of_page, items_of, unnamed

PAGE = """# `base`

What columns are made of.

**Idea.** Bits are packed.

## What is proved

- `Mask` is a list.

## Files

- `src/`: `error`, `bits` (the trait
  `Bits`; `bits/buffer`)
- `specs/`: `Error` (numbers)
"""


def written(root: Path, files: dict[str, str]) -> None:
    for path, text in files.items():
        (root / "crates" / "base" / path).parent.mkdir(parents=True, exist_ok=True)
        (root / "crates" / "base" / path).write_text(text, encoding="utf-8")


class Architecture(unittest.TestCase):
    def test_items_name_files_and_definitions(self) -> None:
        self.assertEqual(items_of(PAGE), ({"error", "bits", "Bits", "bits/buffer"}, {"Error"}))
        self.assertEqual(items_of("# `base`\n"), (set(), set()))

    def test_a_file_is_named_by_its_folder_too(self) -> None:
        self.assertEqual(unnamed({"error", "bits/masks", "values"}, {"error", "bits"}), {"values"})

    def test_what_is_missing_and_what_is_gone_is_reported(self) -> None:
        with tempfile.TemporaryDirectory() as folder:
            sources = {"src/lib.rt": "mod error;", "src/error.rt": "pub trait Bits {}", "src/values.rt": ""}
            written(Path(folder), sources | {"specs/Lib.antt": ""})
            said = faults_of_files(Path(folder), "base", {"error", "Bits", "mask"}, {"Error"})
        self.assertEqual(said, ["no name for values.rt", "mask is not a file", "Error is not a definition"])

    def test_a_page_has_a_title_an_idea_and_what_is_proved(self) -> None:
        self.assertEqual(faults_of_page("base", PAGE), [])
        self.assertEqual(faults_of_page("other", PAGE), ["its title is not the crate's name"])
        self.assertEqual(faults_of_page("base", "# `base`\n"), ["no '**Idea.**'", "no '## What is proved'"])

    def test_a_page_is_one_screen(self) -> None:
        lines = SCREEN + 1 - PAGE.count("\n")
        self.assertEqual(faults_of_page("base", PAGE + "\n" * (lines - 1)), [])
        self.assertEqual(faults_of_page("base", PAGE + "\n" * lines), [f"{SCREEN + 1} lines, and a screen has {SCREEN}"])

    def test_a_crate_without_a_page_is_reported(self) -> None:
        with tempfile.TemporaryDirectory() as folder:
            self.assertEqual(faults_of(Path(folder), "base"), ["there is no such page"])
            written(Path(folder), {"README.md": PAGE, "src/error.rt": "Bits buffer", "src/bits/buffer.rt": "", "specs/Error.antt": ""})
            self.assertEqual(faults_of(Path(folder), "base"), [])


if __name__ == "__main__":
    unittest.main()
