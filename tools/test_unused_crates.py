"""Tests of unused_crates.py."""

import tempfile
import unittest
from pathlib import Path

from unused_crates import lines, unused


class UnusedCrates(unittest.TestCase):
    def test_a_line_is_a_crate_and_what_it_names(self) -> None:
        text = "# a comment\nlow:\nhigh: low bytes # at the end\nffi staticlib: high\n"
        self.assertEqual(lines(text), {"low": [], "high": ["low", "bytes"], "ffi": ["high"]})

    def test_a_name_that_stands_in_no_file_is_told(self) -> None:
        with tempfile.TemporaryDirectory() as folder:
            root = Path(folder)
            (root / "crates.txt").write_text("low:\nhigh: low lower bytes\n", encoding="utf-8")
            for crate in ("low", "high"):
                (root / "crates" / crate / "src").mkdir(parents=True)
            (root / "crates" / "high" / "proofs").mkdir()
            (root / "crates" / "high" / "src" / "lib.rt").write_text("use low::Low;\n", encoding="utf-8")
            (root / "crates" / "high" / "proofs" / "Lib.antt").write_text("-- bytes_of\n", encoding="utf-8")
            self.assertEqual(unused(root), {"low": [], "high": ["bytes", "lower"]})


if __name__ == "__main__":
    unittest.main()
