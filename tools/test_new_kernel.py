"""Tests of new_kernel.py."""

import tempfile
import unittest
from pathlib import Path

from new_kernel import lines_with, order_of, places, proofs_of


class NewKernel(unittest.TestCase):
    def test_crates_come_from_below(self) -> None:
        self.assertEqual(order_of("# numbers\nbase:\n\nkernels: base hex\n"), ["base", "kernels"])

    def test_a_name_stands_as_a_word(self) -> None:
        text = "fill_null(x)\nfill_nulls(x)\n    Kernel::FillNull,\n"
        self.assertEqual(lines_with(text, ["FillNull", "fill_null"]), [(1, "fill_null(x)"), (3, "Kernel::FillNull,")])

    def test_sources_definitions_and_pages_are_listed_and_tests_are_not(self) -> None:
        with tempfile.TemporaryDirectory() as folder:
            root = Path(folder)
            files = {
                "crates.txt": "kernels: base\nbase:\nconformance: kernels\n",
                "crates/base/src/lib.rt": "FillNull,\n",
                "crates/kernels/specs/Meaning.antt": "\nmeaning FillNull = x\n",
                "crates/kernels/proofs/fills/fill_null/Answers.antt": "fill_null\n",
                "crates/conformance/src/lib.rt": "FillNull\n",
                "docs/SCRIPT.md": "`fill_null`\n",
                "include/a.h": "HV_FILL_NULL\n",
            }
            for path, text in files.items():
                (root / path).parent.mkdir(parents=True, exist_ok=True)
                (root / path).write_text(text, encoding="utf-8")
            found = places(root, ["FillNull", "fill_null"])
            self.assertEqual(
                [(path, number) for path, number, _ in found],
                [("crates/kernels/specs/Meaning.antt", 2), ("crates/base/src/lib.rt", 1), ("docs/SCRIPT.md", 1)],
            )
            self.assertEqual(proofs_of(root, "fill_null"), ["crates/kernels/proofs/fills/fill_null"])


if __name__ == "__main__":
    unittest.main()
