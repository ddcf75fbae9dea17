"""Tests of unproved_archive.py: how it reads exports, and the tests by which it reaches them."""

import tempfile
import unittest
from pathlib import Path

from unproved_archive import EXPORT, add_tests, parameter_types, reaching_test

ONE = '#[unsafe(no_mangle)]\npub extern "C" fn hv_len(column: &mut Handle) -> usize\n    ensures { x }\n{\n    0\n}\n'
LONG = """pub extern "C" fn hv_take(
    alloc: Global,
    out: &mut Handle,
) -> i32
    requires { y }
{
    0
}
"""
NONE = 'pub extern "C" fn hv_free(column: Handle) {\n}\n'


class Exports(unittest.TestCase):
    def test_an_export_has_a_name_parameters_and_an_answer_or_none(self) -> None:
        found = EXPORT.findall(ONE + LONG + NONE)
        answers = {name: answer for name, _, answer in found}
        self.assertEqual(answers, {"hv_len": "usize", "hv_take": "i32", "hv_free": ""})
        self.assertEqual(parameter_types(found[1][1]), ["Global", "&mut Handle"])
        self.assertEqual(parameter_types(""), [])

    def test_each_export_is_reached_and_none_is_called(self) -> None:
        made = reaching_test([("hv_len", "column: &mut Handle", "usize")])
        self.assertIn("fn reach_hv_len(given: Option<(&mut Handle, )>) {", made)
        self.assertIn("let _ = hv_len(argument_0, );", made)
        self.assertIn("fn reach_all() { reach_hv_len(None); }", made)

    def test_files_with_exports_alone_get_tests(self) -> None:
        with tempfile.TemporaryDirectory() as folder:
            sources = Path(folder) / "src"
            sources.mkdir()
            (sources / "lib.rt").write_text("mod numbers;\n", encoding="utf-8")
            (sources / "numbers.rt").write_text(ONE, encoding="utf-8")
            self.assertEqual(add_tests(Path(folder)), ["hv_len"])
            self.assertEqual((sources / "lib.rt").read_text(encoding="utf-8"), "mod numbers;\n")
            self.assertIn("fn reach_all()", (sources / "numbers.rt").read_text(encoding="utf-8"))


if __name__ == "__main__":
    unittest.main()
