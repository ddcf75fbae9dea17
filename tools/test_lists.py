"""Tests of lists.py: what it reads of the sources. That the languages agree is what the program itself looks at."""

import unittest

from lists import camel, enum_with, enums_of, rust_enum, rust_macro, sentences, without


class ReadLists(unittest.TestCase):
    def test_constants_are_numbered_from_0_or_as_they_say(self) -> None:
        enums = enums_of("include/hivevigil.h")
        self.assertEqual(enum_with(enums, "UTF8")["BINARY"], 11)
        self.assertEqual(enum_with(enums, "EQ"), {"EQ": 0, "NE": 1, "GT": 2, "GE": 3, "LT": 4, "LE": 5})
        self.assertEqual(enum_with(enums, "FORM_RUNS")["FORM_NONE"], 255)
        errors = enum_with(enums, "OUT_OF_MEMORY")
        self.assertEqual([errors["OK"], errors["ENDS_NOT_UNSIGNED"], errors["OUT_OF_MEMORY"]], [0, 1, 21])

    def test_names_are_written_as_variants(self) -> None:
        self.assertEqual(camel("ENDS_NOT_UNSIGNED"), "EndsNotUnsigned")
        self.assertEqual(without({"OK": 0, "BAD_RANGE": 9}, "OK"), {"BAD_RANGE": 9})

    def test_each_error_has_a_sentence(self) -> None:
        said = sentences()
        self.assertIn("BAD_RANGE", said)
        self.assertTrue(all(said.values()))

    def test_variants_and_macros_of_rust_are_read(self) -> None:
        self.assertEqual(rust_enum("rust/src/kind.rs", "Form")["Runs"], 3)
        errors = [(name, number) for name, number, _ in rust_macro("rust/src/error.rs", "errors")]
        self.assertIn(("OutOfMemory", 21), errors)
        self.assertEqual(rust_macro("rust/src/error.rs", "no_such_macro"), [])


if __name__ == "__main__":
    unittest.main()
