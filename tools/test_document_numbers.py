"""Tests of document_numbers.py."""

import unittest

from document_numbers import calls, errors, out_of_step, without_entry

HEADER = """
/* hv_told(a) is not a declaration; */
typedef struct hv_column { void *at; } hv_column;
static inline const void *hv_some(const void *items) { return items; }
int32_t hv_u8(const uint8_t *items, size_t len,
    hv_column *out, hv_error *error);
size_t hv_length(hv_column *column);       /* rows; hv_length(0) */
"""

ERRORS = """
pub enum VortexError {
    #[error("A")]
    EndsNotUnsigned,
    #[error("B")]
    LengthsDiffer { ends: usize, values: usize },
}
pub enum Other {
    Third,
}
"""


class DocumentNumbers(unittest.TestCase):
    def test_calls_are_declarations_without_a_body(self) -> None:
        self.assertEqual(calls(HEADER), 2)

    def test_errors_are_the_variants_of_one_enum(self) -> None:
        self.assertEqual(errors(ERRORS), 2)

    def test_a_sentence_may_run_over_lines_and_has_to_be_there(self) -> None:
        self.assertIsNone(out_of_step("a.md", r"the (\d+) calls", 53, "of the\n53 calls"))
        self.assertIn("54 where there are 53", out_of_step("a.md", r"the (\d+) calls", 53, "the 54 calls") or "")
        self.assertIn("no sentence", out_of_step("a.md", r"the (\d+) calls", 53, "all calls") or "")

    def test_a_decision_that_is_cited_is_there(self) -> None:
        decisions = "# Decisions\n\n92. **The gate.**\n237. **Text.**\n"
        self.assertIsNone(without_entry("a.md", "(`docs/DECISIONS.md`,\n92), `docs/DECISIONS.md`", decisions))
        said = without_entry("a.md", "(`docs/DECISIONS.md`, 240) and (`docs/DECISIONS.md`, 92)", decisions)
        self.assertEqual(said, "a.md: cites 240, and docs/DECISIONS.md has no such entry")


if __name__ == "__main__":
    unittest.main()
