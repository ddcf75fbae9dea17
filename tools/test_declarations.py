"""Tests of declarations.py: what it reads of a header and of the library, and what it makes of a call."""

import unittest

import declarations
from declarations import calls_of, exports, inlines, out_of_step, python, rattle_calls, renewed, rust

HEADER = """
HV_CALL void hv_free(hv_column *column);
/* ---- Making columns ---- */
HV_CALL hv_validity hv_all_valid(void) {
    return validity;
}
/* `count` booleans */
HV_ANSWER hv_bools(const uint8_t *truths, size_t truths_len, size_t count, hv_validity validity,
                   hv_column *out, hv_error *error);
/* ---- Questions ---- (13 of others) */
HV_ANSWER hv_sum(const hv_session *session, const hv_column *column, hv_total *total, hv_error *error);
HV_CALL size_t hv_builder_rows(const hv_builder *builder);  /* 0 of no builder */
"""
SOURCE = """
pub extern "C" fn hv_sum(
    alloc: Global,
    session: &Session,
    column: &mut Handle,
    total: &mut Total,
    error: &mut ErrorFields,
) -> i32
    ensures same { x }
{
}
pub extern "C" fn hv_read_u64(alloc: Global, column: &mut Handle, items: &mut [u64]) -> i32
{
}
"""


class Declarations(unittest.TestCase):
    def setUp(self) -> None:
        self.calls = calls_of(HEADER)

    def test_calls_are_read_with_their_headings_and_those_with_a_body_are_not(self) -> None:
        self.assertEqual([call.name for call in self.calls], ["hv_free", "hv_bools", "hv_sum", "hv_builder_rows"])
        self.assertEqual([call.heading for call in self.calls], ["", "Making columns", "Questions", "Questions"])
        self.assertEqual([call.answers for call in self.calls], ["void", "int32_t", "int32_t", "size_t"])

    def test_an_export_takes_a_validity_in_four_parts_and_columns_that_it_may_write(self) -> None:
        made = exports(self.calls)
        self.assertIn("size_t count, uint8_t nulls,", made)
        self.assertIn("const uint8_t *bits, size_t bits_len, size_t first, hv_column *out", " ".join(made.split()))
        self.assertIn("hv_sum(const hv_settings *settings, hv_column *column, hv_total *total, hv_error *error);", made)
        self.assertIn("#define hv_free(...) hv_call_free(__VA_ARGS__)", made)
        self.assertLessEqual(max(map(len, made.splitlines())), declarations.WIDTH)

    def test_an_inline_call_passes_each_argument_as_the_export_takes_it(self) -> None:
        made = inlines(self.calls)
        self.assertIn("    HV_ITEMS(const uint8_t, truths, truths_len);\n    HV_BITS(validity);\n", made)
        self.assertIn("(hv_bools)(truths, truths_len, count, HV_PARTS(validity), out, HV_FIELDS);", made)
        self.assertIn("(hv_sum)(hv_settings_of(session), hv_lent(column), total, HV_FIELDS);", made)
        self.assertIn("HV_CALL size_t hv_builder_rows(const hv_builder *builder) {", made)
        lists = calls_of("HV_ANSWER hv_lists(const hv_column *elements, hv_column *out, hv_error *error);")
        self.assertIn("hv_about(HV_ABOUT_LISTS, (hv_lists)(hv_lent(elements), out, HV_FIELDS), HV_FIELDS);", inlines(lists))
        self.assertNotIn("hv_free", made)

    def test_rust_and_python_declare_the_exports(self) -> None:
        self.assertIn("pub fn hv_builder_rows(builder: *mut BuilderHandle) -> usize;", rust(self.calls))
        self.assertIn("        truths: *const u8,\n        truths_len: usize,", rust(self.calls))
        made = python(self.calls)
        self.assertIn('"hv_free": ([POINTER(Handle)], None),', made)
        self.assertIn('"hv_builder_rows": ([POINTER(BuilderHandle)], c_size_t),', made)
        self.assertIn("c_char_p, c_size_t, c_size_t, c_uint8, c_char_p, c_size_t, c_size_t,", made)

    def test_what_the_library_exports_is_held_against_the_header(self) -> None:
        exported = rattle_calls(SOURCE)
        self.assertEqual(exported["hv_read_u64"], (["hv_column *", "uint64_t *", "size_t"], "int32_t"))
        sum_alone = [call for call in self.calls if call.name == "hv_sum"]
        self.assertEqual(out_of_step(sum_alone, {"hv_sum": exported["hv_sum"]}), [])
        self.assertEqual(len(out_of_step(sum_alone, exported)), 1)
        self.assertEqual(len(out_of_step(self.calls, {"hv_sum": exported["hv_sum"]})), 3)

    def test_only_what_is_between_the_two_lines_is_written_anew(self) -> None:
        text = f"a\n// {declarations.BEGIN} hivevigil.h\nold\n// {declarations.END}\nz\n"
        self.assertEqual(renewed(text, "new", "include/hivevigil.h", "// ", ""), text.replace("old", "new"))
        with self.assertRaises(ValueError):
            renewed(text, "new", "include/hivevigil_errors.h", "// ", "")
        with self.assertRaises(ValueError):
            renewed("a\n", "new", "include/hivevigil.h", "// ", "")

    def test_sentences_are_those_of_the_header_in_each_language(self) -> None:
        numbers = "    HV_OK = 0,\n    HV_BAD_RANGE = 9,   /* start */\n    HV_NULL_FILL = 16\n"
        errors = """#define HV_ERRORS(X) \\
    X(HV_OK, "done") \\
    X(HV_BAD_RANGE, "rows %1 to %2 are not among %3 rows, or 2^64") \\
    X(HV_NULL_FILL, "nulls want a value")
"""
        refusals = declarations.refusals_of(numbers, errors)
        self.assertEqual([(each.number, each.name) for each in refusals], [(9, "HV_BAD_RANGE"), (16, "HV_NULL_FILL")])
        self.assertIn('    BadRange = 9, "rows %1 to %2 are not among %3 rows, or 2^64";', declarations.rust_sentences(refusals))
        self.assertIn('    9: "rows {0} to {1} are not among {2} rows, or 2**64",', declarations.python_sentences(refusals))


if __name__ == "__main__":
    unittest.main()
