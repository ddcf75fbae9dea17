"""Tests of distinct_handles.py: which calls are flagged, in which language, and through which functions of ours."""

import unittest

from distinct_handles import all_owed, blanked, functions_of, lent_twice, owed

HEADER = """
HV_ANSWER hv_decode(const hv_session *session, const hv_column *column, hv_column *out, hv_error *error);
HV_ANSWER hv_compare(const hv_session *session, const hv_column *column, uint8_t operator_, const hv_column *right,
                     hv_column *out, hv_error *error);
HV_ANSWER hv_lists(const hv_column *elements, const uint64_t *offsets, size_t offsets_len, const uint64_t *sizes,
                   size_t sizes_len, hv_validity validity, hv_column *out, hv_error *error);
HV_CALL void hv_free(hv_column *column);
"""


def found(text: str, ending: str = ".c") -> list[str]:
    """What is lent twice in a source, as `line name place`."""
    text = blanked(text, ending)
    pairs = all_owed(list(functions_of(text)), owed(HEADER))
    return [f"{line} {name} {place}" for line, name, place in lent_twice(text, pairs)]


class DistinctHandles(unittest.TestCase):
    def test_a_handle_that_is_lent_and_written_is_flagged(self) -> None:
        self.assertEqual(found("x = hv_decode(session, bits, bits, error);"), ["1 hv_decode bits"])
        self.assertEqual(found("x = hv_decode(session, &bits,\n    (hv_column *)&bits, error);"), ["1 hv_decode &bits"])
        self.assertEqual(found("\n(hv_decode)(session, hv_lent(a), a, error);"), ["2 hv_decode a"])
        self.assertEqual(found("hv_decode(session, &bits[0], &bits[1], error);"), [])
        self.assertEqual(found("hv_free(a); hv_free(a);"), [])

    def test_two_handles_that_are_read_are_two(self) -> None:
        self.assertEqual(found("hv_compare(session, a, HV_EQ, a, &out, error);"), ["1 hv_compare a"])
        self.assertEqual(found("hv_compare(session, a, HV_EQ, b, &out, NULL);"), [])

    def test_items_that_are_read_may_be_the_same(self) -> None:
        self.assertEqual(found("hv_lists(&a, sizes, 1, sizes, 1, validity, &out, error);"), [])

    def test_no_place_is_not_one_place(self) -> None:
        self.assertEqual(found("hv_compare(NULL, a, HV_EQ, b, &out, NULL);"), [])

    def test_comments_and_texts_are_not_calls(self) -> None:
        self.assertEqual(found('/* hv_decode(session, a, a, error) */ s = "hv_decode(session, a, a, error)";'), [])
        self.assertEqual(found("'hv_decode(session, a, a, error)' # hv_decode(session, a, a, error)", ".py"), [])

    def test_each_arm_of_a_choice_and_what_a_pointer_names_count(self) -> None:
        self.assertEqual(found("hv_decode(s, a, is_new ? &b : a, error);"), ["1 hv_decode a"])
        self.assertEqual(found("hv_column *const out = &a; hv_decode(s, &a, out, error);"), ["1 hv_decode &a"])

    def test_a_function_or_macro_over_a_call_owes_the_same(self) -> None:
        over = "static int32_t twice(hv_column *one, int n, hv_column *two) {\n    return hv_decode(s, one, two, e);\n}\n"
        self.assertEqual(found(over + "void f(void) { twice(&a, 1, &a); }"), ["4 twice &a"])
        self.assertEqual(found(over + "void f(void) { twice(&a, 1, &b); }"), [])
        again = "int32_t far(hv_column *x, hv_column *y) { return twice(y, 2, x); }\n"
        self.assertEqual(found(over + again + "void f(void) { far(c, c); }"), ["5 far c"])
        macro = "#define KEPT(left, right) \\\n    CHECK(hv_compare(s, left, HV_EQ, right, &out, e))\n"
        self.assertEqual(found(macro + "KEPT(&a, &a); KEPT(&a, &b);"), ["3 KEPT &a"])

    def test_a_function_that_makes_a_column_of_its_own_owes_nothing(self) -> None:
        over = "int32_t f(hv_column *in, hv_column *out) {\n    return hv_decode(s, in, &made, e);\n}\n"
        self.assertEqual(found(over + "void g(void) { f(a, a); }"), [])

    def test_other_languages(self) -> None:
        self.assertEqual(found("raw::hv_decode(s, column, column, fields)", ".rs"), ["1 hv_decode column"])
        self.assertEqual(found("calls.hv_decode(s, column, column, fields)  # here", ".py"), ["1 hv_decode column"])


if __name__ == "__main__":
    unittest.main()
