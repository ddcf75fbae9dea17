"""Tests of public_first.py."""

import unittest

from public_first import HELPER, PUBLIC, SHARED, calls_of, fault_of

CALL = "pub fn call() -> u8\n    ensures { result ≡ 0 }\n{\n    helper()\n}\n"
SHARE = "pub(crate) fn share() -> u8 {\n    0\n}\n"
HELP = "// What it is.\nfn helper() -> u8 {\n    0\n}\n"


class PublicFirst(unittest.TestCase):
    def test_a_helper_stands_below_the_call(self) -> None:
        self.assertIsNone(fault_of(CALL + HELP))
        self.assertEqual(fault_of(HELP + CALL), "a helper comes before a public call")

    def test_a_shared_function_heads_a_file_that_has_no_public_one(self) -> None:
        self.assertIsNone(fault_of(SHARE + HELP))
        self.assertIsNotNone(fault_of(HELP + SHARE))
        self.assertIsNotNone(fault_of(SHARE + CALL))

    def test_constants_types_and_modules_may_stand_first(self) -> None:
        first = "mod low;\n\nconst MANY: usize = 3;\n\nstruct Inner {\n    count: usize,\n}\n\nmacro_rules! one {\n}\n"
        self.assertIsNone(fault_of(first + CALL))
        self.assertIsNone(fault_of(first))

    def test_a_file_of_helpers_and_tests_has_no_order(self) -> None:
        self.assertIsNone(fault_of(HELP + "#[test]\nfn holds() {\n}\n"))
        self.assertEqual(calls_of("#[test]\nfn holds() {\n}\n"), [])

    def test_a_program_begins_with_main(self) -> None:
        main = "fn main(rt: HostRuntime) {\n}\n"
        self.assertIsNone(fault_of(main + HELP))
        self.assertIsNotNone(fault_of(HELP + main))

    def test_the_functions_of_a_type_are_seen_as_it_is(self) -> None:
        inside = "impl<T: Copy> Inner<T> {\n    pub fn len(&self) -> usize {\n        0\n    }\n}\n"
        self.assertEqual(calls_of("pub struct Inner<T> {\n}\n" + inside), [PUBLIC])
        self.assertEqual(calls_of("struct Inner<T> {\n}\n" + inside), [HELPER])
        self.assertEqual(calls_of(inside), [PUBLIC])
        self.assertEqual(calls_of(inside.replace("pub fn", "pub(crate) fn")), [SHARED])
        self.assertEqual(calls_of("pub struct Inner<T> {\n}\n" + inside.replace("pub fn", "fn")), [HELPER])

    def test_the_functions_of_a_trait_are_seen_as_it_and_its_type_are(self) -> None:
        inside = "impl<'a, A: Allocator> Shown for &'a Rows<A> {\n    fn shown(&self) -> usize {\n        0\n    }\n}\n"
        self.assertEqual(calls_of(inside), [PUBLIC])
        self.assertEqual(calls_of("struct Rows<A> {\n}\n" + inside), [HELPER])
        self.assertEqual(calls_of("pub(crate) trait Shown {\n}\n" + inside), [SHARED, SHARED])

    def test_an_impl_without_functions_is_no_call(self) -> None:
        self.assertEqual(calls_of("impl<A: Allocator> Model for Rows<A> {\n    ghost model = { λ rows. rows };\n}\n"), [])


if __name__ == "__main__":
    unittest.main()
