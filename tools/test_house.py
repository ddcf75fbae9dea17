"""Tests of house.py."""

import unittest

from house import ALLOWED, PHRASES, allowed, counts_of, faults_of, functions, windows, with_one_caller

SOURCE = """
/// Returns the rows of a window.
pub fn shown(ends: &[u64], offset: usize, count: usize) -> usize
    requires window { IsWindow (map unsigned_abs (map E.number ends.now)) offset count }
{
    helper(ends, offset) + twice(offset) + twice(count)
}

fn helper(ends: &[u64], offset: usize) -> usize
{
    match ends {
        [] => unreachable!(),
        _ => offset,
    }
}

fn twice(length: usize) -> usize
{
    length
}
"""


class House(unittest.TestCase):
    def test_functions_end_where_the_next_begins(self) -> None:
        found = functions(SOURCE)
        self.assertEqual([(f.name, f.is_public) for f in found], [("shown", True), ("helper", False), ("twice", False)])
        self.assertNotIn("requires", found[0].head)
        self.assertIn("unreachable!", found[1].text)

    def test_a_window_is_an_offset_and_a_count(self) -> None:
        self.assertEqual(windows({"a.rt": SOURCE}), 1)
        self.assertEqual(windows({"a.rt": "fn f(offset: usize)\n{\n}\nfn g(count: usize)\n{\n}\n"}), 0)

    def test_phrases_are_found_in_sources_and_statements(self) -> None:
        found = counts_of({"a.rt": SOURCE}, {"a.antt": "rows = flags (form_of v) n ∙ length-flags (form_of v) n"})
        self.assertEqual(found["map unsigned_abs (map E.number ..)"], 1)
        self.assertEqual(found["flags (form_of ..)"], 1)
        self.assertEqual(found["unreachable!()"], 1)

    def test_private_functions_that_one_place_calls(self) -> None:
        self.assertEqual(with_one_caller({"crates/a/src/lib.rt": SOURCE}), (1, 2))

    def test_counts_may_only_fall(self) -> None:
        self.assertEqual(faults_of({"a": 1}, {"a": 2}, ["one"]), [])
        self.assertEqual(len(faults_of({"a": 3, "b": 1}, {"a": 2}, ["one"])), 2)
        self.assertEqual(len(faults_of({}, {}, ["one"] * 43)), 1)

    def test_each_count_has_a_number(self) -> None:
        numbers = allowed(ALLOWED.read_text(encoding="utf-8"))
        self.assertEqual(set(numbers), set(counts_of({}, {})))
        self.assertTrue(set(PHRASES) <= set(numbers))


if __name__ == "__main__":
    unittest.main()
