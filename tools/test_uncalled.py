"""Tests of uncalled.py."""

import unittest

from uncalled import uncalled


class Uncalled(unittest.TestCase):
    def test_a_name_that_stands_once_is_uncalled(self) -> None:
        texts = {"a.rt": "pub fn used() {}\npub fn unused() {}\nfn private() {}\n", "b.rt": "fn main() { used(); }\n"}
        self.assertEqual(uncalled(texts), (2, [("a.rt", "unused")]))

    def test_a_name_that_is_defined_twice_has_to_stand_a_third_time(self) -> None:
        texts = {"a.rt": "pub fn len() {}\n", "b.rt": "    pub const fn len() {}\n"}
        self.assertEqual(uncalled(texts), (2, [("a.rt", "len"), ("b.rt", "len")]))
        self.assertEqual(uncalled({**texts, "c.rt": "items.len()"}), (2, []))


if __name__ == "__main__":
    unittest.main()
