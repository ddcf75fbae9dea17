"""Tests of limits.py."""

import unittest

from limits import (
    ALLOWED,
    CELL,
    FILE,
    FUNCTION,
    LONG_LINES,
    PROSE,
    ROOT,
    VERBLESS,
    WORDS,
    allowed,
    faults_of,
    long_cells,
    long_functions,
    long_prose,
    prose_of,
    risen,
    too_many,
    verbless,
    words_in,
)


def function(name: str, lines: int, indent: str = "") -> str:
    """A function whose body has this number of lines."""
    head = [f"{indent}pub fn {name}(items: &[u8]) -> usize", f"{indent}    ensures answer {{ result ≡ 0 }}", indent + "{"]
    return "\n".join(head + [f"{indent}    let _ = items;"] * lines + [indent + "}"])


class Limits(unittest.TestCase):
    def test_a_function_is_counted_between_its_braces(self) -> None:
        self.assertEqual(long_functions(function("short", FUNCTION)), [])
        self.assertEqual(long_functions(function("long", FUNCTION + 1)), [("long", FUNCTION + 1)])

    def test_a_method_ends_at_its_own_brace(self) -> None:
        inside = "\n".join(["impl A {", function("a", FUNCTION, "    "), function("b", FUNCTION + 2, "    "), "}"])
        self.assertEqual(long_functions(inside), [("b", FUNCTION + 2)])

    def test_prose_is_no_table_and_no_indented_text(self) -> None:
        long = "x" * (PROSE + 1)
        self.assertEqual(long_prose("\n".join([long, "| " + long, "    " + long, "x" * PROSE])), [1])

    def test_what_goes_on_with_an_item_of_a_list_is_prose(self) -> None:
        long = "     " + "x" * PROSE
        self.assertEqual(long_prose("\n".join(["181. **An item**", long, "", long])), [2])
        self.assertEqual(long_prose("\n".join(["- an item", long, "no item", long])), [2])

    def test_a_file_has_a_length(self) -> None:
        self.assertEqual(faults_of("a.rt", "//\n" * FILE), [])
        self.assertEqual(faults_of("a.rt", "//\n" * (FILE + 1)), [f"a.rt: {FILE + 1} lines"])

    def test_long_lines_may_only_become_fewer(self) -> None:
        self.assertEqual(too_many([]), [])
        limit, most = max(LONG_LINES.items())
        self.assertTrue(too_many(["\n".join(["x" * (limit + 1)] * (most + 1))]))

    def test_a_cell_of_a_table_has_a_length(self) -> None:
        self.assertEqual(long_cells("| a | " + "x" * CELL + " |\n" + "y" * (CELL + 1)), [])
        self.assertEqual(long_cells("| a |\n| a | " + "x" * (CELL + 1) + " |"), [2])

    def test_words_are_those_of_comments_and_pages(self) -> None:
        self.assertEqual(prose_of("a.rt", "let alone = 1; // one\n    // two\nlet b = 2;"), "// one two")
        self.assertEqual(prose_of("a.antt", "alone = x -- one\n-- two"), "-- one two")
        self.assertEqual(prose_of("a.h", "int alone; /* one\n * two */ int b; // three"), "/* one two */ three")
        self.assertEqual(prose_of("a.py", '"""One\n\n    two."""\nalone = 1  # three'), '"""One two.""" three')
        self.assertEqual(prose_of("a.md", "one\n- two").strip(), "one two")
        self.assertEqual(prose_of("docs/STYLE.md", "| alone | only |\nword").strip(), "word")

    def test_each_word_to_avoid_is_counted(self) -> None:
        bad = "It stands alone beside the halves, behind so many; told of want of memory, it is no row. Of texts unawares, reckoned."
        self.assertEqual({word: 1 for word in WORDS} | {VERBLESS: 0}, words_in("a.md", bad))
        good = "It is only there, next to it, after it; reported, out of memory, not a row. It is no longer. For texts."
        self.assertEqual(sum(words_in("a.md", good).values()), 0)

    def test_a_doc_comment_opens_with_a_verb(self) -> None:
        self.assertEqual(verbless("/// Returns the rows.\n/// The rest.\nfn a()\n    /// The rows.\n    /// A row.\n"), 1)

    def test_no_word_may_be_found_more_often(self) -> None:
        self.assertEqual(risen({"alone": 2}, {"alone": 2}), [])
        self.assertIn("'alone' 3 times, and 2 may be", risen({"alone": 3}, {"alone": 2})[0])
        self.assertTrue(risen({"alone": 1}, {}))

    def test_the_numbers_have_a_word_each_and_the_page_names_them(self) -> None:
        most = allowed(ALLOWED.read_text(encoding="utf-8"))
        self.assertEqual(list(most), [*WORDS, VERBLESS])
        page = (ROOT / "docs/STYLE.md").read_text(encoding="utf-8")
        self.assertEqual([word for word in most if f"| {word} |" not in page], [])


if __name__ == "__main__":
    unittest.main()
