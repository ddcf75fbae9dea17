"""Tests of website.py, but for what Markdown becomes: which pages there are, links, names, and what is found wrong."""

import ast
import tempfile
import unittest
from pathlib import Path

from website import GROUPS, ROOT, broken, contents, link, linked, place, read, signature, sources, with_anchors


class MakeSite(unittest.TestCase):
    def test_each_page_of_docs_is_in_a_group(self) -> None:
        named = {path for group in GROUPS.values() for path in group}
        self.assertEqual({f"docs/{page.name}" for page in ROOT.glob("docs/*")} - named, set())
        self.assertTrue(all((ROOT / path).exists() for path in named))

    def test_pages_have_places_of_their_own(self) -> None:
        places = [place(path) for path in sources()]
        self.assertEqual(len(places), len(set(places)))
        self.assertEqual(place("crates/column_base/README.md"), "crates/column_base.html")
        self.assertEqual(link("docs/BYTES.html", "crates/column_base.html"), "../docs/BYTES.html")

    def test_names_in_code_become_links(self) -> None:
        targets = {"docs/A.md": "docs/A.html", "hv_sum": "c.html#hv_sum"}
        page = "<p><code>docs/A.md</code> <code>x</code></p><pre><code>hv_sum</code></pre>"
        body = linked(page, "index.html", targets)
        self.assertEqual(body.count("<a "), 1)
        self.assertIn('<a href="docs/A.html"><code>docs/A.md</code></a>', body)
        self.assertNotIn("<a ", linked("<p><code>docs/A.md</code></p>", "docs/A.html", targets))
        self.assertIn('href="../c.html#hv_sum"', linked("<p><code>hv_sum</code></p>", "docs/A.html", targets))

    def test_titles_have_names_and_are_listed(self) -> None:
        body = with_anchors("<h2>What it is</h2><h3><code>a</code> &amp; b</h3><h2>What it is</h2>")
        self.assertEqual(body.count('id="what-it-is"') + body.count('id="what-it-is-2"') + body.count('id="a-b"'), 3)
        self.assertEqual(contents(body).count("<li>"), 2)
        self.assertEqual(contents("<p>"), "")

    def test_signatures_are_those_that_a_caller_sees(self) -> None:
        of = lambda code: signature(ast.parse(code).body[0])
        self.assertEqual(of("def a(self, b: int = 1) -> str: pass"), "a(b: int=1) -> str")
        self.assertEqual(of("@property\ndef a(self) -> str: pass"), "a -> str")

    def test_broken_links_are_found(self) -> None:
        with tempfile.TemporaryDirectory() as folder:
            page, other = Path(folder).resolve() / "a.html", Path(folder).resolve() / "b.html"
            page.write_text('<p><a href="b.html#here">b</a> <a href="c.html">c</a> <a href="b.html#gone">d</a></p>')
            other.write_text('<p id="here"><a href="https://example.org">e</a></div>')
            pages = {path: read(path) for path in (page, other)}
            wrong = ["c.html is not there", "b.html#gone: the page has no such name"]
            self.assertEqual(broken(page, pages, True), wrong)
            self.assertEqual(len(broken(other, pages, True)), 3)
            self.assertEqual(broken(page, pages, False), ["c.html is not there"])


if __name__ == "__main__":
    unittest.main()
