"""Tests of surface.py."""

import tempfile
import unittest
from pathlib import Path

from surface import ROOT, Sources, missing, unlisted, with_lines

LOWER = """//! Lower.
mod shapes;
pub mod laws;

pub use shapes::{Shape, Size as Extent, area};
"""
SHAPES = """//! Shapes.

#[derive(Clone, Copy, Debug)]
pub enum Shape {
    /// No side.
    Point,
    Square(Option<(u8, u8)>),
    Box { width: u8, height: u8 },
}

impl Shape {
    pub const SIDES: u8 = 4;

    pub fn sides(&self) -> u8
        ensures { result ≤ 4 }
    {
        4
    }

    fn hidden(&self) -> u8 {
        0
    }
}

impl fmt::Display for Shape {}

pub struct Size {
    pub width: u8,
    depth: u8,
}

pub fn area(shape: Shape) -> u8 {
    0
}

pub(crate) fn within() {}

fn private() {}
"""
UPPER = """pub use lower::laws;
pub use lower::{Extent, Shape, area as surface};

pub trait Grows<A>: Sized {
    fn grow(&self) -> Self;

    final fn twice(&self) -> Self {
        self.grow()
    }
}

impl<A: Allocator + Copy> Grows<A> for Shape {
    fn grow(&self) -> Self {
        *self
    }
}
"""
FILES = {
    "lower/src/lib.rt": LOWER,
    "lower/src/shapes.rt": SHAPES,
    "lower/src/laws.rt": "pub fn sums_agree()\n    ensures { SumsAgree }\n{}\n",
    "upper/src/lib.rt": UPPER,
}


class Surface(unittest.TestCase):
    def faults(self, listed: str, files: dict[str, str] = FILES) -> list[str]:
        with tempfile.TemporaryDirectory() as folder:
            for path, text in files.items():
                file = Path(folder) / "crates" / path
                file.parent.mkdir(parents=True, exist_ok=True)
                file.write_text(text, encoding="utf-8")
            return missing(listed, Sources(Path(folder)))[1]

    def test_names_are_found_at_home_and_where_they_are_given_out_again(self) -> None:
        listed = "[lower]\nShape: Point Square Box Box.width SIDES sides +Debug +Display\nExtent: width\narea\n"
        listed += "[lower::laws]\nsums_agree\n[upper]\nShape: sides \\\n  grow twice +Grows\nsurface\nGrows: grow\n"
        self.assertEqual(self.faults(listed + "[upper::laws]\nsums_agree # a law\n"), [])

    def test_a_name_that_is_gone_or_private_or_elsewhere_is_a_fault(self) -> None:
        self.assertEqual(
            self.faults("[lower]\ngone\nwithin\nsums_agree\nSize\n[lower::shapes]\narea\n[upper]\narea\n"),
            [f"lower: no caller finds {name}" for name in ("gone", "within", "sums_agree", "Size")]
            + ["lower::shapes: no caller finds area", "upper: no caller finds area"],
        )

    def test_a_member_that_is_gone_or_private_is_a_fault(self) -> None:
        members = ("Circle", "Box.depth", "hidden", "+Default")
        listed = f"[lower]\nShape: {' '.join(members)}\nExtent: depth\n"
        faults = [f"lower: Shape has no public {member}" for member in members]
        self.assertEqual(self.faults(listed), [*faults, "lower: Extent has no public depth"])

    def test_a_module_that_is_private_gives_nothing_out(self) -> None:
        files = {**FILES, "lower/src/lib.rt": LOWER.replace("pub mod laws", "mod laws")}
        self.assertEqual(self.faults("[upper::laws]\nsums_agree\n", files), ["upper::laws: no caller finds sums_agree"])

    def test_a_private_item_is_not_given_out(self) -> None:
        files = {**FILES, "lower/src/lib.rt": LOWER + "pub use shapes::private;\n"}
        self.assertEqual(self.faults("[lower]\nprivate\n", files), ["lower: no caller finds private"])

    def test_all_names_count_and_a_law_that_is_renamed_in_the_sources_is_missed(self) -> None:
        listed = (ROOT / "tools" / "surface.txt").read_text(encoding="utf-8")
        sources = Sources(ROOT)
        count, faults = missing(listed, sources)
        self.assertEqual(faults, [])
        laws = sources.module(("vortex_runend", "laws"))
        laws.uses["executions_agree"] = laws.uses.pop("runs_agree")
        self.assertEqual(missing(listed, sources), (count, ["vortex_runend::laws: no caller finds runs_agree"]))


class Unlisted(unittest.TestCase):
    LISTED = "# Names.\n\n[upper]\nExtent\nGrows\nShape: Box\n"

    def sources(self, folder: str) -> Sources:
        for name, text in FILES.items():
            path = Path(folder) / "crates" / name
            path.parent.mkdir(parents=True, exist_ok=True)
            path.write_text(text, encoding="utf-8")
        return Sources(Path(folder))

    def test_what_the_list_lacks_is_told(self) -> None:
        with tempfile.TemporaryDirectory() as folder:
            lacking = unlisted(self.LISTED, self.sources(folder), ("upper",))
            self.assertEqual(lacking, {"upper": ["surface"], "upper::laws": ["sums_agree"]})

    def test_private_names_are_not_wanted(self) -> None:
        with tempfile.TemporaryDirectory() as folder:
            lacking = unlisted("", self.sources(folder), ("lower",))
            self.assertEqual(lacking, {"lower": ["Extent", "Shape", "area"], "lower::laws": ["sums_agree"]})

    def test_what_is_added_is_listed_with_what_belongs_to_it(self) -> None:
        with tempfile.TemporaryDirectory() as folder:
            sources = self.sources(folder)
            made = with_lines("[lower]\narea\n", sources, unlisted("[lower]\narea\n", sources, ("lower",)))
            self.assertEqual(missing(made, sources)[1], [])
            self.assertEqual(unlisted(made, sources, ("lower",)), {})
            self.assertIn("Shape: +Clone +Copy +Debug +Display", made)


if __name__ == "__main__":
    unittest.main()
