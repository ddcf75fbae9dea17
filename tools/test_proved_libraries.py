"""Tests of proved_libraries.py: which libraries get a stamp."""

import os
import tempfile
import unittest
from dataclasses import dataclass, field
from pathlib import Path

from proved_libraries import write_stamps


@dataclass
class Crate:
    """A crate as write_stamps reads one."""

    name: str
    folder: Path
    deps: list["Crate"] = field(default_factory=list)
    is_library: bool = True

    @property
    def rlib(self) -> str:
        return str(self.folder / self.name / "out" / "rlib" / f"{self.name}.rlib")

    def makes_rlib(self) -> bool:
        return self.is_library

    def below(self) -> list["Crate"]:
        return self.deps

    def stamp(self) -> str:
        return f"stamp of {self.name}"


class Stamps(unittest.TestCase):
    def setUp(self) -> None:
        self.room = tempfile.TemporaryDirectory()
        self.folder = Path(self.room.name)
        self.low = Crate("low", self.folder)
        self.high = Crate("high", self.folder, [self.low])
        self.program = Crate("program", self.folder, [self.low, self.high], is_library=False)
        self.crates = [self.low, self.high, self.program]

    def tearDown(self) -> None:
        self.room.cleanup()

    def make(self, *crates: Crate) -> None:
        for crate in crates:
            Path(crate.rlib).mkdir(parents=True)
            (Path(crate.rlib) / "format").write_text("", encoding="utf-8")
            os.utime(crate.rlib, (1000, 1000))

    def stamps(self) -> list[str]:
        return sorted(path.read_text(encoding="utf-8") for path in self.folder.glob("*/out/rlib/stamp"))

    def test_libraries_get_their_stamps_and_programs_none(self) -> None:
        self.make(*self.crates)
        self.assertEqual(write_stamps(self.crates, 1000), 2)
        self.assertEqual(self.stamps(), ["stamp of high", "stamp of low"])

    def test_a_library_that_is_not_there_gets_none(self) -> None:
        self.make(self.low)
        self.assertEqual(write_stamps(self.crates, 1000), 1)
        self.assertEqual(self.stamps(), ["stamp of low"])

    def test_nor_does_one_over_it(self) -> None:
        self.make(self.high)
        self.assertEqual(write_stamps(self.crates, 1000), 0)
        self.assertEqual(self.stamps(), [])

    def test_one_of_links_to_what_was_kept_gets_one(self) -> None:
        self.make(*self.crates)
        os.utime(Path(self.low.rlib) / "format", (5, 5))
        self.assertEqual(write_stamps(self.crates, 1000), 2)

    def test_nor_one_of_an_earlier_run(self) -> None:
        self.make(*self.crates)
        os.utime(self.low.rlib, (999, 999))
        self.assertEqual(write_stamps(self.crates, 1000), 0)
        self.assertEqual(self.stamps(), [])


if __name__ == "__main__":
    unittest.main()
