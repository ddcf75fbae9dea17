"""Evidence of a wrong body, as a line of a ledger (tools/ledger.py) ends with it: what a user sees of it.

It is one of these:

    line: WORDS     a line of examples/vectors/lines.txt, whose answer differs with the edit, begins with these words
    test: FILE      this program of examples/ fails, where the library has the edit
    none: WHY       no answer differs: why

tools/mutants.py finds the first two, and writes results: lines of CRATE/NAME, the hash of ledger.py, and the evidence.
"""

from bisect import bisect_left
from dataclasses import dataclass
from pathlib import Path

VECTORS = "examples/vectors/lines.txt"
SEEN = ("line: ", "test: ")
KINDS = (*SEEN, "none: ")
# A line is named by as many of its first words as no other line begins with, by this number of characters at least,
# and by the other number at most.
LEAST, MOST = 40, 160


@dataclass(frozen=True)
class Result:
    """What is known of a wrong body: its name with that of its crate, the hash of its text, and the evidence."""

    name: str
    mark: str
    evidence: str

    def text(self) -> str:
        """The result as a file has it."""
        return f"{self.name} {self.mark} {self.evidence}\n"


class Vectors:
    """The lines of the vectors, by how they begin."""

    def __init__(self, text: str) -> None:
        self.lines = text.split("\n")
        numbered = ((line, number) for number, line in enumerate(self.lines, start=1))
        self.ordered = sorted((line, number) for line, number in numbered if line and not line.startswith("#"))

    def places(self, words: str, most: int) -> list[int]:
        """The numbers, from 1, of lines that begin with these words: `most` of them at most."""
        found = []
        for at in range(bisect_left(self.ordered, (words,)), len(self.ordered)):
            line, number = self.ordered[at]
            if not line.startswith(words) or len(found) == most:
                break
            if line[len(words) :][:1] in ("", " "):
                found.append(number)
        return found

    def name(self, number: int) -> str:
        """The words by which a line, with its number from 1, is named."""
        line = self.lines[number - 1]
        words = line.split(" ")
        starts = [" ".join(words[:count]) for count in range(1, len(words) + 1)]
        named = [start for start in starts if len(start) <= MOST] or starts[:1]
        return next((start for start in named if len(start) >= LEAST and len(self.places(start, 2)) == 1), named[-1])


def fault(evidence: str, root: Path, vectors: Vectors) -> str | None:
    """What is wrong with an evidence: it names a line or a file that is not there, or is none of the three."""
    kind, _, rest = evidence.partition(" ")
    if f"{kind} " not in KINDS or not rest:
        return f"its evidence is none of {', '.join(map(str.strip, KINDS))}"
    if kind == "line:" and not vectors.places(rest, 1):
        return f"its evidence is a line that is not in {VECTORS}: {rest}"
    if kind == "test:" and not (root / rest).is_file():
        return f"its evidence is a test that is not there: {rest}"
    return None


def results_of(text: str) -> list[Result]:
    """The results of a file."""
    return [Result(*line.split(" ", 2)) for line in text.splitlines() if line.count(" ") > 1]
