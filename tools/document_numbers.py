#!/usr/bin/env python3
"""Counts that documents name, held against what they count.

    python3 tools/document_numbers.py        names each sentence that is out of step; ends in 'N passed, M failed'

A count is known by the words after it: `53 calls` are the calls that include/hivevigil.h declares, `21 errors` the
variants of VortexError. Sentences of other counts (measurements with a date, say) are not read. Pages that cite a decision (`docs/DECISIONS.md`, 92) cite one that is
there.
"""

import re
import sys
from pathlib import Path

ROOT = Path(__file__).resolve().parent.parent
# For each count the pages that have to name it, and the sentence around the number.
SENTENCES = {
    "calls": [
        ("README.md", r"each of the (\d+) calls"),
        ("CHANGELOG.md", r"(\d+) calls \(`include/hivevigil.h`\)"),
        ("crates/hivevigil/README.md", r"a static library of (\d+) calls"),
        ("examples/README.md", r"the library as (\d+) calls of C"),
    ],
    "errors": [
        ("docs/PROVED.md", r"has the (\d+) errors"),
        ("docs/SCRIPT.md", r"has the (\d+) errors"),
        ("docs/CALLING.md", r"lists the (\d+) with numbers"),
    ],
}


def calls(header: str) -> int:
    """The functions that a header of C declares, those with a body of their own left out."""
    code = re.sub(r"/\*.*?\*/", "", header, flags=re.S)
    return len(set(re.findall(r"^(?!static|#)[^\n{;]*\b(hv_\w+)\([^;{]*\);", code, re.M)))


def errors(source: str) -> int:
    """The variants of the enum VortexError."""
    body = source.split("pub enum VortexError", 1)[1]
    body = body[body.index("{") + 1 : body.index("\n}")]
    return len(re.findall(r"^    ([A-Z]\w*)", body, re.M))


def counted(root: Path) -> dict[str, int]:
    """Each count, from what it counts."""
    text = lambda path: (root / path).read_text(encoding="utf-8")
    return {
        "calls": calls(text("include/hivevigil.h")),
        "errors": errors(text("crates/column_base/src/error.rt")),
    }


def out_of_step(page: str, found: str, count: int, text: str) -> str | None:
    """What is wrong with the sentence that names the count on a page."""
    numbers = re.findall(found, re.sub(r"\s+", " ", text))
    if not numbers:
        return f"{page}: no sentence has the words {found!r}"
    wrong = sorted({number for number in numbers if int(number) != count})
    return f"{page}: {', '.join(wrong)} where there are {count} ({found})" if wrong else None


def without_entry(page: str, text: str, decisions: str) -> str | None:
    """What is wrong with the decisions that a page cites by their numbers."""
    cited = set(re.findall(r"`docs/DECISIONS\.md`,\s+(\d+)", text))
    gone = sorted(cited - set(re.findall(r"^(\d+)\. ", decisions, re.M)), key=int)
    return f"{page}: cites {', '.join(gone)}, and docs/DECISIONS.md has no such entry" if gone else None


def citing(root: Path) -> dict[str, str]:
    """The pages that cite decisions, with their texts."""
    patterns = ("*.md", "docs/*.md", "crates/*/README.md", "crates/*/must-fail/*.md")
    pages = [page for pattern in patterns for page in root.glob(pattern)]
    texts = {str(page.relative_to(root)): page.read_text(encoding="utf-8") for page in pages}
    return {page: text for page, text in texts.items() if "DECISIONS.md`," in text}


def main() -> int:
    counts = counted(ROOT)
    said = [
        out_of_step(page, found, counts[name], (ROOT / page).read_text(encoding="utf-8"))
        for name, sentences in SENTENCES.items()
        for page, found in sentences
    ]
    decisions = (ROOT / "docs/DECISIONS.md").read_text(encoding="utf-8")
    said += [without_entry(page, text, decisions) for page, text in sorted(citing(ROOT).items())]
    for line in filter(None, said):
        print(line)
    failed = sum(line is not None for line in said)
    print(f"{len(said) - failed} passed, {failed} failed")
    return 1 if failed else 0


if __name__ == "__main__":
    sys.exit(main())
