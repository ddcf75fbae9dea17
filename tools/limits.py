#!/usr/bin/env python3
"""Lengths that a reader can take in, of files, functions and lines, and words that a reader stumbles over.

    python3 tools/limits.py            names what is too long; ends in 'N passed, M failed', N the files that were read
    python3 tools/limits.py --words    how often each word of WORDS is found, and where most; rewrites tools/words.txt

Sources (.rt) have at most 500 lines, their functions 40 from brace to brace, documents (.md) lines of 120 characters
outside of tables and of indented text that is not an item of a list. How many lines of sources are past 120, and how
many past 140, may only fall: LONG_LINES has what there is. Imports and attributes don't count, since `rt fmt` writes
each as one line. A cell of a table has at most 200 characters.

The words that docs/STYLE.md asks to avoid are counted over pages, comments and headers. tools/words.txt has how often
each may be found, and no number may rise: who mends some lowers them by --words. The table of docs/STYLE.md itself and
tables of measurements (bench/results/) are not read.
"""

import re
import subprocess
import sys
from pathlib import Path

ROOT = Path(__file__).resolve().parent.parent
FILE, FUNCTION, PROSE, CELL = 500, 40, 120, 200
ALLOWED = ROOT / "tools/words.txt"
# The words to avoid, as docs/STYLE.md names them, and how each is found in text of one line.
WORDS = {
    "alone": r"\balone\b",
    "beside": r"\bbesides?\b",
    "behind": r"\bbehind\b",
    "told, tells": r"\b(?:told|tells?|telling)\b",
    "stands, stood": r"\b(?:stands?|stood|standing)\b",
    "want of memory": r"\b(?:(?:want|short) of memory|lacks? memory)\b",
    "so many": r"\bso many\b",
    "is no": r"\b(?:is|are|was|were) no\b(?! (?:longer|more|less|greater|later|shorter))",
    "halves": r"\bhalves\b",
    "unawares": r"\bunawares\b",
    "reckoned": r"\breckon\w*\b",
    "Of ..": r"(?:^|[.:;>] |- )Of (?!\w+ing\b)",
}
# A doc comment that opens with an article, a number or a question, where a verb is wanted ("Returns the ..").
VERBLESS = "/// without a verb"
OPENS = re.compile(r"[ \t]*/// +(?:The|A|An|All|Any|Each|Every|No|One|Two|Whether|Which|How|What|Is|Are|Does|As|So)\b")
# By ending how comments are found; pages count as a whole.
COMMENTS = {
    (".rt", ".rs"): r"//[/!]?(.*)",
    (".antt",): r"--(?: (.*))?$",
    (".h", ".hpp", ".c"): r"/\*.*?\*/|//.*?$",
    (".py",): r'""".*?"""|#.*?$',
    (".sh", ".ci/run"): r"#(.*)",
    (".md",): r"(?s:.*)",
}
NOT_READ = ("bench/results/",)
# Names of wrong bodies that other pages have: a ledger has no words of its own.
LEDGER = "must-fail/ledger.md"
# Lines of sources that may be longer than this number of characters. Lower the numbers when lines become shorter.
LONG_LINES = {120: 0, 140: 0}
ITEM = re.compile(r" *(?:\d+\.|[-*]) ")
ONE_LINE = re.compile(r"\s*(?:(?:pub )?(?:ghost )?use |#!?\[)")
HEAD = re.compile(r"^(\s*)(?:pub(?:\(crate\))? )?(?:const )?(?:unsafe )?(?:extern \"C\" )?fn (\w+)")


def long_functions(text: str) -> list[tuple[str, int]]:
    """The functions whose body is longer than it may be, and its lines. A body begins at a brace that is a line of its
    own or ends the head's line, and ends at a brace as deep as the head."""
    found, head, begin = [], None, None
    for number, line in enumerate(text.split("\n")):
        if match := HEAD.match(line):
            head, begin = match, None
        if head and begin is None and (line == head[1] + "{" or line.endswith("{")):
            begin = number
        elif head and begin is not None and line == head[1] + "}":
            if number - begin - 1 > FUNCTION:
                found.append((head[2], number - begin - 1))
            head = None
    return found


def long_prose(text: str) -> list[int]:
    """The numbers of lines of a document that are longer than they may be, from 1. What is indented is prose where it
    goes on with an item of a list."""
    found, in_item = [], False
    for number, line in enumerate(text.split("\n"), 1):
        in_item = bool(ITEM.match(line)) or (in_item and line.startswith(" "))
        is_prose = in_item or not line.startswith(("|", "    "))
        if len(line) > PROSE and is_prose:
            found.append(number)
    return found


def long_cells(text: str) -> list[int]:
    """The numbers of lines of tables, from 1, with a cell that is longer than it may be."""
    rows = ((number, line) for number, line in enumerate(text.split("\n"), 1) if line.startswith("|"))
    return [number for number, line in rows if any(len(cell.strip()) > CELL for cell in line.split("|"))]


def prose_of(path: str, text: str) -> str:
    """What is read for words: the comments of a source as one line each, a page without the table of the words."""
    if path.startswith(NOT_READ) or path.endswith(LEDGER):
        return ""
    if path == "docs/STYLE.md":
        text = "\n".join(line for line in text.split("\n") if not line.startswith("|"))
    found = next((pattern for endings, pattern in COMMENTS.items() if path.endswith(endings)), None)
    across = 0 if path.endswith((".rt", ".rs", ".antt", ".sh", ".ci/run")) else re.S
    parts = [match[0] for match in re.finditer(found, text, re.M | across)] if found else []
    return re.sub(r"\s*\n[ \t*/!#>-]*", " ", "\n".join(parts))


def verbless(text: str) -> int:
    """How many doc comments of a source open without a verb."""
    lines = text.split("\n")
    begins = (line for before, line in zip(["", *lines], lines) if not before.lstrip().startswith("///"))
    return sum(bool(OPENS.match(line)) for line in begins)


def words_in(path: str, text: str) -> dict[str, int]:
    """How often each word to avoid is in the prose of a file, and how many of its doc comments have no verb."""
    prose = prose_of(path, text)
    found = {word: len(re.findall(pattern, prose)) for word, pattern in WORDS.items()}
    return found | {VERBLESS: verbless(text) if path.endswith((".rt", ".rs")) else 0}


def allowed(text: str) -> dict[str, int]:
    """The numbers of tools/words.txt, by word."""
    rows = (line.split(" ", 1) for line in text.split("\n") if line and not line.startswith("#"))
    return {word: int(number) for number, word in rows}


def risen(found: dict[str, int], most: dict[str, int]) -> list[str]:
    """The words that are found more often than they may be; a word without a number may not be found."""
    return [
        f"'{word}' {number} times, and {most.get(word, 0)} may be (docs/STYLE.md): python3 tools/limits.py --words"
        for word, number in found.items()
        if number > most.get(word, 0)
    ]


def faults_of(path: str, text: str) -> list[str]:
    """What is too long in one file."""
    if path.endswith(".md"):
        said = [f"{path}:{number}: a cell of a table past {CELL} characters" for number in long_cells(text)]
        return said + [f"{path}:{number}: a line of prose past {PROSE} characters" for number in long_prose(text)]
    said = [f"{path}: {name} has {lines} lines" for name, lines in long_functions(text)]
    if text.count("\n") > FILE:
        said.append(f"{path}: {text.count(chr(10))} lines")
    return said


def too_many(sources: list[str]) -> list[str]:
    """Which numbers of long lines have risen."""
    lengths = [len(line) for text in sources for line in text.split("\n") if not ONE_LINE.match(line)]
    counts = {limit: sum(length > limit for length in lengths) for limit in LONG_LINES}
    return [
        f"{counts[limit]} lines of sources past {limit} characters, and {most} may be"
        for limit, most in LONG_LINES.items()
        if counts[limit] > most
    ]


def read(*patterns: str) -> dict[str, str]:
    """The files of these patterns that git lists, with their texts."""
    listed = subprocess.run(["git", "ls-files", *patterns], cwd=ROOT, capture_output=True, text=True, check=True)
    paths = (path for path in listed.stdout.split("\n") if path and (ROOT / path).exists())
    return {path: (ROOT / path).read_text(encoding="utf-8", errors="ignore") for path in paths}


def counted(texts: dict[str, str]) -> dict[str, dict[str, int]]:
    """How often each word is found, by file."""
    found = {path: words_in(path, text) for path, text in texts.items()}
    return {word: {path: words[word] for path, words in found.items() if words[word]} for word in (*WORDS, VERBLESS)}


def show_words(texts: dict[str, str]) -> None:
    """Prints each word with its files, those with most of them first, and writes tools/words.txt."""
    found = counted(texts)
    for word, files in found.items():
        most = sorted(files.items(), key=lambda item: -item[1])[:5]
        print(f"{sum(files.values()):5} {word}: " + ", ".join(f"{path} {number}" for path, number in most))
    head = "# How often each word that docs/STYLE.md asks to avoid may be found; written by tools/limits.py --words.\n"
    lines = "".join(f"{sum(files.values())} {word}\n" for word, files in found.items())
    ALLOWED.write_text(head + lines, encoding="utf-8")


def main() -> int:
    endings = [f"*{ending}" for endings in COMMENTS for ending in endings]
    everything = read(*endings)
    if sys.argv[1:] == ["--words"]:
        show_words(everything)
        return 0
    texts = {path: text for path, text in everything.items() if path.endswith((".rt", ".md"))}
    faults = {path: faults_of(path, text) for path, text in texts.items()}
    more = too_many([text for path, text in texts.items() if path.endswith(".rt")])
    sums = {word: sum(files.values()) for word, files in counted(everything).items()}
    more += risen(sums, allowed(ALLOWED.read_text(encoding="utf-8")))
    for line in [line for lines in faults.values() for line in lines] + more:
        print(line)
    failed = sum(bool(lines) for lines in faults.values()) + len(more)
    print(f"{len(texts) + len(LONG_LINES) + len(WORDS) + 1 - failed} passed, {failed} failed")
    return 1 if failed else 0


if __name__ == "__main__":
    sys.exit(main())
