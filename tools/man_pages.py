#!/usr/bin/env python3
"""Makes the pages of the manual from what says the same elsewhere: man/hivevigil.1 from docs/PROGRAM.md, and
man/hivevigil.3 from include/hivevigil.h.

    python3 tools/man_pages.py            names what is out of step; ends in 'N passed, M failed'
    python3 tools/man_pages.py --write    writes the pages anew

From Markdown it reads what PROGRAM.md has: titles, paragraphs, indented text, tables of two columns, and within a line
bold words and code; from the header comments and declarations.
"""

import re
import sys
import textwrap
from pathlib import Path

ROOT = Path(__file__).resolve().parent.parent
WIDTH = 76
PROGRAM = "columns in runs from the command line"
LIBRARY = "run-end encoded columns for C"
# Titles of PROGRAM.md that a page of the manual has under another name, and those that it has not.
TITLES = {"Status": "EXIT STATUS"}
LEFT_OUT = ("How it is tested",)

# ---- roff


def escaped(text: str) -> str:
    """The text as roff reads it: a backslash and marks that it would draw otherwise are written out."""
    text = text.replace("\\", r"\e").replace("-", r"\-")
    return text.replace("'", r"\(aq").replace("`", r"\(ga").replace("^", r"\(ha").replace("~", r"\(ti")


def line(text: str) -> str:
    """A line of text, of which roff takes none for a command."""
    return r"\&" + text if text.startswith((".", "'")) else text


def inline(text: str) -> str:
    """A paragraph of Markdown: code and bold words are bold, and a barred \\| is a bar."""
    parts = re.split(r"(`[^`]+`|\*\*[^*]+\*\*)", " ".join(text.split()))
    bold = lambda part: part[1:-1] if part.startswith("`") else part[2:-2] if part.startswith("**") else ""
    words = [rf"\fB{escaped(bold(part))}\fP" if bold(part) else escaped(part) for part in parts]
    return line("".join(words).replace(r"\e|", "|"))


def verbatim(lines: list[str]) -> list[str]:
    return [".nf", *(line(escaped(text)) for text in lines), ".fi"]


def indented(lines: list[str]) -> list[str]:
    return [".RS 4", *lines, ".RE"]


def head(name: str, section: int, title: str) -> list[str]:
    version = (ROOT / "VERSION").read_text(encoding="utf-8").strip()
    return [
        rf'.\" made by tools/man_pages.py',
        f'.TH {name.upper()} {section} "" "Hivevigil {version}"',
        ".SH NAME",
        rf"{name} \- {title}",
    ]


# ---- a page of Markdown


def table(rows: list[str]) -> list[str]:
    """A table of two columns as a list: the first says of what the second is."""
    cells = [[cell.strip() for cell in re.split(r"(?<!\\)\|", row)[1:-1]] for row in rows[2:]]
    return [part for first, second in cells for part in (".TP", inline(first), inline(second))]


def block(text: str) -> list[str]:
    """A paragraph, indented text, a table or a title."""
    lines = text.split("\n")
    if text.startswith("    "):
        return [".PP", *indented(verbatim([text[4:] for text in lines]))]
    if text.startswith("|"):
        return table(lines)
    if text.startswith("## "):
        title = text[3:]
        return [f".SH {escaped(TITLES.get(title, title.upper()))}"]
    return [".PP", inline(text)]


def program_page(page: str) -> list[str]:
    """man/hivevigil.1: the first indented text of the page is its synopsis."""
    sections = re.split(r"\n(?=## )", page.split("\n", 1)[1].strip("\n"))
    kept = [part for part in sections if not part.startswith(tuple(f"## {title}\n" for title in LEFT_OUT))]
    intro, *others = [[text.strip("\n") for text in re.split(r"\n\n+", part.strip("\n"))] for part in kept]
    synopsis = next(text for text in intro if text.startswith("    "))
    about = [text for text in intro if text is not synopsis]
    said = [part for text in about for part in block(text)]
    rest = [part for section in others for text in section for part in block(text)]
    usage = verbatim([text[4:] for text in synopsis.split("\n")])
    return [*head("hivevigil", 1, PROGRAM), ".SH SYNOPSIS", *usage, ".SH DESCRIPTION", *said, *rest, *see_also(3)]


def see_also(section: int) -> list[str]:
    return [".SH SEE ALSO", rf"\fBhivevigil\fP({section}); the pages in \fI/usr/share/doc/hivevigil\fP"]


# ---- a header of C


def comment_text(comment: str) -> str:
    """What a comment says, without its marks."""
    return re.sub(r"\n \*(?: |$|(?=\n))", "\n", re.sub(r"^/\*\s?|\s*\*/$", "", comment))


def paragraphs(text: str) -> list[str]:
    """Paragraphs and items of a comment; a paragraph ends at an empty line or at an item."""
    said = []
    for part in re.split(r"\n\s*\n|\n(?= - )", text.strip("\n")):
        is_item = part.startswith(" - ")
        said += [r".IP \(bu 2" if is_item else ".PP", inline(part.removeprefix(" - "))]
    return said


def pieces(header: str) -> list[tuple[str, str]]:
    """Comments that begin a line, and stretches of declarations between them. What a preprocessor decides is left out,
    but for numbers that it defines."""
    body = header[header.index("/* The version of this header") : header.index('#include "hivevigil_calls.h"')]
    body = re.sub(r"^#(?!define).*\n", "", body, flags=re.M)
    parts = re.split(r"(^/\*.*?\*/[^\n]*\n|\n\n+)", body, flags=re.M | re.S)
    return [("comment" if part.startswith("/*") else "code", part.strip("\n")) for part in parts if part.strip()]


def declarations(code: str) -> list[tuple[str, str]]:
    """Each declaration with the comment that ends its line. Bodies of inline functions are left out."""
    code = re.sub(r"\) \{\n.*?\n\}", ");", code, flags=re.S)
    code = re.sub(r"\bHV_ANSWER\b", "int32_t", re.sub(r"\bHV_CALL ", "", code))
    whole = r"#define [^\n]+|(?:enum|typedef struct \w+) \{.*?\}[^;]*;|[^;]+;"
    found = re.findall(rf"\s*({whole})[ \t]*(?:/\*(.*?)\*/)?", code, re.S)
    return [(declaration, said.strip()) for declaration, said in found]


def constants(enum: str) -> list[tuple[str, str]]:
    """The constants of an enum, each with what its comment says."""
    return re.findall(r"(HV_\w+ = \d+),?(?:[ \t]*/\*(.*?)\*/)?", enum, re.S)


def wrapped(declaration: str) -> list[str]:
    """A declaration in lines that a terminal shows whole, which end between parameters."""
    joined = re.sub(r"(?<=\w) (?=[\w*])", "\0", " ".join(declaration.split()))
    return [text.replace("\0", " ") for text in textwrap.wrap(joined, WIDTH, subsequent_indent=" " * 8)]


def declared(declaration: str) -> list[str]:
    if "/*" in declaration:
        said = [(name, inline(about) or r"\&") for name, about in constants(declaration)]
        return [part for name, about in said for part in (".TP", rf"\fB{name}\fP", about)]
    is_written_out = "\n    " in declaration and "{" in declaration
    lines = declaration.split("\n") if is_written_out else wrapped(declaration)
    return [".PP", ".nf", *(rf"\fB{line(escaped(text))}\fP" for text in lines), ".fi"]


def section_of(comment: str) -> tuple[str, str]:
    """The title of a part of the header, and what it says of all of it."""
    title, said = re.match(r"---- (.+?) ----\s*(.*)", comment, re.S).groups()
    title, _, more = title.partition(": ")
    said = ". ".join(filter(None, [more, said]))
    return title, said[:1].upper() + said[1:]


def described(header: str) -> list[tuple[str, str, str]]:
    """The header in turn: ("section", title, what is said of it), ("text", "", what is said of what follows), and
    ("declaration", what is declared, what is said of it)."""
    found, said = [("text", "", comment_text(re.match(r"/\*.*?\*/", header, re.S)[0]))], ""
    for kind, part in pieces(header):
        if kind == "comment":
            # what no declaration follows is about all that come next
            found += [("text", "", said)] if said else []
            text = comment_text(part)
            said = "" if text.startswith("----") else text
            found += [("section", *section_of(text))] if text.startswith("----") else []
            continue
        *others, (last, after) = declarations(part)
        found += [("declaration", *other) for other in others] + [("declaration", last, after or said)]
        said = ""
    return found


def library_page(header: str) -> list[str]:
    """man/hivevigil.3: each declaration, and after it the comment that is in front of it."""
    use = ["#include <hivevigil.h>", "", "cc program.c $(pkg-config --cflags --libs hivevigil)"]
    page = [*head("hivevigil", 3, LIBRARY), ".SH SYNOPSIS", *verbatim(use)]
    (_, _, intro), *rest = described(header)
    page += [".SH DESCRIPTION", *paragraphs(intro), ".SH TYPES AND NUMBERS"]
    for kind, name, said in rest:
        about = paragraphs(said) if said else []
        page += [f".SH {escaped(name.upper())}"] if kind == "section" else []
        page += [*declared(name), *(indented(about) if about else [])] if kind == "declaration" else about
    return [*page, *see_also(1)]


# ---- both pages


def pages(root: Path) -> dict[str, str]:
    """The pages by their names, as they are to be."""
    text = lambda path: (root / path).read_text(encoding="utf-8")
    made = {
        "man/hivevigil.1": program_page(text("docs/PROGRAM.md")),
        "man/hivevigil.3": library_page(text("include/hivevigil.h")),
    }
    return {name: "\n".join(lines) + "\n" for name, lines in made.items()}


def main() -> int:
    made = pages(ROOT)
    if sys.argv[1:] == ["--write"]:
        (ROOT / "man").mkdir(exist_ok=True)
        for name, page in made.items():
            (ROOT / name).write_text(page, encoding="utf-8")
        return 0
    there = {name: (ROOT / name).read_text(encoding="utf-8") if (ROOT / name).exists() else "" for name in made}
    old = [name for name, page in made.items() if there[name] != page]
    for name in old:
        print(f"{name} is out of step: python3 tools/man_pages.py --write")
    print(f"{len(made) - len(old)} passed, {len(old)} failed")
    return 1 if old else 0


if __name__ == "__main__":
    sys.exit(main())
