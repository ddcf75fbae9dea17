#!/usr/bin/env python3
"""Makes the documentation as a site of static HTML, from the pages of this repository, the comments of
include/hivevigil.h, and the docstrings of the Python package.

    /usr/bin/python3 tools/website.py FOLDER [--rust DOC]     DOC: what cargo doc made of rust/
    python3 tools/website.py --check FOLDER                   follows every link; ends in 'N passed, M failed'

`sh dist.sh --site` calls both. A name in backquotes becomes a link where there is a page about it: a path
(`docs/ABI.md`), a crate, a call of C. Needs Debian's python3-markdown to make the site, and nothing else to check it.
"""

import argparse
import ast
import html
import os
import re
import shutil
import sys
from html.parser import HTMLParser
from pathlib import Path
from urllib.parse import unquote, urldefrag

from man_pages import constants, described

ROOT = Path(__file__).resolve().parent.parent
FILES = Path(__file__).resolve().parent / "website"
HEADER, PACKAGE, RUST, CRATES = "include/hivevigil.h", "python/hivevigil", "rust", "crates.txt"
MESSAGES = "examples/corpus/messages.txt"
# The pages by their titles, in groups. What is not a file of this list, and not a crate's page, is not in the site.
GROUPS = {
    "Use it": {
        "README.md": "Overview", "docs/QUESTIONS.md": "How do I ..?", "docs/PROGRAM.md": "On the command line",
        "python/README.md": "Python", "docs/TABLES.md": "Tables", "docs/TYPES.md": "Dates and times",
        "examples/README.md": "C, C++, Rust, Arrow", "examples/sqlite/README.md": "SQLite",
        "examples/postgres/README.md": "PostgreSQL", "examples/postgres/SENSORS.md": "A year of sensors",
        "docs/CALLING.md": "Rattle", "CHANGELOG.md": "Changes",
    },
    "Reference": {
        HEADER: "Calls of C", PACKAGE: "Python package", RUST: "Rust crate", "docs/ERRORS.md": "Errors",
        "docs/BYTES.md": "A column as bytes", "docs/column.proto": "Schema of messages",
        "docs/table.proto": "Schema of tables",
        "docs/ABI.md": "Binary interface", "docs/PROMISE.md": "What stays within 2.x",
        "docs/MOVING.md": "From 1.x to 2.0", "docs/SCRIPT.md": "Script",
        "docs/VECTORS.md": "Vectors",
    },
    "What is proved": {
        "docs/PROVED.md": "Proved, tested, trusted", "docs/HEADLINE.md": "The headline", CRATES: "Crates",
        "docs/DIFFERENCES.md": "Differences", "docs/PERFORMANCE.md": "Performance",
    },
    "Work on it": {
        "docs/FIRST_HOUR.md": "First hour", "docs/ARCHITECTURE.md": "Architecture", "CONTRIBUTING.md": "Contributing",
        "docs/STYLE.md": "Style", "docs/GATE.md": "The gate", "docs/DECISIONS.md": "Decisions",
        "bench/README.md": "Benchmarks", "bench/TRIED.md": "What was tried", "tools/README.md": "Tools",
    },
}
FURTHER = ("docs/*.md", "bench/results/*.md", "crates/*/README.md")
PYTHON = {
    "hivevigil": "__init__.py", "Column": "column.py", "Builder": "builder.py", "Run": "_runs.py",
    "Table": "table.py", "Groups of a table": "table_groups.py", "Functions": "functions.py", "Errors": "errors.py",
    "hivevigil.chunks": "chunks.py", "hivevigil.pandas": "pandas.py", "hivevigil.dask": "dask.py",
    "hivevigil.dask_tables": "dask_tables.py",
}
# The front page that pages of rustdoc link to, and that it does not make.
FORWARD = """<!DOCTYPE html>
<html lang="en"><head><meta charset="utf-8"><meta http-equiv="refresh" content="0; url=hivevigil/index.html">
<title>hivevigil</title></head><body><a href="hivevigil/index.html">hivevigil</a></body></html>
"""
# Three runs of one column.
BRAND = (
    '<svg viewBox="0 0 24 24" aria-hidden="true"><rect x="2" y="4" width="20" height="4" rx="2" fill="#d8860b"/>'
    '<rect x="2" y="10" width="9" height="4" rx="2" fill="#0b57a4"/>'
    '<rect x="2" y="16" width="15" height="4" rx="2" fill="#5b8f3a"/></svg>'
)


def text(path: str) -> str:
    return (ROOT / path).read_text(encoding="utf-8")


def version() -> str:
    return text("VERSION").strip()


# ---- which pages there are, and where


def sources() -> list[str]:
    """The paths that have a page: those of the groups, and what is found by a pattern."""
    named = [path for group in GROUPS.values() for path in group]
    found = [str(page.relative_to(ROOT)) for pattern in FURTHER for page in sorted(ROOT.glob(pattern))]
    return [*named, *(path for path in found if path not in named)]


def place(path: str) -> str:
    """Where the page of a path is in the site."""
    by_name = {"README.md": "index", HEADER: "c", PACKAGE: "python-reference", RUST: "rust/hivevigil/index",
               CRATES: "crates/index", "docs/column.proto": "docs/column-proto"}
    return by_name.get(path, path.removesuffix("/README.md").removesuffix(".md")) + ".html"


def link(target: str, page: str) -> str:
    return os.path.relpath(target, os.path.dirname(page) or ".")


# ---- the frame of a page


def navigation(page: str, places: dict[str, str]) -> str:
    parts = []
    for group, pages in GROUPS.items():
        items = [
            f'<li><a href="{link(places[path], page)}"{" aria-current=page" * (places[path] == page)}>{title}</a></li>'
            for path, title in pages.items()
            if path in places
        ]
        parts.append(f"<h2>{group}</h2>\n<ul>{''.join(items)}</ul>")
    return "\n".join(parts)


def contents(body: str) -> str:
    """Links to the titles of a page, where it has some."""
    found = re.findall(r'<h2 id="([^"]+)">(.*?)</h2>', body, re.S)
    items = "".join(f'<li><a href="#{name}">{re.sub("<[^>]*>", "", title)}</a></li>' for name, title in found)
    if not items:
        return ""
    return f'<nav class="toc" aria-label="On this page"><div class="inner"><ul>{items}</ul></div></nav>'


def framed(page: str, title: str, body: str, places: dict[str, str]) -> str:
    home, style = link(places["README.md"], page), link("style.css", page)
    name = title if page == "index.html" else f"{title} \u2013 Hivevigil"
    return f"""<!DOCTYPE html>
<html lang="en">
<head>
<meta charset="utf-8">
<meta name="viewport" content="width=device-width, initial-scale=1">
<title>{html.escape(name)}</title>
<link rel="stylesheet" href="{style}">
</head>
<body>
<nav class="side" aria-label="Pages"><div class="inner">
<a class="brand" href="{home}">{BRAND}<span>Hivevigil<small>{version()}</small></span></a>
<input type="checkbox" id="pages-shown"><label for="pages-shown">Pages</label>
<div class="groups">
{navigation(page, places)}
</div>
</div></nav>
<div class="page">
<main>
{body}
<p class="foot">Hivevigil {version()}: run-end encoded columns, with a proved core.</p>
</main>
{contents(body)}
</div>
</body>
</html>
"""


# ---- what is on it


def anchor(title: str) -> str:
    return re.sub(r"[^a-z0-9]+", "-", re.sub("<[^>]*>|&[a-z]+;", "", title).lower()).strip("-")


def with_anchors(body: str) -> str:
    """Each title gets a name by which it is linked; a second one of the same words has a number after it."""
    used: dict[str, int] = {}

    def named(found: re.Match) -> str:
        name = anchor(found[2])
        used[name] = used.get(name, 0) + 1
        return f'<h{found[1]} id="{name}{"-" + str(used[name]) if used[name] > 1 else ""}">{found[2]}</h{found[1]}>'

    return re.sub(r"<h([23])>(.*?)</h\1>", named, body, flags=re.S)


def rendered(markdown_text: str) -> str:
    import markdown

    body = markdown.markdown(markdown_text, extensions=["tables", "sane_lists"], output_format="html")
    return body.replace("<table>", '<div class="table"><table>').replace("</table>", "</table></div>")


def linked(body: str, page: str, targets: dict[str, str]) -> str:
    """Code that names a page becomes a link to it, but in titles, in blocks of code, and to the page itself."""

    def one(found: re.Match) -> str:
        name = html.unescape(found[1])
        # the library's own name is that of a crate, of the program and of packages
        of_crates = name != "hivevigil" or page.startswith("crates/")
        target = targets.get(name, page) if of_crates else page
        return found[0] if target == page else f'<a href="{link(target, page)}">{found[0]}</a>'

    parts = re.split(r"(<pre.*?</pre>|<h[123].*?</h[123]>|<a .*?</a>)", body, flags=re.S)
    return "".join(part if part.startswith(("<pre", "<h", "<a ")) else re.sub(r"<code>([^<]+)</code>", one, part)
                   for part in parts)


def commented(said: str) -> str:
    """A comment of C as Markdown: names are code, a paragraph's title is bold, and items follow an empty line."""
    parts = re.split(r"(`[^`]+`|\b(?:hv|HV)_\w+|\b[\w/]+\.(?:md|h|proto)\b)", said)
    is_code = lambda part: re.match(r"`|(?:hv|HV)_|[\w/]+\.(?:md|h|proto)$", part)
    marked = "".join(f"`{part.strip('`')}`" if is_code(part) else part.replace("*", r"\*") for part in parts)
    titled = re.sub(r"^([A-Z][A-Z ]+[A-Z])(?=[.:])", r"**\1**", marked, flags=re.M)
    return rendered(re.sub(r"\n(?= - )", "\n\n", titled, count=1))


def c_page() -> str:
    """The header: its parts, each declaration, and what is said of it."""
    (_, _, intro), *rest = described(text(HEADER))
    body = ["<h1>Calls of C</h1>", f"<p><code>{HEADER}</code> declares all of this.</p>", commented(intro)]
    body.append("<h2>Types and numbers</h2>")
    for kind, name, said in rest:
        if kind == "section":
            body.append(f"<h2>{html.escape(name).replace('`', '')}</h2>")
        if kind == "declaration" and "/*" in name:
            rows = [f"| `{constant}` | {' '.join(about.split())} |" for constant, about in constants(name)]
            body.append(rendered("\n".join(["| Number | What it says |", "|---|---|", *rows])))
        elif kind == "declaration":
            call = re.search(r"\b(hv_\w+)\(", name)
            named = f' id="{call[1]}"' if call else ""
            shown = html.escape(re.sub(r"\n {8,}", "\n    ", name), quote=False)
            body.append(f'<pre class="declaration"{named}><code>{shown}</code></pre>')
        about = commented(said) if said else ""
        body += [f'<div class="said">{about}</div>' if about and kind == "declaration" else about]
    return "\n".join(body)


def signature(function: ast.FunctionDef) -> str:
    given = ast.unparse(function.args)
    given = re.sub(r"^(self|cls)(, )?", "", given)
    returned = f" -> {ast.unparse(function.returns)}" if function.returns else ""
    is_property = any(ast.unparse(by).endswith("property") for by in function.decorator_list)
    return f"{function.name}{returned}" if is_property else f"{function.name}({given}){returned}"


def documented(node, prefix: str) -> list[str]:
    """A function or a class with its docstring, and the public methods of a class."""
    said = ast.get_docstring(node)
    if not said or node.name.startswith("_"):
        return []
    if isinstance(node, ast.ClassDef):
        inner = [item for item in node.body if isinstance(item, ast.FunctionDef)]
        methods = [part for item in inner for part in documented(item, node.name)]
        return [f"<h3>class {node.name}</h3>", rendered(said), *methods]
    name = html.escape(f"{prefix}.{signature(node)}" if prefix else signature(node), quote=False)
    return [f'<pre class="declaration"><code>{name}</code></pre>', f'<div class="said">{rendered(said)}</div>']


def python_page() -> str:
    body = ["<h1>Python package</h1>"]
    for title, file in PYTHON.items():
        module = ast.parse(text(f"{PACKAGE}/{file}"))
        body += [f"<h2>{title}</h2>", rendered(ast.get_docstring(module) or "")]
        for node in module.body:
            body += documented(node, "") if isinstance(node, (ast.ClassDef, ast.FunctionDef)) else []
    return "\n".join(body)


def crates_page() -> str:
    """The map of crates: what it says first, and for each group its title and a table."""
    body = ["<h1>Crates</h1>"]
    for number, block in enumerate(text(CRATES).strip().split("\n\n")):
        lines = block.split("\n")
        if all(line.startswith("#") for line in lines):
            said = " ".join(line[2:] for line in lines)
            body.append(rendered(said) if number == 0 else f"<h2>{html.escape(said)}</h2>")
            continue
        rows, said = ["| Crate | What it is | Over |", "|---|---|---|"], ""
        for line in lines:
            if line.startswith("# "):
                said = f"{said} {line[2:]}".strip()
                continue
            name, _, uses = line.partition(":")
            rows.append(f"| `{name}` | {said} | {', '.join(f'`{crate}`' for crate in uses.split())} |")
            said = ""
        body.append(rendered("\n".join(rows)))
    return "\n".join(body)


def body_of(path: str) -> str:
    made = {HEADER: c_page, PACKAGE: python_page, CRATES: crates_page}
    if path in made:
        return made[path]()
    if path.endswith(".proto"):
        return f"<h1>Schema of messages</h1>\n<pre><code>{html.escape(text(path), quote=False)}</code></pre>"
    return rendered(text(path))


def targets_of(places: dict[str, str]) -> dict[str, str]:
    """What code may name, with its page: paths, crates and calls of C."""
    crates = {path.split("/")[1]: where for path, where in places.items() if path.startswith("crates/")}
    calls = {name: f"{places[HEADER]}#{name}" for name in re.findall(r'id="(hv_\w+)"', c_page())}
    return {**crates, **calls, **places, "crates/NAME/README.md": places[CRATES], MESSAGES: "messages.txt"}


def make(folder: Path, rust: Path | None) -> int:
    places = {path: place(path) for path in sources() if path != RUST or rust}
    targets = targets_of(places)
    folder.mkdir(parents=True, exist_ok=True)
    shutil.copyfile(FILES / "style.css", folder / "style.css")
    shutil.copyfile(ROOT / MESSAGES, folder / "messages.txt")
    if rust:
        shutil.copytree(rust, folder / "rust", ignore=shutil.ignore_patterns(".lock"))
        (folder / "rust/index.html").write_text(FORWARD, encoding="utf-8")
    for path, page in places.items():
        if path == RUST:
            continue
        body = with_anchors(body_of(path))
        title = re.sub("<[^>]*>", "", re.search(r"<h1>(.*?)</h1>", body, re.S)[1])
        (folder / page).parent.mkdir(parents=True, exist_ok=True)
        whole = framed(page, html.unescape(title), linked(body, page, targets), places)
        (folder / page).write_text(whole, encoding="utf-8")
    return len(places)


# ---- every link followed


class Links(HTMLParser):
    """The links of a page, its names, and elements that are not closed in order."""

    OPEN = {"meta", "link", "img", "br", "hr", "input", "col", "wbr", "rect", "path", "source"}

    def __init__(self) -> None:
        super().__init__()
        self.links: list[str] = []
        self.names: set[str] = set()
        self.stack: list[str] = []
        self.faults: list[str] = []

    def handle_starttag(self, tag: str, attributes: list) -> None:
        for name, value in attributes:
            self.links += [value] if name in ("href", "src") and value else []
            if name == "id":
                self.faults += [f"two elements have the name {value}"] if value in self.names else []
                self.names.add(value)
        self.stack += [] if tag in self.OPEN else [tag]

    def handle_endtag(self, tag: str) -> None:
        if tag in self.OPEN:
            return
        if self.stack and self.stack[-1] == tag:
            self.stack.pop()
        else:
            self.faults.append(f"</{tag}> closes {self.stack[-1:] or 'nothing'}")


def read(page: Path) -> Links:
    found = Links()
    found.feed(page.read_text(encoding="utf-8"))
    found.faults += [f"<{tag}> is not closed" for tag in found.stack]
    return found


def broken(page: Path, pages: dict[Path, Links], is_ours: bool) -> list[str]:
    """What is wrong with the links of a page. Those of rustdoc are followed to their files only."""
    said = list(pages[page].faults) if is_ours else []
    for target in pages[page].links:
        path, name = urldefrag(target)
        if target.startswith(("https://", "http://", "data:", "mailto:", "javascript:")):
            said += [f"{target} is not of the site"] if is_ours else []
            continue
        to = (page.parent / unquote(path)).resolve() if path else page
        if not to.is_file():
            said.append(f"{target} is not there")
        elif is_ours and name and to in pages and unquote(name) not in pages[to].names:
            said.append(f"{target}: the page has no such name")
    return said


def check(folder: Path) -> int:
    folder = folder.resolve()
    pages = {page: read(page) for page in sorted(folder.rglob("*.html"))}
    left_out = [path for path in sources() if path != RUST and not (folder / place(path)).is_file()]
    failed = [f"{path} has no page" for path in left_out]
    for page in pages:
        inner = page.relative_to(folder)
        failed += [f"{inner}: {fault}" for fault in broken(page, pages, inner.parts[0] != "rust")]
    print(*failed, sep="\n", end="\n" if failed else "")
    links = sum(len(page.links) for page in pages.values())
    print(f"{len(pages)} pages with {links} links")
    print(f"{len(pages) - len(failed)} passed, {len(failed)} failed")
    return 1 if failed or len(pages) < 60 else 0


def main() -> int:
    parser = argparse.ArgumentParser(description=__doc__, formatter_class=argparse.RawDescriptionHelpFormatter)
    parser.add_argument("folder", type=Path)
    parser.add_argument("--check", action="store_true")
    parser.add_argument("--rust", type=Path)
    chosen = parser.parse_args()
    if chosen.check:
        return check(chosen.folder)
    print(f"{make(chosen.folder, chosen.rust)} pages in {chosen.folder}")
    return 0


if __name__ == "__main__":
    sys.exit(main())
