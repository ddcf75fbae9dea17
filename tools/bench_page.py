#!/usr/bin/env python3
"""Makes the newest page of bench/results/ of what bench/run.sh printed, and docs/PERFORMANCE.md and README.md of that.

    CORE=3 sh bench/publish.sh                   measures all of it, and does what the next line does
    python3 tools/bench_page.py FOLDER           a new page of FOLDER/tables.md, sizes.md and growth.md
    python3 tools/bench_page.py tables.md        puts measured rows into the newest page
    python3 tools/bench_page.py                  only docs/PERFORMANCE.md and README.md, of the newest page

A row takes the place of the page's row of the same call and size or kind; one that the page lacks comes after the row
that it follows in tables.md. Rows that were not measured again stay.

A question is a call on rows of one type and one mean length of runs, with null or without. It has a row for each Rust
form ("encode, beside words"), and counts once, relative to the form that took least: by its greatest ratio. So do single
calls, and calls on ten rows. docs/PERFORMANCE.md has from the heading BEGIN up to the heading END the means of all three
and of families, what is slower, and a table of questions; bench/CAUSES.md says why a line is slower. README.md has the
mean of all questions. It prints how many questions there are, their geometric mean, and how many are above 1.15.
"""

import math
import re
import sys
import textwrap
from datetime import date
from pathlib import Path

ROOT = Path(__file__).resolve().parent.parent
PAGE = ROOT / "docs/PERFORMANCE.md"
CAUSES = ROOT / "bench/CAUSES.md"
FIRST_PAGE = ROOT / "README.md"
GOAL = 1.15
RATIOS = "| Call | 3 rows | 16 rows | 200 rows | Geometric mean |"
SINGLE = "| Call | Of | Ours | Rust | Ours / Rust |"
MEMORY = "| Greatest bytes held | Of | Ours | Rust | Requests a call, ours | Rust |"
KINDS = ("integers", "decimals", "booleans", "texts", "nested runs")
WITH_NULL = ", with null"
BESIDE = re.compile(
    r", beside (.*?)(?:(?=, with null$)|,?(?= of (?:decimals|booleans|texts|nested runs|i64)(?:,|$))|$)"
)
BEGIN, END = "## What it comes to", "## Growth with rows"
SPEED = re.compile(r"take [\d.]+\s+times\s+as\s+long\s+as\s+the\s+fastest\s+plain\s+Rust")
# By name the lines of a family, as their names begin.
FAMILIES = {
    "rows into runs": ("encode", "built"),
    "runs into rows": ("decode",),
    "bytes, written and read": ("bytes",),
    "sums, least and greatest, order": ("sum", "least", "min_max", "is_"),
    "casts, fills, comparisons, codes": ("cast", "fill", "compare", "take_from"),
    "takes": ("take,",),
    "filters": ("filter",),
}
SINGLES = {
    "look-ups and windows": ("scalar_at", "run of a row", "read of a window"),
    "slices and clones": ("slice", "clone"),
    "lists of ten": ("list of ten",),
    "first calls of a process": ("first",),
}


def results(folder: Path = ROOT / "bench/results") -> Path:
    """The newest page of results, which is named by its date; pages of other tables have a word after it."""
    return max(folder.glob("????-??-??.md"))


def cells(row: str) -> list[str]:
    return [cell.strip() for cell in row.strip().strip("|").split("|")]


def table_at(lines: list[str], head: str) -> tuple[int, int]:
    """The first row of a table and the line after its last, of the first table with this head."""
    start = lines.index(head) + 2
    stop = next((at for at in range(start, len(lines)) if not lines[at].startswith("|")), len(lines))
    return start, stop


def key_of(head: str, row: str) -> tuple[str, ...]:
    """What a row is of: its call, and where the table has it the size or kind."""
    return tuple(cells(row)[: 1 if head == RATIOS else 2])


def merged(head: str, old: list[str], new: list[str]) -> list[str]:
    """The old rows with the new ones in their place, or after the row that they follow."""
    rows = {key_of(head, row): row for row in old}
    order = list(rows)
    before = -1
    for row in new:
        key = key_of(head, row)
        if key not in rows:
            order.insert(before + 1, key)
        rows[key] = row
        before = order.index(key)
    return [rows[key] for key in order]


def question_of(name: str) -> str:
    """The name of a row without the form that it is relative to."""
    return BESIDE.sub("", name)


def form_of(name: str) -> str:
    """The form that a row is relative to."""
    found = BESIDE.search(name)
    return found[1] if found else "plain"


def of_cells(cell: str) -> list[float]:
    return [float(ratio) for ratio in cell.split()]


def greatest(cells_of_forms: list[list[float]]) -> list[float]:
    """The greatest ratio of each type; a form that not all types have lacks the first ones."""
    types = max(map(len, cells_of_forms))
    padded = [[0.0] * (types - len(each)) + each for each in cells_of_forms]
    return [max(each) for each in zip(*padded)]


def questions(page: str) -> dict[str, list[float]]:
    """By name the ratios of a question's lines, relative to the fastest form of each."""
    lines = page.split("\n")
    start, stop = table_at(lines, RATIOS)
    forms: dict[str, list[list[list[float]]]] = {}
    for row in lines[start:stop]:
        name, *of_lengths = cells(row)[:4]
        forms.setdefault(question_of(name), []).append([of_cells(cell) for cell in of_lengths])
    return {name: [ratio for length in zip(*rows) for ratio in greatest(list(length))] for name, rows in forms.items()}


def single_calls(page: str) -> dict[tuple[str, str], tuple[float, str, str, str]]:
    """By call and what it is of the ratio, both times and the name of the fastest form."""
    lines = page.split("\n")
    start, stop = table_at(lines, SINGLE)
    found: dict[tuple[str, str], tuple[float, str, str, str]] = {}
    for row in lines[start:stop]:
        name, of, ours, rust, ratio = cells(row)
        key, line = (question_of(name), of), (float(ratio), ours, rust, form_of(name))
        found[key] = max(found.get(key, line), line)
    return found


def is_on_ten_rows(name: str, of: str) -> bool:
    return ", ten rows" in name or (name.startswith("list of ten") and of == "10 rows")


def mean_of(ratios: list[float]) -> float:
    """The geometric mean; a ratio that is written as 0.00 counts as 0.005."""
    return math.exp(sum(math.log(max(ratio, 0.005)) for ratio in ratios) / len(ratios))


def above(ratios: list[float]) -> int:
    return sum(ratio > GOAL for ratio in ratios)


def with_tables(page: str, tables: str) -> str:
    """The page of results with the measured rows."""
    lines, measured = page.split("\n"), tables.split("\n")
    for head in (RATIOS, SINGLE, MEMORY):
        if head in measured:
            start, stop = table_at(lines, head)
            first, last = table_at(measured, head)
            lines[start:stop] = merged(head, lines[start:stop], measured[first:last])
    return "\n".join(lines)


def table_of(tables: str, head: str) -> str:
    lines = tables.split("\n")
    start, stop = table_at(lines, head)
    return "\n".join(lines[start - 2 : stop])


def new_page(tables: str, sizes: str, growth: str) -> str:
    """A page of results of all that bench/publish.sh measured. Its head has the day, the machine and the library."""
    day, machine = tables.split("\n", 1)[0].split(", ", 1)
    library = tables.split("\n")[1]
    when = f"{date.fromisoformat(day):%-d %B %Y}"
    rounds = next(line for line in tables.split("\n") if " rounds of " in line)
    memory = next(line for line in tables.split("\n") if line.startswith("Memory that a call takes"))
    return f"""# Results of {when}

{fill(f"{machine} {library} On one core, {rounds}")}

Tables as `bench/run.sh` prints them; `docs/PERFORMANCE.md` has the summary, and `bench/README.md` says what a line is
and what a form ("beside words") is. 4,000,000 rows, ends u32; in the columns with null one run in ten is null. A cell
has u64, i32 and u8, those of the three that have the line, or the one kind there is, and is the middle of the rounds.
Both sides answered the same in each line.

## Ratios, ours / Rust

{table_of(tables, RATIOS)}

{table_of(tables, SINGLE)}

{fill(memory)}

{table_of(tables, MEMORY)}

## Sizes

`sh bench/run.sh --sizes`: bytes of 4,000,000 rows without null, those of the tables above. Arrays are items one after
the other (bits of booleans; offsets of 32 bits and bytes of texts), and in runs an end of 32 bits for each; a message
has a run length in one byte or two in its place.

{sizes.strip()}

## How costs grow

From a thousand to ten million runs, through C (`sh bench/run.sh --growth`); a slope is that of costs over runs, both as
logarithms. A slice with null that begins or ends within a word copies the bits of its validity.

{growth.strip()}
"""


def fill(text: str) -> str:
    """A paragraph of lines that docs allow."""
    return textwrap.fill(text, 118, break_long_words=False, break_on_hyphens=False)


def place_of(name: str) -> tuple[str, int, int]:
    """The line, the kind of its rows and whether they may be null, of the name of a question."""
    null = name.endswith(WITH_NULL)
    name = name.removesuffix(WITH_NULL)
    kind = next((at for at, kind in enumerate(KINDS) if name.endswith(" of " + kind)), 0)
    line = name.removesuffix(" of " + KINDS[kind]).removesuffix(",")
    return line, kind, int(null)


def of_family(begins: tuple[str, ...], found: dict[str, list[float]]) -> list[float]:
    return [ratio for name, ratios in found.items() if name.startswith(begins) for ratio in ratios]


def row_of(name: str, ratios: list[float]) -> str:
    return f"| {name} | {mean_of(ratios):.2f} | {len(ratios)} | {above(ratios)} |"


def families(page: str) -> list[str]:
    """The rows of the three means, and of the families below each."""
    many, singles = questions(page), single_calls(page)
    small = [line[0] for key, line in singles.items() if is_on_ten_rows(*key)]
    calls: dict[str, list[float]] = {}
    for (name, of), line in singles.items():
        if not is_on_ten_rows(name, of):
            calls.setdefault(name, []).append(line[0])
    every = lambda found: [ratio for ratios in found.values() for ratio in ratios]
    rows = {
        "**Questions over many rows**": every(many),
        **{name: of_family(begins, many) for name, begins in FAMILIES.items()},
        "**Single calls**": every(calls),
        **{name: of_family(begins, calls) for name, begins in SINGLES.items()},
        "**Calls on ten rows**": small,
    }
    return [row_of(name, ratios) for name, ratios in rows.items() if ratios]


def slower(page: str) -> str:
    """The lines that have means above the goal, the slowest first: how many of its means, and from which to which."""
    means: dict[str, list[float]] = {}
    for name, ratios in questions(page).items():
        means.setdefault(place_of(name)[0], []).append(mean_of(ratios))
    slow = {line: sorted(mean for mean in found if mean > GOAL) for line, found in means.items()}
    order = sorted((line for line in slow if slow[line]), key=lambda line: -slow[line][-1])
    between = lambda found: " to ".join(dict.fromkeys((f"{found[0]:.2f}", f"{found[-1]:.2f}")))
    named = "; ".join(f"{line} {between(slow[line])} ({len(slow[line])} of {len(means[line])})" for line in order)
    return fill(
        f"**Slower than the fastest Rust form** by more than {GOAL} are, with the number of cells of the table below: "
        f"{named or 'none'}."
    )


def question_rows(page: str, causes: dict[str, str]) -> list[str]:
    """A row for each line: its means without and with null for each kind of rows, and why one is above the goal."""
    means: dict[str, list[list[float]]] = {}
    for name, ratios in questions(page).items():
        line, kind, null = place_of(name)
        means.setdefault(line, [[0.0, 0.0] for _ in KINDS])[kind][null] = mean_of(ratios)
    shown = lambda pair: " / ".join(f"{mean:.2f}" if mean else "-" for mean in pair) if any(pair) else ""
    rows = []
    for line, kinds in means.items():
        is_slow = any(mean > GOAL for pair in kinds for mean in pair)
        why = causes.get(line, "not known") if is_slow else ""
        rows.append("|" + "|".join(f" {cell} " if cell else " " for cell in [line, *map(shown, kinds), why]) + "|")
    return rows


def call_rows(page: str) -> list[str]:
    """The rows of single calls: of columns without null, and where only those with null are slow."""
    rows = []
    for (name, of), (ratio, ours, rust, form) in single_calls(page).items():
        is_shown = not name.startswith("first") and not is_on_ten_rows(name, of)
        if is_shown and (not name.endswith(WITH_NULL) or name.startswith("list") or (name, of) == SLICE):
            rows.append(f"| {name} | {of} | {time(ours)} | {time(rust)} | {ratio:.2f} | {form} |")
    return rows


SLICE = ("slice, with null", "half")


def time(text: str) -> str:
    """Nanoseconds as a reader takes them in."""
    nanoseconds = float(re.match(r"[\d.]+", text)[0])
    if nanoseconds >= 1_000_000:
        return f"{nanoseconds / 1_000_000:.1f} ms"
    return f"{nanoseconds:,.0f} ns" if nanoseconds >= 10 else f"{nanoseconds:.1f} ns"


def on_ten_rows(page: str) -> str:
    """What each call takes on ten rows."""
    each = {name: line for (name, of), line in single_calls(page).items() if is_on_ten_rows(name, of)}
    plain = lambda name: re.sub(r", ten rows.*|, with null", "", name)
    named = (f"{plain(name)} {time(line[1])} ({line[0]:.1f})" for name, line in each.items())
    return fill(f"On ten rows, with ours / Rust: {', '.join(named)}.")


def summary(page: str, name: str, causes: dict[str, str]) -> str:
    """The part of docs/PERFORMANCE.md that is made of a page of results."""
    blocks = page.split("\n\n")
    measured = re.sub(r"\s+", " ", blocks[1])
    notes = [block for block in blocks if block.startswith("**Note.**")]
    note = "\n\n" + fill(re.sub(r"\s+", " ", notes[0])) if notes else ""
    day = page.split("\n", 1)[0].removeprefix("# Results of ")
    return f"""{BEGIN}

{fill(f"Measured on {day} (`bench/results/{name}`): {measured}")}{note}

| | Geometric mean of ours / Rust | Lines | Above {GOAL} |
|---|---|---|---|
{chr(10).join(families(page))}

{slower(page)}

## Questions

A cell is the geometric mean over lengths and types, without null / with null, relative to the fastest form of each.

| Line | Integers | Decimals | Booleans | Texts | Nested runs | Why above {GOAL} (`bench/CAUSES.md`) |
|---|---|---|---|---|---|---|
{chr(10).join(question_rows(page, causes))}

## Single calls

| Call | Of | Ours | Rust | Ours / Rust | Fastest form |
|---|---|---|---|---|---|
{chr(10).join(call_rows(page))}

{on_ten_rows(page)}

"""


def causes_of(text: str) -> dict[str, str]:
    """By line why it is slower."""
    rows = [cells(row) for row in text.split("\n") if row.startswith("| ")]
    return {line: why for line, why in rows[1:]}


def with_summary(page: str, made: str) -> str:
    """The page on performance with the part that is made."""
    return page[: page.index(BEGIN)] + made + page[page.index(END) :]


def with_speed(first_page: str, results_page: str) -> str:
    """The first page with the mean of all questions."""
    mean = mean_of([ratio for ratios in questions(results_page).values() for ratio in ratios])
    put = lambda found: re.sub(r"[\d.]+", f"{mean:.2f}", found[0], count=1)
    return SPEED.sub(put, first_page)


def made_pages(found: Path) -> dict[Path, str]:
    """The pages that are made of a page of results, as they have to be."""
    page = found.read_text(encoding="utf-8")
    made = summary(page, found.name, causes_of(CAUSES.read_text(encoding="utf-8")))
    return {
        PAGE: with_summary(PAGE.read_text(encoding="utf-8"), made),
        FIRST_PAGE: with_speed(FIRST_PAGE.read_text(encoding="utf-8"), page),
    }


def write_results(given: Path) -> str | None:
    """Writes the page of results; answers with why not, where an answer differed or nothing of it is to be published."""
    text = lambda path: path.read_text(encoding="utf-8")
    tables = text(given / "tables.md" if given.is_dir() else given)
    if "DIFFERS" in tables:
        return "the two sides of some line answered differently"
    if not given.is_dir():
        newest = results()
        newest.write_text(with_tables(text(newest), tables), encoding="utf-8")
        return None
    if "built without proof" in tables:
        return "times of a library that is built without proof are not published"
    page = new_page(tables, text(given / "sizes.md"), text(given / "growth.md"))
    (ROOT / "bench/results" / f"{tables[:10]}.md").write_text(page, encoding="utf-8")
    return None


def main() -> int:
    if len(sys.argv) > 2:
        print(__doc__, file=sys.stderr)
        return 2
    why = write_results(Path(sys.argv[1])) if sys.argv[1:] else None
    if why:
        print(why, file=sys.stderr)
        return 1
    found = results()
    for path, text in made_pages(found).items():
        path.write_text(text, encoding="utf-8")
    ratios = [ratio for each in questions(found.read_text(encoding="utf-8")).values() for ratio in each]
    print(f"{len(ratios)} questions, geometric mean {mean_of(ratios):.2f}, {above(ratios)} above {GOAL}")
    return 0


if __name__ == "__main__":
    sys.exit(main())
