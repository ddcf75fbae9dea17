"""Sources with wrong bodies beside the right ones: a number, read where a function begins, says which of them runs."""

import re
from dataclasses import dataclass
from pathlib import Path

HEAD = re.compile(r'^( *)(?:pub(?:\([a-z]+\))? )?(?:unsafe )?(?:extern "C" )?fn (\w+)', re.M)


class Unbuilt(Exception):
    """Why a wrong body cannot be put beside the right one."""


@dataclass(frozen=True)
class Body:
    """The body of a function: its name, and where the text between the braces begins and ends."""

    name: str
    start: int
    end: int


def bodies(source: str) -> list[Body]:
    """The bodies of a source as `rt fmt` lays it out, in order."""
    heads = list(HEAD.finditer(source))
    limits = [*(head.start() for head in heads[1:]), len(source)]
    found = [body_of(source, head, limit) for head, limit in zip(heads, limits)]
    return [body for body in found if body]


def body_of(source: str, head: re.Match[str], limit: int) -> Body | None:
    """The body of the function with this head, which is before `limit`; none where it has none."""
    clause = rf"^{head[1]}    (?:requires|ensures)\b"
    opened = re.compile(rf"{clause}|^{head[1]}\{{$| \{{$|;$|\{{\}}$", re.M).search(source, head.end(), limit)
    if opened and re.match(clause, opened[0]):
        opened = re.compile(rf"^{head[1]}\{{$", re.M).search(source, opened.end(), limit)
    closed = opened and re.compile(rf"^{head[1]}\}}", re.M).search(source, opened.end(), limit)
    return Body(head[2], opened.end(), closed.start()) if closed and opened[0].endswith("{") else None


def outside(source: str, found: list[Body]) -> list[str]:
    """The texts between the bodies of a source, without its `use` lines."""
    ends = [0, *(body.end for body in found)]
    starts = [*(body.start for body in found), len(source)]
    return [re.sub(r"^use .*\n", "", source[end:start], flags=re.M) for end, start in zip(ends, starts)]


def one_changed(source: str, edited: str, found: list[Body]) -> tuple[Body, str] | None:
    """The body that has all of the change, and how it reads then; none where the change is wider."""
    least = min(len(source), len(edited))
    first = next((at for at in range(least) if source[at] != edited[at]), least)
    last = next((at for at in range(least - first) if source[-1 - at] != edited[-1 - at]), least - first)
    for body in found:
        if body.start <= first and len(source) - last <= body.end:
            return body, edited[body.start : len(edited) - (len(source) - body.end)]
    return None


def changed(source: str, edited: str) -> dict[Body, str]:
    """The bodies that an edit changes, and how they read with it."""
    found = bodies(source)
    one = one_changed(source, edited, found)
    if one:
        return {one[0]: one[1]}
    after = bodies(edited)
    if outside(source, found) != outside(edited, after):
        raise Unbuilt("it changes what is in no body")
    texts = [(body, edited[new.start : new.end]) for body, new in zip(found, after)]
    return {body: text for body, text in texts if text != source[body.start : body.end]}


def new_imports(source: str, edited: str) -> list[tuple[str, str]]:
    """The `use` lines that an edit changes, each with what takes its place."""
    lines = [re.findall(r"^use .*\n", text, re.M) for text in (source, edited)]
    return [(old, new) for old, new in zip(*lines) if old != new]


def with_choices(source: str, wrong: dict[int, str]) -> str:
    """The source with all of these edited sources in it, each chosen by its number."""
    chosen: dict[Body, list[str]] = {}
    for number, edited in wrong.items():
        for body, text in changed(source, edited).items():
            chosen.setdefault(body, []).append(f"if mutant::is_mutant({number}) {{{text}}} else ")
    parts, last = [], 0
    for body in sorted(chosen, key=lambda body: body.start):
        right = source[body.start : body.end]
        parts += [source[last : body.start], "\n", *chosen[body], "{", right, "}\n"]
        last = body.end
    made = "".join([*parts, source[last:]])
    for edited in wrong.values():
        for old, new in new_imports(source, edited):
            made = made.replace(old, new)
    return made
