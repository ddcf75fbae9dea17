#!/usr/bin/env python3
"""The public names of the library, held against the sources: a name that callers use has to stay where they find it.

    python3 tools/surface.py            names what is gone, and what is not listed; ends in 'N passed, M failed'
    python3 tools/surface.py --write    adds to surface.txt what the sources make public and it does not list

`surface.txt` lists the names: of the crates in LISTED all that a caller finds, and of others those that are wanted. A line `[PATH]` says where a caller finds those below it: a crate, or a public module of
one. A line `NAME` is a function, a constant, a type or a trait there, defined `pub` or by `pub use`. Behind `NAME:` come
what belongs to it: variants, and their fields as `VARIANT.FIELD`; fields that are `pub`; methods that are `pub`, or of a
public trait that the type implements; what a trait has; and traits that it derives or implements as `+TRAIT`.
"""

import re
import sys
from dataclasses import dataclass, field
from functools import cache
from pathlib import Path

ROOT = Path(__file__).resolve().parent.parent
LIST = ROOT / "tools" / "surface.txt"
# of these crates each public name is listed
LISTED = ("column_base", "runend_array", "tables", "vortex_runend")
ITEM = re.compile(r"^(pub(?:\([a-z]+\))? )?(?:const )?(?:unsafe )?(fn|struct|enum|trait|type|const) (\w+)", re.M)
MODULE = re.compile(r"^(pub )?mod (\w+);", re.M)
USE = re.compile(r"^pub use ([\w:]+?)(?:::\{([^}]*)\}|( as \w+)?);", re.M)
IMPL = re.compile(r"^impl\b(?:<(?:[^<>]|<[^<>]*>)*>)? ?(?:(?:\w+::)*(\w+)(?:<[^{]*?>)? for )?&?(\w+)", re.M)
METHOD = re.compile(r"^    (pub )?(?:final )?(?:const )?(?:fn|const) (\w+)", re.M)
DERIVED = re.compile(r"#\[derive(?:_where)?\(([^)]*)\)\]")


@dataclass
class Module:
    """What a module says: its items by name, whether each is public, and the text from where each begins; the modules
    below it, and whether each is public; and where names come from that it gives out under its own."""

    path: tuple[str, ...]
    items: dict[str, tuple[bool, str]] = field(default_factory=dict)
    modules: dict[str, bool] = field(default_factory=dict)
    uses: dict[str, tuple[str, ...]] = field(default_factory=dict)


def module_of(path: tuple[str, ...], text: str) -> Module:
    """The module of a file."""
    text = re.sub(r"//.*", "", text)
    found = Module(path)
    for match in ITEM.finditer(text):
        start = text.rfind("\n\n", 0, match.start()) + 1
        stop = text.find("\n}", match.end())
        line = text.find("\n", match.end())
        is_open = "{" in text[match.start() : line]
        head = text[max(start, 0) : match.start()]
        body = text[match.start() : stop if is_open and stop > 0 else line]
        found.items.setdefault(match[3], (match[1] == "pub ", head + body))
    found.modules = {name: bool(public) for public, name in MODULE.findall(text)}
    for origin, names, renamed in USE.findall(text):
        steps = tuple(origin.split("::"))
        for name in [name.strip() for name in names.split(",") if name.strip()]:
            old, _, new = name.partition(" as ")
            found.uses[new or old] = steps + (old,)
        if not names:
            found.uses[renamed.removeprefix(" as ") or steps[-1]] = steps
    return found


class Sources:
    """The sources of all crates."""

    def __init__(self, root: Path) -> None:
        self.root = root
        self.crates = {path.parent.parent.name for path in root.glob("crates/*/src/lib.rt")}

    @cache
    def module(self, path: tuple[str, ...]) -> Module | None:
        """The module of this path, from its crate on, where it has a file."""
        crate, *below = path
        source = self.root / "crates" / crate / "src"
        file = source / "/".join(below[:-1]) / f"{below[-1]}.rt" if below else source / "lib.rt"
        return module_of(path, file.read_text(encoding="utf-8")) if file.is_file() else None

    def find(self, path: tuple[str, ...], is_inside: bool = False) -> Module | tuple[Module, str] | None:
        """What a caller finds under a path: a module, or an item beside the module that defines it. Where it is looked
        for from inside of the crate, private modules count."""
        module = self.module(path[:1])
        for place, name in enumerate(path[1:], 2):
            if module is None:
                return None
            if name in module.modules and (module.modules[name] or is_inside):
                module = self.module(module.path + (name,))
                continue
            if name in module.uses:
                return self.find_used(module, module.uses[name] + path[place:])
            if place == len(path) and name in module.items:
                return (module, name) if module.items[name][0] or is_inside else None
            return None
        return module

    def find_used(self, module: Module, steps: tuple[str, ...]) -> Module | tuple[Module, str] | None:
        """What a path in a `pub use` of a module names."""
        if steps[0] in module.modules:
            return self.find_public(module.path + steps)
        if steps[0] in ("crate", "self"):
            return self.find_public((module.path[:1] if steps[0] == "crate" else module.path) + steps[1:])
        return self.find(steps) if steps[0] in self.crates else None

    def find_public(self, path: tuple[str, ...]) -> Module | tuple[Module, str] | None:
        """A module or a public item that a crate names from inside."""
        found = self.find(path, is_inside=True)
        is_private = isinstance(found, tuple) and not found[0].items[found[1]][0]
        return None if is_private else found

    @cache
    def impls(self) -> list[tuple[str, str, str, str]]:
        """Each `impl` of all crates: its crate, its trait, its type and its text."""
        found = []
        for path in sorted(self.root.glob("crates/*/src/**/*.rt")):
            text = re.sub(r"//.*", "", path.read_text(encoding="utf-8"))
            for match in IMPL.finditer(text):
                crate = path.relative_to(self.root / "crates").parts[0]
                found.append((crate, match[1] or "", match[2], text[match.start() : text.find("\n}", match.end())]))
        return found

    @cache
    def trait_text(self, name: str) -> str:
        """The text of the public trait of this name."""
        for path in sorted(self.root.glob("crates/*/src/**/*.rt")):
            text = re.sub(r"//.*", "", path.read_text(encoding="utf-8"))
            match = re.search(rf"^pub trait {name}\b", text, re.M)
            if match:
                return text[match.start() : text.find("\n}", match.end())]
        return ""

    def members(self, module: Module, name: str) -> set[str]:
        """What belongs to a type or a trait."""
        text = module.items[name][1]
        found = {f"+{trait.strip()}" for derived in DERIVED.findall(text) for trait in re.split("[,;]", derived)}
        body = text.partition("{")[2]
        if re.search(rf"^pub trait {name}\b", text, re.M):
            return found | {method for _, method in METHOD.findall(text)}
        if re.search(rf"^pub enum {name}\b", text, re.M):
            for variant, fields in re.findall(r"^    (\w+)(?: = \d+)?(?:\((?:[^()]|\([^()]*\))*\))?(?: ?\{([^}]*)\})?,", body, re.M):
                found |= {variant} | {f"{variant}.{each}" for each in re.findall(r"(\w+):", fields)}
        found |= set(re.findall(r"^    pub (\w+):", body, re.M))
        for crate, trait, typed, block in self.impls():
            if typed == name and not trait and crate == module.path[0]:
                found |= {method for public, method in METHOD.findall(block) if public}
            elif typed == name and trait:
                found |= {f"+{trait}"} | {method for _, method in METHOD.findall(self.trait_text(trait))}
        return found


def missing(listed: str, sources: Sources) -> tuple[int, list[str]]:
    """How many names are listed, and what is wrong with those that are not as they are listed."""
    count, faults, home = 0, [], ""
    lines = [line.strip() for line in re.sub(r"#.*", "", listed).replace("\\\n", " ").split("\n") if line.strip()]
    for line in lines:
        if line.startswith("["):
            home = line.strip("[]")
            continue
        name, _, members = line.partition(":")
        count += 1 + len(members.split())
        found = sources.find(tuple(f"{home}::{name}".split("::")))
        if not isinstance(found, tuple):
            faults.append(f"{home}: no caller finds {name}")
            faults += [f"{home}: no caller finds {name}::{member}" for member in members.split()]
            continue
        there = sources.members(*found) if members else set()
        faults += [f"{home}: {name} has no public {member}" for member in members.split() if member not in there]
    return count, faults


def public_names(sources: Sources, path: tuple[str, ...]) -> dict[str, list[str]]:
    """Where a caller finds names in a module and in the public modules below it, and the names there, in order."""
    module = sources.find(path)
    if not isinstance(module, Module):
        return {}
    names = {name for name, (public, _) in module.items.items() if public} | set(module.uses)
    below = {name for name in names if isinstance(sources.find(path + (name,)), Module)}
    found = {"::".join(path): sorted(names - below)}
    for name in below | {name for name, public in module.modules.items() if public}:
        found |= public_names(sources, path + (name,))
    return found


def names_in(listed: str) -> dict[str, list[str]]:
    """The names of a list, by where a caller finds them."""
    found: dict[str, list[str]] = {}
    home = ""
    for line in re.sub(r"#.*", "", listed).replace("\\\n", " ").split("\n"):
        if line.startswith("["):
            home = line.strip("[] ")
            found.setdefault(home, [])
        elif line.strip():
            found[home].append(line.partition(":")[0].strip())
    return found


def unlisted(listed: str, sources: Sources, crates: tuple[str, ...] = LISTED) -> dict[str, list[str]]:
    """The public names of these crates that the list lacks, by where a caller finds them."""
    there = names_in(listed)
    public: dict[str, list[str]] = {}
    for crate in crates:
        public |= public_names(sources, (crate,))
    lacking = {home: [name for name in names if name not in there.get(home, [])] for home, names in public.items()}
    return {home: names for home, names in lacking.items() if names}


def line_of(sources: Sources, home: str, name: str) -> str:
    """A line of the list for a name, with all that belongs to it, in lines of at most 120 characters."""
    found = sources.find(tuple(f"{home}::{name}".split("::")))
    members = sorted(sources.members(*found)) if isinstance(found, tuple) else []
    lines, line = [], f"{name}:" if members else name
    for member in members:
        if len(line) + len(member) > 116:
            lines.append(line + " \\")
            line = "   "
        line += f" {member}"
    return "\n".join([*lines, line])


def with_lines(listed: str, sources: Sources, added: dict[str, list[str]]) -> str:
    """The list with lines for further names, each at the end of its part."""
    parts = re.split(r"(?m)^(?=\[)", listed.rstrip("\n") + "\n")
    for home, names in added.items():
        lines = "".join(line_of(sources, home, name) + "\n" for name in names)
        place = next((at for at, part in enumerate(parts) if part.startswith(f"[{home}]")), None)
        if place is None:
            parts.append(f"\n[{home}]\n{lines}")
        else:
            parts[place] = parts[place].rstrip("\n") + f"\n{lines}" + ("\n" if place + 1 < len(parts) else "")
    return "".join(parts)


def main() -> int:
    listed, sources = LIST.read_text(encoding="utf-8"), Sources(ROOT)
    lacking = unlisted(listed, sources)
    if sys.argv[1:] == ["--write"]:
        LIST.write_text(with_lines(listed, sources, lacking), encoding="utf-8")
        lacking = {}
    count, faults = missing(LIST.read_text(encoding="utf-8"), sources)
    faults += [f"{home}: {name} is public and not listed" for home, names in lacking.items() for name in names]
    for fault in faults:
        print(fault)
    print(f"{max(count - len(faults), 0)} passed, {len(faults)} failed")
    return 1 if faults else 0


if __name__ == "__main__":
    sys.exit(main())
