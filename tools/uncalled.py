#!/usr/bin/env python3
"""Public functions that no crate calls, no test names and no example shows: what nobody uses is proved in each gate.

    python3 tools/uncalled.py        names them; ends in 'N passed, M failed', N the names that are used or have a reason

A function is used where its name is a word in another place of the sources than where it is defined. REASONS
has those that are only for users.
"""

import re
import sys
from collections import Counter
from pathlib import Path

ROOT = Path(__file__).resolve().parent.parent
PUBLIC = re.compile(r"^\s*pub (?:const )?fn (\w+)", re.M)
# By file the functions that nothing here calls, and why they remain.
REASONS = {
    "crates/vortex_runend/src/laws.rt": "laws: their contracts are what they are for",
    "crates/column_bytes/src/laws.rt": "laws: their contracts are what they are for",
    "crates/runend_builder/src/laws.rt": "laws: their contracts are what they are for",
    "crates/shared_buffer/src/buffer.rt": "into_shared shares a buffer that was made of a vector of one's own",
    "crates/runend_array/src/array/encoding.rt": "names of the Rust crate's encoding",
    "crates/runend_column/src/data.rt": "names of the Rust crate's data",
}


def sources(root: Path) -> dict[str, str]:
    """The sources of all crates, without comments, by their path."""
    paths = (path for path in sorted(root.glob("crates/*/src/**/*.rt")))
    return {str(path.relative_to(root)): re.sub(r"//.*", "", path.read_text(encoding="utf-8")) for path in paths}


def uncalled(texts: dict[str, str]) -> tuple[int, list[tuple[str, str]]]:
    """How many public functions there are, and those that are nowhere but where they are defined."""
    words = Counter(word for text in texts.values() for word in re.findall(r"\w+", text))
    defined = [(path, name) for path, text in texts.items() for name in PUBLIC.findall(text)]
    times = Counter(name for _, name in defined)
    return len(defined), [(path, name) for path, name in defined if words[name] <= times[name]]


def main() -> int:
    count, found = uncalled(sources(ROOT))
    failed = [(path, name) for path, name in found if path not in REASONS]
    for path, name in failed:
        print(f"{path}: nothing uses {name}")
    print(f"{count - len(failed)} passed, {len(failed)} failed")
    return 1 if failed else 0


if __name__ == "__main__":
    sys.exit(main())
