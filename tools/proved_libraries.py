#!/usr/bin/env python3
"""Hands the libraries that `rt ci` has just proved in this tree to the build of the library for C.

    begin=$(date +%s)
    rt ci && python3 tools/proved_libraries.py "$begin" && sh examples/build.sh

`rt ci` proves each library over those of the same run and leaves it in `crates/NAME/out/rlib`, without the stamp by
which other commands know it, since by itself one of them does not fit libraries of another run. This writes the stamps,
so that only the static library is left to prove, in minutes. Run it right after an `rt ci` that passed, in its tree,
with the time at which that began, in seconds: a library that was there before, which `rt ci` puts back by a rename,
gets no stamp. The last line counts the stamps.
"""

import importlib.util
import subprocess
import sys
from collections.abc import Iterable
from pathlib import Path
from types import ModuleType
from typing import Protocol

ROOT = Path(__file__).resolve().parent.parent


class Crate(Protocol):
    """What is used of a crate as the toolchain reads it."""

    name: str
    rlib: str

    def makes_rlib(self) -> bool: ...
    def below(self) -> list["Crate"]: ...
    def stamp(self) -> str: ...


def toolchain() -> ModuleType:
    """The toolchain's own reading of `crates.txt`, which also makes the stamps."""
    page = subprocess.run(["rt", "doc"], capture_output=True, text=True, check=True).stdout.strip()
    spec = importlib.util.spec_from_file_location("rtlib", Path(page).parent / "bin" / "rtlib.py")
    if spec is None or spec.loader is None:
        sys.exit("proved_libraries: the toolchain has no bin/rtlib.py")
    module = importlib.util.module_from_spec(spec)
    sys.modules["rtlib"] = module
    spec.loader.exec_module(module)
    return module


def is_written_since(library: Path, begin: float) -> bool:
    """Whether a library is there, and was put there at this time or later: by a build, or by links to what a run of
    `rt ci` kept, whose files are older than their folder."""
    return (library / "format").is_file() and library.stat().st_mtime >= begin


def write_stamps(crates: Iterable[Crate], begin: float) -> int:
    """Writes a stamp next to each library that was written since, as all libraries below it were; returns how many."""
    libraries = [each for each in crates if each.makes_rlib() and is_written_since(Path(each.rlib), begin)]
    built = {each.name for each in libraries}
    whole = [each for each in libraries if all(low.name in built for low in each.below())]
    for each in whole:
        Path(each.rlib).with_name("stamp").write_text(each.stamp(), encoding="utf-8")
    return len(whole)


def main() -> int:
    sys.dont_write_bytecode = True
    if len(sys.argv) != 2 or not sys.argv[1].isdigit():
        sys.exit(__doc__)
    rtlib = toolchain()
    count = write_stamps(rtlib.crates_below(str(ROOT)), float(sys.argv[1]))
    print(f"{count} libraries that rt ci has proved are kept for the next build")
    return 0 if count else 1


if __name__ == "__main__":
    sys.exit(main())
