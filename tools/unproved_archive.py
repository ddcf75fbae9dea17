#!/usr/bin/env python3
"""Builds the library for C without any proof, in minutes: what is linked with it is tested, and nothing of it is proved.

    python3 tools/unproved_archive.py libhivevigil.a

`rt lib` builds what ships, and proves each crate below it first. This takes the code that `rt try --test` compiles
for a test that reaches every export, makes the exports visible, and compiles it for C. It works on a copy.

The code has the checks of `rt try` (overflow, bounds), which the proved library does without, so it is slower.
The status is 3 where this machine cannot run what `rt try` compiles (it needs an address sanitizer that starts).
"""

import argparse
import os
import re
import shutil
import subprocess
import sys
import tempfile
from collections.abc import Callable
from pathlib import Path

ROOT = Path(__file__).resolve().parent.parent
EXPORT = re.compile(r'^pub extern "C" fn (\w+)\((.*?)\)\s*(?:->\s*(\w+))?\s*(?=ensures|requires|\{)', re.M | re.S)
INTERNAL = re.compile(r'@"hivevigil::[\w:]+::(hv_\w+)"')
# `rt try` compiles a program of some lines first, to see whether it can
PROBE_BYTES = 100_000
CANNOT_RUN = 3
KEEPS_MODULE = """#!/bin/sh
# The compiler of `rt try`: keeps the module of the tests, and ends there.
for word; do
    case $word in
    *.bc) if [ "$(wc -c <"$word")" -gt {least} ]; then cp "$word" '{module}'; exit 1; fi ;;
    esac
done
exec '{clang}' "$@"
"""
# The check that `rt try` starts too, for a hint on names, ends at once: it would take as long as the rest.
NO_HINT = """#!/bin/sh
case "$*" in *'--start no function'*) exit 0 ;; esac
exec '{rattle}' "$@"
"""
TARGET = ["--target=x86_64-unknown-linux-gnu", "-march=x86-64", "--no-default-config", "-x", "ir"]


def fail(why: str, status: int = 1) -> None:
    print(f"unproved: {why}", file=sys.stderr)
    sys.exit(status)


def tool(kit: Path, name: str, *words: object) -> None:
    """Runs a tool of the kit's LLVM, which is one program under several names."""
    ran = subprocess.run([name, *map(str, words)], executable=kit / "toolchain/bin/clang", stdin=subprocess.DEVNULL)
    if ran.returncode:
        fail(f"{name} ended with {ran.returncode}")


def parameter_types(parameters: str) -> list[str]:
    """The types of `alloc: Global, row: usize, ..`; no type of an export has a comma of its own."""
    return [each.split(":", 1)[1].strip() for each in parameters.split(",") if each.strip()]


def reaching_test(exports: list[tuple[str, str, str]]) -> str:
    """Tests that compile a call of each export, and make none: there are no arguments to make it with."""
    lines = []
    for name, parameters, _ in exports:
        types = parameter_types(parameters)
        names = "".join(f"argument_{number}, " for number in range(len(types)))
        lines += [
            "#[cfg(test)]",
            f"fn reach_{name}(given: Option<({''.join(f'{each}, ' for each in types)})>) {{",
            f"    if let Some(({names})) = given {{ let _ = {name}({names}); }}",
            "}",
        ]
    calls = "".join(f" reach_{name}(None);" for name, _, _ in exports)
    return "\n".join(["", *lines, "#[test]", f"fn reach_all() {{{calls} }}", ""])


def add_tests(crate: Path) -> list[str]:
    """Adds the tests to each file of exports, and says which exports there are."""
    names = []
    for path in sorted(crate.glob("src/**/*.rt")):
        source = path.read_text(encoding="utf-8")
        exports = EXPORT.findall(source)
        if len(exports) != len(re.findall(r'^pub extern "C" fn', source, re.M)):
            fail(f"an export of {path.name} cannot be read")
        if exports:
            path.write_text(source + reaching_test(exports), encoding="utf-8")
            names += [name for name, _, _ in exports]
    return names


def write_script(path: Path, text: str) -> None:
    """Writes a program of the shell."""
    path.write_text(text)
    path.chmod(0o755)


def kit_that_keeps(kit: Path, at: Path, module: Path) -> Path:
    """A kit of links to the machine's, but for the compiler that `rt try` calls. rt takes the kit that it is in."""
    for folder in (at / "bin", at / "toolchain/bin"):
        folder.mkdir(parents=True)
    for source in [*kit.iterdir(), *(kit / "bin").iterdir(), *(kit / "toolchain").iterdir()]:
        link = at / source.relative_to(kit)
        if not link.exists():
            link.symlink_to(source)
    for name in ("ld.lld", "llvm-ar", "rattle-x64"):
        (at / "toolchain/bin" / name).symlink_to(kit / "toolchain/bin" / name)
    for name in ("rt", "rtlib.py"):
        (at / "bin" / name).unlink()
        shutil.copy(kit / "bin" / name, at / "bin" / name)
    (at / "bin/rattle").unlink()
    write_script(at / "bin/rattle", NO_HINT.format(rattle=kit / "bin/rattle"))
    clang = KEEPS_MODULE.format(least=PROBE_BYTES, module=module, clang=kit / "toolchain/bin/clang")
    write_script(at / "toolchain/bin/clang", clang)
    return at / "bin/rt"


def module_of_tests(kit: Path, work: Path, crate: Path) -> Path:
    """What `rt try --test` hands to its compiler."""
    module, log = work / "module.bc", work / "try.log"
    rt = kit_that_keeps(kit, work / "kit", module)
    with open(log, "wb") as said:
        subprocess.run([rt, "try", "--test"], cwd=crate, stdin=subprocess.DEVNULL, stdout=said, stderr=said)
    if not module.exists():
        why = log.read_text(errors="replace")
        fail(f"rt try made no code of the tests:\n{why}", CANNOT_RUN if "cannot start here" in why else 1)
    return module


def with_visible_exports(text: str, exports: list[str], structs: set[str]) -> str:
    """The module's text with the exports under their names for C; one that returns a struct gets another name."""
    visible = {name: f"unproved_{name}" if name in structs else name for name in exports}
    missing = set(exports) - set(INTERNAL.findall(text))
    if missing:
        fail(f"the module lacks {', '.join(sorted(missing))}")
    text = INTERNAL.sub(lambda found: "@" + visible.get(found[1], found[1]), text)
    text = re.sub(r"^define internal ([^@\n]*@(?:unproved_)?hv_\w+\()", r"define \1", text, flags=re.M)
    return text.replace("define i32 @main()", "define internal i32 @main()").replace(" sanitize_address", "")


def struct_calls(header: str, exports: list[str]) -> dict[str, tuple[str, str]]:
    """Of each export that returns a struct: the struct, and the parameters, as the exports' header has them."""
    found = re.findall(r"^(?:HV_\w+ )?(hv_\w+) (hv_\w+)\((.*?)\);", header, re.M)
    return {name: (struct, parameters) for struct, name, parameters in found if name in exports}


def adapters(calls: dict[str, tuple[str, str]]) -> str:
    """C that returns a struct as C does, over the call of the module, which writes it where it is asked."""
    lines = ["#define HV_EXPORTS_ALONE", '#include "hivevigil.h"']
    for name, (struct, parameters) in calls.items():
        passed = ", ".join(re.search(r"(\w+)$", each.strip())[1] for each in parameters.split(","))
        lines += [
            f"void unproved_{name}({struct} *made, {parameters});",
            f"{struct} {name}({parameters}) {{ {struct} made; unproved_{name}(&made, {passed}); return made; }}",
        ]
    return "\n".join([*lines, ""])


def unchanged(text: str) -> str:
    """The text of a module as it is."""
    return text


def compile_archive(
    kit: Path,
    work: Path,
    module: Path,
    exports: list[str],
    out: Path,
    edit: Callable[[str], str] = unchanged,
    level: str = "-O1",
) -> None:
    """Compiles the module, with its text edited and its exports visible, and puts it into an archive."""
    calls = struct_calls((ROOT / "include/hivevigil_exports.h").read_text(encoding="utf-8"), exports)
    text, library, shims = work / "module.ll", work / "hivevigil.o", work / "adapters.o"
    tool(kit, "clang", *TARGET, "-S", "-emit-llvm", "-O0", "-Xclang", "-disable-llvm-passes", module, "-o", text)
    text.write_text(with_visible_exports(edit(text.read_text()), exports, set(calls)))
    tool(kit, "clang", *TARGET, level, "-fPIC", "-ffunction-sections", "-fdata-sections", "-c", text, "-o", library)
    (work / "adapters.c").write_text(adapters(calls))
    compiler = [os.environ.get("CC", "cc"), "-O2", "-fPIC", f"-I{ROOT / 'include'}", "-c", work / "adapters.c"]
    subprocess.run([*compiler, "-o", shims], check=True)
    out.unlink(missing_ok=True)
    tool(kit, "llvm-ar", "rcs", out, library, shims)


def machine_kit() -> Path:
    """The toolchain of this machine."""
    where = subprocess.run(["rt", "doc"], check=True, capture_output=True, text=True).stdout
    return Path(where.strip()).resolve().parent


def main() -> None:
    parser = argparse.ArgumentParser(description=__doc__.partition("\n")[0])
    parser.add_argument("archive", type=Path, help="where the archive goes")
    out = parser.parse_args().archive.resolve()
    kit = machine_kit()
    with tempfile.TemporaryDirectory(prefix="unproved-") as folder:
        work = Path(folder)
        shutil.copytree(ROOT / "crates", work / "crates", ignore=shutil.ignore_patterns("out"))
        for name in ("crates.txt", "HANDLES"):
            shutil.copy(ROOT / name, work / name)
        crate = work / "crates/hivevigil"
        exports = add_tests(crate)
        compile_archive(kit, work, module_of_tests(kit, work, crate), exports, out)
    print(f"{len(exports)} calls, without proof: {out}")


if __name__ == "__main__":
    main()
