"""Which program of examples/c and examples/cpp fails with a wrong body, over the library of tools/mutants.py."""

import os
import resource
import subprocess
import time
from collections.abc import Iterable
from dataclasses import dataclass
from pathlib import Path

from wrong_bodies import ROOT

# What each program is linked with: some wrap what asks for memory, some not.
WRAPPED = [f"-Wl,--wrap={name}" for name in ("malloc", "calloc", "realloc", "free")]
LINKS = ([], WRAPPED, WRAPPED[:3], [*WRAPPED, "-Wl,--wrap=umask"])
# What is compiled quickly has functions that nothing calls, and that call what is not there.
ONLY_USED = "-Wl,--gc-sections"
# What programs are given that need something, below examples/.
GIVEN = {
    "c/corpus.c": ["corpus/messages.txt", "corpus/typed.txt"],
    "c/table_files.c": ["corpus"],
}
# A program that takes more seconds of processor with the right bodies is left out; a wrong one may take these.
MOST = 20


@dataclass(frozen=True)
class Program:
    """A program that ends well with the right bodies: its source below the root, how it is started, the seconds that
    it took, and the wrong bodies that it reaches."""

    source: str
    command: list[str]
    seconds: float
    reaches: frozenset[int]

    def sees(self, number: int) -> bool:
        """Whether it fails, or runs on, with a wrong body."""
        return run(self.command, HV_MUTANT=str(number)) != 0


def run(command: list[str], **variables: str) -> int:
    """Runs a program with more variables in its environment, and returns its status."""
    quiet = {"stdin": subprocess.DEVNULL, "stdout": subprocess.DEVNULL, "stderr": subprocess.DEVNULL}
    limited = lambda: resource.setrlimit(resource.RLIMIT_CPU, (MOST, MOST + 1))
    return subprocess.run(command, cwd=ROOT, env=os.environ | variables, preexec_fn=limited, **quiet).returncode


def compiled(source: Path, work: Path) -> Path | None:
    """The program that a source is, linked with the library; none where it cannot be."""
    program = work / "programs" / source.name.replace(".", "_")
    program.parent.mkdir(exist_ok=True)
    compiler = os.environ.get("CXX", "c++") if source.suffix == ".cpp" else os.environ.get("CC", "cc")
    standard = "-std=c++17" if source.suffix == ".cpp" else "-std=c11"
    words = [compiler, standard, "-O0", "-pthread", f"-I{ROOT / 'include'}", source, work / "libhivevigil.a", ONLY_USED]
    for links in LINKS:
        if subprocess.run([*words, *links, "-o", program], stderr=subprocess.DEVNULL, check=False).returncode == 0:
            return program
    return None


def program_of(source: str, command: list[str], told: Path) -> Program | None:
    """A program with what it reaches; none where it fails with the right bodies or takes long."""
    told.unlink(missing_ok=True)
    begin = time.monotonic()
    if run(command, HV_MUTANT_REACHED=str(told)) != 0 or not told.exists():
        return None
    return Program(source, command, time.monotonic() - begin, frozenset(map(int, told.read_text().split())))


def example(source: Path, work: Path) -> Program | None:
    """A program of examples; none where it cannot be linked either."""
    program, name = compiled(source, work), str(source.relative_to(ROOT / "examples"))
    command = [str(program), *(f"examples/{word}" for word in GIVEN.get(name, []))]
    return program_of(f"examples/{name}", command, work / "reached") if program else None


def seen_by(programs: list[Program], numbers: Iterable[int]) -> dict[int, str]:
    """The evidence of those of the wrong bodies that a program sees, the quickest one of those that do."""
    quickest = sorted(programs, key=lambda program: program.seconds)
    found = {}
    for number in numbers:
        reaching = (program for program in quickest if number in program.reaches)
        if source := next((program.source for program in reaching if program.sees(number)), None):
            found[number] = f"test: {source}"
    return found


def seen(work: Path, numbers: list[int]) -> dict[int, str]:
    """The evidence of those of the wrong bodies that a program of examples sees."""
    sources = sorted([*ROOT.glob("examples/c/*.c"), *ROOT.glob("examples/cpp/*.cpp")])
    return seen_by([program for source in sources if (program := example(source, work))], numbers)
