#!/usr/bin/env python3
"""Runs the script program that `rt ci` has proved on scripts that end early, and looks at all that each run writes.

    python3 tools/ended_scripts.py [PROGRAM ..]     ends in 'N passed, M failed', N the runs that ended as they should

A script ends early at a line that is not a command, where a read or a write fails, where the input does not end, and
where memory is refused: each request alone, and each with all after it. Scripts whose lines are all answered are the
stored run of `crates/runend_tool`. Without a PROGRAM both builds of it are run, as `rt ci` leaves them in its `out`.
Needs a C compiler (cc, or $CC) for the calls that fail (`failing_calls.c`).
"""

import os
import subprocess
import sys
import tempfile
from collections.abc import Iterator
from dataclasses import dataclass, field
from pathlib import Path

ROOT = Path(__file__).resolve().parent.parent
BUILDS = [ROOT / "crates/runend_tool/out" / name for name in ("runend_tool", "runend_tool.by-rattle")]
CALLS = ROOT / "tools/failing_calls.c"
MOST_READS = 1 << 20
FULL = Path("/dev/full")  # a file that takes no byte
SHORT, UNREAD = b"out of memory\n", b"cannot read input\n"

# Lines that are no commands on a column of `u8?`.
BAD_LINES = (
    "jump", "Rows", "\trows", "rows\r", "col", "col u9 1", "col u8??", "col u8 256", "col u8 -1", "col i8 128",
    "col i8 -129", "col u64 18446744073709551616", "col i64 9223372036854775808", "col i32 1 null", "col i32 +5",
    "col i32 -", "col i32 --5", "col i32 5-", "col i32? Null", "col i32 1\t2", "col i32 0x10", "floats", "floats f8 1",
    "floats F64 1", "floats f64?? 1", "floats i64 1", "floats f64 null", "floats f64? Null", "floats f64 +1.5",
    "floats f64 NaN", "floats f64 -nan", "floats f64 infinity", "floats f64 +inf", "floats f64 1E5", "floats f64 1e+5",
    "floats f64 1e", "floats f64 .", "floats f64 -", "floats f64 1.0.0", "floats f64 1,5", "floats f64 1.5f",
    "floats f64 0x", "floats f64 0x+1", "floats f64 0xg", "floats f64 0X1", "floats f64 -0x1",
    "floats f64 0x10000000000000000", "floats f32 0x100000000", "floats f16 0x10000", "runs i32", "runs i32 u32 0 / 1",
    "runs i32 u32 -1 10 10 / 1", "runs i32 u32? 0 10 10 / 1", "runs i32 u32 0 10 2 5 10",
    "runs i32 u32 0 10 2 5 10/ 1 2 3", "runs i32 u8 0 3 256 / 1", "runs i32 u8 0 3 null / 1", "runs i8 u8 0 3 3 / 128",
    "runs i8 u8 0 3 3 / null", "runs i8 u8 0 3 3 / 1 / 2", "encode 1", "at", "at 1 2", "at -0", "at +1",
    "at 18446744073709551616", "slice 1", "slice 1 2 3", "slice -1 2", "filter 2", "filter 0x", "filter 0 1",
    "filter /", "filter true", "take 9223372036854775808", "take -9223372036854775809", "take +1", "take 0 Null",
    "take 1,0", "append 256", "append -1", "append 1 +1", "append Null", "append 1,0", "append 0x1", "repeat",
    "repeat 7", "repeat 7 1 1", "repeat 7 -1", "repeat 7 +1", "repeat 7 null", "repeat 7 18446744073709551616",
    "repeat 256 1", "repeat -1 1", "repeat Null 1", "cast", "cast u128", "cast u8 u8", "fill", "fill 7 7", "fill 256",
    "fill -1", "fill +1", "fill Null", "fill 0x1", "float", "float show", "float Rows", "float rows 1", "float at",
    "float at -1", "float at 1 2", "float sum 1", "float minmax 0", "sum 1", "minmax 1", "constant true",
    "sorted strict", "strict 1", "kernels", "kernels All", "kernels zero", "kernels all none", "thresholds",
    "thresholds all", "thresholds zero 0", "meta 08", "bytes 08", "read 1", "read GG", "read 0G", "read +8", "read 008",
    "read 08 2", "read 0x", "read 08,02",
)

# Lines that are bad before there is a column.
LINES_OF_A_COLUMN = (
    "encode", "rows", "at 0", "slice 0 0", "filter", "take", "append", "append 0", "repeat 0 1", "cast u8", "fill 0",
    "float rows", "sum", "kernels all", "thresholds zero", "meta", "bytes", "read 08 02",
)

# Scripts, and the status and the text that each ends with.
SCRIPTS = (
    (b"", 0, b""),
    (b" \n\n", 0, b""),
    (b"col u8 1\nrows", 0, b"ok\nrows 1\n"),
    (b"col u8\njump\n", 2, b"ok\nline 2: bad command\n"),
    (b"col u8\nappend 1\nappend 2 null\n", 2, b"ok\nok\nline 3: bad command\n"),
    (b"runs i32 u8 3 2 2 5 10 / 1 2 3\nrows\n", 2, b"refused 6 2 3\nline 2: bad command\n"),
    (b"col u8\n\xff", 2, b"not UTF-8\n"),
)

# A script that its last line ends, and the answers to its lines but for the last.
ENDED = (
    b"encode\nshow\nat 11\nslice 4 9\nrows\ntake 4 0 2 5\ntake 4 0 2 1\nrows\nsum\njump\n",
    b"ok\nruns i32 u8 offset 0 length 12 ends 3 6 8 12 values 1 4 2 5\nvalue 5\nok\nrows 4 4 2 2 5\nrefused 8 5 5\nok\n"
    b"rows 5 4 2 4\nsum 15\n",
)

# Lines of each kind on runs and on a flat column, and their answers. The session begins without a kernel.
SERVED = (
    b"col u8? 7 7 null\nkernels none\nthresholds zero\nencode\nshow\nrows\nat 3\nfilter 011\ncast i16?\nfill 9\ndecode\n"
    b"sum\nthresholds zero\nruns i8 u8 0 5 1 2 5 / 4 5 6\nfilter 01111\ntake 1 0 3 0\nkernels none\nencode\nsum\n"
    b"minmax\nconstant\nsorted\nstrict\ncast i16\nencode\ntake 0 null\nfill 0\nkernels all\nthresholds crate\nencode\n"
    b"slice 0 1\nshow\nmeta\nread 08 01\nruns i8 u8 1 3 2 4 / 4 5\nmeta\nsum\nminmax\nconstant\nsorted\nstrict\n"
    b"append 5\nrepeat 6 2\nshow\nfloats f64? 1.5 null nan -0.0\nfloat rows\nfloat at 0\nfloat sum\nfloat minmax\n"
    b"floats f16 0.1\nencode\nfloat rows\ncol u8 1\nfloat sum\n",
    b"ok\nok\nok\nok\nruns u8? u8 offset 0 length 3 ends 2 3 values 7 null\nrows 7 7 null\nrefused 8 3 3\nok\nok\nok\nok\n"
    b"sum 16\nok\nok\nok\nok\nok\nok\nsum 22\nminmax 5 6\nconstant false\nsorted false\nstrict false\n"
    b"ok\nok\nok\nok\nok\nok\nok\nok\nconst i16 6 length 1\nnot runs\nread u16 runs 0 offset 0\n"
    b"ok\nmeta 10 02 18 01\nsum 14\nminmax 4 5\nconstant false\nsorted true\nstrict false\n"
    b"ok\nok\nruns i8 u8 offset 0 length 6 ends 1 4 6 values 4 5 6\n"
    b"ok\nrows 1.5 null nan -0.0\nvalue 1.5\nsum nan\nminmax -0.0 1.5\n"
    b"ok\nok\nrows 0.099975586\nok\nrefused 12\n",
)

# Rows that no memory can show, behind a line that is answered.
UNSHOWN = b"runs u8 u64 0 18446744073709551615 18446744073709551615 / 7\nat 5\nrows\nat 6\n"

# Three blocks of 65,536 bytes, the last of them not full, and so four reads that have to succeed.
LONG = b"\n" * 140_000


@dataclass(frozen=True)
class Ended:
    """How a run ended, what it wrote, and how many requests for memory and reads came."""

    status: int
    out: bytes = b""
    err: bytes = b""
    counts: tuple[int, int] = field(default=(0, 0), compare=False)


class Program:
    """A program, and the library of calls that fail."""

    def __init__(self, path: Path, calls: Path, work: Path) -> None:
        self.path, self.calls, self.work = path, calls, work

    def run(self, script: bytes, out: Path | None = None, **told: int) -> Ended:
        """Runs the script, from a file, with what is told to the calls that fail; its text goes to `out`, if given."""
        given, counts = self.work / "script", self.work / "counts"
        given.write_bytes(script)
        counts.unlink(missing_ok=True)
        environment = {name.upper(): str(number) for name, number in told.items()}
        environment |= {"LD_PRELOAD": str(self.calls), "COUNTS": str(counts)}
        with open(given, "rb") as stdin, open(out or self.work / "out", "wb") as stdout:
            streams = {"stdin": stdin, "stdout": stdout, "stderr": subprocess.PIPE}
            ran = subprocess.run([self.path], env=environment, timeout=60, check=False, **streams)
        written = b"" if out else (self.work / "out").read_bytes()
        requests, reads = map(int, counts.read_text().split()) if counts.exists() else (0, 0)
        return Ended(ran.returncode, written, ran.stderr, (requests, reads))


def bad_at(number: int) -> bytes:
    """The answer to a line that is not a command."""
    return b"line %d: bad command\n" % number


def bad_lines(program: Program) -> Iterator[tuple[str, bool]]:
    """Each bad line ends the script, behind a column and before there is one; with all kernels and with none."""
    for line in BAD_LINES:
        for before, answers in ((b"\n col u8? null\n\n", b"ok\n"), (b"col u8? null\nkernels none\n\n", b"ok\nok\n")):
            due = Ended(2, answers + bad_at(4))
            yield f"line {line!r}", program.run(before + line.encode() + b"\nrows\n") == due
    for line in LINES_OF_A_COLUMN:
        yield f"line {line!r} before a column", program.run(line.encode()) == Ended(2, bad_at(1))


def ended(program: Program) -> Iterator[tuple[str, bool]]:
    """Scripts that end at their last line, or at their end."""
    for script, status, out in SCRIPTS:
        yield f"script {script!r}", program.run(script) == Ended(status, out)
    lines, answers = ENDED
    column = b"col i32 1 1 1 4 4 4 2 2 5 5 5 5\n"
    yield "ended script", program.run(column + lines) == Ended(2, b"ok\n" + answers + bad_at(11))
    without = program.run(column + b"kernels none\n" + lines)
    yield "ended script without kernels", without == Ended(2, b"ok\nok\n" + answers + bad_at(12))


def failing_streams(program: Program) -> Iterator[tuple[str, bool]]:
    """Reads and writes that fail, and input that never ends."""
    for read in range(1, 6):
        due = Ended(3, b"", UNREAD) if read < 5 else Ended(0)
        yield f"read {read} fails", program.run(LONG, fail_read=read) == due
    endless = program.run(b"", endless_reads=1)
    yield "input without end", endless == Ended(3, b"", UNREAD) and endless.counts[1] == MOST_READS
    yield "a write fails", program.run(b"col u8\n", out=FULL) == Ended(3)
    yield "memory ends", program.run(UNSHOWN) == Ended(3, b"ok\nvalue 7\n", SHORT)
    yield "memory ends where nothing can be written", program.run(UNSHOWN, out=FULL) == Ended(3, b"", SHORT)


def is_short(run: Ended, answers: bytes) -> bool:
    """Whether memory ended the run, behind the answers of the first lines, each of them whole."""
    is_whole = run.out == b"" or run.out.endswith(b"\n")
    return (run.status, run.err) == (3, SHORT) and answers.startswith(run.out) and is_whole


def refused_requests(program: Program) -> Iterator[tuple[str, bool]]:
    """Each request for memory refused, by itself and with all after it."""
    script, answers = SERVED
    whole = program.run(script)
    requests = whole.counts[0]
    yield "served script", whole == Ended(0, answers) and 30 < requests < 999
    for request in range(1, requests + 1):
        yield f"request {request} refused", is_short(program.run(script, refuse_only=request), answers)
        yield f"requests from {request} refused", is_short(program.run(script, refuse_from=request), answers)


def judge(program: Program) -> tuple[int, list[str]]:
    """How many runs of the program ended as they should, and what the others are."""
    parts = (bad_lines, ended, failing_streams, refused_requests)
    told = [each for part in parts for each in part(program)]
    return sum(is_due for _, is_due in told), [name for name, is_due in told if not is_due]


def main() -> int:
    programs = [Path(word).resolve() for word in sys.argv[1:]] or [build for build in BUILDS if build.is_file()]
    if not programs:
        sys.exit(f"no {BUILDS[0]}: rt ci makes it")
    passed, failed = 0, 0
    with tempfile.TemporaryDirectory() as folder:
        work = Path(folder)
        calls = work / "failing_calls.so"
        compiler = [os.environ.get("CC", "cc"), "-O2", "-Wall", "-Wextra", "-Werror", "-shared", "-fPIC"]
        subprocess.run([*compiler, CALLS, "-o", calls, "-ldl"], check=True)
        for path in programs:
            count, others = judge(Program(path, calls, work))
            for name in others:
                print(f"{path.name}: {name}: ended otherwise")
            passed, failed = passed + count, failed + len(others)
    print(f"{passed} passed, {failed} failed")
    return 1 if failed else 0


if __name__ == "__main__":
    sys.exit(main())
