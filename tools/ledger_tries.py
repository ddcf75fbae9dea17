"""Has the prover try wrong bodies for tools/ledger.py: checks edited copies of a crate, and reads what they print."""

import os
import re
import shutil
import subprocess
import tempfile
import threading
from collections import Counter
from collections.abc import Iterable, Iterator
from concurrent.futures import ThreadPoolExecutor, as_completed
from dataclasses import dataclass, field
from itertools import chain, repeat
from pathlib import Path
from typing import Any

import ledger
import wrong_bodies
from ledger import Line
from proved_libraries import toolchain
from wrong_bodies import Unfit, WrongBody

PARTS = ("src", "specs", "proofs")
# How many wrong bodies a check of a sample has at most.
SAMPLED = 6
# What is read of the lines of a check. A function's proof files are in the folder of its path.
STATUS = re.compile(r"^fn (\w+)::([\w:+]+): (.*)$", re.M)
UNPROVED = re.compile(r"`search` did not prove (.*)$")
# A goal that neither a written answer nor the search proves, of a function that has written answers.
UNANSWERED = re.compile(r"^note: (?:\./)?(src/\S+?):(\d+):\d+: it is not proved that .*?\(`([\w/+.:-]+)`\)", re.M)
FALSE = re.compile(r"^note: `([\w/+.:-]+)` of proofs/(\S+)/\w+\.antt may be false", re.M)
ABSENT = r"is not in scope|has no field|was not admitted|that can be named from here"
WRITTEN = re.compile(rf"^(?:\./)?proofs/(\S+)/\w+\.antt:\d+:\d+: error: `([\w/+.:-]+)`: (?!.*(?:{ABSENT}))", re.M)
GOAL = re.compile(r"`([\w/+.-]+)`")
# A message goes on in lines that are indented.
GOES_ON = re.compile(r"\n {2,}(?=\S)")
PROVED = ("proved", "no holes")
# What is said of a text that the front end, or the reader of clauses, cannot read: then no goal was tried.
UNREAD = re.compile(rf"^(?:\./)?(?:src|specs)/\S+?:\d+:\d+: error(?:\[[\w-]+\]: |: .*(?:{ABSENT})).*$", re.M)
# A proof file that names what the edit took away: this says nothing of a goal.
NAMES = re.compile(rf"^(?:\./)?proofs/(\S+)/\w+\.antt:\d+:\d+: error: (?:`([\w/+.:-]+)`: )?.*(?:{ABSENT}).*$", re.M)
BY_NAMES = "refused only by names in a proof"
NO_NAME = re.compile(r"^rattle: error: (?:several functions are named|`\w+` has no) .*$", re.M)


@dataclass(frozen=True)
class Refusal:
    """The goal that refused a wrong body: its function below the crate, its label, and how (as ledger.py has it)."""

    function: str
    label: str
    how: str


@dataclass(frozen=True)
class Run:
    """What a check printed, and the processor seconds that it took."""

    text: str
    seconds: float


@dataclass
class Batch:
    """Wrong bodies of one crate that change different functions, and the sources with all of their edits."""

    crate: str
    wrongs: list[WrongBody] = field(default_factory=list)
    texts: dict[Path, str] = field(default_factory=dict)

    def takes(self, wrong: WrongBody, most: int) -> bool:
        """Adds a wrong body if it is of the crate and changes nothing that another one changes or asks for."""
        if wrong.crate().name != self.crate or len(self.wrongs) >= most:
            return False
        mine, others = touched(wrong), [name for each in self.wrongs for name in touched(each)]
        if any(is_of(one, [other]) or is_of(other, [one]) for one in mine for other in others):
            return False
        try:
            self.texts = wrong.edited(self.texts)
        except Unfit:
            return False
        self.wrongs.append(wrong)
        return True


class Prover:
    """Checks functions of an edited crate over libraries that are built."""

    def __init__(self, libraries: Path) -> None:
        self.rtlib: Any = toolchain()
        # What ends the checks when this program ends, however it does; it is to be made before threads are.
        self.guard = self.rtlib.guarded()
        self.crates = {each.name: each for each in self.rtlib.crates_below(str(wrong_bodies.ROOT))}
        for each in self.crates.values():
            each.rlib = str(libraries / "crates" / each.name / "out/rlib" / f"{each.name}.rlib")
        version = subprocess.run(["rt", "version"], capture_output=True, text=True, check=True).stdout
        self.kit = version.split()[0]

    def lacks(self, crate: str) -> list[str]:
        """The libraries below a crate that are not built, or not of the sources as they are.

        One without a stamp is of an `rt ci` that has just passed, which leaves it in a tree that had none before.
        """
        stamps = {low: Path(low.rlib).with_name("stamp") for low in self.crates[crate].below()}
        old = [low for low, stamp in stamps.items() if stamp.is_file() and stamp.read_text() != low.stamp()]
        return [low.name for low in stamps if low in old or not Path(low.rlib, "format").is_file()]

    def check(self, crate: str, texts: dict[Path, str], functions: list[str], with_answers: bool = True) -> Run:
        """Checks functions of a copy of the crate that has these texts; without their written answers if asked to."""
        each = self.crates[crate]
        with tempfile.TemporaryDirectory(prefix="ledger-") as room:
            for part in PARTS:
                if (Path(each.folder) / part).is_dir():
                    shutil.copytree(Path(each.folder) / part, Path(room) / part)
            for path, text in texts.items():
                (Path(room) / path.relative_to(each.folder)).write_text(text, encoding="utf-8")
            for name in [] if with_answers else functions:
                Path(room, "proofs", *name.split("::"), "Answers.antt").unlink(missing_ok=True)
            flags = ["--jobs", "1", "--allow-holes"]
            flags += [word for name in functions for word in ("--only", name)]
            return run([*self.guard, self.rtlib.RATTLE, "check", *each.words(flags, keeps=False)], room)


def run(command: list[str], folder: str) -> Run:
    """Runs a command in a folder."""
    with subprocess.Popen(
        command, cwd=folder, stdin=subprocess.DEVNULL, stdout=subprocess.PIPE, stderr=subprocess.STDOUT
    ) as ran:
        text = ran.stdout.read().decode(errors="replace")
        _, status, used = os.wait4(ran.pid, 0)
        ran.returncode = os.waitstatus_to_exitcode(status)
    return Run(text, used.ru_utime + used.ru_stime)


def asked(wrong: WrongBody) -> list[str]:
    """The functions whose goals may refuse a wrong body: those that it changes, and the callers that its page names."""
    if not wrong.compiles():
        return [str(wrong.value("only"))]
    named = [value for key, value in wrong.lines if key == "by"]
    return [*(each.path for each in ledger.functions_of(wrong) if each.path), *named]


def touched(wrong: WrongBody) -> list[str]:
    """The functions that a wrong body changes or asks for."""
    return [*asked(wrong), *(each.path for each in ledger.functions_of(wrong))]


def is_of(function: str, names: list[str]) -> bool:
    """Whether a function is one of these, a closure of one, or in a module that is; an empty name is the root."""
    path = re.sub(r"(^|::)fn::", r"\1", function)
    return any(path == name or not name or path.startswith(f"{name}::") for name in names)


def function_of_line(batch: Batch, file: str, line: int) -> str | None:
    """The function at a line of a source as a batch edits it, by its path below the crate."""
    wrong = batch.wrongs[0]
    path = wrong.crate() / file
    source = batch.texts.get(path) or wrong_bodies.read(path)
    place = sum(map(len, source.splitlines(keepends=True)[: line - 1]))
    function = ledger.function_at(ledger.module_of(wrong, path), source, place)
    return ledger.at_home(wrong, function).path if function else None


def unanswered(text: str, batch: Batch) -> list[Refusal]:
    """The goals without an answer that a check names by their places in the edited sources."""
    found = [(function_of_line(batch, file, int(line)), label) for file, line, label in UNANSWERED.findall(text)]
    return [Refusal(each, label.removeprefix(f"{each}-"), "goal") for each, label in found if each]


def unread(text: str, batch: Batch) -> list[WrongBody]:
    """The wrong bodies of a batch whose functions have lines that the prover cannot read."""
    lines = re.findall(r"^(?:\./)?(src/\S+?):(\d+):\d+: error\[", text, re.M)
    functions = [function_of_line(batch, file, int(line)) for file, line in lines]
    return [wrong for wrong in batch.wrongs if any(each and is_of(each, asked(wrong)) for each in functions)]


def goal_of(folder: str, label: str) -> tuple[str, str]:
    """The function of a goal, and its label there, by the folder of its proofs.

    The folder of functions that call each other in a cycle has a `+`; labels there begin with the function, where the
    cycle has several.
    """
    module, is_cycle, name = folder.replace("/", "::").rpartition("+")
    if is_cycle and "::" in label:
        name, _, label = label.partition("-")
    return module + name, label


def refusal(text: str, crate: str, names: list[str], others: Iterable[Refusal] = ()) -> Refusal | None:
    """The goal at which a check refused one of these functions; one with a counterexample first."""
    false = {goal_of(folder, label) for label, folder in FALSE.findall(text)}
    written = [goal_of(folder, label) for folder, label in WRITTEN.findall(GOES_ON.sub(" ", text))]
    found = [each for each in others if is_of(each.function, names)]
    for library, function, status in STATUS.findall(text):
        if library != crate or not is_of(function, names) or status.startswith(PROVED):
            continue
        open_goals = UNPROVED.search(status)
        labels = GOAL.findall(open_goals[1]) if open_goals else []
        found += [Refusal(function, label, "false" if (function, label) in false else "goal") for label in labels]
        found += [Refusal(function, label, "written") for path, label in written if path == function]
    return min(found, key=lambda each: ("false", "goal", "written").index(each.how), default=None)


def is_proved(text: str, crate: str, names: list[str]) -> bool:
    """Whether a check proved all functions that it names of these, one at least."""
    found = [status for library, name, status in STATUS.findall(text) if library == crate and is_of(name, names)]
    return bool(found) and all(status.startswith(PROVED) for status in found)


def outcome(wrong: WrongBody, ran: Run, others: Iterable[Refusal] = ()) -> Refusal | str:
    """What a check of this wrong body, or of a batch that could be read, says of it: its refusal, or else why not."""
    crate, names = wrong.crate().name, asked(wrong)
    if not names:
        return "NOT tried: it changes no function, and its page names none by a line `by:`"
    if wanted := wrong.value("prints"):
        named = re.search(r"\[([\w-]+)\]", wanted)
        return Refusal(names[0], named[1] if named else "error", "text") if wanted in ran.text else "NOT refused so"
    if found := refusal(ran.text, crate, names, others):
        return found
    if no_name := NO_NAME.search(ran.text):
        return f"NOT tried: {no_name[0]}"
    if unread := UNREAD.search(ran.text):
        return f"NOT tried: {unread[0]}"
    if is_proved(ran.text, crate, names):
        return f"NOT refused: {' '.join(names)} proved in spite of it"
    if any(is_of(goal_of(*found)[0], names) for found in NAMES.findall(GOES_ON.sub(" ", ran.text))):
        return f"no verdict: {BY_NAMES}"
    lines = [line for line in ran.text.splitlines() if re.search(r"error|could not tell|no verdict|not proved", line)]
    return f"no verdict: {lines[0] if lines else ran.text[-200:].strip() or 'the check was ended'}"


def is_read(ran: Run) -> bool:
    """Whether the prover came to functions of a batch, all of which it could read."""
    return bool(STATUS.search(ran.text)) and not UNREAD.search(ran.text) and not NO_NAME.search(ran.text)


def batches(wrongs: Iterable[WrongBody], most: int) -> list[Batch]:
    """Wrong bodies as batches; one that does not compile is by itself."""
    found: list[Batch] = []
    for wrong in wrongs:
        room = 1 if not wrong.compiles() else most
        if not any(batch.takes(wrong, room) for batch in found):
            found.append(Batch(wrong.crate().name))
            found[-1].takes(wrong, 1)
    return found


def try_batch(prover: Prover, batch: Batch) -> Iterator[tuple[WrongBody, Refusal | str, float]]:
    """What the prover says of each of a batch, and the processor seconds: one by one where it cannot read them all."""
    functions = list(dict.fromkeys(name for wrong in batch.wrongs for name in asked(wrong)))
    ran = prover.check(batch.crate, batch.texts, functions)
    if len(batch.wrongs) > 1 and not is_read(ran):
        bad = unread(ran.text, batch)
        rest = [wrong for wrong in batch.wrongs if wrong not in bad]
        for each in [*batches(bad or rest, 1), *(batches(rest, len(rest)) if bad and rest else [])]:
            yield from try_batch(prover, each)
        return
    others = unanswered(ran.text, batch)
    for wrong in batch.wrongs:
        found = outcome(wrong, ran, others)
        if isinstance(found, str) and BY_NAMES in found:
            yield try_bare(prover, wrong, ran.seconds / len(batch.wrongs))
        else:
            yield wrong, found, ran.seconds / len(batch.wrongs)


def try_bare(prover: Prover, wrong: WrongBody, seconds: float) -> tuple[WrongBody, Refusal | str, float]:
    """What the prover says of a wrong body without the written answers, in which names do not fit: a counterexample."""
    ran = prover.check(wrong.crate().name, wrong.edited(), asked(wrong), with_answers=False)
    found = outcome(wrong, ran)
    is_shown = isinstance(found, Refusal) and found.how == "false"
    return wrong, found if is_shown else f"no verdict: {BY_NAMES}; without it: {found}", seconds + ran.seconds


def told(wrong: WrongBody, found: Refusal | str, seconds: float) -> str:
    """A line that says what a try of a wrong body came to."""
    said = f"refused by {found.label} of {found.function}, {found.how}" if isinstance(found, Refusal) else found
    return f"{ledger.name_of(wrong)}: {said}; {seconds:.0f} s"


def line_of(wrong: WrongBody, found: Refusal, kit: str, seconds: float) -> Line:
    """The line of a refused wrong body for its ledger. A line of the same text keeps its evidence."""
    mark, known = ledger.mark_of(wrong), ledger.kept_lines().get(ledger.name_of(wrong))
    evidence = known.evidence if known and known.mark == mark else ""
    return Line(wrong.name, mark, kit, found.function, found.label, found.how, round(seconds), evidence)


def workers() -> int:
    """How many checks run at once: one for each processor, and for each 4 GiB of memory that is free."""
    found = re.search(r"MemAvailable: *(\d+) kB", wrong_bodies.read(Path("/proc/meminfo")))
    free = int(found[1]) // 4194304 if found else 1
    return max(1, min(len(os.sched_getaffinity(0)), free))


def try_all(prover: Prover, wrongs: list[WrongBody], most: int) -> int:
    """Tries wrong bodies, several in a check, prints what each came to, and writes the lines of the refused ones."""
    lacking = {crate: prover.lacks(crate) for crate in {wrong.crate().name for wrong in wrongs}}
    for crate, names in sorted(lacking.items()):
        if names:
            print(f"{crate}: not tried; `rt check` in its folder builds what is below it: {' '.join(names)}")
    passed, failed = 0, sum(map(bool, lacking.values()))
    found = [wrong for wrong in wrongs if not lacking[wrong.crate().name]]
    with ThreadPoolExecutor(workers()) as pool:
        tries = [pool.submit(list, try_batch(prover, batch)) for batch in batches(found, most)]
        for done in as_completed(tries):
            for wrong, said, seconds in done.result():
                print(told(wrong, said, seconds), flush=True)
                if isinstance(said, Refusal):
                    ledger.write(wrong.page.parent.parent.name, [line_of(wrong, said, prover.kit, seconds)])
                passed, failed = passed + isinstance(said, Refusal), failed + (not isinstance(said, Refusal))
    print(f"{passed} passed, {failed} failed")
    return 1 if failed or not passed else 0


class Clock:
    """Processor seconds that checks may take together, as they are left."""

    def __init__(self, limit: float) -> None:
        self.left = limit
        self.lock = threading.Lock()

    def takes(self, expected: float) -> bool:
        """Whether a check may begin that is expected to take so long, which is then taken off."""
        with self.lock:
            if self.left <= 0:
                return False
            self.left -= expected
            return True

    def correct(self, expected: float, used: float) -> None:
        """Puts what a check took in place of what was expected."""
        with self.lock:
            self.left += expected - used


Try = tuple[WrongBody, Refusal | str, float]


def try_in_time(prover: Prover, clock: Clock, batch: Batch, expected: float) -> list[Try]:
    """What the prover says of each of a batch, and the seconds; nothing if no time is left or a library is lacking."""
    if prover.lacks(batch.crate) or not clock.takes(expected):
        return []
    tries = list(try_batch(prover, batch))
    clock.correct(expected, sum(seconds for _, _, seconds in tries))
    return tries


def sample(prover: Prover, wrongs: list[WrongBody], limit: float) -> int:
    """Tries wrong bodies in their order until the processor seconds are used; each has to be refused that once was.

    A check begins with the next one, and has others of its crate that come soon: functions below are proved once.
    """
    clock, known, count = Clock(limit), ledger.kept_lines(), Counter()
    found = batches(wrongs, SAMPLED)
    lines = [[known.get(ledger.name_of(wrong)) for wrong in batch.wrongs] for batch in found]
    expected = [30 + sum(line.seconds if line else 30 for line in each) for each in lines]
    with ThreadPoolExecutor(workers()) as pool:
        tries = pool.map(try_in_time, repeat(prover), repeat(clock), found, expected)
        for wrong, said, seconds in chain.from_iterable(tries):
            print(told(wrong, said, seconds), flush=True)
            is_open = ledger.name_of(wrong) not in known or str(said).startswith("no verdict")
            count["passed" if isinstance(said, Refusal) else "skipped" if is_open else "failed"] += 1
    if not count:
        print("skipped: the sample of wrong bodies, no library is built to try them over")
        count["skipped"] = 1
    print(f"{count['passed']} passed, {count['failed']} failed, {count['skipped']} skipped")
    return 1 if count["failed"] else 0
