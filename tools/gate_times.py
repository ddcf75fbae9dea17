#!/usr/bin/env python3
"""What the gate costs, crate by crate, as a table for docs/GATE.md, and how long it would take on two processors.

    python3 tools/gate_times.py [COMMAND ..]      runs the command, `rt ci` where none is given, and prints the table

While it runs the processor time of each process of the prover is read once a second, so that what the last second of a
process took may be missing. A process is known by its command (a build or a check, and of which crate) and by its
folder: wrong bodies are tried in folders of their own, whose name begins with `rt-edit-`. A check that runs next to
another gate on the machine is counted as well: run nothing else. Exits with the command's status.

The time on two processors is worked out from these costs: each processor does one check at a time, first those that the
longest chain of crates in `crates.txt` waits for, and wrong bodies last. What a check of a library waits for is the
build of each library below it.
"""

import heapq
import os
import re
import subprocess
import sys
import time
from collections import defaultdict
from dataclasses import dataclass, field
from datetime import date
from pathlib import Path

PROVER = re.compile(r"\brattle (build|check) --crate-name (\w+)")
TICKS = os.sysconf("SC_CLK_TCK")


@dataclass
class Costs:
    """Processor seconds of one crate: of its builds, of its other checks, and of its wrong bodies."""

    builds: list[float] = field(default_factory=list)
    checks: list[float] = field(default_factory=list)
    wrong_bodies: list[float] = field(default_factory=list)

    def all(self) -> float:
        return sum(self.builds) + sum(self.checks) + sum(self.wrong_bodies)


def seconds_of(stat: str) -> float:
    """The processor seconds that a line of /proc/PID/stat has, in the process and by the system for it."""
    fields = stat[stat.rindex(")") + 2 :].split()
    return (int(fields[11]) + int(fields[12])) / TICKS


def provers() -> dict[tuple[int, str], float]:
    """The prover's processes, by their number and command after their folder, and their processor seconds."""
    found = {}
    for process in Path("/proc").iterdir():
        if not process.name.isdigit():
            continue
        try:
            command = (process / "cmdline").read_bytes().replace(b"\0", b" ").decode(errors="replace")
            if PROVER.search(command):
                folder = os.readlink(process / "cwd")
                found[int(process.name), f"{folder} {command}"] = seconds_of((process / "stat").read_text())
        except OSError:
            continue  # it has ended meanwhile
    return found


def costs_of(seen: dict[tuple[int, str], float]) -> dict[str, Costs]:
    """The costs of each crate, of processes as `provers` returns them."""
    costs: dict[str, Costs] = defaultdict(Costs)
    for (_, text), seconds in seen.items():
        kind, crate = PROVER.search(text).groups()
        of = costs[crate]
        list_of = of.wrong_bodies if "/rt-edit-" in text else of.builds if kind == "build" else of.checks
        list_of.append(seconds)
    return costs


def machine() -> str:
    """The processors of this machine, in words."""
    models = re.findall(r"model name\s*: (.*)", Path("/proc/cpuinfo").read_text(encoding="utf-8"))
    return f"{len(os.sched_getaffinity(0))} processors ({models[0] if models else 'unnamed'})"


def libraries(text: str) -> dict[str, list[str]]:
    """The libraries of this repository that each crate of a `crates.txt` uses."""
    lines = [line.split(":") for line in text.splitlines() if ":" in line and not line.startswith("#")]
    used = {head.split()[0]: names.split() for head, names in lines}
    return {crate: [name for name in names if name in used] for crate, names in used.items()}


@dataclass
class Check:
    """A check that waits for the libraries of these crates, makes that of a crate, or none, and is begun by its rank."""

    makes: str
    seconds: float
    waits: list[str]
    rank: float


def checks_of(costs: dict[str, Costs], used: dict[str, list[str]]) -> list[Check]:
    """The checks of all crates, ranked by the seconds of the longest chain that begins with them."""
    chains: dict[str, float] = {}

    def chain(crate: str) -> float:
        if crate not in chains:
            own = (costs[crate].builds + costs[crate].checks)[:1] if crate in costs else []
            chains[crate] = sum(own) + max((chain(above) for above, names in used.items() if crate in names), default=0)
        return chains[crate]

    found = []
    for crate, cost in costs.items():
        below = used.get(crate, [])
        first, *others = cost.builds + cost.checks or [0.0]
        found.append(Check(crate, first, below, chain(crate)))
        found += [Check("", seconds, below, seconds) for seconds in others]
        found += [Check("", seconds, [crate, *below], 0) for seconds in cost.wrong_bodies]
    return found


def clock_on(processors: int, checks: list[Check]) -> float:
    """The seconds by the clock of these checks, where each processor does one at a time."""
    waiting = sorted(checks, key=lambda check: -check.rank)
    missing = {check.makes for check in checks}
    now, running = 0.0, []
    while waiting or running:
        ready = [check for check in waiting if not missing.intersection(check.waits)]
        for check in ready[: processors - len(running)]:
            waiting.remove(check)
            heapq.heappush(running, (now + check.seconds, id(check), check))
        now, _, done = heapq.heappop(running)
        missing.discard(done.makes)
    return now


def table(costs: dict[str, Costs], clock: float, day: str) -> str:
    """The page's table, the dearest crate first, under a line that says where and when."""
    whole = sum(cost.all() for cost in costs.values())
    lines = [
        f"{day}, {machine()}: {whole / 60:.0f} processor minutes, {clock / 60:.0f} minutes by the clock.",
        "",
        "| Crate | Builds, processor s | Other checks, processor s | Wrong bodies | Processor s for each |",
        "|---|---|---|---|---|",
    ]
    for crate, cost in sorted(costs.items(), key=lambda it: -it[1].all()):
        tried = len(cost.wrong_bodies)
        each = f"{sum(cost.wrong_bodies) / tried:.0f}" if tried else ""
        lines.append(f"| `{crate}` | {sum(cost.builds):.0f} | {sum(cost.checks):.0f} | {tried or 'none'} | {each} |")
    return "\n".join(lines)


def main(command: list[str]) -> int:
    seen: dict[tuple[int, str], float] = {}
    begin = time.time()
    running = subprocess.Popen(command or ["rt", "ci"], stdin=subprocess.DEVNULL)
    while running.poll() is None:
        seen.update(provers())
        time.sleep(1)
    costs = costs_of(seen)
    print(table(costs, time.time() - begin, date.today().isoformat()))
    two = clock_on(2, checks_of(costs, libraries(Path("crates.txt").read_text(encoding="utf-8"))))
    print(f"\nWorked out from these: {two / 60:.0f} minutes on two processors.")
    return running.returncode


if __name__ == "__main__":
    sys.exit(main(sys.argv[1:]))
