"""What the tools in Python have in common: the rows that they are given, and how each is asked. A tool prints a line
for each answer, its parts separated by tabs:

    mean length of a run, question, milliseconds of each turn, KiB that the first turn took more, answer
"""
import ctypes
import gc
import sys
import time
from dataclasses import dataclass
from pathlib import Path

import numpy

NAMES = ("level", "inflow", "day")
LIMIT = 500  # the mask of the filter is true where the inflow is below it
QUESTIONS = ("add", "compare", "filter", "group", "counts", "sort", "running")
MOST_SECONDS = 20  # a question is not asked again once its turns took longer
PLACES = 10  # the rows of a long answer that are compared: each tenth part, and the last row


@dataclass
class Rows:
    """Three columns of 64-bit integers, row by row."""

    level: numpy.ndarray
    inflow: numpy.ndarray
    day: numpy.ndarray

    @classmethod
    def read(cls, folder):
        parts = ((numpy.fromfile(folder / f"{name}.{part}", numpy.int32) for part in ("values", "lengths"))
                 for name in NAMES)
        return cls(*(numpy.repeat(values.astype(numpy.int64), lengths) for values, lengths in parts))


def places_of(count):
    return sorted({*range(0, count, max(1, count // PLACES)), count - 1})


class Tool:
    """A tool, made of the rows, which has a method for each question that returns numbers."""

    places = ()  # the rows of long answers that are compared
    load_seconds = None  # where making it is not what took the time

    def clock(self):
        """The processor time in seconds."""
        return time.process_time()

    def close(self):
        """Ends what does not end with this process."""


def _status(name):
    """A line of /proc/self/status in KiB, 0 where there is none."""
    try:
        lines = Path("/proc/self/status").read_text().splitlines()
    except OSError:
        return 0
    return next((int(line.split()[1]) for line in lines if line.startswith(name)), 0)


class Peak:
    """How much memory a process takes at most from here on, over what it takes now. Linux keeps the peak, and forgets
    it on request; 0 elsewhere."""

    def __init__(self):
        gc.collect()
        trim = getattr(ctypes.CDLL(None), "malloc_trim", None)
        if trim:
            trim(0)
        try:
            Path("/proc/self/clear_refs").write_text("5")
        except OSError:
            pass
        self._before = _status("VmRSS")

    def more(self):
        return max(0, _status("VmHWM") - self._before)


def ask(tool, question, turns):
    """The times of some turns in seconds, what the first took in KiB, and its answer."""
    call, peak, taken = getattr(tool, question), Peak(), []
    while len(taken) < turns and (not taken or sum(taken) + taken[-1] < MOST_SECONDS):
        begin = tool.clock()
        found = call()
        taken.append(tool.clock() - begin)
        if len(taken) == 1:
            more, answer = peak.more(), [int(number) for number in found]
    return taken, more, answer


def report(length, question, seconds, more, answer):
    times = " ".join(f"{second * 1000:.4f}" for second in seconds)
    print(length, question, times, more, " ".join(map(str, answer)), sep="\t", flush=True)


def run(kind, folders, turns):
    """Asks a tool, made of the rows of each folder, all questions."""
    print("tool", kind.version(), sep="\t", flush=True)
    for folder in folders:
        rows = Rows.read(folder)
        count, peak, begin = len(rows.level), Peak(), time.process_time()
        tool = kind(rows)
        taken = time.process_time() - begin
        report(folder.name, "load", [tool.load_seconds or taken], peak.more(), [count])
        del rows
        tool.places = places_of(count)
        report(folder.name, "bytes", [0], 0, [tool.size()])
        for question in QUESTIONS:
            report(folder.name, question, *ask(tool, question, turns))
        tool.close()
        del tool


def main(kinds):
    """TOOL TURNS FOLDER.."""
    run(kinds[sys.argv[1]], [Path(word) for word in sys.argv[3:]], int(sys.argv[2]))
