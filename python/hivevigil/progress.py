"""A progress bar on standard error: drawn over itself on a terminal, elsewhere a line for each tenth."""
from __future__ import annotations

import sys
import time


class Progress:
    """How much of `total` is done, in `what`, where the work goes over all of it `passes` times: what is counted is
    counted once. Nothing is drawn in the first `patience` seconds."""

    def __init__(self, total: int, what: str, patience: float = 0.0, passes: int = 1) -> None:
        self.total, self.what, self.patience, self.passes = max(total, 1), what, patience, passes
        self.done, self.begin, self.shown = 0, time.monotonic(), -1

    def restart(self, passes: int) -> None:
        """The work begins now, in this number of passes."""
        self.done, self.passes, self.begin, self.shown = 0, passes, time.monotonic(), -1

    def advance(self, count: int) -> None:
        """This number more are done, in one of the passes."""
        self.done = min(self.done + count, self.total * self.passes)
        done, seconds = self.done // self.passes, time.monotonic() - self.begin
        on_terminal = sys.stderr.isatty()
        step = 100 * done // self.total if on_terminal else 10 * done // self.total
        if step == self.shown or seconds < self.patience:
            return
        self.shown = step
        filled = 40 * done // self.total
        bar = f"[{'#' * filled}{'.' * (40 - filled)}] {100 * done // self.total:3d} %"
        line = f"{bar}  {done:,} of {self.total:,} {self.what}, {seconds:.1f} s"
        print(f"\r{line}" if on_terminal else line, end="" if on_terminal else "\n", file=sys.stderr, flush=True)

    def end(self) -> None:
        """All is done."""
        self.advance(self.total * self.passes)
        if self.shown >= 0 and sys.stderr.isatty():
            print(file=sys.stderr)
