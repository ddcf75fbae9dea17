"""How long the runs of each column are, drawn by Matplotlib."""
from __future__ import annotations

from collections import Counter
from pathlib import Path
from typing import Any

from matplotlib.backend_bases import FigureCanvasBase
from matplotlib.figure import Figure

from .report import Report, Summary

_WIDTH, _HEIGHT = 7.5, 1.7  # inches, of one column


def _bars(run_lengths: Counter[int]) -> tuple[list[int], list[int]]:
    """How many rows lie in runs of 1, 2 to 3, 4 to 7 rows and so on."""
    rows: Counter[int] = Counter()
    for length, count in run_lengths.items():
        rows[length.bit_length() - 1] += length * count
    powers = list(range(max(rows, default=0) + 1))
    return powers, [rows[power] for power in powers]


def _draw(axes: Any, summary: Summary, kind: str, most: int) -> None:
    powers, rows = _bars(summary.run_lengths)
    shares = [100 * count / max(1, summary.rows) for count in rows]
    axes.bar(powers, shares, width=0.9, color="#3b6ea5")
    axes.set_xlim(-0.6, most + 0.6)
    axes.set_ylim(0, 108)
    axes.set_yticks([0, 50, 100])
    axes.set_title(f"{summary.name}  ({kind}, {summary.rows:,} rows in {summary.runs:,} runs)", loc="left", fontsize=9)
    axes.spines[["top", "right"]].set_visible(False)
    axes.tick_params(labelsize=8)


def check(path: str) -> None:
    """Refuses a file that could not be saved: the folder does not exist, or the kind of figure is unknown."""
    folder, kinds = Path(path).parent, FigureCanvasBase.get_supported_filetypes()
    if not folder.is_dir():
        raise ValueError(f"{path}: there is no folder {folder}")
    if Path(path).suffix[1:].lower() not in kinds:
        raise ValueError(f"{path}: a figure's name ends in one of {', '.join(sorted(kinds))}")


def save(report: Report, path: str) -> None:
    """A figure with bars for each column: what share of its rows lies in runs of which length."""
    count = max(1, len(report.summaries))
    figure = Figure(figsize=(_WIDTH, _HEIGHT * count + 0.5), layout="constrained")
    every = figure.subplots(count, 1, sharex=True, squeeze=False)[:, 0]
    most = max((max(it.run_lengths, default=1) for it in report.summaries), default=1).bit_length() - 1
    for axes, summary in zip(every, report.summaries):
        _draw(axes, summary, report.types[summary.name], most)
    ticks = range(0, most + 1, max(1, most // 10))
    every[-1].set_xticks(list(ticks), [f"{2**power:,}" for power in ticks])
    every[-1].set_xlabel("rows of a run: each bar from its number to below twice that", fontsize=9)
    figure.supylabel("rows in such runs, %", fontsize=9)
    figure.savefig(path)
