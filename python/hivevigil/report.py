"""What the columns of a CSV file, or of a file of columns, take in runs: a line for each column."""
from __future__ import annotations

from collections import Counter
from collections.abc import Iterator, Mapping
from dataclasses import dataclass, field
from pathlib import Path
from typing import Optional, Union

from . import _files, gdal_files
from ._common_types import written_type
from ._lists import is_list
from ._runs import lengths, visible
from ._types import TYPES, WIDTHS
from ._values import Scalar
from .column import Column
from .csv_files import CsvFile, lines_of
from .gdal_files import GdalFile, Inexact
from .progress import Progress
from .table import Table

PATIENCE = 1.0  # seconds before a progress bar is drawn


@dataclass
class Summary:
    """What is known of one column so far. A run that may go on in the next batch is not yet in `run_lengths`."""

    name: str
    rows: int = 0
    nulls: int = 0
    before: int = 0
    after: int = 0
    run_lengths: Counter[int] = field(default_factory=Counter)
    last: Scalar = None
    open_rows: int = 0

    @property
    def runs(self) -> int:
        return sum(self.run_lengths.values())

    def add(self, column: Column) -> None:
        """One batch, in whichever form it came."""
        if column._length == 0:
            return
        with column.storage().to_runs() as runs:
            found = lengths(visible(runs).stops)
            if self.open_rows and runs[0] == self.last:
                found[0] += self.open_rows
            else:
                self.close()
            self.open_rows, self.last = found.pop(), runs[-1]
            self.run_lengths.update(found)
            self.rows += column._length
            self.nulls += runs.null_count
            self.before += flat_nbytes(runs)
            self.after += runs.nbytes

    def close(self) -> None:
        """The last run ends."""
        if self.open_rows:
            self.run_lengths[self.open_rows] += 1
            self.open_rows = 0


def flat_nbytes(column: Column) -> int:
    """How many bytes the rows take in a flat form, whatever the form: it is not made, since there may be many rows."""
    rows, name = column._length, TYPES[column._kind.number]
    bits = -(-rows // 8)
    if name in ("utf8", "binary"):
        size = 24 * rows
        for start, stop, value in column.runs():
            data = value.encode() if isinstance(value, str) else value
            size += (stop - start) * len(data) if isinstance(data, bytes) else 0
    else:
        size = bits if name == "bool" else rows * WIDTHS[name]
    return size + bits * (column.null_count > 0)


@dataclass
class Report:
    """The summaries of a file's columns, their types by name, and what read the file."""

    summaries: list[Summary]
    types: dict[str, str]
    reader: str


def read(path: str, batch_rows: int, reader: Optional[str] = None) -> Report:
    """Reads a file by GDAL where it is there, else by Python's csv module. Columns in which GDAL sees floating-point
    numbers, or times, are read by the csv module; so is all of a file that GDAL does not read, or of which it changes a
    value or a name."""
    kind = _files.kind_of(path)
    if kind:
        return _of_columns({"": Column.load(path)} if kind == "column" else Table.load(path), f"{kind.title()}.load")
    by_gdal = gdal_files.available() if reader is None else reader == "gdal"
    # a broken file is refused here, where GDAL would guess
    rows = sum(1 for _ in lines_of(path)) - 1 if by_gdal else _rows_about(path)
    progress = Progress(rows, "rows", PATIENCE)
    report = _by_gdal(path, batch_rows, progress) if by_gdal else _by_csv(path, batch_rows, progress, "the csv module")
    progress.end()
    return report


def _of_columns(columns: Mapping[str, Column], reader: str) -> Report:
    """Those of columns by name, but lists, which are not in runs."""
    summaries = [Summary(name) for name, column in columns.items() if not is_list(column)]
    for summary in summaries:
        summary.add(columns[summary.name])
        summary.close()
    types = {name: written_type(column) for name, column in columns.items()}
    return Report(summaries, types, reader)


def _by_gdal(path: str, batch_rows: int, progress: Progress) -> Report:
    try:
        file = GdalFile(path, batch_rows)
        progress.restart(file.passes + 2 * bool(file.left_out))
        report = _summed(file, progress, "GDAL")
    except Inexact as error:
        return _by_csv(path, batch_rows, progress, f"the csv module (GDAL: {error})")
    if not file.left_out:
        return report
    others = _summed(CsvFile(path, batch_rows, file.left_out), progress, "the csv module")
    return _joined(report, others, list(file.places))


def _by_csv(path: str, batch_rows: int, progress: Progress, reader: str) -> Report:
    file = CsvFile(path, batch_rows)
    progress.restart(file.passes)
    return _summed(file, progress, reader)


def _summed(file: Union[CsvFile, GdalFile], progress: Progress, reader: str) -> Report:
    summaries: dict[str, Summary] = {}
    for columns in file.batches(progress.advance):
        for name, column in columns.items():
            with column:
                summaries.setdefault(name, Summary(name)).add(column)
    for name in file.types:
        summaries.setdefault(name, Summary(name)).close()
    return Report(list(summaries.values()), file.types, reader)


def _joined(by_gdal: Report, by_csv: Report, names: list[str]) -> Report:
    """The columns of both in the order of these names."""
    summaries = {summary.name: summary for summary in by_gdal.summaries + by_csv.summaries}
    types = {**by_gdal.types, **by_csv.types}
    readers = f"{by_gdal.reader}, {' '.join(sorted(by_csv.types))} by {by_csv.reader}"
    in_order = [name for name in names if name in summaries]
    return Report([summaries[name] for name in in_order], {name: types[name] for name in in_order}, readers)


def _rows_about(path: str) -> int:
    """How many lines follow the first, for the progress bar; a field of several lines counts as these."""
    with Path(path).open("rb") as file:
        return max(0, sum(block.count(b"\n") for block in iter(lambda: file.read(1 << 20), b"")) - 1)


def table(report: Report) -> Iterator[str]:
    """The report as lines."""
    head = ("column", "type", "rows", "nulls", "runs", "bytes before", "bytes after")
    rows = [
        (it.name, report.types[it.name], *map("{:,}".format, (it.rows, it.nulls, it.runs, it.before, it.after)))
        for it in report.summaries
    ]
    widths = [max(len(row[place]) for row in [head, *rows]) for place in range(len(head))]
    for name, kind, *numbers in [head, *rows]:
        yield "  ".join([name.ljust(widths[0]), kind.ljust(widths[1]), *map(str.rjust, numbers, widths[2:])])
    before, after = (sum(getattr(it, name) for it in report.summaries) for name in ("before", "after"))
    yield f"{before:,} bytes before, {after:,} after; read by {report.reader}"
