"""python -m hivevigil FILE.csv: for each column its type, rows, nulls, runs, and bytes before and after; or, with
--to FILE.hv, all columns in runs kept as a table; with --differences those of integers and times as differences, each
where that is shorter. The file of a table or of a column is read as what it is, whatever its name."""
from __future__ import annotations

import argparse
import csv
import sys
from collections.abc import Callable

from . import _files, report
from ._table_files import LIMIT
from .column import Column
from .csv_files import BadFile
from .errors import HivevigilError
from .functions import version
from .table import Table


def _arguments() -> argparse.Namespace:
    parser = argparse.ArgumentParser(prog="python -m hivevigil", description="What a CSV's columns take in runs.")
    file_help = "the first line has the names; an empty field is null; or a file of a table or a column"
    parser.add_argument("file", metavar="FILE.csv", help=file_help)
    parser.add_argument("--to", metavar="FILE.hv", help="keeps the columns in runs as a table, and prints nothing")
    parser.add_argument("--differences", action="store_true", help="keeps them as differences where that is shorter")
    parser.add_argument("--plot", metavar="FILE.svg", help="draws how long the runs are (needs Matplotlib)")
    parser.add_argument("--batch", type=int, default=65536, metavar="ROWS", help="rows that are read at once")
    parser.add_argument("--reader", choices=("gdal", "csv"), help="GDAL (where it is there), or Python's csv module")
    limit_help = "what columns kept as differences may take in memory"
    parser.add_argument("--limit", type=int, default=LIMIT, metavar="BYTES", help=limit_help)
    parser.add_argument("--version", action="version", version=f"hivevigil {version()}")
    chosen = parser.parse_args()
    if chosen.batch < 1:
        parser.error("--batch takes at least one row")
    if chosen.differences and not chosen.to:
        parser.error("--differences takes --to")
    if chosen.to and (chosen.plot or chosen.reader == "gdal"):
        parser.error("--to draws nothing, and reads by the csv module")
    return chosen


def _plotter(path: str) -> Callable[[report.Report, str], None]:
    """What draws; refused before a long file is read where the figure could not be saved."""
    try:
        from . import plot
    except ImportError:
        raise ImportError("--plot needs Matplotlib (Debian: python3-matplotlib)") from None
    plot.check(path)
    return plot.save


def _convert(chosen: argparse.Namespace) -> None:
    """Writes the table of a file, or its column, in place of the file that is meant, when all is written."""
    kind = _files.kind_of(chosen.file)
    if kind == "column":
        if chosen.differences:
            raise ValueError(f"{chosen.file}: the file of a column, and only tables have columns as differences")
        Column.load(chosen.file).save(chosen.to)
        return
    table = Table.load(chosen.file, limit=chosen.limit) if kind else Table.from_csv(chosen.file, chosen.batch)
    table.save(chosen.to, chosen.differences)


def main() -> int:
    """The status: 0, or 1 where the file could not be read or drawn, which one line says."""
    chosen = _arguments()
    try:
        if chosen.to:
            _convert(chosen)
            return 0
        save = _plotter(chosen.plot) if chosen.plot else None
        found = report.read(chosen.file, chosen.batch, chosen.reader)
        print(*report.table(found), sep="\n")
        if save:
            save(found, chosen.plot)
        return 0
    except OSError as error:
        print(f"{error.filename}: {error.strerror}" if error.filename else error, file=sys.stderr)
    except (BadFile, csv.Error, HivevigilError, ImportError, ValueError) as error:
        print(error, file=sys.stderr)
    return 1


if __name__ == "__main__":
    sys.exit(main())
