"""The files of tables that Python and the program make of a CSV file, byte for byte, where the program is built."""
import random
import subprocess
import sys
from pathlib import Path

import pytest

from hivevigil import Table

TOP = Path(__file__).resolve().parents[2]
PROGRAM = TOP / "bin/hivevigil"


@pytest.fixture
def csv_model(monkeypatch):
    """The random CSV files on which the program is tested."""
    monkeypatch.syspath_prepend(str(TOP / "program"))
    monkeypatch.setattr(sys, "dont_write_bytecode", True)
    import csv_model

    return csv_model


def test_the_bytes_are_the_same(csv_model, tmp_path):
    if not PROGRAM.exists():
        pytest.skip("the program is not built")
    types = set()
    for number in range(60):
        columns, data, options = csv_model.random_csv(random.Random(f"bytes {number}"))
        if options:  # Python takes no separator
            continue
        (tmp_path / "random.csv").write_bytes(data)
        table = Table.from_csv(tmp_path / "random.csv")
        assert {name: str(column.logical_type or column.type).rstrip("?") for name, column in table.items()} == {
            name: csv_model.type_of(fields).rstrip("?") for name, fields in columns.items()
        }
        for more in [], ["--differences"]:
            table.save(tmp_path / "python.hv", differences=bool(more))
            subprocess.run([PROGRAM, "convert", "random.csv", "--to", "program.hv", *more], check=True, cwd=tmp_path)
            assert (tmp_path / "program.hv").read_bytes() == (tmp_path / "python.hv").read_bytes(), data
        types |= {str(column.logical_type).partition("[")[0] for column in table.values()}
    assert types >= {"date", "float64", "time", "timestamp", "None"}
