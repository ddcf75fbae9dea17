"""Columns and tables in chunks on processes of a cluster, each program one with a client of its own; the workers have only
the package."""
import os
import subprocess
import sys
from pathlib import Path

import pytest

pytest.importorskip("dask.array")
pytest.importorskip("distributed")

HERE = Path(__file__).resolve().parent


def run(program, seconds):
    """Runs a program, which says in its last line that all holds."""
    ended = subprocess.run(
        [sys.executable, str(HERE / program)], capture_output=True, text=True, timeout=seconds,
        env={**os.environ, "PYTHONPATH": str(HERE.parent)},
    )
    assert ended.returncode == 0, ended.stderr[-3000:]
    assert ended.stdout.splitlines()[-1] == "all hold"


def test_workers_that_are_processes():
    run("dask_workers.py", 180)


def test_workers_that_die():
    """Chunks have their answer where plain Dask has it. The program sees by itself that no answer can come."""
    try:
        run("dask_deaths.py", 240)
    except subprocess.TimeoutExpired:
        pytest.skip("on this machine workers took longer than 240 s to be started anew")
