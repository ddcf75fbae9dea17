"""The package as a whole: its page, its version, threads, and other libraries' own ways to read a column."""
import doctest
import subprocess
import sys
import threading
from pathlib import Path

import hivevigil
import numpy
import pandas
import pytest
from hivevigil import Column

PAGE = Path(__file__).resolve().parents[1] / "README.md"
QUESTIONS = PAGE.parents[1] / "docs/QUESTIONS.md"


@pytest.mark.parametrize("page, least", [(PAGE, 4), (QUESTIONS, 30)])
def test_a_page(page, least):
    if not page.exists():
        pytest.skip(f"no {page.name}: the package is not in a checkout")
    failed, tried = doctest.testfile(str(page), module_relative=False)
    assert failed == 0 and tried >= least


def test_version():
    assert hivevigil.__version__[0].isdigit()
    with pytest.raises(AttributeError):
        hivevigil.none_such


def test_a_shared_object_that_is_not_there(tmp_path):
    ended = subprocess.run(
        [sys.executable, "-c", "import hivevigil"], capture_output=True, text=True,
        env={"HIVEVIGIL_SO": str(tmp_path / "none.so"), "PYTHONPATH": str(PAGE.parent)},
    )
    last = ended.stderr.splitlines()[-1]
    assert ended.returncode == 1 and last.startswith("ImportError") and str(tmp_path / "none.so") in last


def test_without_numpy():
    program = (
        "import sys; sys.modules['numpy'] = sys.modules['pandas'] = None; from hivevigil import Column; "
        "runs = Column.of([1, 1, None]).encode(); print(runs[[0, -1]].to_list(), runs[[True, False, True]].to_list(), "
        "runs.shape, hasattr(runs, 'dtype'), Column.of(runs).null_count)"
    )
    ended = subprocess.run(
        [sys.executable, "-c", program], capture_output=True, text=True, env={"PYTHONPATH": str(PAGE.parent)}
    )
    assert (ended.stdout, ended.stderr) == ("[1, None] [1, None] (3,) False 1\n", "")


def test_threads_share_columns():
    rows = [row // 7 for row in range(20_000)]
    runs, found = Column.of(rows).encode(), []

    def work(number):
        for _ in range(20):
            part = runs[number:]
            found.append(part.to_list() == rows[number:] and part.eq(runs[number:]).min() is True)
            part.free()

    threads = [threading.Thread(target=work, args=(number,)) for number in range(8)]
    for thread in threads:
        thread.start()
    for thread in threads:
        thread.join()
    assert found == [True] * 160


def test_readers_of_other_libraries():
    runs, nulls = Column.of([3, 3, 1]).encode(), Column.of([3, None, 1]).encode()
    assert pandas.Series(runs).tolist() == [3, 3, 1] and pandas.DataFrame({"a": runs})["a"].sum() == 7
    assert numpy.unique(runs).tolist() == [1, 3] and numpy.sort(runs).tolist() == [1, 3, 3]
    assert pandas.Series(nulls).isna().tolist() == [False, True, False]
    assert numpy.asarray(runs, dtype=float).dtype == float
    with pytest.raises(ValueError):
        runs.__array__(copy=False)


def test_bytes_are_rows_of_bytes():
    assert Column.of(b"ab").type == Column.of(bytearray(b"ab")).type == "u8"
