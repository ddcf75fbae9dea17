"""The annotations of the package: mypy finds no fault in it, none in a user's program, and each of some mistakes."""
import subprocess
import sys
from pathlib import Path

import pytest

pytest.importorskip("mypy")
HERE = Path(__file__).resolve().parent
PACKAGE = HERE.parent


@pytest.fixture(scope="module")
def found(tmp_path_factory):
    """The lines that mypy writes about package and programs, and its status."""
    command = [
        sys.executable, "-m", "mypy", "--config-file", str(PACKAGE / "pyproject.toml"), "--no-error-summary",
        "--cache-dir", str(tmp_path_factory.mktemp("types")), "hivevigil", "tests/typed_use.py", "tests/wrong_use.py",
    ]
    ended = subprocess.run(command, cwd=PACKAGE, capture_output=True, text=True, timeout=250)
    assert ended.stderr == ""
    return ended.stdout.splitlines()


def test_the_package_and_a_program(found):
    assert [line for line in found if not line.startswith("tests/wrong_use.py")] == []


def test_mistakes_are_found(found):
    wrong = [
        number for number, line in enumerate((HERE / "wrong_use.py").read_text().splitlines(), 1)
        if line.endswith("# wrong")
    ]
    assert sorted({int(line.split(":")[1]) for line in found if ": error: " in line}) == wrong
