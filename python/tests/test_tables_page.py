"""The page docs/TABLES.md: each of its lines of Python, and the program's where it is built."""
import doctest
import re
import shlex
import subprocess
from pathlib import Path

import pytest

TOP = Path(__file__).resolve().parents[2]
PAGE = TOP / "docs/TABLES.md"


def test_the_page(tmp_path, monkeypatch):
    monkeypatch.chdir(tmp_path)
    failed, tried = doctest.testfile(str(PAGE), module_relative=False, optionflags=doctest.ELLIPSIS)
    assert failed == 0 and tried > 20
    program = TOP / "bin/hivevigil"
    if not program.exists():
        pytest.skip("the program is not built")
    commands = re.findall(r"^    \$ hivevigil (.*)$", PAGE.read_text(encoding="utf-8"), re.M)
    said = [
        subprocess.run([program, *shlex.split(words)], check=True, capture_output=True, text=True).stdout
        for words in commands
    ]
    assert len(said) == 5 and (said[0], *said[2:]) == ("", "43\n", "", "288\n")
    assert said[1].splitlines()[1].split()[:4] == ["station", "utf8?", "0", "2"]
    assert said[1].splitlines()[-1].startswith("576 rows, 6 columns; ")
