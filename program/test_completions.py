#!/usr/bin/env python3
"""Tests of the completions for bash, tools/packages/hivevigil.bash, held against the program: its commands, the options
that each takes, its questions, and its types.

    python3 program/test_completions.py PROGRAM

Needs bash. Which words there are is what --help prints, and which of them a command takes is seen from its refusals.
"""

import argparse
import re
import shlex
import subprocess
import tempfile
from pathlib import Path

from test import TOP, Program

COMPLETIONS = TOP / "tools/packages/hivevigil.bash"


def completed(*words: str) -> list[str]:
    """What bash offers for the last of these words after the program's name, which --OPTION=VALUE are three of."""
    line = shlex.join(["hivevigil", *words])
    script = f"source {shlex.quote(str(COMPLETIONS))}; COMP_WORDS=({line}); COMP_CWORD={len(words)}; "
    script += '_hivevigil || true; printf "%s\\n" "${COMPREPLY[@]}"'
    ended = subprocess.run(["bash", "-eu", "-c", script], capture_output=True, text=True, check=True)
    assert not ended.stderr, ended.stderr
    return ended.stdout.split()


def check_options(program: Program, commands: set[str], options: set[str]) -> None:
    """Each command is offered the options that it takes, and no other is."""
    for command in commands:
        taken = {"--help"}
        for option in options - {"--help", "--version"}:
            status, _, said = program.run(command, "none.hv", *([option] if option in FLAGS else [option, "1"]))
            assert status
            taken |= set() if said.startswith(f"hivevigil: {option} is not an option of {command} ") else {option}
        offered = completed(command, "none.hv", "-")
        assert set(offered) == taken and len(offered) == len(taken), (command, offered, taken)
        assert completed(command, "none.hv", "--he") == ["--help"]


FLAGS = {"--runs", "--differences"}


def check_values(program: Program, options: set[str]) -> None:
    """An option that has a value is not followed by a command, a question or an option."""
    (program.folder / "a.csv").write_text("a\n\n")
    for option in options - {"--help", "--version"} - FLAGS:
        offered = completed("query", "a.hv", option, "")
        assert offered == completed("query", "a.hv", option, "=") == completed("query", "a.hv", option, "=", "")
        assert bool(offered) == (option in ("--nulls", "--type")), option
    for place in completed("show", "a.hv", "--nulls", ""):
        program.refuses(2, r"--nulls takes --sort too .*", "show", "a.hv", "--rows=1", "--nulls", place)
    for kind in completed("convert", "a.csv", "--type", ""):
        assert program.answers("convert", "a.csv", "--to=a.hv", "--column=a", "--type", kind) == ""
    assert completed("show", "a.hv", "--nulls", "l") == completed("show", "a.hv", "--nulls", "=", "l") == ["last"]


def main() -> None:
    parser = argparse.ArgumentParser(description=__doc__, formatter_class=argparse.RawDescriptionHelpFormatter)
    parser.add_argument("program")
    chosen = parser.parse_args()
    with tempfile.TemporaryDirectory() as folder:
        program = Program(chosen.program, Path(folder))
        text = program.answers("--help")
        commands = set(re.findall(r"^  hivevigil ([a-z]+) ", text, re.M))
        options = set(re.findall(r"^  (?:-h, )?(--[a-z]+)", text, re.M))
        assert set(completed("")) == commands | {"--help", "--version"} and completed("he") == ["head"]
        said = program.run("query", "none.hv", "none")[2]
        assert completed("query", "none.hv", "") == re.search("one of (.*), or none", said)[1].split(", ")
        assert completed("query", "none.hv", "m") == ["mean", "min", "max"]
        for command in commands:  # a file, as bash completes it
            assert completed(command, "") == completed(command, "a") == []
        check_options(program, commands, options)
        check_values(program, options)
        print(f"completions for bash: {len(commands)} commands and {len(options)} options are as the program has them")


if __name__ == "__main__":
    main()
