#!/usr/bin/env python3
"""Errors, types, operators, folds and forms are defined once, in include/hivevigil.h, and the version in VERSION: looks
that each language has the same.

    python3 tools/lists.py      names what differs; ends in the count of what agrees

Compared are the sentences' header, the C++ header, the Rust crate, the table of docs/ERRORS.md, and the Python package
where the library is built.
"""

import importlib
import re
import sys
from pathlib import Path

ROOT = Path(__file__).resolve().parent.parent
SIGNS = {"EQ": "==", "NE": "!=", "GT": ">", "GE": ">=", "LT": "<", "LE": "<="}
WORDS = {"EQ": "Equal", "NE": "NotEqual", "GT": "Greater", "GE": "GreaterOrEqual", "LT": "Less", "LE": "LessOrEqual"}
PYTHON_FOLDS = {"ROWS": "size", "LEAST": "min", "GREATEST": "max"}


def text_of(path: str) -> str:
    return (ROOT / path).read_text(encoding="utf-8")


def enums_of(path: str) -> list[dict[str, int]]:
    """The enums of a C header, without the HV_ that each name begins with."""
    code = re.sub(r"/\*.*?\*/", "", text_of(path), flags=re.S)
    enums = []
    for body in re.findall(r"enum \{(.*?)\}", code, re.S):
        numbers: dict[str, int] = {}
        for name, number in re.findall(r"\bHV_(\w+)\s*(?:=\s*(\d+))?", body):
            numbers[name] = int(number) if number else max(numbers.values(), default=-1) + 1
        enums.append(numbers)
    return enums


def enum_with(enums: list[dict[str, int]], name: str) -> dict[str, int]:
    """The one enum that has this name."""
    (found,) = [numbers for numbers in enums if name in numbers]
    return found


def camel(name: str) -> str:
    return "".join(word.capitalize() for word in name.split("_"))


def without(numbers: dict[str, int], *names: str) -> dict[str, int]:
    return {name: number for name, number in numbers.items() if name not in names}


def rust_enum(path: str, name: str) -> dict[str, int]:
    """A Rust enum whose variants have numbers."""
    body = re.search(rf"enum {name} \{{(.*?)\n\}}", text_of(path), re.S)
    return {variant: int(number) for variant, number in re.findall(r"(\w+) = (\d+),", body[1] if body else "")}


def rust_macro(path: str, name: str) -> list[tuple[str, int, str]]:
    """The lines `Name = 1, "text";` of a macro's call."""
    body = re.search(rf"^{name}! \{{(.*?)^\}}", text_of(path), re.S | re.M)
    lines = re.findall(r'(\w+) = (\d+), "([^"]*)";', body[1] if body else "")
    return [(variant, int(number), text) for variant, number, text in lines]


def sentences() -> dict[str, str]:
    """What hivevigil_errors.h says of each error."""
    return dict(re.findall(r'X\(HV_(\w+), "([^"]*)"\)', text_of("include/hivevigil_errors.h")))


def flaws(path: str, pattern: str) -> dict[str, str]:
    """The sentence for each flaw of an array of Arrow, by its name in one word."""
    return {name.replace("_", "").lower(): said for name, said in re.findall(pattern, text_of(path))}


class Lists:
    """What the header has, and what was found to differ from it."""

    def __init__(self) -> None:
        enums = enums_of("include/hivevigil.h")
        self.errors = enum_with(enums, "OUT_OF_MEMORY")
        self.types = enum_with(enums, "UTF8")
        self.operators = enum_with(enums, "EQ")
        forms = enum_with(enums, "FORM_RUNS")
        self.forms = {name.removeprefix("FORM_"): number for name, number in forms.items()}
        folds = enum_with(enums, "FOLD_SUM")
        self.folds = {name.removeprefix("FOLD_"): number for name, number in folds.items()}
        self.agreed, self.faults = 0, []

    def same(self, what: str, found: object, expected: object) -> None:
        if found == expected:
            self.agreed += 1
        else:
            self.faults.append(f"{what}:\n    found    {found}\n    expected {expected}")

    def check_versions(self) -> None:
        """The header, and what hv_version answers, have the version of VERSION; so has the newest entry of changes."""
        version = text_of("VERSION").strip()
        major, minor, patch = map(int, version.split("."))
        numbers = re.findall(r"^#define HV_VERSION_(?:MAJOR|MINOR|PATCH) (\d+)$", text_of("include/hivevigil.h"), re.M)
        self.same("version of hivevigil.h", [int(number) for number in numbers], [major, minor, patch])
        code = text_of("crates/hivevigil/src/versions.rt")
        number = re.search(r"fn hv_version\(\).*?\{\s*([\d_]+)\s*\}\n", code, re.S)
        due = major * 1_000_000 + minor * 1_000 + patch
        self.same("number that hv_version answers", number and int(number[1]), due)
        entry = re.search(r"^## ([\d.]+), (?!not released)", text_of("CHANGELOG.md"), re.M)
        self.same("newest released entry of CHANGELOG.md", entry and entry[1], version)

    def check_words(self) -> None:
        self.same("errors of hivevigil_errors.h", list(sentences()), list(self.errors))

    def check_cpp(self) -> None:
        """C++ names the header's constants: each of its enums has all of them."""
        code = text_of("include/hivevigil_values.hpp")
        lists = ("Form", "HV_FORM_", self.forms), ("Operator", "HV_", self.operators), ("Fold", "HV_FOLD_", self.folds)
        for what, prefix, numbers in lists:
            body = re.search(rf"enum class {what} : uint8_t \{{(.*?)\}}", code, re.S)
            found = re.findall(rf"= {prefix}(\w+)", body[1] if body else "")
            self.same(f"{what} of hivevigil_values.hpp", found, list(numbers))
        said = re.search(r"names\[\] = \{(.*?)\}", code, re.S)
        names = re.findall(r'"(\w+)"', said[1] if said else "")
        self.same("types in words of hivevigil_values.hpp", names, [name.lower() for name in self.types])
        kinds = re.search(r"namespace kinds \{(.*?)\n\}", code, re.S)
        found = dict(re.findall(r"(\w+)\{HV_(\w+), 0, 0, 0\}", kinds[1] if kinds else ""))
        plain = without(self.types, "DECIMAL", "LIST")
        expected = {name.lower().replace("bool", "boolean"): name for name in plain}
        self.same("kinds of hivevigil_values.hpp", found, expected)

    def check_rust(self) -> None:
        found = re.search(r'^version = "(.*)"$', text_of("rust/Cargo.toml"), re.M)
        self.same("version of the Rust crate", found and found[1], text_of("VERSION").strip())
        errors = rust_macro("rust/src/error.rs", "errors")
        expected = {camel(name): number for name, number in without(self.errors, "OK").items()}
        self.same("ErrorKind of Rust", {name: number for name, number, _ in errors}, expected)
        said = {camel(name): text for name, text in sentences().items() if name != "OK"}
        self.same("sentences of Rust", {name: text for name, _, text in errors}, said)
        kinds = {name: number for name, number, _ in rust_macro("rust/src/kind.rs", "kinds")}
        for name, number in re.findall(r"^const (DECIMAL|LIST): u8 = (\d+);", text_of("rust/src/kind.rs"), re.M):
            kinds[name] = int(number)
        self.same("types of Rust", kinds, self.types)
        forms = {camel(name): number for name, number in without(self.forms, "NONE").items()}
        self.same("Form of Rust", rust_enum("rust/src/kind.rs", "Form"), forms)
        operators = {WORDS[name]: number for name, number in self.operators.items()}
        self.same("Operator of Rust", rust_enum("rust/src/value.rs", "Operator"), operators)
        folds = {camel(name): number for name, number in self.folds.items()}
        self.same("Fold of Rust", rust_enum("rust/src/value.rs", "Fold"), folds)
        due = flaws("include/hivevigil_arrow_errors.h", r"case HV_ARROW_(\w+): return \"(.*?)\"")
        said = flaws("rust/src/arrow/error.rs", r"Flaw::(\w+)(?:\(row\))? => \{?\s*(?:let said = )?\"(.*?)\"")
        self.same("flaws of Arrow's arrays of Rust", said, due)

    def check_page(self) -> None:
        """docs/ERRORS.md has the errors that Rattle has too, which end with the one for memory."""
        lines = re.findall(r"^\| (\d+) \| `(\w+)` \|", text_of("docs/ERRORS.md"), re.M)
        last = self.errors["OUT_OF_MEMORY"]
        expected = {camel(name): number for name, number in self.errors.items() if 0 < number <= last}
        self.same("errors of docs/ERRORS.md", {name: int(number) for number, name in lines}, expected)
        fields = re.findall(r"^\| \d+ \| `(\w+)` \| ([^|]*)\|", text_of("docs/ERRORS.md"), re.M)
        told = {name: len(re.findall(r"\w+", words)) for name, words in fields}
        said = {camel(name): len(set(re.findall(r"%\d", text))) for name, text in sentences().items()}
        self.same("fields in the sentences of errors", {name: said[name] for name in told if name in said}, told)

    def check_python(self) -> None:
        sys.path.insert(0, str(ROOT / "python"))
        try:
            package = importlib.import_module("hivevigil")
        except ImportError as error:
            print(f"the Python package is not compared: {error}")
            return
        classes = {each.__name__: number for number, each in package.CLASSES.items() if number < 100}
        expected = {camel(name): number for name, number in without(self.errors, "OK").items()}
        self.same("exceptions of Python", classes, expected)
        self.same("types of Python", list(package.TYPES), [name.lower() for name in self.types])
        self.same("operators of Python", list(package.OPERATORS), [SIGNS[name] for name in self.operators])
        folds = {PYTHON_FOLDS.get(name, name.lower()): number for name, number in self.folds.items()}
        self.same("folds of Python", package._grouping.FOLDS, folds)
        forms = {number: name.lower() for name, number in without(self.forms, "NONE").items()}
        self.same("forms of Python", dict(package.FORMS), forms)


def main() -> int:
    lists = Lists()
    lists.check_versions()
    lists.check_words()
    lists.check_cpp()
    lists.check_rust()
    lists.check_page()
    if (ROOT / "python/hivevigil").is_dir():
        lists.check_python()
    for fault in lists.faults:
        print(fault)
    print(f"{lists.agreed} lists agree, {len(lists.faults)} differ")
    return 1 if lists.faults else 0


if __name__ == "__main__":
    sys.exit(main())
