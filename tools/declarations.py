#!/usr/bin/env python3
"""Declares the calls of the library once: include/hivevigil.h has each with its documentation, and the other
declarations are made from it.

    python3 tools/declarations.py            names what is out of step; ends in 'N passed, M failed'
    python3 tools/declarations.py --write    writes the declarations anew

Made are the exports and the inline calls of C (include/), the exports as Rust declares them (rust/src/raw.rs, which the
bench uses too) and as ctypes does (python/hivevigil/_calls.py), each between two lines that say so. The calls of
tables are declared in include/hivevigil_tables.h, which has their exports and inline calls in C too. The types in the
header are held against the functions of crates/hivevigil that are exported. The sentences of refusals are those of
include/hivevigil_errors.h: Rust's (rust/src/error.rs) and Python's (python/hivevigil/_sentences.py) are made of them.
"""

import re
import sys
from dataclasses import dataclass
from pathlib import Path

ROOT = Path(__file__).resolve().parent.parent
HEADER, ERRORS, TABLES = "include/hivevigil.h", "include/hivevigil_errors.h", "include/hivevigil_tables.h"
BOTH = "include/hivevigil.h and hivevigil_tables.h"
BEGIN, END = "made by tools/declarations.py from", "end of what tools/declarations.py makes"
WIDTH = 120
# The inline calls that do more than pass their arguments on: they are written by hand in hivevigil_calls.h.
BY_HAND = {"hv_session_initial", "hv_free", "hv_builder_free", "hv_table_free"}
# The handles that the library owns: an export takes what one holds out, and puts it back before it returns.
HANDLES = {"hv_column": "hv_lent", "hv_builder": "hv_lent_builder", "hv_table": "hv_lent_table"}
# The inline calls whose refusals of offsets and rows say what they are about, in the third field.
ABOUT = {"hv_texts": "HV_ABOUT_TEXTS", "hv_large_texts": "HV_ABOUT_TEXTS", "hv_lists": "HV_ABOUT_LISTS"}
# What stands for a type of the exports in another language. Rust's and Python's names are those of their modules.
RUST = {
    "uint8_t": "u8", "uint16_t": "u16", "uint32_t": "u32", "uint64_t": "u64", "int8_t": "i8", "int16_t": "i16",
    "int32_t": "i32", "int64_t": "i64", "size_t": "usize", "hv_column": "Handle", "hv_builder": "BuilderHandle",
    "hv_table": "TableHandle", "hv_error": "Fields", "hv_settings": "Session", "hv_kind": "Kind", "hv_value": "RawValue",
    "hv_total": "RawTotal", "hv_pair": "Pair",
}  # fmt: skip
PYTHON = {
    **{name: f"c_{name.removesuffix('_t')}" for name in RUST if name.endswith("_t")}, "size_t": "c_size_t",
    "hv_column": "Handle", "hv_builder": "BuilderHandle", "hv_table": "TableHandle", "hv_error": "Fields",
    "hv_settings": "Session", "hv_kind": "Kind", "hv_value": "Value", "hv_total": "Total", "hv_pair": "Pair",
}  # fmt: skip
# The types of crates/hivevigil, as C has them. A slice is a pointer and a length.
RATTLE = {
    **{rust: c for c, rust in RUST.items()},
    "Session": "hv_settings", "RowValue": "hv_value", "Total": "hv_total", "ErrorFields": "hv_error",
    "&mut Handle": "hv_column *", "&mut BuilderHandle": "hv_builder *", "&mut TableHandle": "hv_table *",
}  # fmt: skip


@dataclass(frozen=True)
class Parameter:
    """`type` is written as C writes it, with a blank before the star: `const hv_column *`."""

    type: str
    name: str

    @property
    def base(self) -> str:
        return self.type.removeprefix("const ").removesuffix(" *")

    @property
    def is_pointer(self) -> bool:
        return self.type.endswith("*")

    def __str__(self) -> str:
        return f"{self.type}{self.name}" if self.is_pointer else f"{self.type} {self.name}"


@dataclass(frozen=True)
class Call:
    """A call as the header declares it, under the heading above it."""

    heading: str
    answers: str
    name: str
    parameters: tuple[Parameter, ...]

    def exported(self) -> list[Parameter]:
        """What the export takes: a validity in four parts, a session without its size, columns that it may write."""
        found = []
        for each in self.parameters:
            if each.base == "hv_validity":
                found += [Parameter("uint8_t", "nulls"), Parameter("const uint8_t *", "bits")]
                found += [Parameter("size_t", "bits_len"), Parameter("size_t", "first")]
            elif each.base == "hv_session":
                found.append(Parameter(each.type.replace("hv_session", "hv_settings"), "settings"))
            elif each.base in HANDLES:
                found.append(Parameter(f"{each.base} *", each.name))
            else:
                found.append(each)
        return found

    def items(self) -> list[tuple[Parameter, Parameter]]:
        """Each pointer to items, with the length that follows it."""
        pairs = zip(self.parameters, self.parameters[1:])
        return [(each, after) for each, after in pairs if each.is_pointer and after.name in ("len", f"{each.name}_len")]


def tested(call: Call) -> list[str]:
    """What refuses a null pointer to items, in the order of the parameters."""
    lengths = {items.name: length.name for items, length in call.items()}
    lines = []
    for each in call.parameters:
        if each.name in lengths:
            lines.append(f"    HV_ITEMS({each.type.removesuffix(' *')}, {each.name}, {lengths[each.name]});")
        elif each.base == "hv_validity":
            lines.append(f"    HV_BITS({each.name});")
    return lines


def passed(parameter: Parameter) -> str:
    """What the inline call passes to the export for one of its own parameters."""
    name = parameter.name
    if parameter.base == "hv_validity":
        return f"HV_PARTS({name})"
    if parameter.base == "hv_session":
        return f"hv_settings_of({name})"
    if parameter.base in HANDLES and parameter.type.startswith("const "):
        return f"{HANDLES[parameter.base]}({name})"
    return "HV_FIELDS" if parameter.base == "hv_error" else name


def calls_of(header: str) -> list[Call]:
    """The calls that hivevigil.h declares, in its order; functions with a body there are none of the library's."""
    calls, heading = [], ""
    pattern = r"/\* ---- (.*?) ----|^(?:HV_CALL (\w+)|(HV_ANSWER)) (hv_\w+)\(([^;{]*?)\);"
    for title, answers, refused, name, parameters in re.findall(pattern, header, re.M | re.S):
        if title:
            heading = title.split(":")[0].strip()
            continue
        calls.append(Call(heading, "int32_t" if refused else answers, name, tuple(map(parameter_of, parameters.split(",")))))
    return calls


def parameter_of(text: str) -> Parameter:
    found = re.fullmatch(r"\s*(.*?)\s*(\*?)(\w+)\s*", text, re.S)
    if not found:
        raise ValueError(f"no parameter of C: {text!r}")
    words, star, name = found.groups()
    return Parameter(f"{words} *" if star else words, name)


# ---- what is made of them


def filled(head: str, words: list[str], tail: str, indent: int) -> str:
    """`head`, the words with commas between, and `tail`, in lines of at most WIDTH, the later ones indented."""
    lines, line = [], head
    for number, word in enumerate(words):
        last = number == len(words) - 1
        text = word + (tail if last else ",")
        gap = "" if line in (head, " " * indent) else " "
        if len(line) + len(gap) + len(text) > WIDTH and line != " " * indent:
            lines.append(line)
            line, gap = " " * indent, ""
        line += gap + text
    return "\n".join([*lines, line])


def under_headings(calls: list[Call], made) -> str:
    """What is made of each call, under the heading of its part of the header."""
    lines, heading = [], None
    for call in calls:
        if call.heading and call.heading != heading:
            heading = call.heading
            lines += ["", f"/* {heading} */"]
        lines.append(made(call))
    return "\n".join(lines).strip("\n")


def export(call: Call) -> str:
    head = f"HV_EXPORT {call.answers} {call.name}("
    return filled(head, [str(each) for each in call.exported()], ");", len(head))


def exports(calls: list[Call]) -> str:
    macros = [f"#define {call.name}(...) hv_call_{call.name[3:]}(__VA_ARGS__)" for call in calls]
    return "\n".join([under_headings(calls, export), "", "#ifndef HV_EXPORTS_ALONE", *macros, "#endif"])


def inline(call: Call) -> str:
    answer = call.answers == "int32_t" and any(each.base == "hv_error" for each in call.parameters)
    head = f"{'HV_ANSWER' if answer else f'HV_CALL {call.answers}'} {call.name}("
    shown = filled(head, [str(each) for each in call.parameters], ") {", len(head))
    body = f"    return ({call.name})("
    lines = ["    hv_error ignored;", *tested(call)] if answer else []
    arguments, tail = [passed(each) for each in call.parameters], ");"
    if call.name in ABOUT:
        body, tail = f"    return hv_about({ABOUT[call.name]}, ({call.name})(", "), HV_FIELDS);"
    lines.append(filled(body, arguments, tail, len(body)))
    return "\n".join([shown, *lines, "}"])


def inlines(calls: list[Call]) -> str:
    return under_headings([call for call in calls if call.name not in BY_HAND], inline)


def tables(calls: list[Call]) -> str:
    """All of a header that has its exports and inline calls itself, over hivevigil.h."""
    free = ["HV_CALL void hv_table_free(hv_table *table) {", "    if (table) (hv_table_free)(table);", "}"]
    return "\n".join([exports(calls), "#ifndef HV_EXPORTS_ALONE", *free, inlines(calls), "#endif"])


def rust_type(type: str) -> str:
    base = RUST[Parameter(type, "").base]
    if not type.endswith("*"):
        return base
    return f"*const {base}" if type.startswith("const ") else f"*mut {base}"


def rust_call(call: Call) -> str:
    words = [f"{each.name.rstrip('_')}: {rust_type(each.type)}" for each in call.exported()]
    tail = "" if call.answers == "void" else f" -> {rust_type(call.answers)}"
    line = f"    pub fn {call.name}({', '.join(words)}){tail};"
    if len(line) <= 100:
        return line
    return "\n".join([f"    pub fn {call.name}(", *(f"        {word}," for word in words), f"    ){tail};"])


def rust(calls: list[Call]) -> str:
    return "\n".join(["extern \"C\" {", *map(rust_call, calls), "}"])


def python_type(parameter: Parameter) -> str:
    """As ctypes takes it: bytes and buffers of C as they are, anything else by a pointer to its type."""
    base = PYTHON[parameter.base]
    if not parameter.is_pointer:
        return base
    if parameter.type == "const uint8_t *" and parameter.name != "items" or parameter.name == "bytes":
        return "c_char_p"
    return "c_void_p" if parameter.name.endswith("text") else f"POINTER({base})"


def python_call(call: Call) -> str:
    answers = "None" if call.answers == "void" else PYTHON[call.answers]
    head = f'    "{call.name}": (['
    words = [python_type(each) for each in call.exported()]
    line = filled(head, words, f"], {answers}),", 8)
    return line if "\n" not in line else "\n".join([head, filled(" " * 8, words, ",", 8), f"    ], {answers}),"])


def python(calls: list[Call]) -> str:
    return "\n".join(["CALLS: dict[str, tuple[list[Any], Any]] = {", *map(python_call, calls), "}"])


# ---- sentences of refusals


@dataclass(frozen=True)
class Refusal:
    """A number of hivevigil.h, its name there, and its sentence, where %1, %2 and %3 are the fields."""

    number: int
    name: str
    sentence: str


def refusals_of(header: str, errors: str) -> list[Refusal]:
    """The refusals of hivevigil_errors.h, with the numbers that hivevigil.h gives them; HV_OK is none."""
    numbers = dict(re.findall(r"^\s*(HV_[A-Z_]+) = (\d+),?", header, re.M))
    found = re.findall(r'^    X\((HV_[A-Z_]+), "(.*?)"\)', errors, re.M)
    return [Refusal(int(numbers[name]), name, sentence) for name, sentence in found if numbers[name] != "0"]


def rust_sentences(refusals: list[Refusal]) -> str:
    names = ["".join(map(str.capitalize, each.name.split("_")[1:])) for each in refusals]
    lines = [f'    {name} = {each.number}, "{each.sentence}";' for name, each in zip(names, refusals)]
    return "\n".join(["errors! {", *lines, "}"])


def python_sentences(refusals: list[Refusal]) -> str:
    texts = [re.sub(r"%([123])", lambda it: f"{{{int(it[1]) - 1}}}", each.sentence).replace("^", "**") for each in refusals]
    lines = [f'    {each.number}: "{text}",' for each, text in zip(refusals, texts)]
    return "\n".join(["SENTENCES: dict[int, str] = {", *lines, "}"])


# By file what is made for it, of which header, and how its language begins and ends a comment.
MADE = {
    "include/hivevigil_exports.h": (exports, HEADER, "/* ", " */"),
    "include/hivevigil_calls.h": (inlines, HEADER, "/* ", " */"),
    "rust/src/raw.rs": (rust, BOTH, "// ", ""),
    "python/hivevigil/_calls.py": (python, BOTH, "# ", ""),
    "rust/src/error.rs": (rust_sentences, ERRORS, "// ", ""),
    "python/hivevigil/_sentences.py": (python_sentences, ERRORS, "# ", ""),
    TABLES: (tables, TABLES, "/* ", " */"),
}


def renewed(text: str, made: str, header: str, opens: str, closes: str) -> str:
    """The text of a file with what is made of a header in place of what was between its two lines."""
    begin, end = f"{opens}{BEGIN} {Path(header).name}{closes}\n", f"{opens}{END}{closes}\n"
    if text.count(begin) != 1 or text.count(end) != 1:
        raise ValueError(f"one line {begin.strip()!r} and one {end.strip()!r} are due")
    before, rest = text.split(begin)
    return before + begin + made + "\n" + end + rest.split(end)[1]


# ---- the library's own types


def rattle_calls(source: str) -> dict[str, tuple[list[str], str]]:
    """By name the types, as C has them, that each exported function of a file takes, and that of its answer."""
    found = re.findall(r'pub extern "C" fn (hv_\w+)\((.*?)\)(?: -> (\w+))?\s*(?:ensures|requires|\{)', source, re.S)
    return {name: (list(rattle_types(takes)), RATTLE.get(answers, "void")) for name, takes, answers in found}


def rattle_types(parameters: str):
    for text in filter(None, (each.strip() for each in re.sub(r"\s+", " ", parameters).split(","))):
        type = text.split(": ", 1)[1]
        slice = re.fullmatch(r"&(mut )?\[(\w+)\]", type)
        if slice:
            yield f"{'' if slice[1] else 'const '}{RATTLE[slice[2]]} *"
            yield "size_t"
        elif type in RATTLE:
            yield RATTLE[type]
        elif type.startswith("&"):
            changes = type.startswith("&mut ")
            yield f"{'' if changes else 'const '}{RATTLE[type.removeprefix('&').removeprefix('mut ')]} *"
        elif type != "Global":
            raise ValueError(f"no type of C stands for {type}")


def out_of_step(calls: list[Call], exported: dict[str, tuple[list[str], str]]) -> list[str]:
    """The calls that the header and the library have otherwise."""
    declared = {call.name: ([each.type for each in call.exported()], call.answers) for call in calls}
    names = [*declared, *(name for name in exported if name not in declared)]
    return [
        f"{name}: the header has {declared.get(name)}, the library {exported.get(name)}"
        for name in names
        if declared.get(name) != exported.get(name)
    ]


def main() -> int:
    text_of = lambda path: (ROOT / path).read_text(encoding="utf-8")
    calls = calls_of(text_of(HEADER))
    of_tables = calls_of(text_of(TABLES))
    read = {HEADER: calls, TABLES: of_tables, BOTH: [*calls, *of_tables], ERRORS: refusals_of(text_of(HEADER), text_of(ERRORS))}
    exported: dict[str, tuple[list[str], str]] = {}
    for path in sorted((ROOT / "crates/hivevigil/src").glob("*.rt")):
        exported |= rattle_calls(path.read_text(encoding="utf-8"))
    # these two are plain functions in the header too
    faults = out_of_step([*calls, *of_tables], {name: exported[name] for name in exported if name not in ("hv_version", "hv_abi")})
    for path, (make, header, opens, closes) in MADE.items():
        text = text_of(path)
        made = renewed(text, make(read[header]), header, opens, closes)
        if made != text and "--write" in sys.argv[1:]:
            (ROOT / path).write_text(made, encoding="utf-8")
        elif made != text:
            faults.append(f"{path} is out of step with {header}: run python3 tools/declarations.py --write")
    for fault in faults:
        print(fault)
    total = len(calls) + len(of_tables) + len(MADE)
    print(f"{total - len(faults)} passed, {len(faults)} failed")
    return 1 if faults else 0


if __name__ == "__main__":
    sys.exit(main())
