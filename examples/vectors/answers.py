#!/usr/bin/env python3
"""Answers lines of vectors by the models: lines by hand, of columns from the rows of others, floats and decimals.

    python3 examples/vectors/answers.py < FILE             each line, with the models' answer where they have one
    python3 examples/vectors/answers.py --check < FILE     names each line with another answer; ends in
                                                           'N agree, M differ, K not answered'

A line that the models do not know is left as it is; what it would make is not known either. So is a line that cannot be
read (`bad line`). Whether a call with memory refused in turn (`refuse ..`) was refused for memory is not looked at.
"""

from __future__ import annotations

import inspect
import re
import sys
from functools import partial
from typing import Any, Callable, Iterable

import decimals
import floats
import groups
import orders
import pairs
from float_columns import keys
from float_pairs import bits_of, float_numeric
from floats import BY_KEY_KIND, F64, FORMATS, Format, NotThere, word
from questions import Unknown, float_of, format_of, index_of, length_of, row_of, rows_of_runs, type_of
from words import COMPARISONS, INTEGERS, Row, Type, constant_form, encoded_form, equal, flat_form, shown
from words import word as plain
from writer import Column, Outcome, Refusal, Writer

LINE = re.compile(r"(?:refuse )?(?:([a-z][a-z0-9_]*) = )?(.*)")
MEMORY = re.compile(r" (?:memory|none)$")
# Lines that change nothing.
LOOKS = "form rows type floats float_at at row probe stored validity meta bytes equals hash sum minmax constant sorted"
LOOKS = {*LOOKS.split(), "strict", "typed_bytes", "sum_decimals", "sum_floats", "min_max_numbers", "min_max_total"}
# What the models answer of lists.
OF_LISTS = ("type", "equals", "hash", "sum_decimals")
BY_BITS_KIND = {format.bits_kind: format for format in FORMATS.values()}


class Answers(Writer):
    """The columns that lines have made, and their forms where these are known."""

    def __init__(self) -> None:
        super().__init__(0)
        self.columns: dict[str, Column] = {}
        self.forms: dict[str, str | None] = {}
        self.made: tuple[Column, str | None] | None = None
        self.said = ""

    def happens(self, share: float) -> bool:
        """Says that nothing is by chance."""
        return False

    def say(self, line: str, answer: str = "ok") -> None:
        """Keeps the answer of a line that a model writes."""
        self.said = answer

    def keep(self, type: Type, outcome: Outcome, form: str, text: str | None) -> None:
        """Keeps what a line makes, or its refusal."""
        self.said = f"refused {outcome.words}" if isinstance(outcome, Refusal) else "ok"
        self.made = None if isinstance(outcome, Refusal) else (Column("", type, outcome, form), text)

    def answer(self, work, columns, outcome, type, constant=False, show=None) -> None:
        """Keeps a constant, or the encoding of rows."""
        text = None
        if not isinstance(outcome, Refusal):
            text = constant_form(type, outcome[0], len(outcome)) if constant else encoded_form(type, outcome)
        self.keep(type, outcome, "constant" if constant else "runs", text)

    def answer_flat(self, work, columns, outcome, type) -> None:
        """Keeps a flat column."""
        self.keep(type, outcome, "flat", None if isinstance(outcome, Refusal) else flat_form(type, outcome))

    def answer_refused(self, work, columns, refusal) -> None:
        """Keeps a refusal."""
        self.keep(columns[0].type, refusal, "flat", None)

    def column(self, name: str) -> Column:
        """Returns a column under its name."""
        if name not in self.columns:
            raise Unknown
        return self.columns[name]

    def store(self, name: str) -> None:
        """Puts what a line has made under a name."""
        if self.made:
            column, self.forms[name] = self.made
            self.columns[name] = Column(name, column.type, column.rows, column.form)

    def forget(self, name: str) -> None:
        """Forgets a column."""
        self.columns.pop(name, None)
        self.forms.pop(name, None)

    def forget_changed(self, name: str | None, work: list[str]) -> None:
        """Forgets the column that a line changes which the models do not know."""
        if name is not None:
            self.forget(name)
        elif work[1:2] and work[1] not in LOOKS:
            # After `refuse N` the name is the second word.
            self.forget(work[0])
            self.forget(work[1])

    def answered(self, line: str, due: str) -> str | None:
        """Returns the answer of a line, or None where the models have none."""
        if due == "bad line":
            return None
        self.made, (name, work) = None, LINE.fullmatch(line).groups()
        try:
            if name is None:
                return asked(self, work.split(" "))
            make(self, work.split(" "))
        except (Unknown, LookupError, ValueError):
            if not due.startswith(("refused", "bad line")) or " ; " in due:
                self.forget_changed(name, work.split(" "))
            return None
        self.store(name)
        return self.said


def make(answers: Answers, work: list[str]) -> None:
    """Makes a column, by the words of its line after the name."""
    if len(work) == 3 and work[1] in INFIX:
        return INFIX[work[1]](answers, answers.column(work[0]), work[1], answers.column(work[2]))
    called(MAKERS[work[0]], answers, *work[1:])


def called(function: Callable, *given) -> Any:
    """Calls what answers a line; with another number of words the line is not known."""
    try:
        inspect.signature(function).bind(*given)
    except TypeError:
        raise Unknown from None
    return function(*given)


INFIX: dict[str, Callable] = dict.fromkeys(pairs.ARITHMETIC, pairs.numeric)
INFIX |= dict.fromkeys(("and", "or"), pairs.boolean)
INFIX |= dict.fromkeys(COMPARISONS, pairs.compare) | dict.fromkeys(pairs.PICKS, pairs.pick)


def flat(answers: Answers, kind: str, *said: str) -> None:
    """Makes a flat column."""
    type = type_of(kind)
    rows = [row_of(type, text) for text in said]
    if None in rows and not type.nullable:
        raise Unknown
    answers.keep(type, rows, "flat", None if type.is_list else flat_form(type, rows))


def constant(answers: Answers, kind: str, text: str, length: str) -> None:
    """Makes a constant."""
    type = type_of(kind)
    row = row_of(type, text)
    if type.is_list or row is None and not type.nullable:
        raise Unknown
    answers.keep(type, [row] * length_of(length), "constant", constant_form(type, row, int(length)))


def invalid(answers: Answers, kind: str, length: str) -> None:
    """Makes rows of which all are null."""
    type, rows = type_of(kind), [None] * length_of(length)
    answers.keep(type, rows, "flat", flat_form(type, rows) if rows else None)


def runs(answers: Answers, ends_kind: str, offset: str, length: str, *said: str) -> None:
    """Makes runs over a column."""
    if ends_kind not in INTEGERS or not ends_kind.startswith("u"):
        raise Unknown
    ends, values = [int(text) for text in said[:-2]], answers.column(said[-1])
    rows = rows_of_runs(values.rows, ends, int(offset), int(length))
    form = answers.forms.get(said[-1])
    text = None
    if form is not None:
        text = " ".join(["runs", ends_kind, offset, length, *map(str, ends), "{", form, "}"])
    answers.keep(values.type, rows, "runs", text)


def copy(answers: Answers, name: str) -> None:
    """Makes the same column."""
    column = answers.column(name)
    answers.keep(column.type, column.rows, column.form, answers.forms.get(name))


def encode_rows(answers: Answers, name: str) -> None:
    """Makes the encoding of a column."""
    column = answers.column(name)
    if column.type.is_list:
        raise Unknown
    answers.keep(column.type, column.rows, "runs", encoded_form(column.type, column.rows))


def floats_line(answers: Answers, kind: str, *said: str) -> None:
    """Makes a column of floats."""
    format, nullable = format_of(kind)
    keep_floats(answers, format, nullable, [float_of(format, text, nullable) for text in said])


def keep_floats(answers: Answers, format: Format, nullable: bool, rows: Iterable[int | None]) -> None:
    """Keeps a column of floats, or its refusal where one of them is not there."""
    type = Type(format.key_kind, nullable)
    try:
        stored = keys(format, list(rows))
    except NotThere:
        return answers.keep(type, Refusal("14"), "runs", None)
    answers.keep(type, stored, "runs", encoded_form(type, stored))


def each(one: Callable[[int], int], rows: Iterable[int | None]) -> Iterable[int | None]:
    """Returns what each row becomes that is not null."""
    return (None if row is None else one(row) for row in rows)


def refuse(answers: Answers, column: Column) -> None:
    """Keeps that the type of a column is another than what is asked of."""
    answers.keep(column.type, Refusal("12"), "runs", None)


def cast_floats(one: Callable[[Format, Format, int], int], answers: Answers, to_name: str, name: str) -> None:
    """Makes floats of another format."""
    column, to = answers.column(name), FORMATS[to_name]
    format = BY_KEY_KIND.get(column.type.kind)
    if format is None:
        return refuse(answers, column)
    made = each(partial(one, format, to), bits_of(format, column.rows))
    keep_floats(answers, to, column.type.nullable, made)


def cast_integers(one: Callable[[Format, int], int], answers: Answers, to_name: str, name: str) -> None:
    """Makes floats of integers."""
    column, to = answers.column(name), FORMATS[to_name]
    if not column.type.is_integer:
        return refuse(answers, column)
    keep_floats(answers, to, column.type.nullable, each(partial(one, to), column.rows))


def integers_of_floats(answers: Answers, kind: str, name: str) -> None:
    """Makes integers of floats."""
    column, type = answers.column(name), Type(kind, answers.column(name).type.nullable)
    format = BY_KEY_KIND.get(column.type.kind)
    if kind not in INTEGERS:
        raise Unknown
    if format is None:
        return refuse(answers, column)
    try:
        rows = list(each(partial(floats.to_integer, format, kind), bits_of(format, column.rows)))
    except NotThere:
        return answers.keep(type, Refusal("14"), "runs", None)
    answers.keep(type, rows, "runs", encoded_form(type, rows))


def encode_floats(canonical: bool, answers: Answers, name: str) -> None:
    """Makes floats of bits."""
    column = answers.column(name)
    format = BY_BITS_KIND.get(column.type.kind)
    if format is None:
        return refuse(answers, column)
    one = partial(floats.canonical, format) if canonical else int
    keep_floats(answers, format, column.type.nullable, each(one, column.rows))


def decode_floats(answers: Answers, name: str) -> None:
    """Makes bits of floats."""
    column = answers.column(name)
    format = BY_KEY_KIND.get(column.type.kind)
    if format is None:
        return refuse(answers, column)
    type, rows = Type(format.bits_kind, column.type.nullable), bits_of(format, column.rows)
    answers.keep(type, rows, "flat", flat_form(type, rows))


def compare_floats(numbers: bool, answers: Answers, operation: str, kind: str, text: str, name: str) -> None:
    """Makes booleans: whether a comparison with a float holds."""
    column, other = answers.column(name), float_of(FORMATS[kind], text)
    format = BY_KEY_KIND.get(column.type.kind)
    if format is None:
        return refuse(answers, column)
    if format is not FORMATS[kind] or other is None:
        raise Unknown
    holds = partial(floats.holds if numbers else floats.holds_in_order, format, operation)
    rows = [None if row is None else holds(row, other) for row in bits_of(format, column.rows)]
    answers.keep(Type("bool", column.type.nullable), rows, "runs", None)


def work_floats(answers: Answers, left: str, operation: str, right: str) -> None:
    """Works with two columns of floats."""
    if operation not in floats.OPERATIONS:
        raise Unknown
    float_numeric(answers, answers.column(left), operation, answers.column(right))


def work_decimals(answers: Answers, left: str, operation: str, right: str) -> None:
    """Works with two columns of decimals."""
    if operation not in pairs.ARITHMETIC:
        raise Unknown
    decimals.decimal_numeric(answers, answers.column(left), operation, answers.column(right))


def cast_decimals(line: Callable, answers: Answers, kind: str, name: str) -> None:
    """Makes decimals of another precision and scale."""
    type = type_of(kind)
    if not type.is_decimal or type.nullable or not (type.kind[0] <= 255 and -128 <= type.kind[1] <= 127):
        raise Unknown
    line(answers, answers.column(name), *type.kind)


def integers_of(answers: Answers, kind: str, name: str) -> None:
    """Makes integers of decimals."""
    if kind not in INTEGERS:
        raise Unknown
    decimals.integers_of(answers, answers.column(name), kind)


def if_else(answers: Answers, mask: str, left: str, right: str) -> None:
    """Chooses rows of two columns by a mask."""
    pairs.choose(answers, *map(answers.column, (mask, left, right)))


def fold(answers: Answers, name: str, values: str, by: str, group_keys: str) -> None:
    """Folds values by keys."""
    if by != "by" or name not in groups.DRAWN:
        raise Unknown
    groups.fold_by(answers, name, answers.column(values), answers.column(group_keys))


def of_one(line: Callable[[Writer, str, Column], None], operation: str, answers: Answers, name: str) -> None:
    """Makes a column from the rows of another."""
    line(answers, operation, answers.column(name))


MAKERS: dict[str, Callable] = {
    "flat": flat, "constant": constant, "invalid": invalid, "runs": runs, "copy": copy, "encode_rows": encode_rows,
    "floats": floats_line, "encode_floats": partial(encode_floats, False), "decode_floats": decode_floats,
    "canonical_floats": partial(encode_floats, True), "cast_floats": partial(cast_floats, floats.cast),
    "round_floats": partial(cast_floats, floats.rounded), "integers_of_floats": integers_of_floats,
    "floats_of_integers": partial(cast_integers, floats.of_integer), "float_numeric": work_floats,
    "round_integers": partial(cast_integers, Format.nearest), "compare_numbers": partial(compare_floats, True),
    "compare_total": partial(compare_floats, False), "decimal_numeric": work_decimals, "integers_of": integers_of,
    "rescale": partial(cast_decimals, decimals.rescale), "if_else": if_else, "fold": fold,
    "decimals_of": partial(cast_decimals, decimals.decimals_of),
}
MAKERS |= {name: partial(of_one, orders.test, name) for name in ("not", "is_null", "is_valid")}
MAKERS |= {name: partial(of_one, orders.reorder, name) for name in ("sort", "reverse")}
MAKERS |= {name: partial(of_one, orders.count, name) for name in ("distinct", "counts")}
MAKERS |= {name: partial(of_one, groups.total, name) for name in ("totals", "total_ends")}


def asked(answers: Answers, work: list[str]) -> str | None:
    """Returns the answer of a line that looks at a column, or that runs a command on it; None for a form not known."""
    name, verb, *rest = work
    column = answers.column(name)
    if column.type.is_list and verb not in OF_LISTS or verb == "encode" and not column.type.is_integer:
        raise Unknown
    if verb == "filter" and rest[:1] == ["column"]:
        mask = answers.column(*rest[1:])
        if not mask.type.is_boolean:
            return "refused 12"
        if len(mask.rows) != len(column.rows):
            return f"refused 10 {len(mask.rows)} {len(column.rows)}"
        rest = ["".join("01"[row is True] for row in mask.rows)]
    if verb in COMMANDS:
        type, rows = called(COMMANDS[verb], column, *rest)
        answers.made = Column(name, type, rows, form_after(column, verb, rows)), None
        answers.store(name)
        return "ok"
    if verb == "form":
        return answers.forms[name]
    if verb in ("equals", "hash", "sum_decimals"):
        lines = {"equals": pairs.equals, "hash": orders.hashed, "sum_decimals": decimals.sum_decimals}
        called(lines[verb], answers, column, *map(answers.column, rest))
        return answers.said
    return called(QUESTIONS[verb], column, *rest)


def form_after(column: Column, verb: str, rows: list[Row]) -> str:
    """Returns the form that a command leaves, where that does not depend on the runs."""
    if verb == "decode":
        return "flat"
    if verb == "slice" and column.form != "runs":
        return column.form
    if column.form == "constant" or all(equal(row, rows[0]) for row in rows):
        raise Unknown
    return "runs"


def sliced(column: Column, start: str, end: str) -> tuple[Type, list[Row]]:
    """Returns what `slice` leaves."""
    if not int(start) <= int(end) <= len(column.rows):
        raise Unknown
    return column.type, column.rows[int(start) : int(end)]


def filtered(column: Column, mask: str) -> tuple[Type, list[Row]]:
    """Returns what `filter` leaves."""
    if len(mask.strip("-")) != len(column.rows):
        raise Unknown
    return column.type, [row for row, bit in zip(column.rows, mask) if bit == "1"]


def filled(column: Column, kind: str, text: str) -> tuple[Type, list[Row]]:
    """Returns what `fill` leaves."""
    type = type_of(kind)
    fill = row_of(type, text)
    if type.kind != column.type.kind or fill is None:
        raise Unknown
    return Type(type.kind, False), [fill if row is None else row for row in column.rows]


def same(column: Column) -> tuple[Type, list[Row]]:
    """Returns what a command leaves that changes no row."""
    return column.type, column.rows


COMMANDS: dict[str, Callable] = {"slice": sliced, "filter": filtered, "fill": filled, "encode": same, "decode": same}


def rows_line(column: Column) -> str:
    """Returns the answer of `rows`."""
    if column.type.is_list:
        raise Unknown
    return shown(column.rows)


def float_rows(column: Column) -> tuple[Format, list[int | None]]:
    """Returns the format and the bits of a column of floats."""
    format = BY_KEY_KIND[column.type.kind]
    return format, bits_of(format, column.rows)


def row_line(column: Column, index: str) -> str:
    """Returns the answer of `at`."""
    if index_of(index) >= len(column.rows):
        return f"refused 8 {index} {len(column.rows)}"
    return plain(column.rows[int(index)])


def float_line(column: Column, index: str) -> str:
    """Returns the answer of `float_at`."""
    format, rows = float_rows(column)
    return word(format, rows[int(index)]) if index_of(index) < len(rows) else row_line(column, index)


def extremes(numbers: bool, column: Column) -> str:
    """Returns the least and the greatest float, of numbers only or of all."""
    format, rows = float_rows(column)
    valid = [row for row in rows if row is not None and not (numbers and format.is_nan(row))]
    if not valid:
        return "none"
    return f"{word(format, min(valid, key=format.key))} {word(format, max(valid, key=format.key))}"


QUESTIONS: dict[str, Callable[..., str]] = {
    "rows": rows_line, "at": row_line, "row": row_line, "type": lambda column: str(column.type),
    "floats": lambda column: floats.words(*float_rows(column)), "float_at": float_line,
    "sum_floats": lambda column: word(F64, floats.total(*float_rows(column))),
    "min_max_numbers": partial(extremes, True), "min_max_total": partial(extremes, False),
}


def checked(lines: Iterable[str]) -> tuple[int, list[str], int]:
    """Returns how many lines have the models' answers, those with others, and how many the models do not answer."""
    answers, agree, differ, unknown = Answers(), 0, [], 0
    for number, line in enumerate(lines, 1):
        question, _, due = line.rstrip("\n").partition(" => ")
        if not question or question.startswith("#"):
            continue
        due = MEMORY.sub("", due or "ok")
        found = answers.answered(question, due)
        if found is None:
            unknown += 1
        elif found == due:
            agree += 1
        else:
            differ.append(f"line {number}: {line.rstrip()}, and not {found}")
    return agree, differ, unknown


def completed(lines: Iterable[str]) -> Iterable[str]:
    """Returns each line with the models' answer where they have one."""
    answers = Answers()
    for line in lines:
        question, _, due = line.rstrip("\n").partition(" => ")
        is_line = question and not question.startswith("#")
        due = MEMORY.sub("", due or "ok")
        found = answers.answered(question, due) if is_line else None
        is_same = found is None or found == due
        yield line.rstrip("\n") if is_same else question if found == "ok" else f"{question} => {found}"


def main() -> int:
    """Reads lines, and prints them with answers or what differs."""
    if sys.argv[1:] != ["--check"]:
        print("\n".join(completed(sys.stdin)))
        return 0
    agree, differ, unknown = checked(sys.stdin)
    print("\n".join([*differ, f"{agree} agree, {len(differ)} differ, {unknown} not answered"]))
    return 1 if differ else 0


if __name__ == "__main__":
    sys.exit(main())
