#!/usr/bin/env python3
"""Answers lines of vectors from plain rows by the pages (docs/VECTORS.md, docs/BYTES.md, include/hivevigil.h), and
names each line with another answer.

    python3 examples/vectors/model.py < FILE       ends in 'N agree, M differ, K not answered'

Unlike answers.py it makes messages, lists, commands and questions too, and shares nothing with the models that make
lines. What it does not say, such as the form that a command leaves, is not answered.
"""

from __future__ import annotations

import re
import sys
from collections.abc import Iterable
from dataclasses import replace
from typing import Any

from plain import columns, float_rows, floats, messages, rows
from plain.columns import BadLine, Column, Constant, Flat, Known, Lists, Refused, Runs, Type, Unmodelled
from plain.columns import expanded, in_runs, type_of
from plain.words import is_of, need, read_value, read_word, write_value

NAME = re.compile(r"(?!(?:read|refuse|kernels|thresholds|nonnull|valid|invalid|column)$)[a-z][a-z0-9_]*")
KERNELS = "slice filter take take_from compare cast fill_null scalar_fn sum min_max is_constant is_sorted".split()


def read_flat(type_: Type, words: list[str]) -> Flat:
    """The rows that words are, of any type but lists, and what is stored under null."""
    if type_.name == "list":
        raise Unmodelled("flat lists")
    values, stored = [], []
    for word in words:
        under = word[5:] if word.startswith("null:") else None
        values.append(read_value(word if under is None else "null", type_))
        null = columns.blank(type_) if under is None else read_value(under, type_)
        need(under is None or type_.name not in ("utf8", "binary") and null is not None)
        stored.append(null if values[-1] is None else values[-1])
    return replace(columns.flat_of(type_, values), stored=tuple(stored))


def validity(word: str) -> tuple[str, tuple[bool, ...]]:
    """How, and the truths of bits."""
    if word in ("nonnull", "valid", "invalid"):
        return word, ()
    if word != "-" and set(word) - {"0", "1"}:
        raise Unmodelled("a validity in runs")
    return "bits", tuple(each == "1" for each in word.replace("-", ""))


def scalar(words: list[str]) -> tuple[Type, Any]:
    """The type and the value of a scalar; refused as 12 and 15 where the type does not have it."""
    need(len(words) == 2)
    type_ = type_of(words[0])
    value = read_word(words[1], type_)
    need(type_.name != "list" or value is None)
    if value is not None and not is_of(value, type_):
        raise Refused(12)
    if value is None and not type_.nullable:
        raise Refused(15)
    return type_, value


def checked_runs(ends_type: str, offset: int, count: int, ends: tuple[int, ...], values: Column) -> Runs:
    """The run column of these parts, or the first fault of docs/ERRORS.md."""
    if ends_type not in columns.UNSIGNED:
        raise Refused(1)
    if len(ends) != values.length():
        raise Refused(2, len(ends), values.length())
    if not ends and (offset or count):
        raise Refused(3, offset, count)
    for run, (last, end) in enumerate(zip(ends, ends[1:]), start=1):
        if end <= last:
            raise Refused(4, run)
    if offset + count >= 2**64:
        raise Refused(5)
    if count and ends[0] < offset:
        raise Refused(6, ends[0], offset)
    if count and ends[-1] < offset + count:
        raise Refused(7, ends[-1], offset + count)
    return Runs(ends_type, offset, count, ends, values)


def checked_lists(elements: Column, offsets: Column, sizes: Column, how: str, valid: Any) -> Lists:
    """The lists of these parts, or their first fault."""
    if not all(isinstance(part, Flat) for part in (elements, offsets, sizes)):
        raise Unmodelled("parts in other forms")
    if not offsets.type == sizes.type == Type("u64"):
        raise Refused(12)
    if offsets.length() != sizes.length():
        raise Refused(11, offsets.length(), sizes.length())
    if how == "bits" and len(valid) != offsets.length():
        raise Refused(11, offsets.length(), len(valid))
    column, row = Lists(elements, offsets, sizes, how, valid), 0
    for count, (is_valid, start, size) in columns.together(column.valid_rows(), offsets.rows(), sizes.rows()):
        if is_valid and start + size > elements.length():
            raise Refused(8, row, elements.length())
        row += count
    return column


def session(words: list[str]) -> str:
    """Reads which kernels are registered, or the thresholds; neither changes what this model answers."""
    given = words[1:]
    if words[0] == "kernels":
        need(given in (["all"], ["none"]) or given and not set(given) - set(KERNELS))
    else:
        need(given in (["crate"], ["zero"]) or len(given) == 7 and all(word.isdigit() for word in given))
    return "ok"


def data_of(words: list[str]) -> bytes:
    need(words == ["-"] or words and all(re.fullmatch("[0-9A-Fa-f]{2}", word) for word in words))
    return b"" if words == ["-"] else bytes.fromhex("".join(words))


class Lines:
    """The columns by their names, as lines make and change them."""

    def __init__(self) -> None:
        self.named = {}

    def column(self, name: str) -> Column:
        found = self.named[name]
        if found is None:
            raise Unmodelled("an earlier line")
        return found

    def answer(self, line: str) -> str:
        """The answer; raises Unmodelled where the model has none, and then knows no column that the line may change."""
        words = line.split(" ")
        try:
            return self.answer_words(words)
        except Refused as why:
            return f"refused {why}"
        except BadLine:
            return "bad line"
        except Exception:
            if words[1:2] == ["="]:
                self.named[words[0]] = None
            elif words[0] in self.named and words[1:2] and words[1] not in QUESTIONS:
                self.named[words[0]] = None
            raise Unmodelled(line) from None

    def answer_words(self, words: list[str]) -> str:
        if words[0] == "refuse":
            return self.answer_refused(words[1:])
        if words[0] in ("kernels", "thresholds"):
            return session(words)
        if words[:2] == ["read", "typed_bytes"]:
            return write_value(messages.read_typed(data_of(words[2:]))[0])
        if words[1] == "=":
            need(NAME.fullmatch(words[0]))
            self.named[words[0]] = self.made(words[2:])
            return "ok"
        return self.asked(words[0], words[1], words[2:])

    def answer_refused(self, words: list[str]) -> str:
        """Memory refused in turn: a line that makes a column takes some, a question of a flat column none."""
        if words[0].isdigit():
            self.named[words[1]] = None
            raise Unmodelled("which command is refused memory")
        answer = self.answer(" ".join(words))
        if answer == "bad line":
            return answer
        if words[1] == "=" and words[2] not in ("flat", "raw", "constant", "invalid"):
            if answer == "ok" or words[2] == "from":
                return f"{answer} {'memory' if answer == 'ok' else 'none'}"
        if words[1] in ("sorted", "strict") and isinstance(self.column(words[0]), Flat):
            return f"{answer} none"
        raise Unmodelled("whether memory was refused")

    def made(self, words: list[str]) -> Column:
        """The column that the words after ` = ` make."""
        kind, rest = words[0], words[1:]
        if len(words) == 3 and words[1] in BETWEEN:
            left, right = self.column(words[0]), self.column(words[2])
            return constant_of(BETWEEN[words[1]](left, words[1], right), left, right)
        need(kind not in ONE_COLUMN or len(rest) == 1)
        column = getattr(self, f"make_{kind}")(rest)
        given = [self.column(name) for name in rest if name in self.named] if kind in STAYS_CONSTANT else []
        return constant_of(column, *given) if given else column

    def make_flat(self, words: list[str]) -> Column:
        return read_flat(type_of(words[0]), words[1:])

    def make_raw(self, words: list[str]) -> Column:
        type_, (how, valid) = type_of(words[0]), validity(words[1])
        need(type_.name not in ("utf8", "binary", "list") and (how != "nonnull") == type_.nullable)
        stored = tuple(read_value(word, type_.bare()) for word in words[2:])
        if how == "bits" and len(valid) != len(stored):
            raise Refused(11, len(stored), len(valid))
        return Flat(type_, how, stored, valid)

    def make_invalid(self, words: list[str]) -> Column:
        type_ = type_of(words[0])
        need(len(words) == 2 and words[1].isdigit() and type_.nullable and type_.name != "list")
        return Flat(type_, "invalid", (columns.blank(type_),) * int(words[1]))

    def make_constant(self, words: list[str]) -> Column:
        need(len(words) == 3 and words[2].isdigit() and int(words[2]) < 2**64)
        return Constant(*scalar(words[:2]), int(words[2]))

    def make_runs(self, words: list[str]) -> Column:
        ends = tuple(map(int, words[3:-2]))
        return checked_runs(words[0], int(words[1]), int(words[2]), ends, self.column(words[-1]))

    def make_lists(self, words: list[str]) -> Column:
        return checked_lists(*map(self.column, words[:3]), *validity(words[3]))

    def make_encode_rows(self, words: list[str]) -> Column:
        column = self.column(words[0])
        if column.type.name == "list":
            raise Refused(13)
        return in_runs(column.type, column.rows())

    def make_built(self, words: list[str]) -> Column:
        type_, parts, pairs = type_of(words[0]), " ".join(words[1:]).split(" ; "), []
        if type_.name == "list":
            raise Unmodelled("builders of lists")
        for column in [self.part(part.split(" ")) for part in parts if part]:
            if column.type != type_:
                raise Refused(12)
            pairs += column.rows()
            if columns.total(pairs) >= 2**64:
                raise Refused(5)
        return in_runs(type_, pairs)

    def part(self, words: list[str]) -> Column:
        """A column, or rows of one value, that goes to a builder."""
        return self.column(words[0]) if len(words) == 1 else self.make_constant(words)

    def make_from(self, words: list[str]) -> Column:
        need(words[0] in ("bytes", "typed_bytes"))
        if words[0] == "bytes":
            return messages.read(data_of(words[1:]))
        return messages.read_typed(data_of(words[1:]))[1]

    def make_copy(self, words: list[str]) -> Column:
        return self.column(words[0])

    def make_values(self, words: list[str]) -> Column:
        column = self.column(words[0])
        if not isinstance(column, Runs):
            raise Unmodelled("values")
        return column.values

    def make_reverse(self, words: list[str]) -> Column:
        return rows.backwards(self.column(words[0]))

    def make_not(self, words: list[str]) -> Column:
        return rows.changed(self.column(words[0]), "not")

    def make_is_null(self, words: list[str]) -> Column:
        return rows.changed(self.column(words[0]), "is_null")

    def make_is_valid(self, words: list[str]) -> Column:
        return rows.changed(self.column(words[0]), "is_valid")

    def make_round_floats(self, words: list[str]) -> Column:
        return float_rows.rounded_floats(words[0], self.column(words[1]))

    def make_if_else(self, words: list[str]) -> Column:
        return rows.if_else(*map(self.column, words))

    def make_fold(self, words: list[str]) -> Column:
        need(len(words) == 4 and words[0] in FOLDS and words[2] == "by")
        return rows.folded(words[0], self.column(words[1]), self.column(words[3]))

    def make_totals(self, words: list[str]) -> Column:
        return rows.totals(self.column(words[0]))

    def make_sort(self, words: list[str]) -> Column:
        return rows.sorted_rows(self.column(words[0]))

    def make_distinct(self, words: list[str]) -> Column:
        return rows.value_counts(self.column(words[0]))[0]

    def make_counts(self, words: list[str]) -> Column:
        return rows.value_counts(self.column(words[0]))[1]

    def make_floats(self, words: list[str]) -> Column:
        name, nullable = words[0].rstrip("?"), words[0].endswith("?")
        need(name in floats.BITS and (nullable or "null" not in words) and words[0] in (name, f"{name}?"))
        bits = [(1, None if word == "null" else floats.read_float(word, name)) for word in words[1:]]
        return float_rows.float_column(name, bits, nullable)

    def make_integers_of_floats(self, words: list[str]) -> Column:
        return float_rows.integers_of_floats(type_of(words[0]), self.column(words[1]))

    def make_floats_of_integers(self, words: list[str]) -> Column:
        return float_rows.floats_of_integers(words[0], self.column(words[1]), False)

    def make_round_integers(self, words: list[str]) -> Column:
        return float_rows.floats_of_integers(words[0], self.column(words[1]), True)

    def make_compare_numbers(self, words: list[str]) -> Column:
        return float_rows.float_compared(words[0], floats.read_float(words[2], words[1]), self.column(words[3]), False)

    def make_compare_total(self, words: list[str]) -> Column:
        return float_rows.float_compared(words[0], floats.read_float(words[2], words[1]), self.column(words[3]), True)

    def make_float_numeric(self, words: list[str]) -> Column:
        need(len(words) == 3)
        return float_rows.float_numeric(self.column(words[0]), words[1], self.column(words[2]))

    def make_decimal_numeric(self, words: list[str]) -> Column:
        need(len(words) == 3)
        return rows.decimal_numeric(self.column(words[0]), words[1], self.column(words[2]))

    def make_decimals_of(self, words: list[str]) -> Column:
        type_ = type_of(words[0])
        need(type_.name == "decimal" and not type_.nullable)
        if not 1 <= type_.precision <= 38:
            raise Refused(23)
        return rows.decimals_of(type_, self.column(words[1]))

    def asked(self, name: str, verb: str, words: list[str]) -> str:
        """Does a command on a column, or answers a question."""
        column = self.column(name)
        if verb in COMMANDS:
            left = COMMANDS[verb](self, column, words)
            self.named[name] = left
            return "ok"
        question = QUESTIONS[verb]
        need(len(words) == (verb in ("at", "row", "probe", "equals")))
        return question(self, column, words)

    def command_filter(self, column: Column, words: list[str]) -> Column:
        if words[0] == "column":
            return rows.filtered(column, self.column(words[1]))
        bits = tuple(each == "1" for each in words[0].replace("-", ""))
        return rows.filtered(column, Flat(Type("bool"), "nonnull", bits))

    def command_take(self, column: Column, words: list[str]) -> Column:
        if words[0] == "column":
            return rows.taken(column, self.column(words[1]))
        return rows.taken(column, read_flat(type_of(words[0]), words[1:]))

    def command_compare(self, column: Column, words: list[str]) -> Column:
        if words[1] == "column":
            right = self.column(words[2])
        else:
            right = Constant(*scalar(words[1:]), column.length())
        truths = rows.compared(column, words[0], right)
        return rows.kept(truths, truths.rows())

    def probe(self, column: Column, words: list[str]) -> str:
        if not isinstance(column, Runs):
            raise Unmodelled("probe")
        return write_value(rows.shown_at(column, int(words[0])))

    def meta(self, column: Column, _: list[str]) -> str:
        """The record: 1, the type of the ends, 2, the number of runs, 3, the offset, but no field that is 0."""
        if not isinstance(column, Runs):
            raise Unmodelled("meta")
        parts = ((1, columns.UNSIGNED.index(column.ends_type)), (2, len(column.ends)), (3, column.offset))
        return b"".join(messages.field(number, value) for number, value in parts if value).hex(" ").upper() or "-"


def constant_of(column: Column, *given: Column) -> Column:
    """A constant where rows were made of constants that have a row; a column that a command left may be one too."""
    if all(isinstance(each, Constant) for each in given) and column.length():
        return Constant(column.type, column.rows()[0][1], column.length())
    if all(isinstance(each, Constant | Known) for each in given):
        return Known(column.type, tuple(column.rows()))
    return column


def listed(column: Column) -> str:
    return " ".join(map(write_value, expanded(column.rows()))) or "-"


def form(column: Column) -> str:
    if isinstance(column, Flat):
        nulls = [None] * len(column.stored) if column.how == "invalid" else expanded(column.rows())
        words = ["flat", column.type.text(), column.how, *map(write_value, nulls)]
    elif isinstance(column, Constant):
        words = ["constant", column.type.text(), write_value(column.value), column.count]
    elif isinstance(column, Runs):
        words = ["runs", column.ends_type, column.offset, column.count, *column.ends, "{", form(column.values), "}"]
    else:
        raise Unmodelled("form")
    return " ".join(map(str, words))


def stored(column: Column) -> str:
    if not isinstance(column, Flat):
        raise Unmodelled("stored")
    need(column.type.name not in ("utf8", "binary"))
    return " ".join(map(write_value, column.stored)) or "-"


def all_floats(column: Column) -> str:
    name, pairs = float_rows.float_bits(column)
    return " ".join("null" if bits is None else floats.write_float(bits, name) for bits in expanded(pairs)) or "-"


def truth(value: bool) -> str:
    return "true" if value else "false"


STAYS_CONSTANT = "if_else not is_null is_valid reverse sort decimal_numeric".split()
ONE_COLUMN = "copy values encode_rows totals sort reverse distinct counts not is_null is_valid".split()
FOLDS = ("sum", "rows", "count", "least", "greatest", "first", "last", "keys", "ends")
BETWEEN = dict.fromkeys(rows.ARITHMETIC, rows.numeric) | dict.fromkeys(("and", "or"), rows.connected)
BETWEEN |= dict.fromkeys(rows.HOLDS, rows.compared) | dict.fromkeys(rows.PICKS, rows.picked)
COMMANDS = {
    "slice": lambda _, column, words: rows.sliced(column, *map(int, words)),
    "decode": lambda _, column, words: rows.decoded(column),
    "filter": Lines.command_filter,
    "take": Lines.command_take,
    "codes": lambda lines, column, words: rows.taken(lines.column(words[0]), column),
    "compare": Lines.command_compare,
    "encode": lambda _, column, words: rows.encoded(column),
    "cast": lambda _, column, words: rows.cast(column, type_of(words[0])),
    "fill": lambda _, column, words: rows.filled(column, *scalar(words)),
}
QUESTIONS = {
    "at": lambda _, column, words: write_value(rows.at(column, int(words[0]))),
    "row": lambda _, column, words: write_value(rows.shown_at(column, int(words[0]))),
    "probe": Lines.probe,
    "rows": lambda _, column, words: listed(column),
    "constant": lambda _, column, words: truth(rows.is_constant(column)),
    "sorted": lambda _, column, words: truth(rows.is_sorted(column, False)),
    "strict": lambda _, column, words: truth(rows.is_sorted(column, True)),
    "equals": lambda lines, column, words: truth(rows.equal(column, lines.column(words[0]))),
    "type": lambda _, column, words: column.type.text(),
    "sum": lambda _, column, words: rows.summed(column),
    "minmax": lambda _, column, words: " ".join(map(write_value, rows.extremes(column))) or "none",
    "stored": lambda _, column, words: stored(column),
    "form": lambda _, column, words: form(column),
    "bytes": lambda _, column, words: messages.write(column).hex(" ").upper(),
    "meta": Lines.meta,
    "floats": lambda _, column, words: all_floats(column),
    "sum_floats": lambda _, column, words: floats.write_float(float_rows.float_sum(column), "f64"),
}


def checked(lines: Iterable[str]) -> tuple[int, list[str], list[str]]:
    """How many lines the model answers as they say, those that it answers otherwise, and those that it does not."""
    model, agree, differ, unknown = Lines(), 0, [], []
    for number, line in enumerate(lines, start=1):
        if not line or line.startswith("#"):
            continue
        asked, _, expected = line.partition(" => ")
        try:
            answer = model.answer(asked)
        except Unmodelled:
            unknown.append(f"line {number}: {asked}")
            continue
        agree += answer == (expected or "ok")
        if answer != (expected or "ok"):
            differ.append(f"line {number}: {line}, and not {answer}")
    return agree, differ, unknown


def main() -> int:
    agree, differ, unknown = checked(sys.stdin.read().split("\n"))
    for line in differ:
        print(line)
    print(f"{agree} agree, {len(differ)} differ, {len(unknown)} not answered")
    return 1 if differ else 0


if __name__ == "__main__":
    sys.exit(main())
