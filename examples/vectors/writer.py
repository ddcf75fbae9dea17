"""Lines as they are written: what chance decides, columns by their names, and answers."""

from __future__ import annotations

import random
from dataclasses import dataclass
from typing import Callable, Union

from words import Row, Type, constant_form, encoded_form, flat_form, runs_of, shown, stored, words


class Writer:
    """Lines, and the chance by which they are made. The same seed makes the same lines.

    `wide` gives some columns hundreds of rows. `decimals` has older families ask for decimals of any precision too, and
    `layers` for runs over runs that are partly hidden: older lines of lines.txt were made before they did.
    """

    def __init__(self, seed: int, wide: bool = False, decimals: bool = True, layers: bool = True):
        self.random = random.Random(seed)
        self.wide = wide
        self.decimals = decimals
        self.layers = layers
        self.lines: list[str] = []
        self.names = 0

    def say(self, line: str, answer: str = "ok") -> None:
        """Writes a line and what it is answered."""
        self.lines.append(line if answer == "ok" else f"{line} => {answer}")

    def title(self, text: str) -> None:
        """Writes a comment."""
        self.lines.append(f"# {text}")

    def fresh(self) -> str:
        """Returns a name that no column of this case has."""
        self.names += 1
        return f"c{self.names}"

    def happens(self, share: float) -> bool:
        """Says whether something happens that does in this share of cases."""
        return self.random.random() < share

    def length(self) -> int:
        """Returns a number of rows."""
        drawn = self.random.random()
        if drawn < 0.15:
            return 0 if drawn < 0.06 else 1
        if drawn < 0.85 or not self.wide:
            return self.random.randint(2, 12)
        return self.random.randint(13, 80) if drawn < 0.97 else self.random.randint(81, 700)

    def other_length(self, length: int) -> int:
        """Returns the same number of rows, and rarely another."""
        return length if self.happens(0.95) else self.length()

    def lengths(self) -> tuple[int, int]:
        """Returns the numbers of rows of two columns. Each case of rows draws them first, also where it has one."""
        length = self.length()
        return length, self.other_length(length)

    def answer(
        self,
        work: str,
        columns: tuple[Column, ...],
        outcome: Outcome,
        type: Type,
        constant: bool = False,
        show: Show | None = None,
    ) -> None:
        """Writes a line that makes the column `z` of these rows, and lines that look at it. The column is one constant,
        or the encoding of the rows."""
        if isinstance(outcome, Refusal):
            return self.answer_refused(work, columns, outcome)
        refuse = self.happens(0.12) and not constant and outcome
        self.say(f"refuse z = {work}" if refuse else f"z = {work}", "ok memory" if refuse else "ok")
        form = constant_form(type, outcome[0], len(outcome)) if constant else encoded_form(type, outcome)
        (show or look_at)(self, "z", type, outcome, form)

    def answer_flat(self, work: str, columns: tuple[Column, ...], outcome: Outcome, type: Type) -> None:
        """Writes a line that makes the flat column `z` of these rows, and lines that look at it."""
        if isinstance(outcome, Refusal):
            return self.answer_refused(work, columns, outcome)
        refuse = self.happens(0.12) and outcome
        self.say(f"refuse z = {work}" if refuse else f"z = {work}", "ok memory" if refuse else "ok")
        if self.happens(0.6):
            self.say("z form", flat_form(type, outcome))
        else:
            self.say("z type", str(type))
            self.say("z rows", shown(outcome))
        if type.is_stored_whole and self.happens(0.2):
            self.say("z stored", stored(type, outcome) or "-")

    def answer_refused(self, work: str, columns: tuple[Column, ...], refusal: Refusal) -> None:
        """Writes a line that is refused, now and then with memory refused in turn."""
        refuse, answer = self.happens(0.12), f"refused {refusal.words}"
        if refuse and refusal.early:
            self.say(f"refuse z = {work}", f"{answer} none")
        elif refuse and any(column.form == "flat" for column in columns):
            self.say(f"refuse z = {work}", f"{answer} memory")
        else:
            self.say(f"z = {work}", answer)


@dataclass(frozen=True)
class Column:
    """A column: its name, type and rows, and whether it is `flat`, a `constant`, or `runs`."""

    name: str
    type: Type
    rows: list[Row]
    form: str

    @property
    def is_constant(self) -> bool:
        """Says whether its rows are known to be equal; of no rows none are."""
        return self.form == "constant" and len(self.rows) > 0


@dataclass(frozen=True)
class Refusal:
    """A refusal in words, and whether it comes before any request for memory."""

    words: str
    early: bool = True


UNSUPPORTED = Refusal("13")
OTHER_TYPE = Refusal("12")
# What a line that makes a column comes to.
Outcome = Union[list, Refusal]
Show = Callable[[Writer, str, Type, list, str], None]


def overflow(place: int) -> Refusal:
    """Returns the refusal of the row, group or run whose number the type does not have."""
    return Refusal(f"14 {place}", early=False)


def lengths_differ(left: Column, right: Column) -> Refusal | None:
    """Returns the refusal of two columns of other numbers of rows."""
    same = len(left.rows) == len(right.rows)
    return None if same else Refusal(f"11 {len(left.rows)} {len(right.rows)}")


def look_at(writer: Writer, name: str, type: Type, rows: list[Row], form: str) -> None:
    """Writes lines that look at a column."""
    if writer.happens(0.6):
        writer.say(f"{name} form", form)
    else:
        writer.say(f"{name} type", str(type))
        writer.say(f"{name} rows", shown(rows))
    if form.startswith("runs") and rows and type.is_stored_whole and writer.happens(0.2):
        writer.say(f"u = values {name}")
        writer.say("u stored", stored(type, runs_of(rows)[1]))


def all_constant(*columns: Column) -> bool:
    """Says whether each column is a constant."""
    return all(column.is_constant for column in columns)
