"""Lines of groups and totals: values folded by runs of equal keys, and running totals."""

from __future__ import annotations

from typing import Callable

from columns import column
from draws import type_of
from words import INTEGERS, Row, Type, least_unsigned, runs_of
from writer import UNSUPPORTED, Column, Outcome, Refusal, Writer, lengths_differ, overflow

# By fold what it answers of the rows of a group that are not null, of which there is one at least.
FOLDS: dict[str, Callable[[list[int]], int]] = {
    "sum": sum, "least": min, "greatest": max, "first": lambda rows: rows[0], "last": lambda rows: rows[-1],
}
DRAWN = ["sum", "sum", "rows", "count", "least", "greatest", "first", "last", "keys", "ends"]


def sum_type(kind: str) -> Type:
    """Returns the type of sums of integers."""
    return Type("i64" if kind.startswith("i") else "u64", True)


def has(type: Type, number: int) -> bool:
    """Says whether a type of integers has the number."""
    low, high = INTEGERS[type.kind]
    return low <= number <= high


def fold_type(fold: str, values: Type) -> Type:
    """Returns the type of what a fold answers."""
    if fold in ("rows", "count"):
        return Type("u64", True)
    return sum_type(values.kind) if fold == "sum" else Type(values.kind, True)


def folded(fold: str, values: list[Row], ends: list[int], type: Type) -> Outcome:
    """Returns the answer of each group, or the refusal of the first sum that the type does not have."""
    answers: list[Row] = []
    for group, (start, end) in enumerate(zip([0, *ends], ends)):
        valid = [value for value in values[start:end] if value is not None]
        if fold in ("rows", "count"):
            answers.append(end - start if fold == "rows" else len(valid))
            continue
        found = FOLDS[fold](valid) if valid else None
        if found is not None and not has(type, found):
            return overflow(group)
        answers.append(found)
    return answers


def fold_by(writer: Writer, fold: str, values: Column, keys: Column) -> None:
    """Writes a line of `fold`."""
    work, columns = f"fold {fold} {values.name} by {keys.name}", (values, keys)
    refusal = UNSUPPORTED if keys.type.is_list or not values.type.is_integer else lengths_differ(keys, values)
    if refusal:
        return writer.answer_refused(work, columns, refusal)
    ends, group_keys = runs_of(keys.rows)
    if fold == "keys":
        return writer.answer_flat(work, columns, group_keys, keys.type)
    if fold == "ends":
        return writer.answer_flat(work, columns, ends, Type(least_unsigned(len(keys.rows)), False))
    type = fold_type(fold, values.type)
    writer.answer_flat(work, columns, folded(fold, values.rows, ends, type), type)


def running(ends: list[int], values: list[Row], type: Type) -> Outcome:
    """Returns the total at the end of each run, or the refusal of the first that is not of the type. It is null until a
    row is not."""
    totals: list[Row] = []
    total = None
    for run, (start, end, value) in enumerate(zip([0, *ends], ends, values)):
        if value is not None:
            total = (total or 0) + value * (end - start)
        if total is not None and not has(type, total):
            return overflow(run)
        totals.append(total)
    return totals


def total(writer: Writer, operation: str, asked: Column) -> None:
    """Writes a line of `totals` or `total_ends`. Either is refused where a total is."""
    work = f"{operation} {asked.name}"
    if not asked.type.is_integer:
        return writer.answer_refused(work, (asked,), UNSUPPORTED)
    ends, values = runs_of(asked.rows)
    type = sum_type(asked.type.kind)
    outcome = running(ends, values, type)
    if operation == "total_ends" and not isinstance(outcome, Refusal):
        outcome, type = ends, Type(least_unsigned(len(asked.rows)), False)
    writer.answer_flat(work, (asked,), outcome, type)


def fold_case(writer: Writer) -> None:
    """Writes lines that fold integers by keys of any type."""
    length, other = writer.lengths()
    keys = column(writer, type_of(writer), length)
    values = column(writer, type_of(writer, list(INTEGERS)), other)
    for fold in writer.random.sample(DRAWN, 3):
        fold_by(writer, fold, values, keys)


def total_case(writer: Writer) -> None:
    """Writes lines of running totals, and of where they end."""
    length, _ = writer.lengths()
    asked = column(writer, type_of(writer, list(INTEGERS)), length)
    for operation in ("totals", "total_ends"):
        total(writer, operation, asked)
