"""Calls that make columns from columns, and from what Arrow libraries hold; the version."""
from __future__ import annotations

from collections.abc import Iterable, Sequence
from importlib import metadata
from pathlib import Path
from typing import Any

from . import _common_types
from ._arrow import import_columns
from ._library import Handle, calls, session
from ._making import listed
from .column import Column, _column
from .errors import TypeMismatch


def columns_from_arrow(source: Any) -> dict[str, Column]:
    """The columns of a batch or table of any Arrow library by name, copied through its capsules."""
    return import_columns(source, Column)


def concat(columns: Iterable[Column]) -> Column:
    """The rows of columns, one column after the other: lists as lists, runs where each column is runs or a constant, or
    where there are more than 64 rows for each run and each flat row, else flat. Columns of several types of numbers, or
    of times in several units, are joined in the type that has the rows of all (`docs/TYPES.md`), and else refused."""
    given = [_column(column) for column in listed(columns, "columns")]
    return joined(given, "concat", [f"column {number}" for number in range(len(given))])


def joined(given: Sequence[Column], call: str, parts: Sequence[str] = ()) -> Column:
    """The rows of columns for a call that a refusal names, and where the columns are from."""
    if not given:
        raise ValueError(f"{call} takes at least one column, whose type is that of the answer")
    given = _common_types.together(given, call, parts)
    handles = (Handle * max(1, len(given)))()
    for place, column in enumerate(given):
        handles[place] = column._there()._handle
    try:
        made = Column._made(calls.hv_concat_columns, session, handles, len(given))
        return made._meaning(given[0].logical_type)
    except TypeMismatch as refused:
        why = "the elements are of two types; columns of one type are joined"
        raise refused.saying(f"{call}: {why}") from None


def version() -> str:
    """The version that the file VERSION of a checkout says, else that of the installed package."""
    package = Path(__file__).resolve().parents[1]
    if (package / "pyproject.toml").exists() and (package.parent / "VERSION").exists():
        return (package.parent / "VERSION").read_text().strip()
    return metadata.version("hivevigil")
