"""What pandas and NumPy call what columns and tables have under another name: an AttributeError says it."""
from __future__ import annotations

from collections.abc import Mapping
from typing import Any

OF_COLUMNS = {
    "groupby": "values.group_by(keys)", "head": "column[:5]", "tail": "column[-5:]", "fillna": "column.fill(value)",
    "astype": "column.cast(type)", "nunique": "len(column.unique())", "isna": "column.is_null()",
    "isnull": "column.is_null()", "notna": "column.is_valid()", "notnull": "column.is_valid()",
    "dropna": "column.drop_null()", "sort_values": "column.sort()", "iloc": "column[3]", "loc": "column[3]",
    "append": "concat([column, other])", "add": "column + other", "size": "len(column)", "count":
    "len(column) - column.null_count", "argsort": "table.sort(name)", "mask": "column.where(mask, other)",
    "between": "(column >= low) & (column <= high)", "to_frame": "Table({name: column})",
}
OF_TABLES = {
    "groupby": "table.group_by(name)", "head": "table[:5]", "tail": "table[-5:]", "columns": "table.names",
    "fillna": "table.with_column(name, table[name].fill(value))", "dtypes": "table.types", "dropna": "table.drop_null()",
    "astype": "table.with_column(name, table[name].cast(type))", "nunique": "len(table[name].unique())",
    "sort_values": "table.sort(name)", "sort_by": "table.sort(name)", "merge": "table.join(other, name)",
    "assign": "table.with_column(name, column)", "iloc": "table[3] or table[2:9]", "loc": "table.filter(mask)",
    "query": "table.filter_by(name, '>', 3)", "concat": "table.append(other)", "column_names": "table.names",
    "num_rows": "table.rows", "num_columns": "len(table)", "height": "table.rows", "width": "len(table)",
    "to_pydict": "table.to_dict()", "to_arrow": "pyarrow.table(table)", "isna": "table[name].is_null()",
}


def refused(thing: Any, name: str, others: Mapping[str, str]) -> AttributeError:
    """What says that an object has no attribute of a name, and what it is here."""
    hint = f": it is {others[name]} here" if name in others else ""
    return AttributeError(f"'{type(thing).__name__}' object has no attribute '{name}'{hint}")
