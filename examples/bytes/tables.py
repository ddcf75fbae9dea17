#!/usr/bin/env python3
"""Random tables, whole and changed, and what a reader has to answer to each by the model of table_model.py.

    python3 tables.py READER COUNT SEED        READER: table_reader.c, built

Needs what model.py needs.
"""

import subprocess
import sys
import warnings

import model
import table_model


def due(data: bytes) -> str:
    """What is answered of these bytes: the columns of a table, and how it is written as rows and with differences."""
    table = table_model.table(data)
    if table is None:
        return "refused"
    columns = table_model.columns(table)
    named = list(zip(table.footer.columns, columns))
    words = [f"{table.footer.rows}"]
    for footer, column in named:
        words += [footer.name.encode().hex(), footer.logical_type.encode().hex(), model.written(column).hex()]
    by_name = {footer.name: column for footer, column in named}
    logical_types = {footer.name: footer.logical_type for footer, _ in named}
    kept = {name: table_model.as_differences(column) for name, column in by_name.items()}
    kept = {name: part for name, part in kept.items() if part is not None}
    for chosen in {}, kept:
        words.append(table_model.written(table_model.made(table.footer.rows, by_name, logical_types, chosen)).hex())
    return " ".join(words)


def main() -> None:
    warnings.simplefilter("ignore")
    reader, count, seed = sys.argv[1], int(sys.argv[2]), int(sys.argv[3])
    tables = [data for has_differences in (False, True)
              for data in table_model.tables(count // 2, seed, has_differences)]
    given = "".join(data.hex() + "\n" for data in tables)
    run = subprocess.run([reader], input=given, capture_output=True, text=True, check=True)
    answers = run.stdout.splitlines()
    assert len(answers) == len(tables)
    refused = 0
    for data, answer in zip(tables, answers):
        assert answer == due(data), f"{data.hex()}\n    {answer}\n    {due(data)}"
        refused += answer == "refused"
    assert count // 4 < refused < count, "too few tables were refused, or all"
    print(f"{len(tables)} tables are answered as by the model, {refused} of them refused")


if __name__ == "__main__":
    main()
