"""Calls as version 1.0.0 had them: each takes the same arguments, in order and by name. signatures.txt has those of its
sources, a line each: the name, then the parameters, with a ? where one may be left out."""
import importlib
import inspect
from pathlib import Path

import pytest

from hivevigil import Column, Table

LINES = (Path(__file__).parent / "signatures.txt").read_text().splitlines()
PLAIN = ("*", "k:", "/")  # how parameters are marked that are not given in order and by name


def called(line):
    """The call of a line and its parameters, or a skip where Dask or pandas is missing."""
    (where, *parameters) = line.split()
    module, _, names = where.partition(":")
    found = pytest.importorskip(module) if module.endswith(("dask", "dask_tables", "pandas")) else importlib.import_module(
        module
    )
    for name in names.split("."):
        found = getattr(found, name)
    return found, parameters


@pytest.mark.parametrize("line", LINES, ids=[line.split()[0] for line in LINES])
def test_arguments_of_the_first_release(line):
    call, parameters = called(line)
    signature = inspect.signature(call)
    plain = [each for each in parameters if not each.startswith(PLAIN)]
    needed = [each for each in plain if not each.endswith("?")]
    only_named = {each[2:].rstrip("?"): 0 for each in parameters if each.startswith("k:")}
    for given in (plain, needed):
        signature.bind(*given, **only_named)  # in order
        named = {each.rstrip("?"): 0 for each in given if each != "self"}
        signature.bind(*(each for each in given if each == "self"), **named, **only_named)


def test_groups_by_the_keyword_of_the_first_release():
    table = Table({"place": ["a", "a", "b"], "level": [1, 2, 3]})
    due = {"place": ["a", "b"], "n": [2, 1]}
    for groups in (table.group_by(name="place"), table.group_by("place"), table.group_by(["place"])):
        assert groups.agg(n="size").to_dict() == due
    with pytest.raises(TypeError, match="group_by: the columns are named one after the other, or one is by name="):
        table.group_by("place", name="level")
    with pytest.raises(KeyError, match="no column has the name 'day'"):
        table.group_by(name="day")


@pytest.mark.parametrize("asked", [
    "DataFrame", "DataFrame.from_dict", "Index", "array",
])
def test_pandas_is_refused_a_table_that_it_would_take_for_its_names(asked):
    pandas = pytest.importorskip("pandas")
    call = pandas
    for name in asked.split("."):
        call = getattr(call, name)
    for table in (Table({"a": [1, 2], "b": ["x", "y"]}), Table({"a": Column.of([], "i8")}), Table({}, rows=3)):
        with pytest.raises(TypeError, match=r"a table is not an array: table.to_pandas\(\) is a DataFrame of it"):
            call(table)
        assert call is not pandas.DataFrame or call(table.to_pandas()).shape == table.shape


def test_numpy_is_refused_a_table():
    numpy = pytest.importorskip("numpy")
    for call in (numpy.asarray, numpy.array, lambda table: numpy.asarray(table, dtype=object)):
        with pytest.raises(TypeError, match="a table is not an array"):
            call(Table({"a": [1, 2]}))
