"""Columns in files: what is saved is loaded, a file is replaced whole or not at all, and refusals name the file."""
import os
import re
import sys

import numpy
import pytest
from hypothesis import given
from rows import samples

from hivevigil import Column, errors


@pytest.fixture(scope="module")
def folder(tmp_path_factory):
    return tmp_path_factory.mktemp("columns")


@given(sample=samples())
def test_what_is_saved_is_loaded(folder, sample):
    sample.column.save(folder / "column")
    kept = Column.load(folder / "column")
    assert (kept.to_list(), kept.type, kept.form) == (sample.rows, sample.column.type, sample.column.form)
    assert (folder / "column").read_bytes() == sample.column.to_bytes()
    assert os.listdir(folder) == ["column"]


def test_names_of_files(tmp_path, monkeypatch):
    monkeypatch.chdir(tmp_path)
    for name in ("plain", b"bytes", tmp_path / "path", "n" * 250):
        Column.of([4]).save(name)
        assert Column.load(name).to_list() == [4]
    for name in (3, None, Column.of([1])):
        with pytest.raises(TypeError, match="a file is named by a text or a path, not by "):
            Column.of([4]).save(name)
        with pytest.raises(TypeError, match="a file is named by a text or a path, not by "):
            Column.load(name)


def test_a_file_is_replaced_and_keeps_its_mode(tmp_path):
    file, link = tmp_path / "column", tmp_path / "link"
    Column.of([1]).save(file)
    file.chmod(0o640)
    link.symlink_to(file)
    Column.of([2]).save(link)
    assert (Column.load(file).to_list(), file.stat().st_mode & 0o777, link.is_symlink()) == ([2], 0o640, True)


def test_a_new_file_has_the_mode_of_new_files(tmp_path):
    Column.of([1]).save(tmp_path / "column")
    (tmp_path / "other").write_bytes(b"")
    assert (tmp_path / "column").stat().st_mode == (tmp_path / "other").stat().st_mode


@pytest.mark.parametrize("failing", ["replace", "fsync"])
def test_a_file_stays_where_writing_fails(tmp_path, monkeypatch, failing):
    file = tmp_path / "column"
    Column.of([1]).save(file)

    def full(*_):
        raise OSError(28, "No space left on device", "a name of its own")

    monkeypatch.setattr(os, failing, full)
    with pytest.raises(OSError, match=re.escape(f"[Errno 28] No space left on device: {str(file)!r}")):
        Column.of([2]).save(file)
    assert Column.load(file).to_list() == [1] and os.listdir(tmp_path) == ["column"]


def test_no_folder_and_no_file(tmp_path):
    for call in (Column.of([1]).save, Column.load):
        with pytest.raises(FileNotFoundError) as refused:
            call(tmp_path / "none" / "column")
        assert refused.value.filename == str(tmp_path / "none" / "column")
    with pytest.raises(IsADirectoryError):
        Column.of([1]).save(tmp_path)
    assert os.listdir(tmp_path) == []


@pytest.mark.parametrize("change", [lambda kept: kept[:-1], lambda kept: kept + b"\0", lambda kept: b"col,umn\n1,2\n"])
def test_a_file_of_other_bytes(tmp_path, change):
    file = tmp_path / "column"
    file.write_bytes(change(Column.of([4, 4, None]).to_runs().to_bytes()))
    said = f"load: {file}, of {file.stat().st_size} bytes, is not a file that save wrote"
    with pytest.raises(errors.BadMetadata, match=re.escape(said)):
        Column.load(file)


def test_other_names_of_the_same():
    column = Column.of([4, 4, None]).to_runs()
    assert column.tolist() == column.to_pylist() == column.to_list()
    assert (column.dtype, column.shape, column.ndim) == (numpy.dtype("i8"), (3,), 1)


@given(samples())
def test_dtype_and_shape(sample):
    assert sample.column.dtype == sample.column.to_numpy().dtype
    assert sample.column.shape == numpy.asarray(sample.column).shape == (len(sample.rows),)


@given(samples())
def test_null_count(sample):
    assert sample.column.null_count == sample.rows.count(None)


def test_nulls_of_many_rows_cost_runs():
    runs = Column.from_runs([2**60, 2**61, 2**62], Column.of([None, 3, None]))
    assert runs.null_count == 2**61 + 2**60


def test_sizes():
    column = Column.of(list(range(100_000)))
    assert sys.getsizeof(column) >= column.nbytes == 800_000
    column.free()
    assert sys.getsizeof(column) < 200
