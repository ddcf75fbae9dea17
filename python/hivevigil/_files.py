"""Columns as bytes and in files, each a message of its own as docs/BYTES.md says it, which keeps the logical type by
the format that Arrow has for it. Earlier versions wrote a line before the message of the integers in place of that,
`hivevigil type 1 FORMAT`: it is still read."""
from __future__ import annotations

import contextlib
import ctypes
import os
import shutil
import uuid
from collections.abc import Iterable
from typing import TYPE_CHECKING, Any, Optional

from ._library import ask, calls
from ._protobuf import Fields
from ._types import TYPES
from .errors import BadMetadata, in_words
from .logical import LogicalType, format_in_words, meaning_of

if TYPE_CHECKING:
    from .column import Column


# how the bytes of a column begin: a message without and with a logical type, and the line of earlier versions
_PLAIN, _TYPED, _LINE = b"\x08\x01", b"\x08\x02", b"hivevigil type 1 "
_TABLE = b"\x0a\x09hivevigil"


def load(kind: type[Column], path: Any) -> Column:
    name = name_of(path)
    with open(name, "rb") as file:
        message = file.read()
    try:
        return of_bytes(kind, message)
    except BadMetadata as refused:
        hint = ": Table.load reads the file of a table" if kind_of_bytes(message) == "table" else ""
        raise refused.saying(f"load: {name}, of {len(message):,} bytes, is not a file that save wrote{hint}") from None


def of_bytes(kind: type[Column], data: bytes) -> Column:
    """The column of a message, also of one after a line that names its type; no message begins with such a line."""
    format, message = _without_line(data)
    column = kind._made(calls.hv_read_column, message or b"\0", len(message))
    return column if format is None else _after_line(column, format)


def is_message(data: bytes) -> bool:
    """Whether `of_bytes` reads the bytes."""
    format, message = _without_line(data)
    truth = ctypes.c_uint8()
    ask(calls.hv_is_message, message or b"\0", len(message), truth)
    if not truth.value or format is None:
        return bool(truth.value)
    fields = Fields(message)
    fields.number(1)
    return _of_line(format, TYPES[fields.number(2) - 1]) is not None  # messages count from 1


def kind_of_bytes(data: bytes) -> str:
    """What the first bytes of a file say that it is: 'column', 'table', or nothing of the two."""
    return "table" if data.startswith(_TABLE) else "column" if data.startswith((_PLAIN, _TYPED, _LINE)) else ""


def kind_of(path: Any) -> str:
    """The same of a file. Nothing of what cannot be read twice, as a pipe."""
    with open(name_of(path), "rb") as file:
        return kind_of_bytes(file.read(len(_LINE))) if file.seekable() else ""


def _without_line(data: bytes) -> tuple[Optional[str], bytes]:
    """The format that a line names before a message without a type, and this message; else None, and the bytes."""
    end = data.find(b"\n") + 1
    if not data.startswith(_LINE) or not data.startswith(_PLAIN, end):
        return None, data
    return data[len(_LINE) : end - 1].decode(errors="replace"), data[end:]


def _after_line(column: Column, format: str) -> Column:
    """The column of a message without a type, with the one that the line before it names, which is one of its rows,
    since versions that wrote lines wrote no other."""
    storage = column.type.rstrip("?")
    logical = _of_line(format, storage)
    if logical is None:
        said = f"from_bytes: {format_in_words(format)} is not a logical type of a column of {storage}"
        raise BadMetadata().saying(said)
    return column._meaning(logical)


def _of_line(format: str, storage: str) -> Optional[LogicalType]:
    """The logical type that a line names, None where it is not one of rows of this type."""
    logical = meaning_of(format, storage)
    return None if logical is None or logical.sort == "other" else logical


def save(column: Column, path: Any) -> None:
    write(path, [column.to_bytes()])


_BYTES = "to_bytes and from_bytes have the bytes of an open file"


def write(path: Any, parts: Iterable[bytes], hint: str = _BYTES) -> None:
    """Writes the parts to a file next to the one that is meant, of which it then takes the place."""
    name = name_of(path, hint)
    target = os.path.realpath(name)
    part = os.path.join(os.path.dirname(target), f".{os.path.basename(target)[:200]}.{uuid.uuid4().hex}")
    try:
        _written(part, parts, target)
    except OSError as error:
        raise OSError(error.errno, error.strerror, name) from None
    finally:
        with contextlib.suppress(OSError):
            os.unlink(part)


def _written(part: str, parts: Iterable[bytes], target: str) -> None:
    with open(part, "xb") as file:
        for data in parts:
            file.write(data)
        file.flush()
        os.fsync(file.fileno())
    if os.path.exists(target):
        shutil.copymode(target, part)
    os.replace(part, target)


def name_of(path: Any, hint: str = _BYTES) -> str:
    """The name of a file, of a text or a path; an open file is refused with the hint."""
    if not isinstance(path, (str, bytes, os.PathLike)):
        way_out = f": {hint}" if hasattr(path, "read") else ""
        raise TypeError(f"a file is named by a text or a path, not by {in_words(path)}{way_out}")
    return os.fsdecode(path)
