"""An independent reader and writer of Arrow's C data interface, over nothing but the structs, by the format's text:
arrays to rows, and rows to arrays in Python's memory."""
import ctypes
from decimal import Decimal

from hivevigil import ArrowArray, ArrowArrayStream, ArrowSchema

WIDTHS = {"c": 1, "C": 1, "s": 2, "S": 2, "i": 4, "I": 4, "l": 8, "L": 8, "tdD": 4, "tsu:UTC": 8}
_new = ctypes.pythonapi.PyCapsule_New
_new.restype, _new.argtypes = ctypes.py_object, [ctypes.c_void_p, ctypes.c_char_p, ctypes.c_void_p]
_pointer = ctypes.pythonapi.PyCapsule_GetPointer
_pointer.restype, _pointer.argtypes = ctypes.c_void_p, [ctypes.py_object, ctypes.c_char_p]


# ---- Reading ----


def structs_of(schema_capsule, array_capsule):
    schema = ArrowSchema.from_address(_pointer(schema_capsule, b"arrow_schema"))
    return schema, ArrowArray.from_address(_pointer(array_capsule, b"arrow_array"))


def streamed(column, read):
    """What is read of each array of the stream of a column, one after the other."""
    capsule = column.__arrow_c_stream__()
    stream = ArrowArrayStream.from_address(_pointer(capsule, b"arrow_array_stream"))
    schema, found = ArrowSchema(), []
    assert stream.get_schema(stream, schema) == 0
    while True:
        items = ArrowArray()
        assert stream.get_next(stream, items) == 0
        if not items.release:
            break
        found += read(schema, items)
        items.release(items)
    schema.release(schema)
    return found


def rows_of(schema, items):
    """The rows that an array shows."""
    format, start, count = schema.format.decode(), items.offset, items.length
    if format == "+r":
        return _rows_of_runs(schema, items)
    stored = _stored(format, items, start, count)
    if items.null_count and items.buffers[0]:
        stored = [row if _bit(items.buffers[0], start + at) else None for at, row in enumerate(stored)]
    if schema.dictionary:
        values = rows_of(schema.dictionary.contents, items.dictionary.contents)
        return [None if code is None else values[code] for code in stored]
    return stored


def _rows_of_runs(schema, items):
    ends = rows_of(schema.children[0].contents, items.children[0].contents)
    values = rows_of(schema.children[1].contents, items.children[1].contents)
    assert items.n_buffers == 0 and items.null_count == 0
    written, begin = [], 0
    for end, value in zip(ends, values):
        assert end > begin
        written += [value] * (end - begin)
        begin = end
    return written[items.offset : items.offset + items.length]


def _bit(address, at):
    return ctypes.string_at(address + at // 8, 1)[0] >> at % 8 & 1


def _number(address, width, at, signed):
    return int.from_bytes(ctypes.string_at(address + width * at, width), "little", signed=signed)


def _stored(format, items, start, count):
    if format in WIDTHS:
        signed = format.islower() or len(format) > 1
        return [_number(items.buffers[1], WIDTHS[format], start + at, signed) for at in range(count)]
    if format == "b":
        return [bool(_bit(items.buffers[1], start + at)) for at in range(count)]
    if format.startswith("d:"):
        scale = int(format.split(",")[1])
        return [Decimal(_number(items.buffers[1], 16, start + at, True)).scaleb(-scale) for at in range(count)]
    width = 4 if format.islower() else 8
    offsets = [_number(items.buffers[1], width, start + at, True) for at in range(count + 1)]
    data = ctypes.string_at(items.buffers[2], offsets[-1]) if offsets[-1] else b""
    texts = [data[begin:end] for begin, end in zip(offsets, offsets[1:])]
    return [text.decode() for text in texts] if format in "uU" else texts


# ---- Writing ----


class Made:
    """An array in Python's memory, handed out by capsules that count their releases."""

    def __init__(self, format, buffers, length, null_count=0, offset=0, children=(), name=b"", nullable=True):
        self.released = []
        self.kept = [buffers, children, format.encode(), name]
        self.schema, self.items = ArrowSchema(), ArrowArray()
        self.schema.format, self.schema.name = self.kept[2], name
        self.schema.flags = 2 if nullable else 0
        self.items.length, self.items.null_count, self.items.offset = length, null_count, offset
        self._fill_buffers(buffers)
        self._fill_children(children)
        self.schema.release = type(self.schema.release)(self._released("schema"))
        self.items.release = type(self.items.release)(self._released("array"))

    def _fill_buffers(self, buffers):
        addresses = [None if part is None else ctypes.cast(part, ctypes.c_void_p).value for part in buffers]
        pointers = (ctypes.c_void_p * max(1, len(buffers)))(*addresses)
        self.items.n_buffers, self.items.buffers = len(buffers), pointers
        self.kept.append(pointers)

    def _fill_children(self, children):
        schemas = (ctypes.POINTER(ArrowSchema) * max(1, len(children)))(*(ctypes.pointer(c.schema) for c in children))
        arrays = (ctypes.POINTER(ArrowArray) * max(1, len(children)))(*(ctypes.pointer(c.items) for c in children))
        self.schema.n_children = self.items.n_children = len(children)
        self.schema.children, self.items.children = schemas, arrays
        self.kept += [schemas, arrays]

    def _released(self, what):
        def release(part):
            self.released.append(what)
            ctypes.memset(ctypes.addressof(part.contents) + type(part.contents).release.offset, 0, 8)

        return release

    def __arrow_c_array__(self, requested_schema=None):
        return (
            _new(ctypes.addressof(self.schema), b"arrow_schema", None),
            _new(ctypes.addressof(self.items), b"arrow_array", None),
        )


def numbers(rows, format="l", name=b""):
    """An array of integers; None is null."""
    width = WIDTHS[format]
    signed = format.islower()
    data = b"".join((row or 0).to_bytes(width, "little", signed=signed) for row in rows)
    bits = sum((row is not None) << at for at, row in enumerate(rows)).to_bytes(len(rows) // 8 + 1, "little")
    buffers = [ctypes.create_string_buffer(part, len(part) + 8) for part in (bits, data)]
    return Made(format, buffers, len(rows), rows.count(None), name=name)


def batch(columns, length):
    """A batch of arrays by name."""
    return Made("+s", [None], length, children=[numbers(rows, name=name.encode()) for name, rows in columns.items()])


class MadeStream:
    """A stream of batches or arrays, which fails after them where it has words for it."""

    def __init__(self, parts, words=None):
        self.parts, self.words, self.released = list(parts), words, 0
        self.left, self.stream = iter(self.parts), ArrowArrayStream()
        for name, call in (("get_schema", self._schema), ("get_next", self._next), ("get_last_error", self._error)):
            setattr(self.stream, name, type(getattr(self.stream, name))(call))
        self.stream.release = type(self.stream.release)(self._release)

    def _schema(self, _, schema):
        ctypes.memmove(schema, ctypes.byref(self.parts[0].schema), ctypes.sizeof(ArrowSchema))
        self.kept = type(self.parts[0].schema.release)(_release_schema)
        schema.contents.release = self.kept
        return 0

    def _next(self, _, items):
        made = next(self.left, None)
        if made is None and self.words:
            return 5
        ctypes.memset(items, 0, ctypes.sizeof(ArrowArray))
        if made is not None:
            ctypes.memmove(items, ctypes.byref(made.items), ctypes.sizeof(ArrowArray))
        return 0

    def _error(self, _):
        return ctypes.cast(ctypes.c_char_p(self.words), ctypes.c_void_p).value

    def _release(self, stream):
        self.released += 1
        ctypes.memset(ctypes.addressof(stream.contents) + ArrowArrayStream.release.offset, 0, 8)

    def __arrow_c_stream__(self, requested_schema=None):
        return _new(ctypes.addressof(self.stream), b"arrow_array_stream", None)


def _release_schema(schema):
    ctypes.memset(ctypes.addressof(schema.contents) + ArrowSchema.release.offset, 0, 8)
