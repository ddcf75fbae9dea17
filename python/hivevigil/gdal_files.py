"""A CSV file by GDAL's Arrow stream, batch by batch. GDAL finds the types, from the whole file."""
from __future__ import annotations

from collections.abc import Callable, Iterator
from typing import Any

from ._arrow_structs import ArrowSchema
from .column import Column
from .csv_files import lines_of

_OPTIONS = [
    "AUTODETECT_TYPE=YES", "AUTODETECT_WIDTH=NO", "AUTODETECT_SIZE_LIMIT=0", "EMPTY_STRING_AS_NULL=YES",
    "KEEP_GEOM_COLUMNS=NO", "GEOM_POSSIBLE_NAMES=",
]
# the formats of Arrow that are served, and the names of the types here
_NAMES = {"b": "bool", "c": "i8", "s": "i16", "i": "i32", "l": "i64", "u": "utf8", "U": "utf8", "tdD": "date"}


def available() -> bool:
    """Whether GDAL for Python is there, with an Arrow stream (3.6 and later)."""
    try:
        from osgeo import ogr
    except ImportError:
        return False
    return hasattr(ogr.Layer, "GetArrowStream")


class Inexact(Exception):
    """GDAL does not read the file, as one of a single column, or changes what is in it: a number past 64 bits, the name
    of a column."""


class _Quiet:
    """Keeps GDAL's own messages, and prints none: a warning says that a value was changed. What GDAL refuses is
    Inexact."""

    def __enter__(self) -> None:
        from osgeo import gdal

        gdal.UseExceptions()
        self.messages: list[str] = []
        gdal.PushErrorHandler(lambda _, __, message: self.messages.append(message))

    def __exit__(self, kind: Any, error: Any, _: object) -> None:
        from osgeo import gdal

        gdal.PopErrorHandler()
        if kind is not None and issubclass(kind, RuntimeError):
            raise Inexact(str(error).rstrip(".")) from None
        if kind is None and self.messages:
            raise Inexact(self.messages[0])


class GdalFile:
    """The columns of a CSV file that are served, by their types, and the names of the others, `left_out`."""

    def __init__(self, path: str, batch_rows: int) -> None:
        from osgeo import gdal

        options = [f"MAX_FEATURES_IN_BATCH={batch_rows}", "INCLUDE_FID=NO"]
        with _Quiet():
            self.data = gdal.OpenEx(path, gdal.OF_VECTOR, allowed_drivers=["CSV"], open_options=_OPTIONS)
            self.stream = self.data.GetLayer(0).GetArrowStream(options)
            self.schema_part = self.stream.GetSchema()
        self.schema = ArrowSchema.from_address(int(self.schema_part._getPtr()))
        fields = [self.schema.children[child].contents for child in range(self.schema.n_children)]
        formats = {field.name.decode(): field.format.decode() for field in fields}
        if [field.name.decode() for field in fields] != next(lines_of(path)):
            raise Inexact("the columns have other names")
        self.places = {name: place for place, name in enumerate(formats)}
        self.types = {name: _NAMES[format] + "?" for name, format in formats.items() if format in _NAMES}
        self.left_out = formats.keys() - self.types.keys()
        self.passes = 1

    def batches(self, advance: Callable[[int], None]) -> Iterator[dict[str, Column]]:
        """The columns of each batch; `advance` is called with the number of rows that were read. Refused as Inexact
        where GDAL changed a value."""
        while (batch := self._next()) is not None:
            columns = {name: self._child(batch, self.places[name]) for name in self.types}
            rows = max(map(len, columns.values()), default=0)
            yield columns
            advance(rows)

    def _next(self) -> Any:
        with _Quiet():
            return self.stream.GetNextRecordBatch()

    def _child(self, batch: Any, place: int) -> Column:
        return Column.from_arrow_structs(self.schema, int(batch._getPtr()), place)
