"""Messages of Protocol Buffers in the one spelling that docs/BYTES.md asks for: fields in their order, numbers as the
shortest varints, and nothing else."""
from __future__ import annotations

_VARINT, _SIZED = 0, 2  # how a field is written
_MOST_BYTES = 10  # of a varint of 64 bits


class Damaged(Exception):
    """The bytes are not such a message."""


def varint(number: int) -> bytes:
    """A number in groups of 7 bits, the lowest first."""
    groups = bytearray()
    while number > 127:
        groups.append(number & 127 | 128)
        number >>= 7
    groups.append(number)
    return bytes(groups)


def number_field(field: int, number: int) -> bytes:
    return varint(field * 8 + _VARINT) + varint(number)


def sized_head(field: int, size: int) -> bytes:
    """What comes in front of the content of a field of this many bytes."""
    return varint(field * 8 + _SIZED) + varint(size)


def sized_field(field: int, content: bytes) -> bytes:
    return sized_head(field, len(content)) + content


class Fields:
    """The fields of a message, which are read in turn. Damaged where the next one is another."""

    def __init__(self, data: bytes) -> None:
        self._data, self._at = data, 0

    def number(self, field: int) -> int:
        """The number of this field."""
        self._expect(varint(field * 8 + _VARINT))
        return self._varint()

    def size(self, field: int) -> int:
        """How many bytes this field has, of which the first is read next."""
        self._expect(varint(field * 8 + _SIZED))
        return self._varint()

    def content(self, field: int) -> bytes:
        """The bytes of this field."""
        size = self.size(field)
        start = self._at
        self._at += size
        if self._at > len(self._data):
            raise Damaged
        return self._data[start : self._at]

    def text(self, field: int) -> str:
        """The text of this field."""
        try:
            return self.content(field).decode()
        except UnicodeDecodeError:
            raise Damaged from None

    @property
    def is_at_end(self) -> bool:
        return self._at == len(self._data)

    def _expect(self, key: bytes) -> None:
        if not self._data.startswith(key, self._at):
            raise Damaged
        self._at += len(key)

    def _varint(self) -> int:
        number, start = 0, self._at
        for place, byte in enumerate(self._data[start : start + _MOST_BYTES]):
            number |= (byte & 127) << 7 * place
            if byte < 128:
                self._at = start + place + 1
                if number >= 2**64 or byte == 0 and place:
                    raise Damaged
                return number
        raise Damaged
