"""SipHash-1-3 with keys of 0, over which the library hashes rows."""

from __future__ import annotations

from words import Row, Type, runs_of

MASK = 2**64 - 1
START = (0x736F6D6570736575, 0x646F72616E646F6D, 0x6C7967656E657261, 0x7465646279746573)
State = tuple


def rotated(number: int, bits: int) -> int:
    """Returns 64 bits rotated to the left."""
    return ((number << bits) | (number >> (64 - bits))) & MASK


def mixed(state: State) -> State:
    """Returns the state after one round."""
    a, b, c, d = state
    a, c = (a + b) & MASK, (c + d) & MASK
    b, d = rotated(b, 13) ^ a, rotated(d, 16) ^ c
    a = (rotated(a, 32) + d) & MASK
    c = (c + b) & MASK
    b, d = rotated(b, 17) ^ c, rotated(d, 21) ^ a
    return a, b, rotated(c, 32), d


def siphash(data: bytes) -> int:
    """Returns the hash of the bytes."""
    padded = data + bytes(-(len(data) + 1) % 8) + bytes([len(data) & 255])
    state: State = START
    for start in range(0, len(padded), 8):
        block = int.from_bytes(padded[start : start + 8], "little")
        a, b, c, d = mixed((*state[:3], state[3] ^ block))
        state = a ^ block, b, c, d
    state = (*state[:2], state[2] ^ 255, state[3])
    for _ in range(3):
        state = mixed(state)
    a, b, c, d = state
    return a ^ b ^ c ^ d


def bytes_of(type: Type, row: Row) -> bytes:
    """Returns what is hashed of a row: a byte for its kind, and then the row."""
    if row is None:
        return b"\0"
    if type.is_boolean:
        return bytes([1, row])
    if type.is_integer or type.is_decimal:
        return (b"\3" if type.is_decimal else b"\2") + row.to_bytes(16, "little", signed=True)
    if isinstance(row, str):
        return b"\4" + row.encode() + b"\xff"
    return b"\5" + len(row).to_bytes(8, "little") + row


def hash_of(type: Type, rows: list[Row]) -> int:
    """Returns the hash of rows: for each run of equal ones its end, in 8 bytes, and its row."""
    ends, values = runs_of(rows)
    return siphash(b"".join(end.to_bytes(8, "little") + bytes_of(type, row) for end, row in zip(ends, values)))
