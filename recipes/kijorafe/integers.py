"""The integers of recordings: one to nine bytes, of which the first eight have seven bits each."""

from typing import Tuple

# By how much the seven bits of each of the first eight bytes are shifted.
SHIFTS = tuple(range(0, 56, 7))


def integer_at(data: bytes, at: int) -> Tuple[int, int]:
    """The integer at an offset, and the offset after it."""
    value = 0
    for shift in SHIFTS:
        byte = data[at]
        at += 1
        if byte < 128:
            return value | byte << shift, at
        value |= (byte & 127) << shift
    return value | data[at] << 56, at + 1


def spelled(value: int, width: int) -> bytes:
    """The value as an integer of this many bytes."""
    return bytes([value >> 7 * n & 127 | 128 for n in range(width - 1)] + [value >> 7 * (width - 1)])
