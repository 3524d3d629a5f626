"""The headers of a recording's chunks."""

import os
import struct
from typing import BinaryIO, Iterator, NamedTuple

from kijorafe.integers import integer_at

_HEADER = struct.Struct(">4s4xQQQqq20x")
# What reading a file that isn't a recording raises.
NO_RECORDING = ValueError, IndexError, struct.error


class Header(NamedTuple):
    """A chunk: its offset in the file, its size, the offsets in it of the last checkpoint and of its metadata, its start
    and duration in nanoseconds."""

    at: int
    size: int
    checkpoint: int
    metadata: int
    start: int
    duration: int


def headers_of(file: BinaryIO) -> Iterator[Header]:
    """The header of each chunk; raises one of NO_RECORDING if it isn't a recording."""
    at, end = 0, os.fstat(file.fileno()).st_size
    while at < end:
        file.seek(at)
        magic, size, *numbers = _HEADER.unpack(file.read(_HEADER.size))
        header = Header(at, size, *numbers)
        if magic != b"FLR\0" or not _HEADER.size <= header.metadata < size <= end - at:
            raise ValueError
        yield header
        at += size


def checkpoints_of(file: BinaryIO, header: Header) -> Iterator[int]:
    """The offsets of the checkpoints of a chunk that the program accepts, from the last one on. The file has only it."""
    place = header.checkpoint
    while True:
        yield place
        file.seek(place)
        record, at = file.read(45), 0
        for _ in ("size", "type", "start", "duration"):
            _, at = integer_at(record, at)
        delta, _ = integer_at(record, at)
        if delta == 0:
            return
        place = (place + delta) % 2**64


def record_at(file: BinaryIO, place: int) -> bytes:
    """The record at an offset of such a chunk."""
    file.seek(place)
    size, _ = integer_at(file.read(9), 0)
    file.seek(place)
    return file.read(size)
