"""Recordings to read: files, pipes, and what gzip has compressed."""

import gzip
import os
import stat
import tempfile
import zlib
from contextlib import ExitStack, contextmanager
from typing import IO, BinaryIO, Iterator, Protocol, cast

from kijorafe.headers import Header
from kijorafe.messages import Fault
from kijorafe.shown import file_name
from kijorafe.staging import Output, is_utf8

BLOCK = 1 << 20
GZIP = b"\x1f\x8b"
RECORDING = b"FLR\0"


class _Source(Protocol):
    """What gives bytes."""

    def read(self, count: int = -1) -> bytes:
        ...


class _Rejoined:
    """A file whose first block was read already."""

    def __init__(self, first: bytes, rest: BinaryIO) -> None:
        self.first, self.rest = first, rest

    def read(self, count: int = -1) -> bytes:
        if not self.first:
            return self.rest.read(count)
        if count < 0:
            count = len(self.first)
        taken, self.first = self.first[:count], self.first[count:]
        return taken


def check_input(name: str) -> None:
    """Raises a fault unless the input can be read."""
    if not os.path.exists(name):
        raise Fault(3, f"{file_name(name)} doesn't exist")
    if os.path.isdir(name):
        raise Fault(3, f"{file_name(name)} is a folder; `kijorafe many` scrubs the recordings of a folder")
    if not os.access(name, os.R_OK):
        raise Fault(3, f"there is no permission to read {file_name(name)}")


def recording_of(name: str, output: Output, or_text: bool = False) -> str:
    """A file with the input, which can be read several times.

    That is the input itself, unless it is a pipe or compressed, or has a name that the program doesn't take: then it is
    a file beside the output, which is removed with the output's folder. If a pipe gives anything but a recording, only
    its first block is taken, unless a text will do, too.
    """
    try:
        with open(name, "rb") as file:
            is_file = stat.S_ISREG(os.fstat(file.fileno()).st_mode)
            first = file.read(len(GZIP) if is_file else BLOCK)
            path = output.beside("in")
            if is_file and not first.startswith(GZIP):
                if is_utf8(name):
                    return name
                os.symlink(os.path.abspath(name), path)
                return path
            blocks = _blocks(name, _Rejoined(first, file), first.startswith(GZIP))
            _write(blocks if or_text else _of_recording(blocks), path, output)
            return path
    except OSError as fault:
        raise _unread(name, fault) from fault


@contextmanager
def readable(name: str) -> Iterator[str]:
    """A name by which the program can read the input several times.

    A pipe, or what is compressed, is unpacked into a file without a name, which only this process and its children see.
    """
    with ExitStack() as stack:
        try:
            place = _readable(name, stack)
        except OSError as fault:
            raise _unread(name, fault) from fault
        yield place


def _readable(name: str, stack: ExitStack) -> str:
    file = stack.enter_context(open(name, "rb"))
    is_file = stat.S_ISREG(os.fstat(file.fileno()).st_mode)
    first = file.read(len(GZIP) if is_file else BLOCK)
    if is_file and not first.startswith(GZIP):
        return name if is_utf8(name) else name_of(file)
    whole = stack.enter_context(tempfile.TemporaryFile())
    for block in _of_recording(_blocks(name, _Rejoined(first, file), first.startswith(GZIP))):
        whole.write(block)
    whole.flush()
    return name_of(whole)


def name_of(file: IO[bytes]) -> str:
    """A name of an open file, for this process and its children."""
    return f"/proc/{os.getpid()}/fd/{file.fileno()}"


@contextmanager
def chunk_of(recording: str, header: Header) -> Iterator[str]:
    """The name of a file in memory that has only this chunk."""
    with open(recording, "rb") as file, open(os.memfd_create("chunk"), "w+b") as copy:
        file.seek(header.at)
        left = header.size
        while left:
            block = file.read(min(left, BLOCK))
            if not block:
                raise Fault(2, f"{file_name(recording)} was changed meanwhile")
            copy.write(block)
            left -= len(block)
        copy.flush()
        yield name_of(copy)


def _unread(name: str, fault: OSError) -> Fault:
    return Fault(3, f"reading {file_name(name)} failed: {fault.strerror}")


def _blocks(name: str, file: _Rejoined, is_compressed: bool) -> Iterator[bytes]:
    """The bytes of the input, unpacked."""
    source: _Source = file
    if is_compressed:
        source = gzip.GzipFile(fileobj=cast(BinaryIO, file))
    try:
        block = source.read(BLOCK)
        while block:
            yield block
            block = source.read(BLOCK)
    except (EOFError, zlib.error, gzip.BadGzipFile) as fault:
        raise Fault(2, f"{file_name(name)} is compressed, and is damaged or cut short") from fault
    except OSError as fault:
        raise _unread(name, fault) from fault


def _of_recording(blocks: Iterator[bytes]) -> Iterator[bytes]:
    """All blocks of a recording; of anything else the first one, which is enough for the program to refuse it."""
    first = next(blocks, b"")
    yield first
    if first.startswith(RECORDING):
        yield from blocks


def _write(blocks: Iterator[bytes], path: str, output: Output) -> None:
    try:
        with open(os.open(path, os.O_WRONLY | os.O_CREAT | os.O_EXCL, 0o600), "wb") as file:
            for block in blocks:
                file.write(block)
    except OSError as fault:
        raise output.failed(fault) from fault
