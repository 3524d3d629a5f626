"""Copies of scrubs that the JDK's reader reads completely.

If consecutive chunks have metadata with the same id, the JDK's reader uses the event types of the first one for all of
them. Where their types differ, as in scrubs that don't describe the types without events, it misses events. A copy has
another id wherever the metadata differs from that of the chunk before. All other bytes are the same, so `jfr verify`
checks the copy with the scrub's receipts.
"""

import os
import shutil
from typing import BinaryIO, Iterator, List, NamedTuple, Optional, Tuple

from kijorafe.headers import NO_RECORDING, headers_of
from kijorafe.inputs import check_input, recording_of
from kijorafe.integers import integer_at, spelled
from kijorafe.messages import Fault, say
from kijorafe.shown import file_name
from kijorafe.staging import Output


class Metadata(NamedTuple):
    """The metadata record of a chunk: where its id is, the id, its number of bytes, and the other bytes."""

    at: int
    number: int
    width: int
    rest: bytes


def metadata_of(file: BinaryIO) -> Iterator[Metadata]:
    """The metadata record of each chunk; raises one of NO_RECORDING if it isn't a recording."""
    for header in headers_of(file):
        place = header.at + header.metadata
        file.seek(place)
        length, at = integer_at(file.read(9), 0)
        if length > header.size:
            raise ValueError
        file.seek(place)
        record = file.read(length)
        for _ in ("type", "start", "duration"):
            _, at = integer_at(record, at)
        number, after = integer_at(record, at)
        yield Metadata(place + at, number, after - at, record[:at] + record[after:])


def ids_of(recording: str) -> List[int]:
    """The id of each chunk's metadata."""
    try:
        with open(recording, "rb") as file:
            return [each.number for each in metadata_of(file)]
    except NO_RECORDING as fault:
        raise _refused(recording) from fault
    except OSError as fault:
        raise Fault(3, f"{file_name(recording)} can't be read: {fault.strerror}") from fault


def new_ids(file: BinaryIO) -> Iterator[Tuple[int, bytes]]:
    """The offsets and the bytes of the ids to change."""
    last: Optional[Metadata] = None
    for each in metadata_of(file):
        if last is not None and each.number == last.number and each.rest != last.rest:
            each = each._replace(number=(each.number + 1) % 128**each.width)
            yield each.at, spelled(each.number, each.width)
        last = each


def copy(source: str, target: str) -> int:
    """Makes a copy that the JDK's reader reads completely."""
    check_input(source)
    with Output(target) as output:
        recording = recording_of(source, output)
        try:
            with open(recording, "rb") as file:
                changes = list(new_ids(file))
                file.seek(0)
                _write(file, changes, output)
        except NO_RECORDING as fault:
            raise _refused(source) from fault
        except OSError as fault:
            raise Fault(3, f"{file_name(source)} can't be read: {fault.strerror}") from fault
        output.commit()
    say(f"changed the metadata id of {len(changes)} chunks")
    return 0


def _write(file: BinaryIO, changes: List[Tuple[int, bytes]], output: Output) -> None:
    try:
        with open(os.open(output.path, os.O_WRONLY | os.O_CREAT | os.O_EXCL, 0o600), "wb") as out:
            shutil.copyfileobj(file, out, 1 << 20)
            for at, number in changes:
                out.seek(at)
                out.write(number)
    except OSError as fault:
        raise output.failed(fault) from fault


def _refused(name: str) -> Fault:
    return Fault(2, f"{file_name(name)} isn't a recording that jfr accepts")


def print_ids(source: str) -> int:
    """Prints the id of each chunk's metadata."""
    check_input(source)
    for number in ids_of(source):
        print(number)
    return 0
