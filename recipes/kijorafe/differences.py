"""What differs between two recordings that should be the same scrub, in words."""

from collections import Counter
from itertools import zip_longest
from typing import BinaryIO, Counter as Counts, Iterable, Iterator, List, Optional, Tuple

from kijorafe.headers import NO_RECORDING, Header, checkpoints_of, headers_of
from kijorafe.inputs import BLOCK, chunk_of
from kijorafe.integers import integer_at
from kijorafe.messages import Fault
from kijorafe.program import Class, Program, Totals
from kijorafe.shown import file_name, in_a_row

# The values of a chunk's header that a scrub keeps, each with the first of its bytes and the one after the last.
HEADER = (
    ("version", 4, 8),
    ("start", 32, 40),
    ("duration", 40, 48),
    ("start in ticks", 48, 56),
    ("ticks per second", 56, 64),
    ("state", 64, 65),
    ("flags", 65, 68),
)
HEADER_BYTES = 68
# How a summary's numbers are named.
COUNTS = {
    "events": "events",
    "checkpoints": "checkpoints",
    "constants": "constants",
    "inert": "records that belong to nothing",
}


def first_difference(one: str, other: str, at: int = 0) -> Optional[int]:
    """The first byte from an offset on in which two files differ, or at which one ends; None if they are the same."""
    with open(one, "rb") as first, open(other, "rb") as second:
        first.seek(at)
        second.seek(at)
        while True:
            blocks = first.read(BLOCK), second.read(BLOCK)
            if blocks[0] != blocks[1]:
                return at + _first_in(*blocks)
            if not blocks[0]:
                return None
            at += len(blocks[0])


def _first_in(one: bytes, other: bytes) -> int:
    return next(at for at, (a, b) in enumerate(zip_longest(one, other)) if a != b)


def differences(program: Program, output: str, scrub: str) -> Iterator[str]:
    """What an output has, and a scrub of one's own has otherwise; a text for each."""
    theirs, ours = _headers(output), _headers(scrub)
    if len(theirs) != len(ours):
        yield f"it has {len(theirs)} chunks, and a scrub has {len(ours)}"
    for number, (one, other) in enumerate(zip(theirs, ours), 1):
        with chunk_of(output, one) as chunk, chunk_of(scrub, other) as expected:
            for line in _in_chunk(program, chunk, expected):
                yield f"chunk {number}: {line}"


def _headers(name: str) -> List[Header]:
    try:
        with open(name, "rb") as file:
            return list(headers_of(file))
    except NO_RECORDING as fault:
        raise Fault(2, f"{file_name(name)} isn't a recording that jfr accepts") from fault


def _in_chunk(program: Program, output: str, scrub: str) -> Iterator[str]:
    """The same for a chunk, in a file of its own."""
    at = first_difference(output, scrub)
    if at is None:
        return
    with open(output, "rb") as first, open(scrub, "rb") as second:
        headers = first.read(HEADER_BYTES), second.read(HEADER_BYTES)
    names = [name for name, first, end in HEADER if headers[0][first:end] != headers[1][first:end]]
    if names:
        yield f"its header has another {in_a_row(names)}"
    totals = program.totals(output), program.totals(scrub)
    yield from _of_totals(*totals)
    yield from _of_classes(program.classes(output), program.classes(scrub))
    # The header's size and positions differ if anything else does.
    at = first_difference(output, scrub, HEADER_BYTES) or at
    any_other = "an event, or a record that belongs to nothing" if totals[0].inert else "an event"
    yield f"the first byte that differs is at {at}, in {_part_at(output, at) or any_other}"


def _of_totals(theirs: Totals, ours: Totals) -> Iterator[str]:
    for field, name in COUNTS.items():
        counts = getattr(theirs, field), getattr(ours, field)
        if counts[0] != counts[1]:
            yield f"it has {counts[0]} {name}, and a scrub has {counts[1]}"
    events = [{each.name: (each.events, each.bytes) for each in totals.types} for totals in (theirs, ours)]
    names = [name for name in sorted({*events[0], *events[1]}) if events[0].get(name) != events[1].get(name)]
    if names:
        counts_of = (f"{name} {_both(*(each.get(name, (0, 0)) for each in events))}" for name in names)
        yield f"events, and those of a scrub: {in_a_row(counts_of)}"


def _both(theirs: Tuple[int, int], ours: Tuple[int, int]) -> str:
    """Two numbers of events; if they are equal, of their bytes."""
    if theirs[0] == ours[0]:
        return f"{theirs[0]} of {theirs[1]} and {ours[1]} bytes"
    return f"{theirs[0]} and {ours[0]}"


def _of_classes(theirs: Iterable[Class], ours: Iterable[Class]) -> Iterator[str]:
    one, other = Counter(theirs), Counter(ours)
    for names, text in (
        (_names(one - other), "it describes classes that a scrub doesn't, or otherwise"),
        (_names(other - one), "a scrub describes classes that it doesn't, or otherwise"),
    ):
        if names:
            yield f"{text}: {in_a_row(names)}"


def _names(classes: Counts[Class]) -> List[str]:
    return sorted({each.name for each in classes})


def _part_at(chunk: str, at: int) -> Optional[str]:
    """What a byte of a chunk belongs to, unless that is another record than the metadata and the checkpoints."""
    if at < HEADER_BYTES:
        return "the header"
    with open(chunk, "rb") as file:
        header = next(headers_of(file))
        if _is_in_record(file, header.metadata, at):
            return "the metadata"
        is_in_checkpoint = any(_is_in_record(file, each, at) for each in checkpoints_of(file, header))
    return "a checkpoint" if is_in_checkpoint else None


def _is_in_record(file: BinaryIO, start: int, at: int) -> bool:
    file.seek(start)
    return start <= at < start + integer_at(file.read(9), 0)[0]
