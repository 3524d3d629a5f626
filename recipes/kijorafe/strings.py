"""The strings of a recording, and the numbers that are looked for; how often events lead to each, or the metadata has it."""

import os
from collections import Counter, defaultdict
from mmap import ACCESS_READ, mmap
from typing import BinaryIO, Container, Counter as Counts, DefaultDict, Dict, Iterator, List, Optional, Set, Tuple

from kijorafe.headers import NO_RECORDING, Header, checkpoints_of, headers_of, record_at
from kijorafe.inputs import chunk_of
from kijorafe.integers import integer_at
from kijorafe.messages import Fault
from kijorafe.metadata import texts_in
from kijorafe.program import Program
from kijorafe.progress import Progress
from kijorafe.shown import file_name
from kijorafe.values import BASIC, Leaf, Reader, Reference, entries_in

# How many references are followed from an event. What is further away, or isn't reached, is found by its class.
DEPTH = 8
FURTHER = f"(not within {DEPTH} references)"
# What the texts of the metadata count as, at the name of their class.
METADATA = "(metadata)"
# Where there are more paths than this, a path is only that from the last constant that isn't a string.
PATHS = 1_000_000
ANY = "*"
HEADER_BYTES = 68

Path = str
# For each (path, string), how often events of each type lead to it, or the metadata has it.
Strings = DefaultDict[Tuple[Path, str], Counts[str]]
# How often events of a type lead to each constant by a path.
Referred = Counts[Tuple[str, Path, Reference]]
Constants = Dict[Reference, List[Leaf]]


def strings_in(
    program: Program, recording: str, numbers: Set[int], names: Optional[Container[str]] = None
) -> Strings:
    """The strings of a recording, and these numbers.

    If fields are named, those at them to which events lead; of the others, some.
    """
    strings: Strings = defaultdict(Counter)
    for chunk in chunks_in(recording, "strings"):
        _add_chunk(Reader(program.classes(chunk), numbers, names), chunk, strings)
    return strings


def chunks_in(recording: str, what: str) -> Iterator[str]:
    """A file for each chunk of a recording; on a terminal it is shown meanwhile how much of this work is done."""
    with open(recording, "rb") as file:
        try:
            headers = list(headers_of(file))
        except NO_RECORDING as fault:
            raise Fault(2, f"{file_name(recording)} isn't a recording that jfr accepts") from fault
    with Progress(os.path.getsize(recording)) as progress:
        for header in headers:
            with chunk_of(recording, header) as chunk:
                yield chunk
            progress.at(header.at + header.size, what)


def types_of(kinds: Counts[str]) -> str:
    """The most frequent type, and how many more there are."""
    first = kinds.most_common(1)[0][0]
    return first if len(kinds) == 1 else f"{first} +{len(kinds) - 1}"


def _add_chunk(reader: Reader, chunk: str, strings: Strings) -> None:
    """Adds the strings of a chunk that the program accepts."""
    with open(chunk, "rb") as file:
        header = next(headers_of(file))
        if reader.is_whole:
            for name, text in texts_in(record_at(file, header.metadata)):
                strings[name, text][METADATA] += 1
        referred = _add_events(reader, file, header, strings)
        constants: Constants = {}
        for place in reversed(list(checkpoints_of(file, header))):
            # The last constant with a class and a key counts.
            entries = entries_in(reader, record_at(file, place))
            constants.update(entry for entry in entries if entry[0][0] in reader.needed)
    missed = set(constants) if reader.is_whole else set()
    for _ in range(DEPTH):
        missed -= {reference for _, _, reference in referred}
        referred = _add_constants(reader, constants, referred, strings)
    for reference in missed:
        name = reader.classes[reference[0]].name
        for path, found in constants[reference]:
            if not isinstance(found, tuple):
                strings[_joined(name, path), str(found)][FURTHER] += 0


def _add_events(reader: Reader, file: BinaryIO, header: Header, strings: Strings) -> Referred:
    """Adds the strings that events have themselves; how often they refer to constants."""
    referred: Referred = Counter()
    composite = (each for each in reader.classes.values() if each.name not in BASIC)
    kinds = {each.id: each.name for each in composite if each.is_event and each.id > 1}
    for kind, record, at in records_in(file, header):
        if kind in kinds:
            for path, found in reader.read_event(kind, record, at):
                if isinstance(found, tuple):
                    referred[kinds[kind], path, found] += 1
                else:
                    strings[path, str(found)][kinds[kind]] += 1
    return referred


def records_in(file: BinaryIO, header: Header) -> Iterator[Tuple[int, bytes, int]]:
    """The records of a chunk: the type, the bytes, and the offset in them of what comes after the type."""
    with mmap(file.fileno(), 0, access=ACCESS_READ) as data:
        place = HEADER_BYTES
        while place < header.size:
            size, at = integer_at(data[place : place + 9], 0)
            record = data[place : place + size]
            kind, at = integer_at(record, at)
            yield kind, record, at
            place += size


def _add_constants(reader: Reader, constants: Constants, referred: Referred, strings: Strings) -> Referred:
    """Adds the strings of constants that events lead to; how often they lead to those to which these refer."""
    further: Referred = Counter()
    is_short = False
    for (kind, path, reference), count in referred.items():
        if not is_short and max(len(further), len(strings)) > PATHS:
            further, is_short = _shortened(reader, further), True
        if is_short:
            path = _short(reader, path, reference)
        for below, found in constants.get(reference, ()):
            whole = _joined(path, below)
            if not isinstance(found, tuple):
                strings[whole, str(found)][kind] += count
            else:
                further[kind, _short(reader, whole, found) if is_short else whole, found] += count
    return further


def _shortened(reader: Reader, referred: Referred) -> Referred:
    """The same by short paths, so that constants that share others don't have a path for each way to them."""
    counts: Referred = Counter()
    for (kind, path, reference), count in referred.items():
        counts[kind, _short(reader, path, reference), reference] += count
    return counts


def _short(reader: Reader, path: Path, reference: Reference) -> Path:
    """One path for all constants, except that a string, which refers to no more than another, keeps its field."""
    return f"{ANY}.{last_field(path)}" if reference[0] in reader.strings else ANY


def last_field(path: Path) -> str:
    """The last field of a path."""
    return path.rpartition(".")[2]


def _joined(path: Path, below: Path) -> Path:
    return f"{path}.{below}" if path and below else path or below
