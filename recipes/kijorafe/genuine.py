"""Which event types are the JDK's own, by their names and fields: the file recipes/fields.

A program may give its own event type a name of the JDK's. Such a type has other fields, or there are two types of the
name in a chunk, since a JVM describes all its own types in each chunk. A scrub of that recording describes fewer types.
"""

import os
from collections import defaultdict
from itertools import groupby
from typing import DefaultDict, Dict, Iterable, Iterator, List, NamedTuple, Set, Tuple

from kijorafe.known import TYPES, known_types
from kijorafe.program import Class, Field

FIELDS = os.path.join(os.path.dirname(TYPES), "fields")
TWICE = "two types have this name"
OTHER_FIELDS = "its fields aren't those of the JDK's type"
OTHER_JDK = "the JDK of this recording has no such type"

# The fields of each type, spelled as in the file, by the JDK and the name of the type.
Spelled = DefaultDict[str, Dict[str, str]]


class Row(NamedTuple):
    """A line of the file: a type, the JDKs in which it has these fields, and the fields in order."""

    name: str
    jdks: Tuple[str, ...]
    fields: str


def spelled(fields: Iterable[Field]) -> str:
    """Fields as the file spells them: the name, the class, [] for an array, * for the constant mark."""
    return " ".join(
        f"{field.name}:{field.class_name}{'[]' if field.array else ''}{'*' if field.constant else ''}"
        for field in fields
    )


def rows() -> Iterator[Row]:
    """The lines of the file."""
    with open(FIELDS, encoding="utf-8") as lines:
        for line in lines:
            if not line.startswith("#"):
                name, jdks, fields = line.rstrip("\n").split("\t")
                yield Row(name, tuple(jdks.split(",")), fields)


def own_types(classes: Iterable[Class]) -> Dict[str, str]:
    """The names of JDK types that the program's own types have in some chunk, and how that shows."""
    known = known_types()
    fields: Spelled = defaultdict(dict)
    for row in rows():
        for jdk in row.jdks:
            fields[jdk][row.name] = row.fields
    found: Dict[str, str] = {}
    for _, chunk in groupby(classes, key=lambda each: each.chunk):
        described: DefaultDict[str, List[str]] = defaultdict(list)
        for each in chunk:
            if each.is_event and each.name in known:
                described[each.name].append(spelled(each.fields))
        for name, reason in _own_types_of(described, fields):
            found.setdefault(name, reason)
    return dict(sorted(found.items()))


def _own_types_of(described: Dict[str, List[str]], fields: Spelled) -> Iterator[Tuple[str, str]]:
    """The same for the types that a chunk describes."""
    jdks = [jdk for jdk, types in fields.items() if _is_of(described, types)]
    for name, spellings in described.items():
        if len(spellings) > 1:
            yield name, TWICE
        elif jdks and not any(name in fields[jdk] for jdk in jdks):
            yield name, OTHER_JDK
        elif spellings[0] not in _allowed(name, jdks, fields):
            yield name, OTHER_FIELDS


def _is_of(described: Dict[str, List[str]], types: Dict[str, str]) -> bool:
    """Whether a chunk is of a JDK: whether it describes all types of it."""
    return all(fields in described.get(name, ()) for name, fields in types.items())


def _allowed(name: str, jdks: List[str], fields: Spelled) -> Set[str]:
    """The fields that a type may have: in the JDKs of its chunk, or in all that have it."""
    return {fields[jdk][name] for jdk in jdks or fields if name in fields[jdk]}
