"""The event types of the JDK, and which recipe keeps which: the file recipes/types."""

import os
from typing import Dict, Iterable, List, NamedTuple, Tuple

from kijorafe.program import TypeTotal

# How the file marks the types that a JVM writes once in each chunk.
ONCE = "once"
TYPES = os.path.join(os.path.dirname(os.path.dirname(os.path.realpath(__file__))), "types")


class Known(NamedTuple):
    """A type of the JDK: its name, the JDKs that have it, the recipes that keep it, and whether a chunk has it once."""

    name: str
    jdks: Tuple[str, ...]
    recipes: Tuple[str, ...]
    is_once: bool


def known_types() -> Dict[str, Known]:
    """The types of the JDK by their names, in the order of the file."""
    types = {}
    with open(TYPES, encoding="utf-8") as lines:
        for line in lines:
            if not line.startswith("#"):
                name, jdks, *marks = line.split()
                recipes = tuple(mark for mark in marks if mark != ONCE)
                types[name] = Known(name, tuple(jdks.split(",")), recipes, ONCE in marks)
    return types


def kept_by(recipe: str) -> List[str]:
    """The types that a recipe keeps. Each is a name with a dot, which as a pattern matches only itself."""
    return [known.name for known in known_types().values() if recipe in known.recipes]


def written_once() -> List[str]:
    """The types that a JVM writes once in each chunk."""
    return [known.name for known in known_types().values() if known.is_once]


def strangers_in(types: Iterable[TypeTotal]) -> List[TypeTotal]:
    """The types that no JDK of the list has."""
    known = known_types()
    return [each for each in types if each.name not in known]
