"""Which types are the JDK's own: by the fields of a JDK, and by what a chunk describes."""

import unittest
from typing import Iterable, List, Set, Tuple

from kijorafe import genuine
from kijorafe.known import known_types
from kijorafe.program import EVENT, Class, Field


def chunk_of(jdk: str, number: int = 1) -> List[Class]:
    """The event types that a JVM of this version describes."""
    return [described(row.name, row.fields, number) for row in genuine.rows() if jdk in row.jdks]


def described(name: str, fields: str, number: int = 1) -> Class:
    parts: Iterable[Tuple[str, str, str]] = (field.partition(":") for field in fields.split())
    return Class(number, name, 100, EVENT, (), tuple(_field(field, kind) for field, _, kind in parts))


def _field(name: str, kind: str) -> Field:
    constant = kind.endswith("*")
    kind = kind[:-1] if constant else kind
    array = kind.endswith("[]")
    return Field(name, kind[:-2] if array else kind, 7, constant, array)


class Genuine(unittest.TestCase):
    def test_the_file(self) -> None:
        known = known_types()
        seen: Set[Tuple[str, str]] = set()
        for row in genuine.rows():
            self.assertLessEqual(set(row.jdks), set(known[row.name].jdks), row.name)
            self.assertEqual(genuine.spelled(described(row.name, row.fields).fields), row.fields)
            for jdk in row.jdks:
                self.assertNotIn((row.name, jdk), seen)
                seen.add((row.name, jdk))
        self.assertEqual(seen, {(each.name, jdk) for each in known.values() for jdk in each.jdks})

    def test_recordings_of_a_jdk(self) -> None:
        for jdk in "17", "21", "25":
            self.assertEqual(genuine.own_types(chunk_of(jdk)), {})
            self.assertEqual(genuine.own_types(chunk_of(jdk)[::3]), {})
        self.assertEqual(genuine.own_types(chunk_of("17", 1) + chunk_of("25", 2)), {})

    def test_own_types(self) -> None:
        own = described("jdk.SwapSpace", "startTime:long text:java.lang.String")
        theirs = described("jdk.SwapSpace", "startTime:long totalSize:long freeSize:long")
        double = described("jdk.CPULoad", "n:long")
        for jdk, types, expected in (
            ("17", [own], {"jdk.SwapSpace": genuine.OTHER_JDK}),
            ("17", [theirs], {"jdk.SwapSpace": genuine.OTHER_JDK}),
            ("25", [own], {"jdk.SwapSpace": genuine.TWICE}),
            ("17", [double], {"jdk.CPULoad": genuine.TWICE}),
        ):
            with self.subTest(jdk=jdk, types=types):
                self.assertEqual(genuine.own_types(chunk_of(jdk) + types), expected)

    def test_chunks_of_a_scrub(self) -> None:
        own = described("jdk.SwapSpace", "startTime:long text:java.lang.String")
        theirs = described("jdk.SwapSpace", "startTime:long totalSize:long freeSize:long")
        self.assertEqual(genuine.own_types([own]), {"jdk.SwapSpace": genuine.OTHER_FIELDS})
        self.assertEqual(genuine.own_types([theirs]), {})
