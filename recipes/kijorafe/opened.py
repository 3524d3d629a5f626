"""Names of code that stay though code is masked: of classes and packages that match patterns, and of their methods."""

import re
from typing import AbstractSet, Dict, Iterator, List, NamedTuple, Pattern, Set, Tuple, Union

from kijorafe.headers import checkpoints_of, headers_of, record_at
from kijorafe.program import Program
from kijorafe.strings import chunks_in, records_in
from kijorafe.values import BASIC, STRING, Leaf, Reader, Reference, entries_in

CLASS, PACKAGE, SYMBOL = "java.lang.Class", "jdk.types.Package", "jdk.types.Symbol"
# The path in a constant of each class at which its text is, or what leads to it.
TEXT_AT = {STRING: "", SYMBOL: "string", CLASS: "name", PACKAGE: "name"}
# The classes of methods; events have values of the second one in them.
METHOD, CALLEE = "jdk.types.Method", "jdk.types.CalleeMethod"
ARRAY = re.compile(r"\[+L(.*);", re.DOTALL)
CLASS_IN_DESCRIPTOR = re.compile("L([^;]*);")


class Method(NamedTuple):
    """The names of a method's class and of the method, and what it takes and returns."""

    class_name: str
    name: str
    descriptor: str


class Names(NamedTuple):
    """The names of code that recordings have. Those of classes and packages have slashes, and may have dots."""

    classes: Set[str]
    packages: Set[str]
    methods: Set[Method]


class Opened(NamedTuple):
    """The texts that stay, and the patterns that match no name."""

    texts: Set[str]
    unmatched: List[str]


def opened(names: Names, patterns: str, known: AbstractSet[str]) -> Opened:
    """What the patterns open, if texts are known.

    A descriptor stays if all classes that it names do, since it may name classes that have nothing to do with its own.
    """
    matchers = {pattern: _matcher(pattern) for pattern in patterns.split(",")}
    matched: Set[str] = set()

    def is_open(name: str) -> bool:
        plain = _element(name).replace("/", ".")
        found = {pattern for pattern, matcher in matchers.items() if matcher.fullmatch(plain)}
        matched.update(found)
        return bool(found)

    classes = {name for name in names.classes if is_open(name)}
    packages = {name for name in names.packages if is_open(name)}
    packages |= {package for package in map(_package, classes) if package}
    texts = {spelled for name in classes | packages for spelled in (name, name.replace("/", "."))}
    for method in names.methods:
        if method.class_name in classes:
            texts.add(method.name)
            if all(name in known or is_open(name) for name in CLASS_IN_DESCRIPTOR.findall(method.descriptor)):
                texts.add(method.descriptor)
    # Known texts are lines.
    one_line = {text for text in texts if text and "\n" not in text}
    return Opened(one_line, [pattern for pattern in matchers if pattern not in matched])


def names_in(program: Program, recording: str) -> Names:
    """The names of code in a recording that the program has accepted."""
    names = Names(set(), set(), set())
    types = {each.name for each in program.summary(recording)}
    for place in chunks_in(recording, "names"):
        chunk = _Chunk(Reader(program.classes(place), set()))
        chunk.read(place, types)
        chunk.add_to(names)
    return names


class _Chunk:
    """The constants of a chunk that name code, and the values in its events that do; of each what is at its paths."""

    def __init__(self, reader: Reader) -> None:
        self.reader = reader
        named = {*TEXT_AT, METHOD, CALLEE}
        self.named = {each.id: each.name for each in reader.classes.values() if each.name in named}
        self.constants: Dict[Reference, Dict[str, Leaf]] = {}
        self.callees: Set[Tuple[Leaf, ...]] = set()

    def read(self, chunk: str, types: AbstractSet[str]) -> None:
        """Reads a chunk of a recording that has events of these types only."""
        with open(chunk, "rb") as file:
            header = next(headers_of(file))
            kinds = dict(self._kinds(types))
            for kind, record, at in records_in(file, header) if kinds else ():
                if kind in kinds:
                    leaves = self.reader.read_event(kind, record, at)
                    for name in kinds[kind]:
                        self.callees.add(tuple(leaf for leaf in leaves if leaf[0].startswith(f"{name}.")))
            for place in reversed(list(checkpoints_of(file, header))):
                # The last constant with a class and a key counts.
                for reference, leaves in entries_in(self.reader, record_at(file, place)):
                    if reference[0] in self.named:
                        self.constants[reference] = {leaf[0]: leaf for leaf in leaves}

    def _kinds(self, types: AbstractSet[str]) -> Iterator[Tuple[int, List[str]]]:
        """Those of the event types with methods in their events, and the fields that have them."""
        for each in self.reader.classes.values():
            inside = (field for field in each.fields if not field.constant and not field.array)
            names = [field.name for field in inside if field.class_name == CALLEE]
            if names and each.name in types and each.is_event and each.id > 1 and each.name not in BASIC:
                yield each.id, names

    def add_to(self, names: Names) -> None:
        """Adds the names of the chunk."""
        for reference, leaves in self.constants.items():
            kind = self.named[reference[0]]
            if kind in (METHOD, CALLEE):
                self._add_method(leaves, names)
            elif kind in (CLASS, PACKAGE):
                text = self._text_of(reference)
                if text:
                    (names.classes if kind == CLASS else names.packages).add(text)
        for callee in self.callees:
            self._add_method({leaf[0].rpartition(".")[2]: leaf for leaf in callee}, names)

    def _add_method(self, leaves: Dict[str, Leaf], names: Names) -> None:
        texts = (self._text_of(leaves[path][1]) if path in leaves else "" for path in ("type", "name", "descriptor"))
        method = Method(*texts)
        if method.class_name:
            names.classes.add(method.class_name)
            names.methods.add(method)

    def _text_of(self, found: Union[str, int, Reference]) -> str:
        """The text to which a value leads, if it leads to one."""
        seen = set()
        while isinstance(found, tuple):
            path = TEXT_AT.get(self.named.get(found[0], ""))
            constant = self.constants.get(found, {})
            if found in seen or path not in constant:
                return ""
            seen.add(found)
            found = constant[path][1]
        return str(found)


def _matcher(pattern: str) -> "Pattern[str]":
    """What a pattern matches: * is any text, and ? one character. A slash is a dot, as in names."""
    marks = {"*": ".*", "?": "."}
    plain = pattern.replace("/", ".")
    return re.compile("".join(marks.get(character) or re.escape(character) for character in plain), re.DOTALL)


def _element(name: str) -> str:
    """The class of which an array is, or the class itself."""
    found = ARRAY.fullmatch(name)
    return found[1] if found else name


def _package(name: str) -> str:
    """The package of a class."""
    return _element(name).rpartition("/")[0]
