"""The values of events and constants: their strings, the numbers that are looked for, and what they refer to.

The program prints a constant wherever it is referred to, which for constants that share others can be more than any
memory holds. Here each is read once. The program must have accepted the chunk, so that no value is faulty.
"""

from collections import defaultdict
from typing import Callable, Collection, Container, DefaultDict, Dict, Iterable, Iterator, List, NamedTuple
from typing import Optional, Set, Tuple, Union

from kijorafe.integers import integer_at
from kijorafe.program import Class, Field

STRING = "java.lang.String"
# How many raw bytes a value has.
RAW = {"boolean": 1, "byte": 1, "float": 4, "double": 8}
# How many bits of an integer count.
BITS = {"short": 16, "char": 16, "int": 32, "long": 64}
# The classes whose values aren't made of fields.
BASIC = {*RAW, *BITS, STRING}

# The class and the key of a constant.
Reference = Tuple[int, int]
# What is at a path in a value.
Leaf = Tuple[str, Union[str, int, Reference]]
Take = Callable[[Leaf], None]


class Part(NamedTuple):
    """A field of a class, or the items of an array, at a path."""

    path: str
    kind: str
    class_id: int
    constant: bool
    array: bool


class Reader:
    """Reads the values of a chunk's classes; if fields are named, events only up to the last that leads to one."""

    def __init__(self, classes: Iterable[Class], numbers: Set[int], names: Optional[Container[str]] = None) -> None:
        self.classes = {each.id: each for each in classes}
        self.numbers = numbers
        self.strings = {each.id for each in self.classes.values() if each.name == STRING}
        self.is_whole = names is None
        # The classes whose constants may lead to what is read.
        self.needed = set(self.classes)
        # How many fields of an event are read, unless it is all of them.
        self._ends: Dict[int, int] = {}
        self._parts: Dict[Tuple[int, str], List[Part]] = {}
        if names is not None:
            leading = leading_to(names, self.classes.values())
            self.needed = leading | self.strings
            self._ends = {each.id: _end(each, names, leading) for each in self.classes.values()}

    def read_event(self, class_id: int, data: bytes, at: int) -> List[Leaf]:
        """What an event of this class has from the offset on."""
        leaves: List[Leaf] = []
        for part in self._parts_of(class_id, "")[: self._ends.get(class_id)]:
            at = self._read_part(part, data, at, leaves.append)
        return leaves

    def read(self, class_id: int, path: str, data: bytes, at: int, take: Take) -> int:
        """Passes on what a value of this class has at an offset; the offset after it."""
        name = self.classes[class_id].name
        if name in BASIC:
            return self._read_part(Part(path, name, class_id, False, False), data, at, take)
        for part in self._parts_of(class_id, path):
            at = self._read_part(part, data, at, take)
        return at

    def _parts_of(self, class_id: int, path: str) -> List[Part]:
        """The fields of a class at a path."""
        parts = self._parts.get((class_id, path))
        if parts is None:
            fields = self.classes[class_id].fields
            parts = [part_of(f"{path}.{field.name}" if path else field.name, field) for field in fields]
            self._parts[class_id, path] = parts
        return parts

    def _read_part(self, part: Part, data: bytes, at: int, take: Take) -> int:
        path, kind, class_id, constant, array = part
        if array:
            count, at = integer_at(data, at)
            item = Part(path + "[]", kind, class_id, constant, False)
            for _ in range(count):
                at = self._read_part(item, data, at, take)
            return at
        if constant:
            key, at = integer_at(data, at)
            take((path, (class_id, key)))
            return at
        if kind in BITS:
            number, at = integer_at(data, at)
            return self._take_number(signed(number, kind), path, at, take) if self.numbers else at
        if kind == STRING:
            return _read_string(part, data, at, take)
        if kind == "byte":
            return self._take_number(data[at] - 256 if data[at] > 127 else data[at], path, at + 1, take)
        if kind in RAW:
            return at + RAW[kind]
        return self.read(class_id, path, data, at, take)

    def _take_number(self, number: int, path: str, at: int, take: Take) -> int:
        if number in self.numbers:
            take((path, number))
        return at


def leading_to(names: Container[str], classes: Collection[Class]) -> Set[int]:
    """The classes with a field of one of these names, and those from whose fields one is reached."""
    above: DefaultDict[int, List[int]] = defaultdict(list)
    for each in classes:
        for field in each.fields:
            above[field.class_id].append(each.id)
    leading: Set[int] = set()
    further = [each.id for each in classes if any(field.name in names for field in each.fields)]
    while further:
        class_id = further.pop()
        if class_id not in leading:
            leading.add(class_id)
            further += above[class_id]
    return leading


def _end(of: Class, names: Container[str], leading: Set[int]) -> int:
    """How many fields a class has up to the last that has one of these names, or is of a class that leads to one."""
    ends = (n for n, field in enumerate(of.fields, 1) if field.name in names or field.class_id in leading)
    return max(ends, default=0)


def part_of(path: str, field: Field) -> Part:
    """A field at a path."""
    return Part(path, field.class_name, field.class_id, field.constant, field.array)


def signed(number: int, kind: str) -> int:
    """The number that the low bits of an integer are."""
    bits = BITS[kind]
    number &= (1 << bits) - 1
    return number - (1 << bits) if kind != "char" and number >> (bits - 1) else number


def _read_string(part: Part, data: bytes, at: int, take: Take) -> int:
    if data[at] == 2:
        key, at = integer_at(data, at + 1)
        take((part.path, (part.class_id, key)))
        return at
    text, after = string_at(data, at)
    if data[at] != 0:
        take((part.path, text))
    return after


def string_at(data: bytes, at: int) -> Tuple[str, int]:
    """The text of a string that isn't a key, and the offset after it. That of null is empty."""
    kind = data[at]
    if kind < 2:
        return "", at + 1
    count, at = integer_at(data, at + 1)
    if kind == 4:
        units = bytearray()
        for _ in range(count):
            unit, at = integer_at(data, at)
            units += (unit & 0xFFFF).to_bytes(2, "little")
        return units.decode("utf-16-le", "replace"), at
    return data[at : at + count].decode("utf-8" if kind == 3 else "latin-1", "replace"), at + count


def entries_in(reader: Reader, checkpoint: bytes) -> Iterator[Tuple[Reference, List[Leaf]]]:
    """The constants of a checkpoint's record, in order, and what each has."""
    at = 0
    for _ in ("size", "type", "start", "duration", "delta"):
        _, at = integer_at(checkpoint, at)
    pools, at = integer_at(checkpoint, at + 1)
    for _ in range(pools):
        class_id, at = integer_at(checkpoint, at)
        count, at = integer_at(checkpoint, at)
        for _ in range(count):
            key, at = integer_at(checkpoint, at)
            leaves: List[Leaf] = []
            at = reader.read(class_id, "", checkpoint, at, leaves.append)
            yield (class_id, key), leaves
