"""The texts of a recording by field: the name of a class, a dot, and the name of the field."""

from collections import Counter, defaultdict
from typing import Counter as Counts, DefaultDict, Dict, Iterable, List, Tuple, Union

from kijorafe.headers import checkpoints_of, headers_of, record_at
from kijorafe.program import Class, Field, Program
from kijorafe.strings import chunks_in, records_in
from kijorafe.values import BASIC, STRING, Leaf, Part, Reader, Reference, entries_in, part_of

# For each field, how often the recording has each text there.
Texts = DefaultDict[str, Counts[str]]


class FieldReader(Reader):
    """Reads values, and says of what it finds the field, in place of a path; events only up to their last text."""

    def __init__(self, classes: Iterable[Class]) -> None:
        super().__init__(classes, set())
        for class_id in self.classes:
            self._end(class_id)
        composite = (each for each in self.classes.values() if each.name not in BASIC)
        # The event types that have texts themselves.
        self.kinds = {each.id for each in composite if each.is_event and each.id > 1 and self._ends[each.id] > 0}

    def _end(self, class_id: int) -> int:
        """How many fields a class has up to the last with a text."""
        if class_id not in self._ends:
            fields = enumerate(self.classes[class_id].fields, 1)
            self._ends[class_id] = max((number for number, field in fields if self._has_text(field)), default=0)
        return self._ends[class_id]

    def _has_text(self, field: Field) -> bool:
        is_inside = field.class_name not in BASIC and not field.constant
        return field.class_name == STRING or (is_inside and self._end(field.class_id) > 0)

    def _parts_of(self, class_id: int, path: str) -> List[Part]:
        parts = self._parts.get((class_id, ""))
        if parts is None:
            of = self.classes[class_id]
            parts = [part_of(f"{of.name}.{field.name}", field) for field in of.fields]
            self._parts[class_id, ""] = parts
        return parts


class _Chunk:
    """What a chunk has at its fields, and its constants that are strings."""

    def __init__(self, reader: FieldReader) -> None:
        self.reader = reader
        self.found: Counts[Tuple[str, Union[str, int, Reference]]] = Counter()
        self.strings: Dict[Reference, Leaf] = {}

    def read(self, chunk: str) -> None:
        with open(chunk, "rb") as file:
            header = next(headers_of(file))
            for kind, record, at in records_in(file, header):
                if kind in self.reader.kinds:
                    self.take(self.reader.read_event(kind, record, at))
            for place in reversed(list(checkpoints_of(file, header))):
                for reference, leaves in entries_in(self.reader, record_at(file, place)):
                    if reference[0] not in self.reader.strings:
                        self.take(leaves)
                    elif leaves:
                        self.strings[reference] = leaves[0]

    def take(self, leaves: Iterable[Leaf]) -> None:
        for leaf in leaves:
            if not isinstance(leaf[1], tuple) or leaf[1][0] in self.reader.strings:
                self.found[leaf] += 1

    def text_of(self, value: Union[str, int, Reference]) -> str:
        """The text; a key leads to that of a constant, or to none."""
        seen = set()
        while isinstance(value, tuple):
            if value in seen or value not in self.strings:
                return ""
            seen.add(value)
            value = self.strings[value][1]
        return str(value)


def texts_by_field(program: Program, recording: str) -> Texts:
    """All texts but those of the metadata. The program must have accepted the recording."""
    texts: Texts = defaultdict(Counter)
    for place in chunks_in(recording, "texts"):
        chunk = _Chunk(FieldReader(program.classes(place)))
        chunk.read(place)
        for (field, value), count in chunk.found.items():
            texts[field.replace("[]", "")][chunk.text_of(value)] += count
    return texts
