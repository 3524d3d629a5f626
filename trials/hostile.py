#!/usr/bin/env python3
"""Makes a recording that asks for more than its size: hostile.py OUT KIND [SIZE], or hostile.py without words for the kinds

The recording is spelled by the rules of docs/FORMAT.md, with all sizes, positions and deltas true unless its kind
says otherwise. SIZE scales what is large in it, from 0 to 1; without it 1, so that the largest recordings are chunks
of the greatest size. Writes the recording to OUT and prints nothing; the status is 1 where there is no such kind.
A kind whose name begins with text_ makes a text for the command `build` instead, one that begins with patterns_ is for
long patterns, and one that begins with known_ for files of known texts.
"""
import math
import struct
import sys

HEADER = 68
GREATEST = 2**28 - 1
# The size that no chunk may exceed. Only a kind that says so has chunks above the one before.
LIMIT = 2**30 - 1
MOST = 2**64 - 1

# The ids of the classes that most kinds share.
LONG, STRING, BYTE, THREAD, CATEGORY, NOTHING, NODE, EVENT = 10, 11, 12, 13, 14, 15, 16, 20
# Those of stacks.
TRACE, FRAME, METHOD, TYPE, SYMBOL = 21, 22, 23, 24, 25


def integer(value, width=1):
    """An integer in as few bytes as it takes, or in `width` where that is more."""
    value &= MOST
    groups = bytearray()
    while len(groups) < 8 and (value > 0x7F or len(groups) + 1 < width):
        groups.append(value & 0x7F | 0x80)
        value >>= 7
    groups.append(value)
    return bytes(groups)


def text(characters):
    encoded = characters.encode()
    return b"\x03" + integer(len(encoded)) + encoded


def key_text(key):
    return b"\x02" + integer(key)


def record(kind, body):
    """A record; its size counts the bytes of the size itself."""
    rest = integer(kind) + body
    width = 1
    while len(integer(len(rest) + width)) > width:
        width += 1
    return integer(len(rest) + width, width) + rest


def checkpoint(pools=(), delta=0, width=1):
    """A checkpoint of pools, each a class and its spelled entries; its delta in at least this many bytes."""
    body = b"\0\0" + integer(delta, width) + b"\0" + integer(len(pools))
    return record(1, body + b"".join(integer(of) + entries for of, entries in pools))


def pool(of, entries):
    """A pool of keys with their spelled values."""
    return of, integer(len(entries)) + b"".join(integer(key) + value for key, value in entries)


class Strings:
    """The strings of a metadata record, each once."""

    def __init__(self):
        self.places, self.spelled = {}, []

    def at(self, characters):
        if characters not in self.places:
            self.places[characters] = integer(len(self.spelled))
            self.spelled.append(text(characters))
        return self.places[characters]


def element(strings, name, attributes=(), children=()):
    """An element; of its attributes each is a pair of texts, and its children are spelled."""
    return b"".join(
        [strings.at(name), integer(len(attributes))]
        + [strings.at(part) for attribute in attributes for part in attribute]
        + [integer(len(children)), *children]
    )


def field(strings, name, of, constant=False, array=False):
    marks = [("constantPool", "true")] * constant + [("dimension", "1")] * array
    return element(strings, "field", [("name", name), ("class", str(of)), *marks])


def class_(strings, name, id, children=(), event=False):
    above = [("superType", "jdk.jfr.Event")] * event
    return element(strings, "class", [("name", name), ("id", str(id)), *above], children)


def metadata_of(strings, root):
    body = b"\0\0\1" + integer(len(strings.spelled)) + b"".join(strings.spelled) + root
    return record(0, body)


def metadata(make=lambda strings: []):
    """A metadata record of the shared classes and those that `make` spells."""
    strings = Strings()
    of = strings
    shared = [
        class_(of, "long", LONG),
        class_(of, "java.lang.String", STRING),
        class_(of, "byte", BYTE),
        class_(of, "java.lang.Thread", THREAD, [field(of, "javaName", STRING)]),
        class_(of, "jdk.jfr.Category", CATEGORY),
        class_(of, "t.Nothing", NOTHING),
        class_(of, "t.Node", NODE, [field(of, "next", NODE, constant=True), field(of, "text", STRING)]),
    ]
    classes = element(of, "metadata", [], shared + make(of))
    return metadata_of(of, element(of, "root", [], [classes]))


def event_class(*fields, annotations=()):
    """What makes the event class t.E of fields, each a name, a class and its marks."""
    def make(strings):
        children = [field(strings, name, of, **marks) for name, of, marks in fields]
        children += [element(strings, "annotation", [("class", str(CATEGORY)), *values]) for values in annotations]
        return [class_(strings, "t.E", EVENT, children, event=True)]
    return make


def chunk(described, records=b"", last=None, at=None, most=GREATEST):
    """A chunk: a metadata record, more records, and a checkpoint that begins the chain unless `at` says where it does."""
    last = checkpoint() if last is None else last
    body = described + records + last
    chain = HEADER + len(described) + len(records) if at is None else at
    size = HEADER + len(body)
    assert size <= most, size
    numbers = struct.pack(">HHQQQQQQQ", 2, 1, size, chain, HEADER, 1000, 5, 0, 10**9)
    return b"FLR\0" + numbers + b"\0\0\0\1" + body


def count(full, size):
    return max(2, int(full * size))


def left(size, *parts):
    """How many bytes a chunk of this scale has left beside these parts, an empty checkpoint and the integers of sizes."""
    return max(64, count(GREATEST, size) - HEADER - sum(map(len, parts)) - 64)


# Chunks that are full of something small.


def constants(size):
    """Constants of one byte each: keys of a class without fields."""
    described = metadata(event_class())
    many = left(size, described)
    return chunk(described, last=checkpoint([(NOTHING, integer(many) + b"\1" * many)]))


def distinct_constants(size):
    """Constants of four bytes each, every key another one."""
    described = metadata(event_class())
    blocks = max(1, left(size, described) // 65536)
    block = bytearray(b for high in range(128) for low in range(128) for b in (low | 0x80, high | 0x80, 0x80, 0))
    if size < 0.001:
        blocks, block = 1, block[: left(size, described) // 4 * 4]
    entries = []
    for number in range(blocks):
        block[2::4] = bytes([number % 128 | 0x80]) * (len(block) // 4)
        block[3::4] = bytes([number // 128]) * (len(block) // 4)
        entries.append(bytes(block))
    many = integer(blocks * len(block) // 4)
    return chunk(described, last=checkpoint([(NOTHING, many + b"".join(entries))]))


def events(size):
    """Events of two bytes each, of a class without fields."""
    described = metadata(event_class())
    return chunk(described, record(EVENT, b"") * (left(size, described) // 2))


def checkpoints(size):
    """Empty checkpoints in the chain, of 15 bytes each."""
    described = metadata(event_class())
    first, later = checkpoint(width=9), checkpoint(delta=-15)
    return chunk(described, first + later * (left(size, described) // 15 - 2), later)


def inert_checkpoints(size):
    """Checkpoints outside of the chain, of two bytes each: their bodies aren't read."""
    described = metadata(event_class())
    return chunk(described, record(1, b"") * (left(size, described) // 2))


def inert_empty_checkpoints(size):
    """Empty checkpoints outside of the chain, of seven bytes each."""
    described = metadata(event_class())
    return chunk(described, checkpoint() * (left(size, described) // 7))


def pools(size):
    """One checkpoint with empty pools of two bytes each."""
    described = metadata(event_class())
    many = left(size, described) // 2
    return chunk(described, last=record(1, b"\0\0\0\0" + integer(many) + bytes([NOTHING, 0]) * many))


def references(size):
    """An event with an array of references of one byte each to one constant."""
    described = metadata(event_class(("all", NOTHING, {"constant": True, "array": True})))
    many = left(size, described)
    event = record(EVENT, integer(many) + b"\1" * many)
    return chunk(described, event, checkpoint([pool(NOTHING, [(1, b"")])]))


def array(size):
    """An event with an array of bytes."""
    described = metadata(event_class(("all", BYTE, {"array": True})))
    many = left(size, described)
    return chunk(described, record(EVENT, integer(many) + b"\1" * many))


def array_short(size):
    """An event with an array of bytes, of which the last isn't there."""
    described = metadata(event_class(("all", BYTE, {"array": True})))
    many = left(size, described)
    return chunk(described, record(EVENT, integer(many + 1) + b"\1" * many))


# Masked texts.


def texts_of(texts):
    """A chunk with an event for each of these spelled texts."""
    described = metadata(event_class(("text", STRING, {})))
    events = b"".join(record(EVENT, spelled) for spelled in texts)
    return chunk(described, events)


def distinct_texts(size):
    """A million events, each with another text."""
    return texts_of(text("text %d" % n) for n in range(count(10**6, size)))


def equal_texts(size):
    """A million events with the same text."""
    return texts_of(text("the same text") for _ in range(count(10**6, size)))


def long_masked_text(size):
    """An event with a text of 100 megabytes."""
    return texts_of([text("t" * count(10**8, size))])


def key_chain(size):
    """A million events with the same text, to which a chain of 16 keys leads."""
    described = metadata(event_class(("text", STRING, {})))
    links = [(n, key_text(n + 1)) for n in range(1, 16)] + [(16, text("the text"))]
    return chunk(described, record(EVENT, key_text(1)) * count(10**6, size), checkpoint([pool(STRING, links)]))


def known_texts(size):
    """Four times 250,000 events, whose texts are the numbers from 0, in seven digits."""
    return texts_of([text("%07d" % n) for n in range(count(250000, size))] * 4)


def known_alike(size):
    """250,000 events, whose texts are the same 300 characters and such a number."""
    return texts_of(text("a" * 300 + "%07d" % n) for n in range(count(250000, size)))


# Metadata.


def strings(size):
    """Metadata with null strings, of one byte each."""
    of = Strings()
    root = element(of, "root", [], [element(of, "metadata")])
    spelled = b"".join(of.spelled)
    many = left(size, root, spelled)
    body = b"\0\0\1" + integer(len(of.spelled) + many) + spelled + b"\0" * many + root
    return chunk(record(0, body))


def elements(size):
    """Metadata with elements of three bytes each, without attributes and children."""
    of = Strings()
    classes, empty = element(of, "metadata"), element(of, "root")
    many = left(size, classes) // 3
    root = of.at("root") + b"\0" + integer(many + 1) + classes + empty * many
    return chunk(metadata_of(of, root))


def attributes(size):
    """Metadata with one element that has attributes of two bytes each."""
    of = Strings()
    classes = element(of, "metadata")
    many = left(size, classes) // 2
    root = of.at("root") + integer(many) + of.at("root") * 2 * many + integer(1) + classes
    return chunk(metadata_of(of, root))


def long_key(size):
    """A key of a megabyte that a class, a field and an annotation each have a million times."""
    def make(of):
        many = count(2**20, size)
        pairs = (of.at("k" * many) + of.at("v")) * many

        def repeated(name, firsts, children=()):
            given = b"".join(of.at(part) for first in firsts for part in first)
            return of.at(name) + integer(len(firsts) + many) + given + pairs + integer(len(children)) + b"".join(children)

        inner = repeated("field", [("name", "n"), ("class", str(LONG))])
        annotation = repeated("annotation", [("class", str(CATEGORY)), ("value-0", "c")])
        above = ("superType", "jdk.jfr.Event")
        return [repeated("class", [("name", "t.E"), ("id", str(EVENT)), above], [inner, annotation])]
    return chunk(metadata(make), record(EVENT, integer(300)))


def long_names(size):
    """A name of four megabytes that fields of 2^18 classes have."""
    def make(of):
        name, one = "n" * count(2**22, size), [("name", "t.C")]
        many = count(2**18, size)
        return [element(of, "class", one + [("id", str(100 + n))], [field(of, name, LONG)]) for n in range(many)]
    return chunk(metadata(make))


def alike_fields(size):
    """2^18 classes with fields of the same two names of two megabytes, which differ only in their last letter."""
    def make(of):
        long, one = "n" * count(2**21, size), [("name", "t.C")]
        both = [field(of, long + last, LONG) for last in "ab"]
        return [element(of, "class", one + [("id", str(100 + n))], both) for n in range(count(2**18, size))]
    return chunk(metadata(make))


def classes(size):
    """2^20 event classes, and an event of each."""
    many = count(2**20, size)
    described = metadata(lambda of: [class_(of, "t.C%d" % n, 100 + n, event=True) for n in range(many)])
    return chunk(described, b"".join(record(100 + n, b"") for n in range(many)))


def patterns_classes(size):
    """500,000 event classes with names as the JDK's, and an event of each."""
    many = count(500000, size)
    described = metadata(lambda of: [class_(of, "jdk.t.C%d" % n, 100 + n, event=True) for n in range(many)])
    return chunk(described, b"".join(record(100 + n, b"") for n in range(many)))


def patterns_name(size):
    """An event class with a name of a megabyte, and an event."""
    name = "a" * count(2**20, size)
    return chunk(metadata(lambda of: [class_(of, name, EVENT, event=True)]), record(EVENT, b""))


def same_names(size):
    """10,000 event classes of one name, and a hundred events of each."""
    many = count(10000, size)
    described = metadata(lambda of: [class_(of, "t.C", 100 + n, event=True) for n in range(many)])
    return chunk(described, b"".join(record(100 + n, b"") for n in range(many)) * 100)


def fields(size):
    """An event class with 2^20 fields."""
    many = count(2**20, size)
    described = metadata(event_class(*[("f%d" % n, BYTE, {}) for n in range(many)]))
    return chunk(described, record(EVENT, b"\1" * many) * 10)


def categories(size):
    """An event class with a million categories."""
    values = [("value-%d" % n, "a%d" % n) for n in range(count(10**6, size))]
    return chunk(metadata(event_class(annotations=[values])), record(EVENT, b"") * 1000)


def long_categories(size):
    """An event class with 2^18 categories of one text of a megabyte."""
    long = "c" * count(2**20, size)
    values = [("value-%d" % n, long) for n in range(count(2**18, size))]
    return chunk(metadata(event_class(annotations=[values])), record(EVENT, b"") * 1000)


def long_class_names(size):
    """2^16 event classes of one name of a megabyte, which is their category too."""
    def make(of):
        long = "n" * count(2**20, size)
        category = element(of, "annotation", [("class", str(CATEGORY)), ("value-0", long)])
        return [class_(of, long, 100 + n, [category], event=True) for n in range(count(2**16, size))]
    return chunk(metadata(make))


def alike_classes(size):
    """2^17 event classes of two names of two megabytes, which differ only in their last letter, and an event of each."""
    many, names = count(2**17, size), ["n" * count(2**21, size) + last for last in "ab"]
    described = metadata(lambda of: [class_(of, names[n % 2], 100 + n, event=True) for n in range(many)])
    return chunk(described, b"".join(record(100 + n, b"") for n in range(many)))


def inline(steps, *last, wide=False):
    """The classes of a chain of this many inline steps, of which the first is of events; the field of the last."""
    def make(of):
        inner = [class_(of, "t.L%d" % steps, 100 + steps, [field(of, *last)])]
        for step in range(steps):
            below = [field(of, name, 101 + step) for name in ("a", "b")[: 1 + wide]]
            inner.append(class_(of, "t.L%d" % step, EVENT if step == 0 else 100 + step, below, event=step == 0))
        return inner
    return metadata(make)


def inline_32(size):
    """A chain of 32 inline steps, and a million events."""
    return chunk(inline(32, "n", BYTE), record(EVENT, b"\1") * count(10**6, size))


def inline_33(size):
    """A chain of 33 inline steps, one too many."""
    return chunk(inline(33, "n", BYTE), record(EVENT, b"\1") * count(10**6, size))


def inline_wide(size):
    """A chain of 32 inline steps with two fields at each, so that an event, of which there is none, would have 2^32 bytes."""
    return chunk(inline(32, "n", BYTE, wide=True))


def inline_array(size):
    """An event with an array of bytes at the end of a chain of 32 inline steps."""
    described = inline(32, "n", BYTE, False, True)
    many = left(size, described)
    return chunk(described, record(EVENT, integer(many) + b"\1" * many))


# Constants.


def ring(size):
    """200,000 constants in a ring, and an event that refers to one."""
    many = count(200000, size)
    nodes = [(n, integer((n + 1) % many) + b"\1") for n in range(many)]
    described = metadata(event_class(("node", NODE, {"constant": True})))
    return chunk(described, record(EVENT, b"\0"), checkpoint([pool(NODE, nodes)]))


def string_ring(size):
    """200,000 strings in a ring, each the key of the next; events and threads refer to them."""
    many = count(200000, size)
    links = [(n, key_text((n + 1) % many)) for n in range(many)]
    threads = [(n, key_text(n)) for n in range(many)]
    described = metadata(event_class(("text", STRING, {}), ("eventThread", THREAD, {"constant": True})))
    held = b"".join(record(EVENT, key_text(n) + integer(n)) for n in range(many))
    return chunk(described, held, checkpoint([pool(STRING, links), pool(THREAD, threads)]))


def fan(size):
    """Ten arrays of a thousand references each, to one another in order, so that each is shown a thousand times as often."""
    many = count(1000, size)
    described = metadata(lambda of: [
        class_(of, "t.Fan", 30, [field(of, "all", 30, constant=True, array=True)]),
        class_(of, "t.E", EVENT, [field(of, "fan", 30, constant=True)], event=True),
    ])
    fans = [(n, integer(many) + integer(n + 1) * many) for n in range(10)]
    return chunk(described, record(EVENT, b"\0"), checkpoint([pool(30, fans)]))


def chain(size):
    """50,000 chained checkpoints with a constant each, of one key."""
    described = metadata(event_class(("node", NODE, {"constant": True})))
    node = pool(NODE, [(1, b"\1" + text("n"))])
    first, later = checkpoint([node], width=9), checkpoint([node], delta=-1)
    later = checkpoint([node], delta=-len(later))
    return chunk(described, record(EVENT, b"\1") + first + later * (count(50000, size) - 2), later)


def thread_name(size):
    """A thread with a name of 100 megabytes, and ten events of it."""
    described = metadata(event_class(("eventThread", THREAD, {"constant": True})))
    threads = pool(THREAD, [(1, text("a" * count(10**8, size)))])
    return chunk(described, record(EVENT, b"\1") * 10, checkpoint([threads]))


def shared_name(size):
    """A name of a megabyte that 100,000 threads have, each with an event."""
    described = metadata(event_class(("eventThread", THREAD, {"constant": True})))
    many = count(100000, size)
    threads = pool(THREAD, [(n, key_text(1)) for n in range(many)])
    name = pool(STRING, [(1, text("a" * count(10**6, size)))])
    return chunk(described, b"".join(record(EVENT, integer(n)) for n in range(many)), checkpoint([threads, name]))


def shared_text(size):
    """A string of a megabyte to which 100,000 events refer."""
    described = metadata(event_class(("text", STRING, {})))
    name = pool(STRING, [(1, text("\u0001" * count(10**6, size)))])
    return chunk(described, record(EVENT, key_text(1)) * count(100000, size), checkpoint([name]))


# Stacks. A frame is one byte, the key of its method.


def stack_classes(of):
    """The classes of stacks, which lead from event to names as the JDK's do, and one of events that have a stack."""
    return [
        class_(of, "t.Trace", TRACE, [field(of, "frames", FRAME, array=True)]),
        class_(of, "t.Frame", FRAME, [field(of, "method", METHOD, constant=True)]),
        class_(of, "t.Method", METHOD, [field(of, "type", TYPE, constant=True), field(of, "name", SYMBOL, constant=True)]),
        class_(of, "t.Type", TYPE, [field(of, "name", SYMBOL, constant=True)]),
        class_(of, "t.Symbol", SYMBOL, [field(of, "string", STRING)]),
        class_(of, "t.E", EVENT, [field(of, "stackTrace", TRACE, constant=True)], event=True),
    ]


def stacked(traces, names, most=GREATEST):
    """A chunk of these spelled traces, each with an event, and of a method of one class for each of these names."""
    keys = range(1, len(names) + 1)
    return chunk(metadata(stack_classes), b"".join(record(EVENT, integer(n)) for n in range(len(traces))), checkpoint([
        pool(TRACE, list(enumerate(traces))),
        pool(METHOD, [(key, b"\1" + integer(key)) for key in keys]),
        pool(TYPE, [(1, b"\1")]),
        pool(SYMBOL, [(key, text(name)) for key, name in zip(keys, names)]),
    ]), most=most)


def stacks(size):
    """A million stacks of a thousand frames, all different, in a chunk of nearly 2^30 bytes."""
    above = integer(1000) + b"\1" * 997
    numbers = (bytes([n // 10000 + 1, n // 100 % 100 + 1, n % 100 + 1]) for n in range(count(10**6, size)))
    return stacked([above + number for number in numbers], ["m%d" % n for n in range(100)], LIMIT)


def long_stack(size):
    """One stack, of 2^28 frames."""
    many = count(2**28 - 2000, size)
    return stacked([integer(many) + b"\1" * many], ["m"])


def long_methods(size):
    """A hundred stacks of up to 10,000 frames, all of a method whose name has a megabyte."""
    depths = [max(1, count(10000, size) - n) for n in range(100)]
    return stacked([integer(depth) + b"\1" * depth for depth in depths], ["m" * count(10**6, size)])


def frame_ring(size):
    """Ten stacks of the same 200,000 frames in a ring, which have methods with names that are strings in a ring."""
    many = count(200000, size)
    described = metadata(lambda of: [
        class_(of, "t.Trace", TRACE, [field(of, "frames", FRAME, constant=True, array=True)]),
        class_(of, "t.Frame", FRAME, [field(of, "method", METHOD, constant=True), field(of, "next", FRAME, constant=True)]),
        class_(of, "t.Method", METHOD, [field(of, name, of_id, constant=True) for name, of_id in (
            ("type", TYPE), ("name", SYMBOL), ("frame", FRAME))]),
        class_(of, "t.Type", TYPE, [field(of, "name", SYMBOL, constant=True)]),
        class_(of, "t.Symbol", SYMBOL, [field(of, "string", STRING)]),
        class_(of, "t.E", EVENT, [field(of, "stackTrace", TRACE, constant=True)], event=True),
    ])
    numbers = range(many)
    keys = [integer(n) for n in numbers]
    after = keys[1:] + keys[:1]
    trace = integer(many) + b"".join(keys)
    return chunk(described, b"".join(record(EVENT, integer(n)) for n in range(10)), checkpoint([
        pool(TRACE, [(n, trace) for n in range(10)]),
        pool(FRAME, [(n, keys[n] + after[n]) for n in numbers]),
        pool(METHOD, [(n, keys[n] * 2 + after[n]) for n in numbers]),
        pool(TYPE, [(n, keys[n]) for n in numbers]),
        pool(SYMBOL, [(n, b"\2" + keys[n]) for n in numbers]),
        pool(STRING, [(n, b"\2" + after[n]) for n in numbers]),
    ]))


def late(of, name, to, size):
    """Many fields, and then one with this name."""
    return [field(of, "f%d" % n, BYTE) for n in range(count(50000, size))] + [field(of, name, to, constant=True)]


def late_names(size):
    """A stack of 200,000 methods of a class whose name comes after 50,000 fields, as does the string of each name."""
    many = count(200000, size)
    described = metadata(lambda of: [
        class_(of, "t.Trace", TRACE, [field(of, "frames", FRAME, array=True)]),
        class_(of, "t.Frame", FRAME, [field(of, "method", METHOD, constant=True)]),
        class_(of, "t.Method", METHOD, [field(of, "type", TYPE, constant=True), field(of, "name", SYMBOL, constant=True)]),
        class_(of, "t.Type", TYPE, late(of, "name", SYMBOL, size)),
        class_(of, "t.Symbol", SYMBOL, late(of, "string", STRING, size)),
        class_(of, "t.E", EVENT, [field(of, "stackTrace", TRACE, constant=True)], event=True),
    ])
    first = b"\0" * count(50000, size)
    return chunk(described, record(EVENT, b"\0"), checkpoint([
        pool(TRACE, [(0, integer(many) + b"".join(integer(n) for n in range(many)))]),
        pool(METHOD, [(n, b"\0\0") for n in range(many)]),
        pool(TYPE, [(0, first + b"\0")]),
        pool(SYMBOL, [(0, first + b"\0")]),
        pool(STRING, [(0, text("m"))]),
    ]))


def late_method(size):
    """A stack of 200,000 references to one frame, whose method comes after 50,000 fields."""
    many = count(200000, size)
    described = metadata(lambda of: [
        class_(of, "t.Trace", TRACE, [field(of, "frames", FRAME, constant=True, array=True)]),
        class_(of, "t.Frame", FRAME, late(of, "method", METHOD, size)),
        class_(of, "t.Method", METHOD, [field(of, "type", TYPE, constant=True), field(of, "name", SYMBOL, constant=True)]),
        class_(of, "t.Type", TYPE, [field(of, "name", SYMBOL, constant=True)]),
        class_(of, "t.Symbol", SYMBOL, [field(of, "string", STRING)]),
        class_(of, "t.E", EVENT, [field(of, "stackTrace", TRACE, constant=True)], event=True),
    ])
    return chunk(described, record(EVENT, b"\0"), checkpoint([
        pool(TRACE, [(0, integer(many) + b"\0" * many)]),
        pool(FRAME, [(0, b"\0" * count(50000, size) + b"\0")]),
        pool(METHOD, [(0, b"\0\0")]),
    ]))


# Constants that all are used, for new keys.


def used(values, most=LIMIT):
    """A chunk with constants of these spelled strings, with the keys from 0, and an event that refers to each."""
    described = metadata(event_class(("all", STRING, {"constant": True, "array": True})))
    keys = [integer(key) for key in range(len(values))]
    event = record(EVENT, integer(len(keys)) + b"".join(keys))
    return chunk(described, event, checkpoint([pool(STRING, list(enumerate(values)))]), most=most)


def equal_constants(size):
    """Two million equal strings of a byte."""
    return used([text("a")] * count(2 * 10**6, size))


def alike_constants(size):
    """Two million strings that begin with the same 300 characters."""
    return used([text("a" * 300 + "%07d" % n) for n in range(count(2 * 10**6, size))])


def equal_megabytes(size):
    """A thousand equal strings of a megabyte."""
    return used([text("a" * count(10**6, size))] * 1000)


def alike_megabytes(size):
    """A thousand strings of a megabyte, which differ in their last characters."""
    return used([text("a" * count(10**6, size) + "%03d" % n) for n in range(1000)])


def chunks(size):
    """100,000 small chunks."""
    of = Strings()
    return chunk(metadata_of(of, element(of, "root", [], [element(of, "metadata")]))) * count(100000, size)


# Small ones, in which one integer or the end of the chunk is wrong.


def delta_self(size):
    """A delta to the checkpoint itself: 0, in nine bytes, which ends the chain."""
    return chunk(metadata(event_class()), checkpoint(), checkpoint(width=9))


def delta_forward(size):
    """Two checkpoints, of which each has a delta to the other."""
    described = metadata(event_class())
    later = checkpoint(delta=-7)
    return chunk(described, checkpoint(delta=7), later)


def delta_amid(size):
    """A delta into the midst of an earlier checkpoint."""
    return chunk(metadata(event_class()), checkpoint(), checkpoint(delta=-6))


def counted(place):
    """The greatest integer as a count in this place, with nothing of what it counts but a few bytes."""
    of = Strings()
    root = element(of, "root", [], [element(of, "metadata")])
    most, few = integer(MOST), b"\0" * 16
    spelled = b"".join(of.spelled)
    strung = integer(len(of.spelled)) + spelled
    bodies = {
        "strings": b"\0\0\1" + most + few + root,
        "string": b"\0\0\1" + integer(len(of.spelled) + 1) + spelled + b"\3" + most + few,
        "attributes": b"\0\0\1" + strung + of.at("root") + most + few,
        "children": b"\0\0\1" + strung + of.at("root") + b"\0" + most + few,
    }
    if place in bodies:
        return chunk(record(0, bodies[place]))
    described = metadata(event_class(("all", BYTE, {"array": True}), ("text", STRING, {})))
    if place == "pools":
        return chunk(described, last=record(1, b"\0\0\0\0" + most + bytes([NOTHING, 0]) * 8))
    if place == "entries":
        return chunk(described, last=checkpoint([(NOTHING, most + few)]))
    held = {"items": most + few, "bytes": b"\0\3" + most + few, "units": b"\0\4" + most + few, "characters": b"\0\5" + most + few}
    return chunk(described, record(EVENT, held[place]))


def cut(kind):
    """An event that ends the chunk in the midst of its string."""
    described = metadata(event_class(("text", STRING, {})))
    held = {"kind": b"", "key": b"\2\x80", "utf8": b"\3\5abcd", "utf16": b"\4\3ab\x80", "latin1": b"\5\x05abcd", "length": b"\3\x80"}
    return chunk(described, checkpoint(), record(EVENT, held[kind]), at=HEADER + len(described))


# Texts for `build`.


def text_of(*lines):
    """A text of lines, some of which are already joined by newlines."""
    return "\n".join(lines).encode() + b"\n"


def numbered(form, many):
    """Lines of this form with the numbers from 0 on."""
    return "\n".join(form % n for n in range(many))


EVENT_OF_LONGS = "class %d long\nevent %d t.E\nfield all %d a" % (LONG, EVENT, LONG)
EVENT_OF_TEXT = "class %d java.lang.String\nevent %d t.E\nfield text %d -" % (STRING, EVENT, STRING)


def text_records(size):
    """A million records with one number each."""
    head = "class %d long\nevent %d t.E\nfield n %d -" % (LONG, EVENT, LONG)
    return text_of(head, numbered("record %d %%d" % EVENT, count(10**6, size)))


def text_empty_records(size):
    """Ten million records without leaves, each of as few bytes as a line can have."""
    return text_of("event 2 t.E", "\n".join(["record 2"] * count(10**7, size)))


def text_constants(size):
    """A million constants of a class, each a reference of nine bytes."""
    head = "class %d t.Node\nfield next %d c" % (NODE, NODE)
    return text_of(head, numbered("constant %d %%d #%d" % (NODE, 2**62), count(10**6, size)))


def text_classes(size):
    """A million event classes, and a record of each, in the reverse order."""
    many = count(10**6, size)
    records = "\n".join("record %d" % (100 + n) for n in reversed(range(many)))
    return text_of("\n".join("event %d t.C%d" % (100 + n, n) for n in range(many)), records)


def text_pools(size):
    """A million classes without fields, and a constant of each, in the reverse order."""
    many = count(10**6, size)
    constants = "\n".join("constant %d 1" % (100 + n) for n in reversed(range(many)))
    return text_of("\n".join("class %d t.C" % (100 + n) for n in range(many)), constants)


def text_turns(size):
    """A million constants of a thousand classes in turn, so that each line is of another pool than the one before."""
    many = range(round(math.sqrt(count(10**6, size))))
    classes = "\n".join("class %d t.C" % (100 + n) for n in many)
    return text_of(classes, "\n".join("constant %d %d" % (100 + n, key) for key in many for n in many))


def text_fields(size):
    """An event class with a million fields, and a record."""
    many = count(10**6, size)
    return text_of("class %d byte\nevent %d t.E" % (BYTE, EVENT), numbered("field f%%d %d -" % BYTE, many), "record %d%s" % (EVENT, " 1" * many))


def text_line(size):
    """A line of 100 megabytes, nearly all of it a quoted text."""
    return text_of(EVENT_OF_TEXT, 'record %d "%s"' % (EVENT, "a" * count(10**8, size)))


def text_escapes(size):
    """A quoted text of 100 megabytes in which each character is escaped."""
    return text_of(EVENT_OF_TEXT, 'record %d "%s"' % (EVENT, "\\u0020" * (count(10**8, size) // 6)))


def text_words(size):
    """A line of 100 megabytes with the items of an array."""
    many = count(10**8, size) // 2
    return text_of(EVENT_OF_LONGS, "record %d [%d%s" % (EVENT, many, " 1" * many))


def text_grows(size):
    """An array of numbers of nine bytes each, written in three, so that the chunk has more than 2^30 bytes."""
    many = count(2**30 // 9 + 1, size)
    return text_of(EVENT_OF_LONGS, "record %d [%d%s" % (EVENT, many, " -1" * many))


def text_newlines(size):
    """Nothing but newlines; at full size the longest text that isn't too large."""
    return b"\n" * (count(2**30, size) - 1)


def text_too_large(size):
    """Nothing but newlines, at full size one more than a text may have."""
    return b"\n" * count(2**30, size)


def text_names(size):
    """512 classes with different names of a megabyte each, at full size more than the metadata may have."""
    long = "n" * count(2**20, size)
    return text_of("\n".join("class %d %s%d" % (n, long, n) for n in range(512)))


def inline_text(steps, fields, *last):
    """The classes of a chain of this many inline steps with this many fields at each, the first of events; and these lines."""
    lines = ["class %d byte" % BYTE]
    for step in range(steps):
        lines.append("%s %d t.L%d" % ("class" if step else "event", 100 + step, step))
        lines += ["field f%d %d -" % (n, 101 + step) for n in range(fields)]
    return text_of(*lines, "class %d t.L%d\nfield n %d -" % (100 + steps, steps, BYTE), *last)


def text_inline_32(size):
    """A chain of 32 inline steps, and a million records."""
    return inline_text(32, 1, "\n".join(["record 100 1"] * count(10**6, size)))


def text_inline_33(size):
    """A chain of 33 inline steps, one too many, and a million records."""
    return inline_text(33, 1, "\n".join(["record 100 1"] * count(10**6, size)))


def text_inline_wide(size):
    """A chain of 20 inline steps with two fields at each, and a record with a million leaves."""
    steps = round(math.log2(count(2**20, size)))
    return inline_text(steps, 2, "record 100" + " 1" * 2**steps)


def text_inline_short(size):
    """A chain of 32 inline steps with two fields at each, and a record without most of its 2^32 leaves."""
    return inline_text(32, 2, "record 100" + " 1" * count(10**6, size))


def text_count(size):
    """The greatest count of an array, without items."""
    return text_of(EVENT_OF_LONGS, "record %d [%d" % (EVENT, 2**63 - 1))


def text_counts(size):
    """A million empty arrays in an array, and then one with the greatest count, but without items."""
    head = "class %d long\nclass %d t.Many\nfield all %d a\nevent %d t.E\nfield all %d a" % (LONG, NODE, LONG, EVENT, NODE)
    many = count(10**6, size)
    return text_of(head, "record %d [%d%s [%d" % (EVENT, 2**63 - 1, " [0" * many, 2**63 - 1))


def text_spaces(size):
    """A line of 100 megabytes of spaces, which are empty words."""
    return text_of(EVENT_OF_LONGS, "record %d [%d%s" % (EVENT, 2**63 - 1, " " * count(10**8, size)))


def text_not_utf8(size):
    """A line of 100 megabytes, of which the last character is cut."""
    return text_of(EVENT_OF_TEXT, "record %d \"%s" % (EVENT, "a" * count(10**8, size)))[:-1] + b"\xe2\x82"


TEXTS = {make.__name__: make for make in (
    text_records, text_empty_records, text_constants, text_classes, text_pools, text_turns, text_fields, text_line,
    text_escapes, text_words, text_grows, text_newlines, text_too_large, text_names, text_inline_32, text_inline_33,
    text_inline_wide, text_inline_short, text_count, text_counts, text_spaces, text_not_utf8,
)}
KINDS = {make.__name__: make for make in (
    constants, distinct_constants, events, checkpoints, inert_checkpoints, inert_empty_checkpoints, pools,
    references, array, array_short, strings, elements, attributes, long_key, long_names, alike_fields, classes,
    patterns_classes, patterns_name, same_names, fields, categories, long_categories, long_class_names, alike_classes, inline_32, inline_33,
    inline_wide, inline_array, ring, string_ring, fan, chain, thread_name, shared_name, shared_text,
    distinct_texts, equal_texts, long_masked_text, key_chain, known_texts, known_alike, stacks, long_stack, long_methods, frame_ring, late_names, late_method, equal_constants, alike_constants, equal_megabytes, alike_megabytes,
    chunks,
    delta_self, delta_forward, delta_amid,
)}
for place in ("strings", "string", "attributes", "children", "pools", "entries", "items", "bytes", "units", "characters"):
    KINDS["count_" + place] = lambda size, place=place: counted(place)
for place in ("kind", "key", "length", "utf8", "utf16", "latin1"):
    KINDS["cut_" + place] = lambda size, place=place: cut(place)


def main(words):
    all_kinds = {**KINDS, **TEXTS}
    if not words:
        print("\n".join(all_kinds))
        return 0
    if len(words) not in (2, 3) or words[1] not in all_kinds:
        print("usage: hostile.py OUT KIND [SIZE]", file=sys.stderr)
        return 1
    made = all_kinds[words[1]](float(words[2]) if len(words) == 3 else 1.0)
    with open(words[0], "wb") as file:
        file.write(made)
    return 0


if __name__ == "__main__":
    sys.exit(main(sys.argv[1:]))
