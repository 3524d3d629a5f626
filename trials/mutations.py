"""Changes recordings and texts: what fuzz.py does to its inputs.

A recording is taken apart into chunks, and a chunk into its header and its records, each a type, a body, and whether it
is the metadata record or in the chain. `mutated` changes bytes, records, the strings and elements of the metadata, the
entries of pools and the values of events, and `joined` puts together what is left with true sizes, positions and deltas.
`mutated_text` changes lines, words and bytes of a text for `build`.
"""
import struct

import hostile

# What taking bytes apart raises where they aren't what they are taken for.
NOT_SO = (IndexError, KeyError, TypeError, ValueError, RecursionError, struct.error)
LIMITS = [0, 1, 2, 5, 127, 128, 255, 256, 16383, 16384, 65535, 65536, 2**21, 2**28 - 1, 2**28, 2**31 - 1, 2**31,
          2**32 - 1, 2**32, 2**53, 2**62, 2**63 - 1, 2**63, 2**64 - 1]
BYTES = [0, 1, 2, 3, 4, 5, 6, 0x22, 0x5C, 0x7F, 0x80, 0x81, 0xC0, 0xE2, 0xED, 0xF4, 0xFF]
WORDS = ["", "0", "1", "2", "true", "false", "5", "10", "11", "20", "101", "9223372036854775807", "9223372036854775808",
         "0000000000000000020", "long", "int", "boolean", "double", "float", "char", "short", "byte", "java.lang.String",
         "jdk.jfr.Event", "jdk.jfr.Category", "name", "id", "class", "field", "annotation", "superType", "dimension",
         "constantPool", "value", "value-0", "value-1", "eventThread", "javaName", "startTime", "duration", "metadata",
         "\u0000", "\"\\\u007f", "\U0001F600"]

# Words of a text for `build`, right and wrong ones.
TEXT_WORDS = ["", "-", "c", "a", "ca", "ac", "class", "event", "field", "constant", "record", "0", "-0", "1", "-1", "+1", "2", "5",
              "127", "128", "-128", "-129", "32767", "32768", "-32768", "-32769", "65535", "65536", "2147483647", "2147483648",
              "-2147483648", "-2147483649", "9223372036854775807", "9223372036854775808", "-9223372036854775808",
              "-9223372036854775809", "0000000000000000005", "00000000000000000005", "true", "false", "True", "null",
              "0x3fc00000", "0x3FC00000", "0x3fc0000", "0x3ff0000000000000", "3ff0000000000000", "#0", "#1", "#", "#-1", "#00005",
              "#9223372036854775807", "#9223372036854775808", "[0", "[1", "[2", "[3", "[", "[9223372036854775807",
              "[9223372036854775808", '""', '"', '"""', '"a', '"a"', '"a"b', '"\\u0020"', '"\\u007f"', '"\\u007F"', '"\\u0080"',
              '"\\u0021"', '"\\u0000\\u001f"', '"\\n"', '"\\""', '"\\\\"', '"\\"', '"\u2028\U0001F600"', "\u00e9", "\t", "a\r", "\0", "\x7f"]


# Recordings as parts.


def integer_at(data, at):
    """The integer at a place, and where it ends."""
    value = 0
    for group in range(9):
        byte = data[at + group]
        if group == 8:
            return value | byte << 56, at + 9
        value |= (byte & 0x7F) << 7 * group
        if byte < 0x80:
            return value, at + group + 1


def chunks_of(data):
    """The chunks of a recording: a header and records, each a type, a body, and whether it is in the chain or described."""
    at, chunks = 0, []
    while at < len(data):
        size, last, described = struct.unpack_from(">QQQ", data, at + 8)
        records, place, chained = [], at + hostile.HEADER, set()
        starts = {}
        while place < at + size:
            length, inner = integer_at(data, place)
            kind, body = integer_at(data, inner)
            starts[place - at] = len(records)
            records.append([kind, bytearray(data[body:place + length]), "metadata" if place - at == described else None])
            place += length
        while True:
            record = records[starts[last]]
            record[2] = "chain"
            inner = 0
            for _ in range(3):
                delta, inner = integer_at(record[1], inner)
            if delta == 0:
                break
            last += delta - 2**64
        chunks.append((bytearray(data[at:at + hostile.HEADER]), records))
        at += size
    return chunks


def with_delta(body, delta):
    try:
        at = 0
        for number in range(3):
            start = at
            _, at = integer_at(body, at)
        return bytes(body[:start]) + hostile.integer(delta, 9 if delta else 1) + bytes(body[at:])
    except NOT_SO:
        return bytes(body)


def joined(chunks):
    """The recording of such chunks, with true sizes, positions and deltas."""
    out = bytearray()
    for header, records in chunks:
        held, last, described = bytearray(header), None, None
        for kind, body, part in records:
            at = len(held)
            if part == "chain":
                body = with_delta(body, 0 if last is None else last - at)
                last = at
            elif part == "metadata":
                described = at
            held += hostile.record(kind, bytes(body))
        struct.pack_into(">Q", held, 8, len(held))
        if last is not None:
            struct.pack_into(">Q", held, 16, last)
        if described is not None:
            struct.pack_into(">Q", held, 24, described)
        out += held
    return bytes(out)


# Mutations.


def cut_piece(rng, data, most=64):
    at = rng.randrange(len(data) + 1)
    return at, min(len(data), at + rng.randint(1, most))


def change_bytes(rng, data, others):
    """One change of some bytes."""
    if not data:
        data += hostile.integer(rng.choice(LIMITS))
        return
    at, end = cut_piece(rng, data)
    way = rng.randrange(10)
    if way == 0 and at < len(data):
        data[at] ^= 1 << rng.randrange(8)
    elif way == 1 and at < len(data):
        data[at] = rng.choice(BYTES)
    elif way == 2 and at < len(data):
        data[at] = (data[at] + rng.choice((1, -1))) % 256
    elif way in (3, 4):
        try:
            end = integer_at(data, at)[1]
        except NOT_SO:
            end = len(data)
        data[at:end] = hostile.integer(rng.choice(LIMITS) + rng.choice((0, 0, 0, 1, -1)), rng.choice((1, 1, 1, 2, 4, 9)))
    elif way == 5:
        del data[at:end]
    elif way == 6:
        data[at:at] = data[at:end] * rng.choice((1, 1, 2, 9, 60))
    elif way == 7:
        piece = data[at:end]
        del data[at:end]
        to = rng.randrange(len(data) + 1)
        data[to:to] = piece
    elif way == 8:
        other = rng.choice(others)
        start, stop = cut_piece(rng, other)
        data[at:end if rng.random() < 0.5 else at] = other[start:stop]
    elif rng.random() < 0.3:
        del data[at:]
    else:
        data[at:at] = hostile.text(rng.choice(WORDS))


def change_list(rng, items, copy):
    """One change of a list: an item goes, comes twice, or moves."""
    if not items:
        return
    at = rng.randrange(len(items))
    way = rng.randrange(3)
    if way == 0:
        del items[at]
    elif way == 1:
        items.insert(rng.randrange(len(items) + 1), copy(items[at]))
    else:
        items.insert(rng.randrange(len(items)), items.pop(at))


def string_end(data, at):
    kind = data[at]
    if kind < 2:
        return at + 1
    length, at = integer_at(data, at + 1)
    if kind == 4:
        for _ in range(length):
            _, at = integer_at(data, at)
        return at
    return at if kind == 2 else at + length


def element_at(data, at):
    """An element, as the indices of its name and attributes and its children, and where it ends."""
    name, at = integer_at(data, at)
    many, at = integer_at(data, at)
    attributes = []
    for _ in range(2 * many):
        index, at = integer_at(data, at)
        attributes.append(index)
    many, at = integer_at(data, at)
    children = []
    for _ in range(many):
        child, at = element_at(data, at)
        children.append(child)
    return [name, attributes, children], at


def spelled(node):
    name, attributes, children = node
    return b"".join([hostile.integer(name), hostile.integer(len(attributes) // 2), *map(hostile.integer, attributes),
                     hostile.integer(len(children)), *map(spelled, children)])


def copied(node):
    return [node[0], list(node[1]), [copied(child) for child in node[2]]]


def nodes_of(node):
    yield node
    for child in node[2]:
        yield from nodes_of(child)


def spelled_word(rng):
    word = rng.choice(WORDS)
    if rng.random() < 0.7:
        return hostile.text(word)
    units = word.encode("utf-16-be")
    units = [units[at] << 8 | units[at + 1] for at in range(0, len(units), 2)]
    return rng.choice((
        b"\0", b"\1",
        b"\4" + hostile.integer(len(units)) + b"".join(hostile.integer(unit | rng.choice((0, 0, 1 << 16))) for unit in units),
        b"\5" + hostile.integer(len(units)) + bytes(unit & 0xFF for unit in units),
    ))


def described(body):
    """What comes before the strings of a metadata record's body, its strings, spelled, and its root."""
    at = 0
    for _ in range(3):
        _, at = integer_at(body, at)
    head = body[:at]
    many, at = integer_at(body, at)
    strings = []
    for _ in range(many):
        end = string_end(body, at)
        strings.append(bytes(body[at:end]))
        at = end
    return head, strings, element_at(body, at)[0]


def change_metadata(rng, body):
    """Some changes of the strings and elements of a metadata record's body, which is unchanged if it isn't one."""
    try:
        head, strings, root = described(body)
    except NOT_SO:
        return
    for _ in range(rng.choice((1, 1, 1, 2, 3, 5))):
        node = rng.choice(list(nodes_of(root)))
        way = rng.randrange(8)
        if way == 0 and strings:
            strings[rng.randrange(len(strings))] = spelled_word(rng)
        elif way == 1 and node[1]:
            at = rng.randrange(len(node[1]))
            node[1][at] = rng.randrange(len(strings))
        elif way == 2 and node[1]:
            strings.append(spelled_word(rng))
            node[1][rng.randrange(len(node[1])) | 1] = len(strings) - 1
        elif way == 3:
            pair = rng.choice((("constantPool", "true"), ("dimension", "1"), ("superType", "jdk.jfr.Event"),
                               (rng.choice(WORDS), rng.choice(WORDS))))
            at = 2 * rng.randrange(len(node[1]) // 2 + 1)
            node[1][at:at] = [len(strings), len(strings) + 1]
            strings += map(hostile.text, pair)
        elif way == 4 and node[1]:
            at = 2 * rng.randrange(len(node[1]) // 2)
            del node[1][at:at + 2]
        elif way == 5:
            change_list(rng, node[2], copied)
        elif way == 6:
            rng.choice(list(nodes_of(root)))[2].append(copied(node))
            if sum(1 for _ in nodes_of(root)) > 3000:
                return
        elif rng.random() < 0.2:
            node[0] = rng.randrange(len(strings))
    body[:] = head + hostile.integer(len(strings)) + b"".join(strings) + spelled(root)


# Values, by the classes of a chunk.

RAW = {"boolean": 1, "byte": 1, "float": 4, "double": 8}
INTEGERS = ("char", "short", "int", "long")


class Classes:
    """The classes that a metadata record's body describes: a name, the fields, and whether it is of events."""

    def __init__(self, body):
        _, strings, root = described(body)
        texts = [string[2:].decode("latin-1") if len(string) > 1 else "" for string in strings]
        holder = next(child for child in root[2] if texts[child[0]] == "metadata")
        self.held = {}
        for one in holder[2]:
            if texts[one[0]] == "class":
                given = self.given(texts, one)
                fields = [self.given(texts, child) for child in one[2] if texts[child[0]] == "field"]
                shapes = [(int(f["class"]), f.get("constantPool") == "true", f.get("dimension") == "1") for f in fields]
                self.held[int(given["id"])] = given["name"], shapes, given.get("superType") == "jdk.jfr.Event"
        self.events = [id for id, (_, _, event) in self.held.items() if event]
        self.steps = 0

    def fields_of(self, id):
        """The name and the fields of a class; ends a walk that takes too many steps."""
        self.steps += 1
        if self.steps > 20000:
            raise ValueError(self.steps)
        return self.held[id][:2]

    @staticmethod
    def given(texts, node):
        pairs = [(texts[node[1][at]], texts[node[1][at + 1]]) for at in range(0, len(node[1]), 2)]
        return dict(reversed(pairs))

    def end(self, data, at, id, constant=False, array=False):
        """Where a value of a class ends."""
        if array:
            many, at = integer_at(data, at)
            if many > len(data):
                raise ValueError(many)
            for _ in range(many):
                at = self.end(data, at, id, constant)
            return at
        name, shapes = self.fields_of(id)
        if constant or name in INTEGERS:
            return integer_at(data, at)[1]
        if name in RAW:
            return at + RAW[name]
        if name == "java.lang.String":
            return string_end(data, at)
        for shape in shapes:
            at = self.end(data, at, *shape)
        return at

    def value(self, rng, id, constant=False, array=False):
        """A value of a class, by chance."""
        if array:
            many = rng.choice((0, 1, 2, 3, 10))
            return hostile.integer(many) + b"".join(self.value(rng, id, constant) for _ in range(many))
        name, shapes = self.fields_of(id)
        if constant:
            return hostile.integer(rng.choice(LIMITS) if rng.random() < 0.1 else rng.randrange(6))
        if name in INTEGERS:
            return hostile.integer(rng.choice(LIMITS), rng.choice((1, 1, 4, 9)))
        if name in RAW:
            return bytes(rng.choice(BYTES) for _ in range(RAW[name]))
        if name == "java.lang.String":
            if rng.random() < 0.3:
                return hostile.key_text(rng.randrange(6))
            held = bytes(rng.choice(BYTES) for _ in range(rng.randrange(12)))
            return b"\3" + hostile.integer(len(held)) + held if rng.random() < 0.3 else spelled_word(rng)
        return b"".join(self.value(rng, *shape) for shape in shapes)

    def pools(self, body):
        """What comes before the pools of a checkpoint's body, and the pools, each a class and its entries."""
        at = 0
        for _ in range(3):
            _, at = integer_at(body, at)
        head = bytes(body[:at + 1])
        many, at = integer_at(body, at + 1)
        pools = []
        for _ in range(many):
            id, at = integer_at(body, at)
            entries, at = integer_at(body, at)
            pools.append((id, []))
            for _ in range(entries):
                key, value = integer_at(body, at)
                at = self.end(body, value, id)
                pools[-1][1].append([key, bytes(body[value:at])])
        return head, pools


def change_pools(rng, classes, pools):
    """One change of pools, of which there is one at least."""
    id, entries = rng.choice(pools)
    way = rng.randrange(6)
    if way == 0:
        change_list(rng, pools, lambda one: (one[0], [list(entry) for entry in one[1]]))
    elif way == 1:
        change_list(rng, entries, list)
    elif way == 2 and entries:
        rng.choice(entries)[0] = rng.choice(LIMITS) if rng.random() < 0.2 else rng.randrange(6)
    elif way == 3:
        entries.append([rng.randrange(6), classes.value(rng, id)])
    elif way == 4:
        other = rng.choice(list(classes.held))
        pools.append((other, [[rng.randrange(6), classes.value(rng, other)] for _ in range(rng.randrange(4))]))
    elif entries:
        rng.choice(entries)[1] = classes.value(rng, id)


def change_values(rng, records):
    """Some changes of a chunk's constants and events, by its classes; another checkpoint for some of the pools."""
    try:
        classes = Classes(next(record[1] for record in records if record[2] == "metadata"))
        for _ in range(rng.choice((1, 1, 2, 4, 8))):
            chained = [record for record in records if record[2] == "chain"]
            if classes.events and rng.random() < 0.4:
                id = rng.choice(classes.events)
                spare = b"" if rng.random() < 0.8 else bytes(rng.randrange(4))
                records.insert(rng.randrange(len(records) + 1), [id, bytearray(classes.value(rng, id) + spare), None])
            elif chained:
                checkpoint = rng.choice(chained)
                head, pools = classes.pools(checkpoint[1])
                if pools:
                    change_pools(rng, classes, pools)
                if len(pools) > 1 and rng.random() < 0.2:
                    other = [1, bytearray(spelled_pools(head, pools[::2])), "chain"]
                    records.insert(rng.randrange(len(records) + 1), other)
                    pools = pools[1::2]
                checkpoint[1] = bytearray(spelled_pools(head, pools))
    except (StopIteration, *NOT_SO):
        return


def spelled_pools(head, pools):
    spelled_entries = (hostile.pool(id, entries) for id, entries in pools)
    return head + hostile.integer(len(pools)) + b"".join(hostile.integer(id) + entries for id, entries in spelled_entries)


def mutated(rng, seeds, parsed):
    """An input: a seed with some changes, in half of them with true sizes, positions and deltas."""
    number = rng.randrange(len(seeds))
    steps = rng.choice((1, 1, 1, 2, 2, 3, 4, 8))
    if rng.random() < 0.5 or parsed[number] is None:
        data = bytearray(seeds[number])
        if rng.random() < 0.1:
            data += rng.choice(seeds)
        for _ in range(steps):
            change_bytes(rng, data, seeds)
        return bytes(data)
    chunks = [(bytearray(header), [[kind, bytearray(body), part] for kind, body, part in records])
              for header, records in parsed[number]]
    if rng.random() < 0.1:
        change_list(rng, chunks, lambda one: one)
    for _ in range(steps):
        header, records = rng.choice(chunks) if chunks else (None, [])
        if not records:
            break
        way = rng.random()
        at = rng.randrange(len(records))
        if way < 0.2:
            change_list(rng, records, lambda one: [one[0], bytearray(one[1]), one[2] if one[2] == "chain" else None])
        elif way < 0.25:
            records[at][0] = rng.choice([record[0] for record in records] + LIMITS)
        elif way < 0.3:
            header[rng.randrange(32, hostile.HEADER)] ^= 1 << rng.randrange(8)
        elif way < 0.45:
            for record in records:
                if record[2] == "metadata":
                    change_metadata(rng, record[1])
        elif way < 0.8:
            change_values(rng, records)
        else:
            others = [record for record in records if record[2] != "metadata"]
            change_bytes(rng, rng.choice(others or records)[1], seeds)
    return joined(chunks)


def sort_of(word):
    """Words of one sort begin alike, so one often can be in the place of another."""
    return "0" if word[:1].isdigit() or word[:1] == b"-" and word[1:2].isdigit() else word[:1]


def change_words(rng, words, others):
    """One change of a line's words; most new ones are of the sort of the old one, so that many values stay values."""
    way = rng.random()
    if way < 0.1:
        change_list(rng, words, bytes)
        return
    # The first word, without which the line has no meaning, is changed least.
    at = max(rng.randrange(len(words)) for _ in range(3))
    new = others if rng.random() < 0.5 else [word.encode() for word in TEXT_WORDS]
    if way < 0.8:
        new = [word for word in new if sort_of(word) == sort_of(words[at])] or new
    words[at : at + (way < 0.95)] = [rng.choice(new)]


def mutated_text(rng, texts):
    """A text for `build` with some changes."""
    lines = rng.choice(texts).split(b"\n")
    for _ in range(rng.choice((1, 1, 1, 2, 2, 3, 4, 8))):
        if not lines:
            lines.append(b"")
        at, way = rng.randrange(len(lines)), rng.random()
        if way < 0.1:
            change_list(rng, lines, bytes)
        elif way < 0.15:
            lines.insert(at, rng.choice(rng.choice(texts).split(b"\n")))
        elif way < 0.9:
            words = lines[at].split(b" ")
            change_words(rng, words, b" ".join(lines).split(b" "))
            lines[at] = b" ".join(words)
        else:
            changed = bytearray(lines[at])
            change_bytes(rng, changed, texts)
            lines[at] = bytes(changed)
    return b"\n".join(lines)


def parsed_or_none(data):
    try:
        chunks = chunks_of(data)
        return chunks if all(len(records) < 5000 for _, records in chunks) else None
    except NOT_SO:
        return None
