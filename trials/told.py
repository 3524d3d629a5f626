#!/usr/bin/env python3
"""Tries that an output tells nothing else: told.py PROGRAM FILE.. [--tries N] [--seed S] [-- OPTION..]

Scrubs each file with the options, with and without new keys. Then it changes the recording, N times (default 10, by
chance from the seed, default 1): it deletes events that aren't kept and entries that don't remain, puts other copies of
such events in, makes records of random bytes of some, adds such records, and puts pools with the key of a remaining entry
before these, where they aren't in force. Scrubs of the changed recordings must be the same, byte for byte.

The number of bytes of each record's size stays, as does the order of what is kept. With a thread option, which may ask
entries to which only removed events refer, entries stay as they are.

Prints a row for each file: its chunks, how often each kind of change was made, and how many scrubs differ. The status is
1 if any does, or if a recording is refused.
"""
import argparse
import collections
import os
import random
import subprocess
import sys
import tempfile

sys.path.insert(0, os.path.dirname(os.path.realpath(__file__)))
sys.dont_write_bytecode = True
import hostile
from mutations import Classes, chunks_of, integer_at, spelled_pools, with_delta

KINDS = ("deleted", "copied", "inert", "added", "entries", "earlier")


def sized(width, kind, body):
    """A record whose size has at least this many bytes."""
    rest = hostile.integer(kind) + body
    while len(hostile.integer(len(rest) + width, width)) > width:
        width += 1
    return hostile.integer(len(rest) + width, width) + rest


def fits(record, body):
    """Whether the checkpoint can have this body without a longer size."""
    return len(hostile.integer(len(with_delta(body, -1)) + record.width + 1)) <= record.width


class Record:
    """A record: the number of bytes of its size, its type, its body, and its part: metadata, chain or none."""

    def __init__(self, width, kind, body, part):
        self.width, self.kind, self.body, self.part = width, kind, bytes(body), part


def widths_of(data):
    """For each chunk, in how many bytes each record's size is written."""
    at, found = 0, []
    while at < len(data):
        end = at + int.from_bytes(data[at + 8:at + 16], "big")
        place, widths = at + hostile.HEADER, []
        while place < end:
            size, inner = integer_at(data, place)
            widths.append(inner - place)
            place += size
        found.append(widths)
        at = end
    return found


def taken_apart(data):
    """The chunks of a recording, each a header and records."""
    return [(header, [Record(width, *record) for width, record in zip(widths, records)])
            for (header, records), widths in zip(chunks_of(data), widths_of(data))]


def put_together(chunks):
    """The recording of such chunks, with true sizes, positions and deltas."""
    out = bytearray()
    for header, records in chunks:
        held, last, described = bytearray(header), 0, 0
        for record in records:
            at, body = len(held), record.body
            if record.part == "chain":
                body, last = with_delta(body, last - at if last else 0), at
            elif record.part == "metadata":
                described = at
            held += sized(record.width, record.kind, body)
        held[8:32] = b"".join(number.to_bytes(8, "big") for number in (len(held), last, described))
        out += held
    return bytes(out)


def pools_of(classes, record):
    """What comes before a checkpoint's pools, and the pools, however many there are."""
    classes.steps = -len(record.body)
    return classes.pools(record.body)


def inert(rng, types):
    """A record of random bytes that is of no event class."""
    kind = rng.choice([0, 1] + [2 ** 20 + rng.randrange(2 ** 20)] * 3)
    return Record(rng.randint(1, 4), kind if kind not in types else 0, rng.randbytes(rng.randrange(200)), None)


def changed(rng, records, output, counts, entries_too):
    """The records of a chunk, changed where its output, given as records, doesn't tell."""
    classes = Classes(next(record.body for record in records if record.part == "metadata"))
    kept = {(record.kind, record.body) for record in output if record.part is None}
    remaining = {(id, key) for record in output if record.part == "chain" for id, entries in pools_of(classes, record)[1]
                 for key, _ in entries}
    removed = [record for record in records if record.part is None and (record.kind, record.body) not in kept]
    gone = {id(record) for record in removed if record.kind in classes.events or rng.random() < 0.5}
    many = rng.random()
    made = []
    for record in records:
        if id(record) not in gone or rng.random() > many:
            made.append(record)
        elif rng.random() < 0.3:
            made.append(Record(record.width, 2 ** 20, rng.randbytes(len(record.body)), None))
            counts["inert"] += 1
        else:
            counts["deleted"] += 1
        if removed and rng.random() < 0.05:
            made.append(rng.choice(removed))
            counts["copied"] += 1
        if rng.random() < 0.05:
            made.append(inert(rng, classes.events))
            counts["added"] += 1
    return with_entries(rng, made, classes, remaining, counts) if entries_too else made


def with_entries(rng, records, classes, remaining, counts):
    """The records with other entries that don't remain."""
    parsed = [(record, *pools_of(classes, record)) for record in records if record.part == "chain"]
    last = {(of, entry[0]): entry for _, _, pools in parsed for of, entries in pools for entry in entries}
    values = collections.defaultdict(list)
    for of, entries in (pool for _, _, pools in parsed for pool in pools):
        values[of] += [value for _, value in entries]
    there = {}
    for record, head, pools in parsed:
        left = []
        for of, entries in pools:
            stay = [last[of, entry[0]] is entry and (of, entry[0]) in remaining for entry in entries]
            new = [entry for entry, stays in zip(entries, stay) if stays or rng.random() < 0.5]
            counts["entries"] += len(entries) - len(new)
            if new or rng.random() < 0.5:
                left.append((of, new))
        of, entries = rng.choice(left) if left else (None, [])
        if entries and rng.random() < 0.5:
            more = [(of, [[entries[0][0], rng.choice(values[of])]]), *left]
            if fits(record, spelled_pools(head, more)):
                left = more
                counts["earlier"] += 1
        there[id(record)] = Record(record.width, record.kind, spelled_pools(head, left), "chain")
    return [there.get(id(record), record) for record in records]


def scrubbed(program, folder, data, options, new_keys):
    source, target = os.path.join(folder, "in.jfr"), os.path.join(folder, "out.jfr")
    with open(source, "wb") as file:
        file.write(data)
    subprocess.run([program, "scrub", "--renumber", new_keys, *options, source, target], check=True)
    with open(target, "rb") as file:
        output = file.read()
    os.remove(target)
    return output


def try_file(program, path, options, tries, rng, folder):
    with open(path, "rb") as file:
        data = put_together(taken_apart(file.read()))
    chunks = taken_apart(data)
    outputs = {new_keys: scrubbed(program, folder, data, options, new_keys) for new_keys in ("no", "yes")}
    told = taken_apart(outputs["no"])
    entries_too = not any(option.endswith("-threads") for option in options)
    counts, wrong = collections.Counter(), 0
    for _ in range(tries):
        other = put_together([(header, changed(rng, records, told[number][1], counts, entries_too))
                              for number, (header, records) in enumerate(chunks)])
        for new_keys, output in outputs.items():
            wrong += scrubbed(program, folder, other, options, new_keys) != output
    print(os.path.basename(path), len(chunks), *(f"{kind} {counts[kind]}" for kind in KINDS), f"differ {wrong}", flush=True)
    return wrong


def main():
    words = sys.argv[1:]
    options = words[words.index("--") + 1:] if "--" in words else []
    parser = argparse.ArgumentParser(usage=__doc__)
    parser.add_argument("program")
    parser.add_argument("files", nargs="+")
    parser.add_argument("--tries", type=int, default=10)
    parser.add_argument("--seed", type=int, default=1)
    given = parser.parse_args(words[:words.index("--")] if "--" in words else words)
    rng, wrong = random.Random(given.seed), 0
    with tempfile.TemporaryDirectory() as folder:
        for path in given.files:
            try:
                wrong += try_file(given.program, path, options, given.tries, rng, folder)
            except subprocess.CalledProcessError as error:
                print(os.path.basename(path), "status", error.returncode)
                wrong += 1
    sys.exit(1 if wrong else 0)


if __name__ == "__main__":
    main()
