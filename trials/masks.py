#!/usr/bin/env python3
"""Compares what a JDK shows of a recording and of its mask: masks.py JFR RECORDING MASKED TABLE [FIELDS]

JFR is the JDK's program `jfr`. Of both files it must show the same events in the same order, and each value must be the
same, or a text that was exchanged for a pseudonym of TABLE: one to one over the whole recording, with `()` before the
pseudonym if the text begins with `(`. The JDK shows dots for the slashes in names of classes, and other marks for what
isn't text, so these count as equal.

With FIELDS, a list of patterns of event types with a field of theirs such as `jdk.FileRead.path`, which are the masked
ones, exactly the texts of these fields must be exchanged, but for empty ones.

Prints how many events were compared, and how many texts were exchanged; the status is 1 if anything else differs, and
what does is printed first.
"""
import json
import re
import subprocess
import sys
from collections import Counter
from fnmatch import fnmatchcase
from itertools import zip_longest

PSEUDONYM = re.compile(r"(?:\(\))?(masked-[1-9][0-9]*)")


def shown(jfr, recording):
    """The events that the JDK shows."""
    words = [jfr, "print", "--json", "--stack-depth", "64", recording]
    text = subprocess.run(words, stdout=subprocess.PIPE, check=True).stdout
    return json.loads(text)["recording"]["events"]


def texts_in(table):
    """The text of each pseudonym."""
    with open(table, encoding="utf-8", newline="\n") as lines:
        pairs = (line.partition(" ") for line in lines)
        return {pseudonym: json.loads(text) for pseudonym, _, text in pairs}


def differences(one, other, path):
    """The pairs of values that differ, with their paths."""
    if isinstance(one, dict) and isinstance(other, dict) and one.keys() == other.keys():
        for name in one:
            yield from differences(one[name], other[name], f"{path}.{name}")
    elif isinstance(one, list) and isinstance(other, list):
        for item, masked in zip_longest(one, other):
            yield from differences(item, masked, f"{path}[]")
    elif one != other:
        yield path, one, other


def plain(text):
    """The text as it is compared."""
    return re.sub("[\ud800-\udfff\ufffd]+", "\ufffd", text.replace("/", "."))


def is_exchanged(one, other, texts):
    """Whether a text was exchanged for its pseudonym."""
    found = PSEUDONYM.fullmatch(other) if isinstance(one, str) and isinstance(other, str) else None
    if not found or other.startswith("(") != one.startswith("("):
        return False
    return plain(texts.get(found[1], "")) == plain(one)


def masked_paths(event, patterns):
    """The paths of the texts that are masked by patterns of fields."""
    for name, value in event["values"].items():
        field = f"{event['type']}.{name}"
        if isinstance(value, str) and value and any(fnmatchcase(field, pattern) for pattern in patterns):
            yield f"{event['type']}.values.{name}"


def main():
    jfr, recording, masked, table, *fields = sys.argv[1:]
    texts = texts_in(table)
    wrong = [f"{text!r} has {count} pseudonyms" for text, count in Counter(texts.values()).items() if count > 1]
    events, others = shown(jfr, recording), shown(jfr, masked)
    if len(events) != len(others):
        wrong.append(f"{len(others)} events in place of {len(events)}")
    exchanged = set()
    for one, other in zip(events, others):
        paths = set()
        for path, text, pseudonym in differences(one, other, one["type"]):
            paths.add(path)
            if is_exchanged(text, pseudonym, texts):
                exchanged.add(pseudonym)
            else:
                wrong.append(f"{path}: {text!r} {pseudonym!r}")
        if fields:
            asked = set(masked_paths(one, fields[0].split(",")))
            wrong += [f"{path}: not exchanged" for path in asked - paths]
            wrong += [f"{path}: exchanged, but not asked for" for path in paths - asked]
    for line in wrong[:5]:
        print(line)
    print(f"{len(events)} events, {len(exchanged)} texts exchanged, {len(wrong)} wrong")
    return 1 if wrong else 0


if __name__ == "__main__":
    sys.exit(main())
