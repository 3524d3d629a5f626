#!/usr/bin/env python3
"""Compares the values of `jfr print --json` with those that the JDK prints: values.py OURS THEIRS

OURS has an object in each line, THEIRS one object for the recording. For each type of event and each
field the values of all events are compared as a collection, since the JDK prints events in the order of
time and this program in that of the file. Compared are the fields in which both show integers, booleans
or strings throughout: the JDK shows times, durations and constants otherwise. A string with U+FFFD isn't
compared: it replaces a surrogate without its partner, which the JDK prints as it is. Integers are
compared by their 64 bits: JDK 21 and later show fields that are marked unsigned without a sign.

Prints how much was compared, and the first values that differ; ends with 1 where there are any.
"""
import json
import sys
from collections import Counter, defaultdict


def columns(events):
    """The values of each field of each type, and how many events each type has."""
    found, counts = defaultdict(list), Counter()
    for event in events:
        counts[event["type"]] += 1
        for field, value in event["values"].items():
            found[event["type"], field].append(value)
    return found, counts


def kinds(values):
    return {type(value) for value in values if value is not None}


def is_lossy(value):
    return type(value) is str and any(c == "\ufffd" or "\ud800" <= c <= "\udfff" for c in value)


def signed(value):
    return value - 2**64 if type(value) is int and value >= 2**63 else value


def compared(values):
    return Counter(signed(value) for value in values if not is_lossy(value))


with open(sys.argv[1], encoding="utf-8") as file:
    ours, our_counts = columns(json.loads(line) for line in file)
with open(sys.argv[2], encoding="utf-8") as file:
    theirs, their_counts = columns(json.load(file)["recording"]["events"])

differences = [] if our_counts == their_counts else ["other numbers of events"]
fields = values = 0
for column in sorted(theirs):
    mine, other = ours.get(column, []), theirs[column]
    if kinds(mine) != kinds(other) or not kinds(other) <= {int, bool, str}:
        continue
    fields += 1
    values += sum(compared(other).values())
    if compared(mine) != compared(other):
        differences.append("%s.%s: %s" % (*column, list((compared(mine) - compared(other)).items())[:3]))
print("%d events, %d fields and %d values compared, %d fields differ" % (sum(their_counts.values()), fields, values, len(differences)))
for line in differences:
    print(line)
sys.exit(1 if differences else 0)
