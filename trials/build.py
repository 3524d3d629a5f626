#!/usr/bin/env python3
"""Builds a recording of what `print` shows of another one, and compares the two: build.py PROGRAM RECORDING

Takes the events of RECORDING from `print --json --depth 0`, and the types of their fields from `metadata`. Makes a text
for `build` of the fields of base types, and of arrays of these, with the values that are shown; builds it; and compares
what `print --json --depth 0` shows of it. A string that is a key stays one; if it has an entry, so it has in the text.

Left out are fields with the constant mark, of composite classes, and with a space in their names; and events of a class
with a space in its name, with a key of 2^63 or more, or with a key that has an entry in one chunk and none in another.

Prints how much was built, left out and compared, and the first values that differ; ends with 1 if there are any.
"""
import json
import os
import re
import subprocess
import sys
import tempfile
from itertools import zip_longest

STRING = "java.lang.String"
NUMBERS = {"char": range(2**16), "byte": range(-(2**7), 2**7), "short": range(-(2**15), 2**15),
           "int": range(-(2**31), 2**31), "long": range(-(2**63), 2**63)}
DIGITS = {"float": re.compile("0x[0-9a-f]{8}"), "double": re.compile("0x[0-9a-f]{16}")}
# The ids of base types begin with 2, and those of events come after them: 0 and 1 are no event classes.
IDS = {base: number for number, base in enumerate(["boolean", STRING, *NUMBERS, *DIGITS], 2)}
CLASS = re.compile(r"([^ ]+) id \d+ super jdk\.jfr\.Event")
FIELD = re.compile(r"  ([^ ]+): ([^ ]+?)(\[\])?( constant)?")
SHOWN = 5


class NoWord(Exception):
    """No word gives this value."""


def lines_of(*words):
    """The lines that a command writes, without their newlines."""
    with subprocess.Popen(words, stdout=subprocess.PIPE) as running:
        yield from (line[:-1].decode() for line in running.stdout)
    if running.returncode:
        raise subprocess.CalledProcessError(running.returncode, words)


def events_of(program, recording):
    return map(json.loads, lines_of(program, "print", "--json", "--depth", "0", recording))


def classes_of(program, recording):
    """The event classes: for each name those that have it, each as how many fields it has, and which of them are built."""
    found, name, fields = {}, None, []
    for line in [*lines_of(program, "metadata", recording), "end"]:
        if line.startswith("  "):
            if not line.startswith("  category "):
                fields.append(FIELD.fullmatch(line))
            continue
        built = tuple((one[1], one[2], one[3]) for one in fields if one and one[2] in IDS and not one[4])
        found.setdefault(name, {})[len(fields), built] = None
        event = CLASS.fullmatch(line)
        # Classes of other values are found under None.
        name, fields = event and event[1], []
    return found


def word(base, value, keys):
    """The word of a value of a base type. `keys` says of each key whether it has no entry."""
    if base == "boolean" and type(value) is bool or base == STRING and value is None:
        return json.dumps(value)
    if base in NUMBERS and type(value) is int and value in NUMBERS[base]:
        return str(value)
    if base in DIGITS and type(value) is str and DIGITS[base].fullmatch(value):
        return value
    if base == STRING and type(value) is str:
        escaped = re.sub(r'["\\]', r"\\\g<0>", value)
        return '"%s"' % re.sub(r"[\x00-\x20\x7f]", lambda one: "\\u%04x" % ord(one[0]), escaped)
    if base == STRING and type(value) is dict and value["key"] < 2**63:
        missing = "missing" in value
        if keys.setdefault(value["key"], missing) == missing:
            return "#%d" % value["key"]
    raise NoWord


def words_of(fields, values, keys):
    """The words of an event's fields, in order."""
    for name, base, array in fields:
        value = values[name]
        if array:
            yield "[%d" % len(value)
        yield from (word(base, item, keys) for item in (value if array else [value]))


def spelled(classes, ids, event, keys):
    """The line of an event, and what is shown of it then; the number of its class is added to `ids`."""
    values = event["values"]
    # Classes of several chunks may have one name. One that has these fields and values will do.
    for count, fields in classes.get(event["type"], ()):
        names = [name for name, _, _ in fields]
        if count == len(values) and values.keys() >= set(names):
            try:
                words = list(words_of(fields, values, keys))
            except (NoWord, TypeError, KeyError):
                continue
            number = ids.setdefault((event["type"], count, fields), 2 + len(IDS) + len(ids))
            return " ".join(["record %d" % number, *words]), {"type": event["type"], "values": {name: values[name] for name in names}}
    raise NoWord


def head_of(ids):
    """The lines of the classes."""
    yield from (f"class {number} {base}" for base, number in IDS.items())
    for (name, _, fields), number in ids.items():
        yield f"event {number} {name}"
        yield from (f"field {field} {IDS[base]} {'a' if array else '-'}" for field, base, array in fields)


def differences(expected, found):
    """The values that differ between two events, of which one may not be there. No field is named `its type`."""
    one, other = ({"its type": event["type"], **event["values"]} if event else {} for event in (expected, found))
    for name in sorted(one.keys() | other.keys()):
        values = [json.dumps(event.get(name, "not there")) for event in (one, other)]
        if values[0] != values[1]:
            yield f"{one.get('its type')}, {name}: {values[0]}, built {values[1]}"


def main(program, recording, folder):
    text, built = os.path.join(folder, "text"), os.path.join(folder, "built.jfr")
    classes, ids, keys, records, expected, left = classes_of(program, recording), {}, {}, [], [], 0
    for event in events_of(program, recording):
        try:
            line, shown = spelled(classes, ids, event, keys)
            records.append(line)
            expected.append(shown)
        except NoWord:
            left += 1
    constants = [f"constant {IDS[STRING]} {key} null" for key, missing in keys.items() if not missing]
    with open(text, "w", encoding="utf-8", newline="\n") as out:
        out.writelines(line + "\n" for line in [*head_of(ids), *records, *constants])
    subprocess.run([program, "build", text, built], check=True)
    wrong = [line for pair in zip_longest(expected, events_of(program, built)) for line in differences(*pair)]
    fields = sum(len(given) for _, _, given in ids)
    print(f"{len(expected)} events of {len(ids)} classes with {fields} fields built, {sum(len(one['values']) for one in expected)} values "
          f"compared, {len(wrong)} differ; {left} events and {sum(count for _, count, _ in ids) - fields} fields left out; "
          f"{os.path.getsize(text)} bytes of text, {os.path.getsize(built)} built")
    print("".join(line + "\n" for line in wrong[:SHOWN]), end="")
    return 1 if wrong else 0


if __name__ == "__main__":
    with tempfile.TemporaryDirectory() as work:
        sys.exit(main(*sys.argv[1:], work))
