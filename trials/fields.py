#!/usr/bin/env python3
"""Writes the fields of a JDK's event types to recipes/fields: trials/fields.py VERSION RECORDING

RECORDING is of a JVM of this version, such as 17; each JVM describes all its event types in each recording. The types
are those that recipes/types has for this version; one that the recording lacks, or describes twice or in different
ways, makes the status 1, and nothing is written. The fields of other versions stay.
"""
import os
import sys

TOP = os.path.dirname(os.path.dirname(os.path.realpath(__file__)))
sys.path.insert(0, os.path.join(TOP, "recipes"))

from kijorafe import genuine, known, program  # noqa: E402  (in the folder just named)

HEAD = """\
# The fields of the JDK's event types: the name of the type, the JDKs in which it has these fields, and the fields in
# order, each with its class, [] for an array and * for the constant mark. Between the three are tabs. What has the name
# of such a type and other fields is removed by every recipe, and listed by `kijorafe strangers`.
#
# trials/fields.py makes this file of recordings: of OpenJDK 17.0.15 and 21.0.13, and of Temurin 25.0.3, whose fields
# OpenJDK 25.0.5 has, too.
"""


def fields_in(recording: str) -> "dict[str, set[str]]":
    """The fields of each event type, as the file spells them."""
    found: "dict[str, set[str]]" = {}
    for each in program.find().classes(recording):
        if each.is_event:
            found.setdefault(each.name, set()).add(genuine.spelled(each.fields))
    return found


def main() -> int:
    if len(sys.argv) != 3:
        print("usage: trials/fields.py VERSION RECORDING", file=sys.stderr)
        return 1
    version, recording = sys.argv[1:]
    found = fields_in(recording)
    lines: "dict[tuple[str, str], set[str]]" = {}
    if os.path.exists(genuine.FIELDS):
        lines = {(row.name, row.fields): set(row.jdks) - {version} for row in genuine.rows()}
    for each in known.known_types().values():
        if version in each.jdks:
            if len(found.get(each.name, ())) != 1:
                print(f"{each.name}: {len(found.get(each.name, ()))} descriptions", file=sys.stderr)
                return 1
            (fields,) = found[each.name]
            lines.setdefault((each.name, fields), set()).add(version)
    with open(genuine.FIELDS, "w", encoding="utf-8") as file:
        file.write(HEAD)
        for (name, fields), jdks in sorted(lines.items()):
            if jdks:
                file.write(f"{name}\t{','.join(sorted(jdks))}\t{fields}\n")
    return 0


if __name__ == "__main__":
    sys.exit(main())
