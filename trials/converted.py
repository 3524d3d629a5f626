#!/usr/bin/env python3
"""Compares the stacks that a converter finds in a recording and in its mask: converted.py CONVERTER RECORDING MASKED TABLE

CONVERTER is async-profiler's converter.jar, which reads recordings by code of its own; it needs a `java` on the PATH. For
samples, allocations and locks by thread it must find the same stacks with the same numbers in both files, if each
pseudonym is read as its text of TABLE.

The converter writes the class of an object or a lock as Java does, with dots and with brackets after the name, and other
marks for what isn't text, so these count as equal.

Prints how many stacks were compared of each; the status is 1 if one differs, and those that do are printed first.
"""
import os
import re
import subprocess
import sys
import tempfile
from collections import Counter

sys.path.insert(0, os.path.dirname(os.path.realpath(__file__)))
sys.dont_write_bytecode = True
from masks import plain, texts_in

# A pseudonym, and whether it is that of a class in the last frame.
PSEUDONYM = re.compile(r"(masked-[1-9][0-9]*)(?=(_\[[ik]\] )?)")
KINDS = {"samples": [], "allocations": ["--alloc"], "locks": ["--lock"]}
BASES = {"B": "byte", "C": "char", "D": "double", "F": "float", "I": "int", "J": "long", "S": "short", "Z": "boolean"}


def stacks(converter, kind, recording):
    """What is found in a recording: the stacks, each a line with its number. A name may have more lines."""
    with tempfile.TemporaryDirectory() as folder:
        out = os.path.join(folder, "stacks")
        words = ["java", "-cp", converter, "jfr2flame", "--collapsed", "--threads", "--total", *KINDS[kind], recording, out]
        subprocess.run(words, stdout=subprocess.DEVNULL, check=True)
        with open(out, encoding="utf-8", errors="replace", newline="\n") as lines:
            return lines.read()


def class_name(text):
    """The name of a class as Java writes it, of one as the JVM does."""
    element = text.lstrip("[")
    depth = len(text) - len(element)
    return (BASES.get(element, element[1:-1]) if depth else text) + "[]" * depth


def unmasked(lines, texts):
    """The lines with each pseudonym's text."""
    def text_of(found):
        text = texts.get(found[1], found[1])
        return class_name(text) if found[2] else text
    return PSEUDONYM.sub(text_of, lines)


def main():
    converter, recording, masked, table = sys.argv[1:]
    texts = texts_in(table)
    many, wrong = [], []
    for kind in KINDS:
        expected = Counter(plain(stacks(converter, kind, recording)).splitlines())
        found = Counter(plain(unmasked(stacks(converter, kind, masked), texts)).splitlines())
        many.append(f"{sum(expected.values())} {kind}")
        wrong += [f"{kind}: missing: {line}" for line in expected - found]
        wrong += [f"{kind}: too much: {line}" for line in found - expected]
    for line in wrong[:5]:
        print(line)
    print(f"{', '.join(many)}, {len(wrong)} wrong")
    return 1 if wrong else 0


if __name__ == "__main__":
    sys.exit(main())
