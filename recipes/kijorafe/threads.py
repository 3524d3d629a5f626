"""The names of threads in a recording, and those that look like addresses or requests."""

import re
from collections import Counter
from typing import Counter as Counts

from kijorafe.messages import Fault
from kijorafe.program import Failure, Program, find
from kijorafe.shown import quoted
from kijorafe.strings import last_field, strings_in

# The fields that are names of threads.
NAMES = "javaName", "osName"

# Each alternative takes time in proportion to the name: none can begin at each character of a long run.
ADDRESS = re.compile(
    r"(?<![\w.])\d{1,3}(?:\.\d{1,3}){3}(?![\w.])"  # 10.0.0.1
    r"|(?<![\w:])(?:[0-9A-Fa-f]{0,4}:){2,}[0-9A-Fa-f]{0,4}(?!\w)"  # fe80::1
    r"|[\w-]\.[\w-]+:\d"  # host.example:8080
    r"|\w://|\?\w+=|\b(?:GET|HEAD|POST|PUT|PATCH|DELETE|OPTIONS)\b"  # URLs and requests
    r"|[\w.+-]@[\w-]+\.\w"  # somebody@host.example
)


def names_of(program: Program, recording: str) -> Counts[str]:
    """The names, with how often events lead to them."""
    # If the program refuses the recording, it says why.
    program.summary(recording)
    names: Counts[str] = Counter()
    for (path, string), kinds in strings_in(program, recording, set(), NAMES).items():
        if last_field(path) in NAMES:
            names[string] += sum(kinds.values())
    return names


def pattern_of(name: str) -> str:
    """A pattern that matches the name, and others that differ in their numbers. It can be shown."""
    plain = "".join(character if character.isprintable() and character not in ",*" else "?" for character in name)
    return re.sub(r"\d+", "*", plain)


def addresses_in(program: Program, recording: str) -> str:
    """Patterns, separated by commas, of the names that contain an address, a URL, a request or a mail address."""
    return ",".join(sorted({pattern_of(name) for name in names_of(program, recording) if ADDRESS.search(name)}))


def list_threads(recording: str, addresses: bool) -> int:
    """Prints the names, the most frequent last, or the patterns."""
    try:
        if addresses:
            print(addresses_in(find(), recording))
            return 0
        names = names_of(find(), recording)
    except Failure as failure:
        raise Fault(2, str(failure)) from failure
    for name, count in sorted(names.items(), key=lambda pair: (pair[1], pair[0])):
        print(count, quoted(name))
    return 0
