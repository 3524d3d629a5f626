"""The event types of a recording that aren't the JDK's."""

import os

from kijorafe import genuine, known
from kijorafe.messages import Fault
from kijorafe.program import Failure, find
from kijorafe.shown import file_name, shown


def strangers(recording: str) -> int:
    """Prints the types, the most frequent last, and the names of the JDK's that the program's own types have."""
    if not os.path.isfile(recording):
        raise Fault(2, f"{file_name(recording)} isn't a file")
    program = find()
    try:
        types = sorted(known.strangers_in(program.summary(recording)), key=lambda each: (each.events, each.name))
        own = genuine.own_types(program.classes(recording))
    except Failure as failure:
        raise Fault(2, f"{file_name(recording)} wasn't checked: {failure}") from failure
    for each in types:
        print(each.events, shown(each.name))
    for name, reason in own.items():
        print(f"{shown(name)} ({reason})")
    return 1 if types or own else 0
