"""Draws the stacks of a recording, or of a text of folded stacks, as a flame graph."""

import os
from typing import Iterable, List, Optional

from kijorafe.explain import fault_of
from kijorafe.inputs import RECORDING, check_input, recording_of
from kijorafe.messages import Fault
from kijorafe.program import Failure, find
from kijorafe.shown import file_name, shown
from kijorafe.staging import Output
from kijorafe.svg import Frame, drawn

# A count has at most as many digits as the largest number of 64 bits.
DIGITS = 19


def tree_of(lines: Iterable[str]) -> Frame:
    """The frames of folded stacks."""
    whole = Frame()
    for number, line in enumerate(lines, 1):
        stack, _, count = line.rstrip("\n").rpartition(" ")
        if not stack or not (count.isascii() and count.isdigit() and len(count) <= DIGITS):
            raise Fault(2, f"line {number} isn't a folded stack: frames, a blank, a count")
        whole.count += int(count)
        frame = whole
        for name in stack.split(";"):
            frame = frame.calls.setdefault(name, Frame())
            frame.count += int(count)
    if whole.count == 0:
        raise Fault(2, "there is no stack, so nothing is drawn")
    return whole


def flame(source: str, target: str, events: Optional[str], categories: Optional[str]) -> int:
    """Draws a flame graph of the events that the options choose."""
    options: List[str] = []
    for option, value in ("--events", events), ("--categories", categories):
        options += [option, value] if value is not None else []
    check_input(source)
    with Output(target) as output:
        whole = _folded(source, recording_of(source, output, or_text=True), options)
        try:
            with open(os.open(output.path, os.O_WRONLY | os.O_CREAT | os.O_EXCL, 0o600), "w", encoding="utf-8") as file:
                file.writelines(drawn(whole, shown(os.path.basename(source))))
        except OSError as fault:
            raise output.failed(fault) from fault
        output.commit()
    return 0


def _folded(source: str, file: str, options: List[str]) -> Frame:
    """The tree of a recording, or of a text."""
    try:
        with open(file, "rb") as content:
            is_recording = content.read(len(RECORDING)) == RECORDING
        if not is_recording:
            with open(file, encoding="utf-8", errors="replace", newline="\n") as lines:
                return tree_of(lines)
    except OSError as fault:
        raise Fault(3, f"{file_name(source)} can't be read: {fault.strerror}") from fault
    try:
        return tree_of([line.decode("utf-8", "replace") for line in find().lines("stacks", *options, file)])
    except Failure as failure:
        raise fault_of(failure, source) from failure
