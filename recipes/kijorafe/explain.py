"""What the reasons of refusal and the doubts mean, and what to do: the file reasons beside this one."""

import os
from typing import Dict, Optional

from kijorafe.messages import Fault, write
from kijorafe.program import Failure
from kijorafe.shown import file_name, shown

REASONS = os.path.join(os.path.dirname(os.path.realpath(__file__)), "reasons")


def reasons() -> Dict[str, str]:
    """The sentence for each reason and each doubt, in the order of the file."""
    sentences = {}
    with open(REASONS, encoding="utf-8") as lines:
        for line in lines:
            if not line.startswith("#"):
                name, sentence = line.rstrip("\n").split("\t")
                sentences[name] = sentence
    return sentences


def reason_in(line: str) -> str:
    """The reason or doubt at the end of a line of jfr, such as `chunk 1 offset 64: Unfinished`."""
    return line.rpartition(": ")[2].strip()


def explained(status: int, line: str, name: str) -> str:
    """What a status of jfr and its last line mean for a recording, whose name can be shown."""
    sentence: Optional[str] = reasons().get(reason_in(line))
    if sentence:
        return f"{name}: {sentence}"
    return {
        1: "jfr doesn't take these words or names; a name must be UTF-8, and jfr of version 1.2.0 or later",
        3: f"reading {name} failed",
        5: f"there is not enough memory for {name}",
    }.get(status, f"jfr ended with status {status} for {name}: {shown(line)}")


def fault_of(failure: Failure, name: str) -> Fault:
    """The fault that ends a recipe when the program fails on the recording of this name. Repeats the program's line."""
    if failure.line:
        write(shown(failure.line) + "\n")
    return Fault(failure.status, explained(failure.status, failure.line, file_name(name)))


def explain(words: str) -> int:
    """Prints the sentence for a reason, a doubt, or a line of jfr that ends with one; without words, all of them."""
    sentences = reasons()
    if not words:
        for name, sentence in sentences.items():
            print(f"{name}: {sentence}")
        return 0
    name = reason_in(words)
    if name not in sentences:
        print(f"{shown(name)} is neither a reason of refusal nor a doubt")
        return 1
    print(f"{name}: {sentences[name]}")
    return 0
