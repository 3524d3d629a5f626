"""The log of many scrubs: a line for each recording, and at the top what was run."""

import fcntl
import os
from typing import Dict, IO, List, NamedTuple

from kijorafe.messages import Fault
from kijorafe.shown import file_name

LONGEST = 2000


class Result(NamedTuple):
    """What came of a recording: the status, the seconds, its name below the folder, and what was said."""

    status: int
    seconds: int
    name: str
    said: str

    def line(self) -> str:
        return f"{self.status}\t{self.seconds}\t{file_name(self.name)}\t{self.said[:LONGEST]}\n"


class Log:
    """The log, which only one run writes at a time."""

    def __init__(self, name: str, head: str, resume: bool) -> None:
        self.name = name
        is_there = os.path.lexists(name)
        if is_there and not resume:
            raise Fault(4, f"{file_name(name)} is of an earlier run: add --resume, or give another folder")
        try:
            self._file: IO[str] = open(name, "a+", encoding="utf-8", errors="surrogateescape", newline="\n")
            fcntl.flock(self._file, fcntl.LOCK_EX | fcntl.LOCK_NB)
        except BlockingIOError as fault:
            raise Fault(4, f"another run is writing to {file_name(name)}") from fault
        except OSError as fault:
            raise Fault(4, f"{file_name(name)} can't be written: {fault.strerror}") from fault
        self._file.seek(0)
        lines = self._file.read().splitlines()
        if lines and lines[0] != head:
            raise Fault(4, f"{file_name(name)} is of another recipe or folder")
        self._last = _last_statuses(lines[1:])
        if not lines:
            self._write(head + "\n")

    def was_done(self, name: str) -> bool:
        """Whether an earlier run has scrubbed the recording of this name."""
        return self._last.get(file_name(name)) == "0"

    def add(self, result: Result) -> None:
        self._write(result.line())

    def _write(self, text: str) -> None:
        try:
            self._file.write(text)
            self._file.flush()
        except OSError as fault:
            raise Fault(4, f"{file_name(self.name)} can't be written: {fault.strerror}") from fault


def _last_statuses(lines: List[str]) -> Dict[str, str]:
    """The status of each shown name; 0 if it ever was that."""
    statuses: Dict[str, str] = {}
    for line in lines:
        words = line.split("\t")
        if len(words) > 2 and statuses.get(words[2]) != "0":
            statuses[words[2]] = words[0]
    return statuses
