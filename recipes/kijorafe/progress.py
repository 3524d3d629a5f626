"""How much is done, on a terminal, for what takes more than a second."""

import os
import stat
import sys
import time
from types import TracebackType
from typing import Optional, Tuple, Type

from kijorafe.messages import speaker, write

SECOND = 1.0
ERASE = "\r\x1b[K"


def is_on_terminal() -> bool:
    return sys.stderr is not None and sys.stderr.isatty()


class Progress:
    """Says every second how many bytes are done of all, and takes that away at the end."""

    def __init__(self, total: int = 0) -> None:
        self.total, self.said, self.is_shown = total, time.monotonic(), False

    def __enter__(self) -> "Progress":
        return self

    def __exit__(
        self,
        kind: Optional[Type[BaseException]],
        value: Optional[BaseException],
        trace: Optional[TracebackType],
    ) -> None:
        if self.is_shown:
            write(ERASE)

    def at(self, done: int, what: str) -> None:
        """So many bytes are done of this work."""
        if is_on_terminal() and self.total > 0 and time.monotonic() - self.said >= SECOND:
            self.said, self.is_shown = time.monotonic(), True
            write(f"{ERASE}{speaker()}: {what}: {100 * done // self.total} % of {self.total} bytes")

    def of_process(self, number: int, what: str) -> None:
        """The same for what a process has read of the files that it has open for reading."""
        done, self.total = bytes_read(number)
        self.at(done, what)


def bytes_read(number: int) -> Tuple[int, int]:
    """How much a process has read of the files that it has open for reading, and how much they have."""
    done = every = 0
    folder = f"/proc/{number}"
    try:
        for name in os.listdir(f"{folder}/fd"):
            state = os.stat(f"{folder}/fd/{name}")
            if int(name) > 2 and stat.S_ISREG(state.st_mode):
                with open(f"{folder}/fdinfo/{name}", encoding="ascii") as info:
                    position, flags = (line.split()[1] for line in (info.readline(), info.readline()))
                if int(flags, 8) & os.O_ACCMODE == os.O_RDONLY:
                    done, every = done + int(position), every + state.st_size
    except OSError:
        # The process has ended, or has closed a file.
        return 0, 0
    return done, every
