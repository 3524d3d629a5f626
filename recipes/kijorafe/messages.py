"""What the user is told: messages on the error stream, and faults, which end a recipe."""

import sys


# How a message begins that the user should act on, although the recipe ends well.
WARNING = "WARNING: "


class Fault(Exception):
    """The end of a recipe that can't do what was asked: an exit status and a message."""

    def __init__(self, status: int, message: str) -> None:
        super().__init__(message)
        self.status = status
        self.message = message


_speaker = "kijorafe"


def speak_as(name: str) -> None:
    """Sets the name at the beginning of each message."""
    global _speaker
    _speaker = name


def speaker() -> str:
    """The name at the beginning of each message."""
    return _speaker


def say(message: str) -> None:
    """Writes a message to the error stream, if somebody reads it."""
    write(f"{_speaker}: {message}\n")


def write(text: str) -> None:
    """Writes to the error stream, if somebody reads it. Text that is already a line isn't marked."""
    if sys.stderr is None:
        return
    try:
        sys.stderr.write(text)
        sys.stderr.flush()
    except OSError:
        pass
