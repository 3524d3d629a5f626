"""Signals that end a recipe: Ctrl-C, a request to stop, a lost connection.

The first one raises an exception, so that each `with` cleans up; further ones are ignored meanwhile.
"""

import os
import signal
from typing import NoReturn

SIGNALS = (signal.SIGINT, signal.SIGTERM, signal.SIGHUP)


class Stopped(BaseException):
    """A signal has asked the recipe to stop."""

    def __init__(self, number: int) -> None:
        super().__init__(number)
        self.number = number


def _stop(number: int, _frame: object) -> NoReturn:
    ignore()
    raise Stopped(number)


def catch() -> None:
    """Makes the signals raise Stopped; what is ignored already, as under nohup, stays ignored."""
    for number in SIGNALS:
        if signal.getsignal(number) != signal.SIG_IGN:
            signal.signal(number, _stop)


def ignore() -> None:
    """Lets the recipe end as it is about to."""
    for number in SIGNALS:
        signal.signal(number, signal.SIG_IGN)


def end_by(number: int) -> NoReturn:
    """Ends the process by the signal, so that its parent sees that."""
    signal.signal(number, signal.SIG_DFL)
    os.kill(os.getpid(), number)
    os._exit(128 + number)
