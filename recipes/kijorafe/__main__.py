"""Checks the version of Python, and runs the command line. Any Python 3 must be able to read this file."""

import os
import signal
import sys

if sys.version_info < (3, 8):
    sys.stderr.write(
        "kijorafe: this is Python %d.%d; it needs Python 3.8 or later, and glibc 2.34 or later\n" % sys.version_info[:2]
    )
    sys.exit(69)

# Until the signals are caught, Ctrl-C ends the process without a word.
if signal.getsignal(signal.SIGINT) is not signal.SIG_IGN:
    signal.signal(signal.SIGINT, signal.SIG_DFL)

# The modules are those of the package, whatever a folder named so contains elsewhere.
sys.path[0] = os.path.dirname(os.path.dirname(os.path.abspath(__file__)))

from kijorafe.cli import main  # noqa: E402  (only after the check)

sys.exit(main(sys.argv[1:]))
