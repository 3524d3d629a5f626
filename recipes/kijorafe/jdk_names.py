"""The names of JDKs' own code that come with the recipes: a file in the folder dist, or, when installed, in share."""

import os
import re
from typing import List, NamedTuple, Optional

from kijorafe import program
from kijorafe.messages import Fault
from kijorafe.scrub import READ_FAULT
from kijorafe.shown import file_name

FOLDERS = "dist", "share"
# The file's name has the JDKs.
FILE = re.compile(r"jdk-names-([0-9]+(?:-[0-9]+)*)\.xz")


class JdkNames(NamedTuple):
    """The file, and the JDKs whose names it has."""

    path: str
    jdks: List[str]

    def said(self) -> str:
        """The JDKs, and the file."""
        *first, last = self.jdks
        return f"JDK {', '.join(first)}{' and ' if first else ''}{last}, which {file_name(self.path)} has"

    def content(self) -> bytes:
        """The names, one a line."""
        try:
            import lzma
        except ImportError as fault:
            raise Fault(READ_FAULT, f"this Python has no module lzma to read {file_name(self.path)}") from fault
        try:
            with lzma.open(self.path) as file:
                return file.read()
        except OSError as fault:
            raise Fault(READ_FAULT, f"reading {file_name(self.path)} failed: {fault.strerror}") from fault
        except (EOFError, lzma.LZMAError) as fault:
            raise Fault(READ_FAULT, f"{file_name(self.path)} is damaged") from fault


def jdk_names() -> Optional[JdkNames]:
    """The file, if it is there."""
    for folder in FOLDERS:
        place = os.path.join(program.PLACE, folder)
        for name in sorted(os.listdir(place)) if os.path.isdir(place) else ():
            found = FILE.fullmatch(name)
            if found:
                return JdkNames(os.path.join(place, name), found[1].split("-"))
    return None
