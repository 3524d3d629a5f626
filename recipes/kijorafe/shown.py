"""Names and texts of recordings, made safe to show.

A name in a recording may have any characters. Those that control a terminal, break lines or reverse text are shown as
escapes, so that what is on the screen is what is there.
"""

import json
import os
import shlex
from typing import Iterable


def escaped(character: str) -> str:
    """The escape of a character, as in JSON: two of them for a character beyond U+FFFF."""
    units = character.encode("utf-16-be", "surrogatepass")
    return "".join(f"\\u{units[at] << 8 | units[at + 1]:04x}" for at in range(0, len(units), 2))


def shown(text: str) -> str:
    """The text on one line, with escapes for everything that isn't printed as itself."""
    if text.isprintable():
        return text
    return "".join(character if character.isprintable() else escaped(character) for character in text)


def quoted(text: str) -> str:
    """The text as a JSON string on one line, with escapes for everything that isn't printed as itself."""
    return shown(json.dumps(text, ensure_ascii=False))


def file_name(name: str) -> str:
    """The name of a file as a shell reads it, on one line."""
    if name.isprintable():
        return shlex.quote(name)
    return "$'" + "".join(_in_quotes(character) for character in name) + "'"


def _in_quotes(character: str) -> str:
    if character in "'\\":
        return "\\" + character
    if character.isprintable():
        return character
    return "".join(f"\\x{byte:02x}" for byte in os.fsencode(character))


def in_a_row(texts: Iterable[str], most: int = 10) -> str:
    """The first texts, on one line, and how many more there are."""
    every = [shown(text) for text in texts]
    more = f"; and {len(every) - most} more" if len(every) > most else ""
    return "; ".join(every[:most]) + more
