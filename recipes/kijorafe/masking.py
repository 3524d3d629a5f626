"""Which texts a mask leaves, and the options of the program for that."""

import os
from typing import AbstractSet, Dict, List, NamedTuple, Optional

from kijorafe.explain import fault_of
from kijorafe.jdk_names import jdk_names
from kijorafe.messages import WARNING, Fault
from kijorafe.opened import names_in, opened
from kijorafe.program import Failure, Program
from kijorafe.scrub import READ_FAULT
from kijorafe.shown import file_name
from kijorafe.unmasked import unmasked

# The recipe.
MASKED = "masked"
# The pattern of the fields whose texts are masked, but for those of the file recipes/unmasked.
ALL = "*"
# A known text that begins so isn't one.
LIKE_PSEUDONYMS = "masked-", "()masked-"


class Masks(NamedTuple):
    """Whether names of code are masked; a file of texts that stay; patterns of classes whose names do."""

    is_code_masked: bool = False
    known: Optional[str] = None
    opened: Optional[str] = None

    def words(self) -> List[str]:
        """The options that are given."""
        pairs = ("--known", self.known), ("--open", self.opened)
        values = [word for name, text in pairs if text is not None for word in (name, text)]
        return [*(["--code"] if self.is_code_masked else []), *values]


class Known(NamedTuple):
    """The file of texts that stay, if there is one, and what is to be said of them."""

    content: Optional[bytes]
    said: List[str]

    def texts(self) -> AbstractSet[str]:
        """Its lines."""
        lines = (line.decode("utf-8", "replace") for line in (self.content or b"").split(b"\n"))
        return {line for line in lines if not line.startswith(LIKE_PSEUDONYMS)}

    def more(self, texts: AbstractSet[str], said: List[str]) -> "Known":
        """The same with more texts."""
        lines = [text.encode("utf-8", "replace") for text in sorted(texts)]
        return Known(b"\n".join([self.content or b"", *lines, b""]), [*self.said, *said])


class Mask(NamedTuple):
    """The fields whose texts stay, and why; the texts that stay in every field."""

    fields: Dict[str, str]
    known: Known

    def options(self, known: str) -> List[str]:
        """The options of the program, besides those of a filter; the known texts are to be in this file."""
        words = ["--strings", ALL, "--except", ",".join(self.fields)]
        return words if self.known.content is None else [*words, "--known", known]


def known_of(masks: Masks) -> Known:
    """The known texts, those aside that are found in a recording. Their file may be a pipe.

    Without one, the names of JDKs are known, if names of code are masked.
    """
    if masks.known is None:
        return _names_of_jdks() if masks.is_code_masked else Known(None, [])
    content = _content(masks.known)
    said = f"{WARNING}lines of {file_name(masks.known)} end with a carriage return, which belongs to the text"
    return Known(content, [said] if b"\r\n" in content else [])


def mask_of(program: Program, masks: Masks, known: Known, source: str, recording: str) -> Mask:
    """What stays in a recording that the program has accepted."""
    fields = unmasked(masks.is_code_masked)
    if masks.opened is None:
        return Mask(fields, known)
    try:
        names = names_in(program, recording)
    except Failure as failure:
        raise fault_of(failure, source) from failure
    texts, unmatched = opened(names, masks.opened, known.texts())
    said = [f"{len(texts)} names stay, of what --open matches, and of its methods"]
    for pattern in unmatched:
        said.append(f"{WARNING}the pattern {file_name(pattern)} matches no class or package of {file_name(source)}")
    return Mask(fields, known.more(texts, said))


def _names_of_jdks() -> Known:
    found = jdk_names()
    if found is None:
        return Known(None, ["names of the JDK are masked, too, since no file of them is there: --known takes one"])
    return Known(found.content(), [f"names stay of {found.said()}"])


def _content(name: str) -> bytes:
    if os.path.isdir(name):
        raise Fault(READ_FAULT, f"{file_name(name)} is a folder")
    try:
        with open(name, "rb") as file:
            return file.read()
    except OSError as fault:
        raise Fault(READ_FAULT, f"reading {file_name(name)} failed: {fault.strerror}") from fault
