"""How a recording may spell a word: in which case, with which signs between the parts of a name, and encoded."""

import base64
import json
import unicodedata
from typing import Iterator, NamedTuple, Set
from urllib.parse import quote, quote_plus

# Shorter pieces of base64 are found by chance.
SHORTEST = 6
# In names of classes these are equal, as in com/shop/Order$Item.
SIGNS = "./$"
_SIGNS = str.maketrans(SIGNS, "." * len(SIGNS))
_EXACT_BYTES = bytes.maketrans(SIGNS.encode(), b"." * len(SIGNS))
_UPPER, _LOWER = "ABCDEFGHIJKLMNOPQRSTUVWXYZ", "abcdefghijklmnopqrstuvwxyz"
_ANY_CASE_BYTES = bytes.maketrans((_UPPER + SIGNS).encode(), (_LOWER + "." * len(SIGNS)).encode())


class Search(NamedTuple):
    """How to compare: in any case, or exactly."""

    is_exact: bool = False

    def plain(self, text: str) -> str:
        """The text as it is compared: texts that count as equal have the same one."""
        if not text.isascii():
            text = unicodedata.normalize("NFC", text)
            if not self.is_exact:
                text = unicodedata.normalize("NFC", text.casefold())
        elif not self.is_exact:
            text = text.lower()
        return text.translate(_SIGNS)

    def plain_bytes(self, content: bytes) -> bytes:
        """The same for bytes, whatever text they spell."""
        return content.translate(_EXACT_BYTES if self.is_exact else _ANY_CASE_BYTES)

    def texts(self, word: str) -> Set[str]:
        """The texts that a string may have for the word, as `plain` gives them."""
        in_json = json.dumps(word)[1:-1]
        forms = word, quote(word, safe=""), quote_plus(word), in_json, in_json.replace("/", "\\/")
        return {self.plain(form) for form in forms}

    def spellings(self, word: str) -> Set[bytes]:
        """The bytes that a recording may have for the word, as `plain_bytes` gives them.

        Texts are in UTF-8, Latin-1, UTF-16, or a row of compressed integers, one for each character.
        """
        found: Set[bytes] = set()
        for text in self._variants(word):
            units = text.encode("utf-16-le", "surrogatepass")
            found |= {text.encode("utf-8", "surrogatepass"), units, text.encode("utf-16-be", "surrogatepass")}
            found.add(b"".join(_spelled(units[at] | units[at + 1] << 8) for at in range(0, len(units), 2)))
            if all(character < "\u0100" for character in text):
                found.add(text.encode("latin-1"))
        return {self.plain_bytes(spelling) for spelling in found | {text.encode() for text in self.texts(word)}}

    def _variants(self, word: str) -> Set[str]:
        """The word composed and decomposed, and in the cases that differ beyond ASCII."""
        words = {word} if self.is_exact or word.isascii() else {word, word.lower(), word.upper(), word.title()}
        return {unicodedata.normalize(form, each) for each in words for form in ("NFC", "NFD")}


def base64_of(word: str) -> Set[str]:
    """The base64 texts that a longer text with the word has, whichever of three offsets the word has in it."""
    data = word.encode("utf-8", "surrogatepass")
    return {piece for shift in range(3) for piece in _pieces(data, shift) if len(piece) >= SHORTEST}


def _pieces(data: bytes, shift: int) -> Iterator[str]:
    """The characters that depend only on the data, after this many other bytes, in both alphabets."""
    first = (shift * 8 + 5) // 6
    end = (shift + len(data)) * 8 // 6
    padded = bytes(shift) + data + bytes(2)
    yield base64.b64encode(padded).decode("ascii")[first:end]
    yield base64.urlsafe_b64encode(padded).decode("ascii")[first:end]


def _spelled(number: int) -> bytes:
    """A compressed integer."""
    spelling = bytearray()
    while number > 127:
        spelling.append(number & 127 | 128)
        number >>= 7
    return bytes(spelling + bytes([number]))
