"""Flame graphs as SVG files that load nothing else."""

import html
import os
import re
import zlib
from typing import Dict, Iterator, List, Tuple

SCRIPT = os.path.join(os.path.dirname(os.path.realpath(__file__)), "flame.js")
WIDTH, ROW, TOP, BOTTOM, MARGIN = 1200, 17, 44, 30, 10
# Frames narrower than this share of the whole are left out, with all above them.
LEAST = 0.1 / (WIDTH - 2 * MARGIN)
# What XML can't hold, and what reverses text.
HIDDEN = re.compile(r"[\x00-\x1f\x7f-\x9f\u200e\u200f\u202a-\u202e\u2066-\u2069\ud800-\udfff\ufffe\uffff]")


class Frame:
    """A frame: its counts, and the frames that it calls."""

    __slots__ = ("count", "calls")

    def __init__(self) -> None:
        self.count = 0
        self.calls: Dict[str, Frame] = {}


def visible(name: str) -> str:
    """A name for people: blanks, semicolons and backslashes as they are. Other escapes stay."""
    name = re.sub(r"\\u(0020|003b|005c)", lambda found: chr(int(found[1], 16)), name, flags=re.I)
    return HIDDEN.sub(lambda found: f"\\u{ord(found[0]):04x}", name)


def boxes_of(whole: Frame) -> Iterator[Tuple[str, int, int, int]]:
    """Each frame that is wide enough, callers first: its name, its count, the counts before it, and its depth."""
    rest: List[Tuple[str, Frame, int, int]] = [("all", whole, 0, 0)]
    while rest:
        name, frame, before, depth = rest.pop()
        yield name, frame.count, before, depth
        for callee, called in sorted(frame.calls.items()):
            if called.count >= LEAST * whole.count:
                rest.append((callee, called, before, depth + 1))
            before += called.count


def color_of(name: str) -> str:
    """Always the same for a name, from red to yellow."""
    number = zlib.crc32(name.encode("utf-8", "replace"))
    return f"rgb({205 + number % 50},{70 + number // 64 % 140},{number // 8192 % 55})"


def say(text: str) -> str:
    """The text in XML."""
    return html.escape(text, quote=True)


def drawn(whole: Frame, title: str) -> Iterator[str]:
    """The parts of the file."""
    boxes = list(boxes_of(whole))
    height = TOP + BOTTOM + ROW * (1 + max(depth for *_, depth in boxes))
    yield f"""<?xml version="1.0" encoding="UTF-8"?>
<svg xmlns="http://www.w3.org/2000/svg" viewBox="0 0 {WIDTH} {height}" width="{WIDTH}" height="{height}">
<style>
text {{ font: 11px monospace; pointer-events: none }}
g.frame {{ cursor: pointer }} g.frame:hover rect {{ stroke: black }}
g.found rect {{ fill: rgb(190,90,240) }} #whole {{ cursor: pointer; pointer-events: all; text-decoration: underline }}
</style>
<rect width="{WIDTH}" height="{height}" fill="#fff8e8"/>
<text x="{WIDTH / 2}" y="18" text-anchor="middle" style="font-size: 14px">{say(title)}</text>
<text id="whole" x="{MARGIN}" y="32">show all</text>
<foreignObject x="{WIDTH - 250}" y="8" width="240" height="26"><input xmlns="http://www.w3.org/1999/xhtml" id="search"
 placeholder="search (regular expression)" style="width: 230px; font: 11px monospace"/></foreignObject>
<text id="said" x="{MARGIN}" y="{height - 10}"> </text>
"""
    for name, count, before, depth in boxes:
        yield _box(visible(name), count, before / whole.count, count / whole.count, depth, height)
    with open(SCRIPT, encoding="utf-8") as script:
        lines = "".join(line for line in script if not line.startswith("//"))
    yield f"<script><![CDATA[const WIDTH = {WIDTH}, MARGIN = {MARGIN};\n{lines}]]></script>\n</svg>\n"


def _box(name: str, count: int, x: float, w: float, depth: int, height: int) -> str:
    left, size = MARGIN + x * (WIDTH - 2 * MARGIN), w * (WIDTH - 2 * MARGIN)
    top, letters = height - BOTTOM - ROW * (depth + 1), int((size - 6) / 6.7)
    label = "" if letters < 3 else name if len(name) <= letters else name[: letters - 2] + ".."
    return (
        f'<g class="frame" data-x="{x:.9f}" data-w="{w:.9f}" data-d="{depth}" data-n="{say(name)}">'
        f"<title>{say(name)}: {count}, {100 * w:.2f} %</title>"
        f'<rect x="{left:.2f}" y="{top}" width="{max(size - 0.3, 0.1):.2f}" height="{ROW - 1}" rx="1"'
        f' fill="{color_of(name)}"/>'
        f'<text x="{left + 3:.2f}" y="{top + 12}">{say(label)}</text></g>\n'
    )
