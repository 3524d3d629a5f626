#!/usr/bin/env python3
"""Draws how seconds grow with the size of a recording: sizes.py ROWS OUT.svg

ROWS are the rows that real.sh prints, of recordings of several sizes, among them each recording's row `cp`, which has its
size. Of each command named below that has rows with the JDK's seconds, draws two lines: this program's seconds and the
JDK's, by the size of the recording. Both axes are logarithmic.
"""
import math
import sys
from html import escape

COLOURS = {"scrub": "#b3541e", "summary": "#2b6ca3", "print --depth 2": "#4c8c4a"}
LEFT, TOP, WIDTH, HEIGHT = 70, 30, 560, 380


def points(rows):
    """For each command, the list of megabytes, this program's seconds and the JDK's."""
    table = [[cell.strip() for cell in row.strip().strip("|").split("|")] for row in rows]
    table = [cells for cells in table if len(cells) == 11]
    sizes = {cells[0]: int(cells[5]) / 1e6 for cells in table if cells[1] == "cp"}
    found = {}
    for name, command, ours, *_, theirs, _, _, _ in table:
        if command in COLOURS and name in sizes and theirs != "-":
            found.setdefault(command, []).append((sizes[name], max(0.001, float(ours)), float(theirs)))
    return {command: sorted(of) for command, of in found.items()}


def decades(least, greatest):
    return math.floor(math.log10(least)), math.ceil(math.log10(greatest))


class Axis:
    """Where a number is drawn, between the powers of ten below and above all numbers."""

    def __init__(self, numbers, start, length):
        self.low, self.high = decades(min(numbers), max(numbers))
        self.start, self.length = start, length

    def at(self, number):
        return self.start + self.length * (math.log10(number) - self.low) / (self.high - self.low)

    def marks(self):
        return [10.0**n for n in range(self.low, self.high + 1)]


def label(number):
    return f"{number:,.0f}" if number >= 1 else f"{number:g}"


def drawn(series):
    every = [point for of in series.values() for point in of]
    x = Axis([size for size, _, _ in every], LEFT, WIDTH)
    y = Axis([seconds for _, *both in every for seconds in both], TOP + HEIGHT, -HEIGHT)
    parts = [
        f'<svg xmlns="http://www.w3.org/2000/svg" viewBox="0 0 {LEFT + WIDTH + 170} {TOP + HEIGHT + 60}"'
        ' font-family="sans-serif" font-size="13">',
        '<rect width="100%" height="100%" fill="white"/>',
    ]
    for mark in x.marks():
        at = x.at(mark)
        parts.append(f'<path d="M{at:.1f} {TOP}V{TOP + HEIGHT}" stroke="#ddd"/>')
        parts.append(f'<text x="{at:.1f}" y="{TOP + HEIGHT + 20}" text-anchor="middle">{label(mark)}</text>')
    for mark in y.marks():
        at = y.at(mark)
        parts.append(f'<path d="M{LEFT} {at:.1f}H{LEFT + WIDTH}" stroke="#ddd"/>')
        parts.append(f'<text x="{LEFT - 8}" y="{at + 4:.1f}" text-anchor="end">{label(mark)}</text>')
    parts.append(f'<text x="{LEFT + WIDTH / 2}" y="{TOP + HEIGHT + 45}" text-anchor="middle">MB</text>')
    parts.append(f'<text x="{LEFT}" y="{TOP - 12}" text-anchor="middle">seconds</text>')
    ends = []
    for name, of in series.items():
        for number, who in ((1, ""), (2, " (the JDK)")):
            line = [(x.at(point[0]), y.at(point[number])) for point in of]
            path = "M" + "L".join(f"{across:.1f} {down:.1f}" for across, down in line)
            dashes = ' stroke-dasharray="6 4"' if number == 2 else ""
            parts.append(f'<path d="{path}" fill="none" stroke="{COLOURS[name]}" stroke-width="2"{dashes}/>')
            parts += [f'<circle cx="{across:.1f}" cy="{down:.1f}" r="3" fill="{COLOURS[name]}"/>' for across, down in line]
            ends.append([line[-1][1], line[-1][0], name + who, COLOURS[name]])
    # Labels at the ends of lines, moved apart.
    ends.sort()
    for above, end in zip(ends, ends[1:]):
        end[0] = max(end[0], above[0] + 16)
    for down, across, name, colour in ends:
        parts.append(
            f'<text x="{across + 8:.1f}" y="{down + 4:.1f}" fill="{colour}" stroke="white" stroke-width="4"'
            f' paint-order="stroke">{escape(name)}</text>'
        )
    return "\n".join([*parts, "</svg>", ""])


def main(words):
    if len(words) != 2:
        print("usage: sizes.py ROWS OUT.svg", file=sys.stderr)
        return 1
    with open(words[0], encoding="utf-8") as rows:
        series = points(rows)
    if not series:
        print("sizes.py: no rows with a size and the JDK's seconds", file=sys.stderr)
        return 1
    with open(words[1], "w", encoding="utf-8") as out:
        out.write(drawn(series))
    return 0


if __name__ == "__main__":
    sys.exit(main(sys.argv[1:]))
