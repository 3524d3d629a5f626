#!/usr/bin/env python3
"""Tries the JDK's own reader on what vendor and strict make of recordings, most of all those of several chunks.

For each JDK, file and recipe, `jfr print --json` must show of a scrub the events that it shows of the file, of the
types that the recipe keeps: in the same order, with the same values, times and frames. A difference only in the members
`osThreadId` is counted by itself: some recordings of JDK 21 and later have two constants with one class and key, of
which the JDK takes the first, and this program the later one.

With --view, which JDK 21 and later have, `jfr view` must show the same of the file and of the scrub, for each view all
of whose types the recipe keeps, and must not say that such a view misses a type. Which types a view has is known from
the files that are of the same JDK.

Prints a row for each, with how many events the JDK shows of a scrub without `--describe`, and what was wrong.
"""
import argparse
import json
import os
import re
import subprocess
import sys
import tempfile
from typing import Dict, NamedTuple, Set

TOP = os.path.dirname(os.path.dirname(os.path.realpath(__file__)))
sys.path.insert(0, os.path.join(TOP, "recipes"))

from kijorafe import known  # noqa: E402  (in the folder just named)

MISSING = re.compile(r"^Missing event found for (\S+)$", re.MULTILINE)
QUERY = re.compile(r"\bSELECT .* FROM (.*?)(?: WHERE .*| GROUP BY .*| ORDER BY .*| LIMIT .*)?$")
NO_VIEW = re.compile(r"^(?:No events found for|Missing event found for|Can't find|Use 'SHOW) .*$", re.MULTILINE)


def shown_events(jdk, recording, types=None):
    """The events that a JDK shows."""
    words = [os.path.join(jdk, "jfr"), "print", "--json", "--stack-depth", "64"]
    if types:
        words += ["--events", ",".join(types)]
    out = subprocess.run([*words, recording], stdout=subprocess.PIPE, check=True).stdout
    return json.loads(out)["recording"]["events"]


def without_system_ids(value):
    """The value without the members `osThreadId`."""
    if isinstance(value, dict):
        return {name: without_system_ids(member) for name, member in value.items() if name != "osThreadId"}
    if isinstance(value, list):
        return [without_system_ids(item) for item in value]
    return value


def compare_events(wanted, found):
    """What differs, in words."""
    if len(wanted) != len(found):
        return [f"{len(found)} events in place of {len(wanted)}"]
    pairs = [(one, other) for one, other in zip(wanted, found) if one != other]
    other = [pair for pair in pairs if without_system_ids(pair[0]) != without_system_ids(pair[1])]
    return [f"{len(other)} events differ, first {other[0][0]['type']}"] if other else []


class Views(NamedTuple):
    """The views of a JDK: the event types of each by its title, and the names of those that each event type has."""

    types: Dict[str, Set[str]]
    names: Dict[str, Set[str]]


def views_in(jdk, recordings):
    """The views of a JDK that have rows in recordings. Those that lack a type of the JDK make it fail."""
    every = Views({}, {})
    for recording in recordings:
        words = [os.path.join(jdk, "jfr"), "view", "--verbose", "all-views", recording]
        run = subprocess.run(words, stdout=subprocess.PIPE, stderr=subprocess.DEVNULL)
        if run.returncode == 0:
            views, _, table = run.stdout.decode("utf-8", "replace").partition("\nExecution: ")
            every.types.update(types_of(views))
            every.names.update(names_of(table))
    return every


def shown_views(jdk, recording):
    """The text of all views, or None if the JDK fails, as with some recordings of older JDKs."""
    words = [os.path.join(jdk, "jfr"), "view", "all-views", recording]
    run = subprocess.run(words, stdout=subprocess.PIPE, stderr=subprocess.DEVNULL)
    return None if run.returncode else run.stdout.decode("utf-8", "replace")


def names_of(table):
    """The names of the views that each event type has, by the table that --verbose adds."""
    rows = (line.split(None, 1) for line in table.splitlines() if line.startswith("jdk."))
    return {name: set(", ".join(views).split(", ")) for name, *views in rows}


def types_of(views):
    """The event types of each view that has rows, by the view's title: with --verbose its query is at the end."""
    title = None
    types = {}
    for paragraph in paragraphs(views):
        if NO_VIEW.match(paragraph):
            continue
        query = " ".join(paragraph.split())
        title = title or title_of(paragraph)
        found = QUERY.search(query)
        if found:
            types[title] = {"jdk." + word.split()[0].replace("jdk.", "") for word in found[1].split(", ")}
            title = None
    return types


def views_by_title(views, titles):
    """The text of each view that has rows, by its title."""
    found = {}
    title = None
    for paragraph in paragraphs(views):
        if NO_VIEW.match(paragraph):
            title = None
        elif title_of(paragraph) in titles:
            title = title_of(paragraph)
        if title:
            found[title] = found.get(title, "") + paragraph.strip() + "\n\n"
    return found


def title_of(paragraph):
    """The first line, which --verbose may mark as experimental."""
    return paragraph.splitlines()[0].replace("(Experimental)", "").strip()


def paragraphs(text):
    """The paragraphs of a text; what it says of a view that has no rows is one, too."""
    text = NO_VIEW.sub(lambda found: f"\n{found[0]}\n", text)
    return [paragraph.strip("\n") for paragraph in re.split(r"\n[ ]*\n", text) if paragraph.strip()]


def compare_views(jdk, views, file, scrub, kept):
    """How many views are compared, and what differs, in words."""
    before, after = shown_views(jdk, file), shown_views(jdk, scrub)
    if before is None:
        return "-", []
    if after is None:
        return 0, ["jfr view fails"]
    gone = {view for name, these in views.names.items() if name not in kept for view in these}
    there = {view for name, these in views.names.items() if name in kept for view in these}
    missing = (set(MISSING.findall(after)) - set(MISSING.findall(before))) & (there - gone)
    wanted, found = (views_by_title(text, set(views.types)) for text in (before, after))
    titles = [title for title in wanted if views.types[title] <= kept]
    wrong = [f"view {name} misses a type" for name in sorted(missing)]
    wrong += [f"view '{title}' differs" for title in titles if wanted[title] != found.get(title)]
    return len(titles), wrong


def main():
    """Prints a row for each JDK, file and recipe; the status is 1 if a scrub is read otherwise than its file."""
    parser = argparse.ArgumentParser(description=__doc__, formatter_class=argparse.RawDescriptionHelpFormatter)
    parser.add_argument("--view", action="store_true", help="compare `jfr view`, too, with the JDKs that have it")
    parser.add_argument(
        "--jdk", action="append", required=True, metavar="BIN", help="a folder with the JDK's `jfr`; may be repeated"
    )
    parser.add_argument("program")
    parser.add_argument("files", nargs="+")
    args = parser.parse_args()
    views_of = {jdk: views_in(jdk, args.files) for jdk in args.jdk if args.view and has_view(jdk)}
    bad = 0
    print("| JDK | file | recipe | kept events | osThreadId differs | without --describe | views | wrong |")
    print("|---|---|---|---:|---:|---:|---:|---|")
    for file in args.files:
        for recipe in "vendor", "strict":
            with tempfile.TemporaryDirectory() as folder:
                described, plain = os.path.join(folder, "described.jfr"), os.path.join(folder, "plain.jfr")
                kept = known.kept_by(recipe)
                names = ",".join(kept)
                scrub = [args.program, "scrub", "--include-events", names]
                subprocess.run([*scrub, "--describe", names, file, described], check=True)
                subprocess.run([*scrub, file, plain], check=True)
                for jdk in args.jdk:
                    wanted, found = shown_events(jdk, file, kept), shown_events(jdk, described)
                    wrong = compare_events(wanted, found)
                    system = sum(one != other for one, other in zip(wanted, found)) if not wrong else "?"
                    views = "-"
                    if jdk in views_of:
                        views, differences = compare_views(jdk, views_of[jdk], file, described, set(kept))
                        wrong += differences
                    bad += bool(wrong)
                    without = len(shown_events(jdk, plain))
                    row = jdk, os.path.basename(file), recipe, len(wanted), system, without, views
                    print("|", " | ".join(map(str, row)), "|", "; ".join(wrong), "|", flush=True)
    sys.exit(1 if bad else 0)


def has_view(jdk):
    """Whether a JDK has `jfr view`."""
    return subprocess.run([os.path.join(jdk, "jfr"), "help", "view"], capture_output=True).returncode == 0


if __name__ == "__main__":
    main()
