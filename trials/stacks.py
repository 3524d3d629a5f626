#!/usr/bin/env python3
"""Compares `jfr stacks` with the stacks that another program finds: stacks.py [--converter JAR] PROGRAM RECORDING [EVENT..]

Without --converter, the other program is the JDK's `jfr`, the one on the PATH or in the folder JFR_BIN.

Each EVENT is the name of an event type; without them, each type of the recording whose events have stacks is compared.
The JDK's stacks are folded here from `jfr print --json` with all of their frames. It writes dots where class names in a
recording have slashes, so slashes are compared as dots.

With --converter, it is async-profiler's converter.jar (Debian's package async-profiler-java), run by the `java` on the
PATH. It counts samples of two types together, and marks each frame with how it was compiled, which is removed.

Prints for each type how many stacks and events were compared, and the first stacks with different counts; ends with 1
if there are any.
"""
import argparse
import json
import os
import re
import subprocess
import sys
import tempfile
from collections import Counter, defaultdict

JDK = os.path.join(os.environ["JFR_BIN"], "jfr") if "JFR_BIN" in os.environ else "jfr"
SHOWN = 5
SAMPLES = "jdk.ExecutionSample,jdk.NativeMethodSample"


def folded(program, recording, event):
    """The counts that `jfr stacks` writes, by stack."""
    text = subprocess.run([program, "stacks", "--events", event, recording],
                          capture_output=True, check=True).stdout.decode()
    counts = Counter()
    for line in text.splitlines():
        stack, count = line.rsplit(" ", 1)
        counts[stack.replace("/", ".")] += int(count)
    return counts


def escaped(name):
    return re.sub(r"[\x00-\x20;\\\x7f]", lambda c: "\\u%04x" % ord(c[0]), name)


def frame(value):
    """The text of a frame as the JDK prints it."""
    method = value["method"] or {}
    holder = (method.get("type") or {}).get("name")
    name = method.get("name")
    parts = ["?" if part is None else escaped(part) for part in (holder, name)]
    return ".".join(parts).replace("/", ".")


def printed(recording, events):
    """For each event type, the counts of the stacks that the JDK prints; of all types if none is given."""
    chosen = ["--events", ",".join(events)] if events else []
    text = subprocess.run([JDK, "print", "--json", "--stack-depth", "4096", *chosen, recording],
                          capture_output=True, check=True).stdout
    counts = defaultdict(Counter)
    for found in json.loads(text)["recording"]["events"]:
        trace = found["values"].get("stackTrace")
        if trace is not None:
            frames = [frame(value) for value in reversed(trace["frames"])]
            counts[found["type"]][";".join(frames) or "(empty)"] += 1
    return counts


def converted(converter, recording):
    """The counts of the stacks that async-profiler's converter finds, under the types whose samples it counts."""
    with tempfile.NamedTemporaryFile("r", encoding="utf-8") as out:
        subprocess.run(["java", "-cp", converter, "jfr2flame", "--collapsed", recording, out.name], check=True)
        counts = Counter()
        for line in out:
            stack, count = line.rsplit(" ", 1)
            counts[re.sub(r"_\[[0-9a-z]\]", "", stack).replace("/", ".")] += int(count)
    return {SAMPLES: counts}


def main():
    parser = argparse.ArgumentParser(usage="stacks.py [--converter JAR] PROGRAM RECORDING [EVENT..]")
    parser.add_argument("--converter")
    parser.add_argument("program")
    parser.add_argument("recording")
    parser.add_argument("events", nargs="*")
    given = parser.parse_args()
    program, recording = given.program, given.recording
    others = converted(given.converter, recording) if given.converter else printed(recording, given.events)
    differ = False
    for event, theirs in sorted(others.items()):
        ours = folded(program, recording, event)
        unlike = sorted(stack for stack in ours.keys() | theirs.keys() if ours[stack] != theirs[stack])
        print(f"{event}: {len(theirs)} stacks, {sum(theirs.values())} events; {len(unlike)} stacks differ")
        for stack in unlike[:SHOWN]:
            print(f"  ours {ours[stack]}, the other's {theirs[stack]}: {stack}")
        differ |= bool(unlike)
    return 1 if differ else 0


if __name__ == "__main__":
    sys.exit(main())
