#!/usr/bin/env python3
"""Tries receipts and their check: receipts.py PROGRAM FILE.. [--changes N] [--seed S] [-- OPTION..]

For each file: makes its scrub and its receipts with the options of a filter, and verifies them. Then it changes one
byte of the scrub or of the receipts, N times (default 1000, at places chosen by the seed, default 1), and verifies
again. Each change must be doubted or refused, unless it is one of which the check doesn't speak: then the changed scrub
still has the same events, as `print --json --depth 8` shows them.

Prints a row for each file: how many changes were doubted, by the name of the doubt, and how many were verified all the
same, in the scrub and in the receipts. The status is 1 if a scrub isn't verified, or a change that alters an event is.
"""
import collections
import os
import random
import subprocess
import sys
import tempfile


def run(*words):
    done = subprocess.run(words, capture_output=True, text=True, errors="surrogateescape", stdin=subprocess.DEVNULL)
    return done.returncode, done.stdout, done.stderr


def shown(program, recording):
    """What `print` shows of each event."""
    return subprocess.run([program, "print", "--json", "--depth", "8", recording], capture_output=True, check=True).stdout


def changed(data, rng):
    at = rng.randrange(len(data))
    other = bytearray(data)
    other[at] ^= rng.randrange(1, 256)
    return at, bytes(other)


def try_file(program, recording, options, changes, seed):
    rng = random.Random(seed)
    wrong = 0
    with tempfile.TemporaryDirectory() as folder:
        output, receipt = os.path.join(folder, "out.jfr"), os.path.join(folder, "receipts")
        for command, target in (("scrub", output), ("receipt", receipt)):
            status, _, line = run(program, command, *options, recording, target)
            if status:
                print(f"{recording}: {command}: {line.strip()}")
                return 1
        verify = [program, "verify", *options, recording, output, receipt]
        status, text, line = run(*verify)
        print(f"{recording}: {text.strip() or line.strip()}; "
              f"{os.path.getsize(output)} bytes, receipts {os.path.getsize(receipt)} bytes")
        if status:
            return 1
        with open(output, "rb") as file:
            out_bytes = file.read()
        with open(receipt, "rb") as file:
            receipt_bytes = file.read()
        whole = shown(program, output)
        counts = collections.Counter()
        for number in range(changes):
            # Every other change is one of the receipts.
            path, data, name = ((output, out_bytes, "scrub"), (receipt, receipt_bytes, "receipts"))[number % 2]
            if not data:
                continue
            at, other = changed(data, rng)
            with open(path, "wb") as file:
                file.write(other)
            status, _, line = run(*verify)
            if status == 7:
                counts[f"{name} {line.split()[-1]}"] += 1
            elif status == 0:
                counts[f"{name} verified"] += 1
                if name == "scrub" and shown(program, output) != whole:
                    wrong += 1
                    print(f"  byte {at} of the scrub: verified, but an event differs")
            else:
                wrong += 1
                print(f"  byte {at} of the {name}: status {status}: {line.strip()}")
            with open(path, "wb") as file:
                file.write(data)
        print("  " + ", ".join(f"{count} {what}" for what, count in sorted(counts.items())))
    return wrong


def main(words):
    options = []
    if "--" in words:
        at = words.index("--")
        words, options = words[:at], words[at + 1:]
    numbers = {"--changes": 1000, "--seed": 1}
    for name in numbers:
        if name in words:
            at = words.index(name)
            numbers[name] = int(words[at + 1])
            words = words[:at] + words[at + 2:]
    if len(words) < 2:
        sys.exit(__doc__)
    program = os.path.realpath(words[0])
    wrong = sum(try_file(program, file, options, numbers["--changes"], numbers["--seed"]) for file in words[1:])
    sys.exit(1 if wrong else 0)


main(sys.argv[1:])
