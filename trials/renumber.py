#!/usr/bin/env python3
"""Compares scrubs with and without new keys: renumber.py PROGRAM FILE.. [-- OPTION..]

Scrubs each file with the options and `--renumber no`, and with them and `--renumber yes`. The second output
- has the same events as the first, chunk by chunk, as the JDK prints them with `jfr print --json` and whole stacks, in
  the same order, byte for byte;
- has the same events as this program prints them with `print --json`, except for the keys of references that are
  shown as references; to a depth of 8, or of 2 if the file has 5 MB or more;
- and isn't longer than the first.

The JDK gets each chunk as a recording of its own. In a recording with more chunks it takes a constant from the chunk
before if that one has the class and the key, too. That is right for the keys of a JVM, and wrong for new ones, which
begin anew in each chunk.

Prints a row for each file: its bytes, those of both outputs, how many chunks and events were compared, and how many
events the JDK misreads if it gets all chunks at once; then what was wrong, with the first events that differ. The
status is 1 if anything was. The JDK is the one whose `jfr` is on the PATH, or in the folder JFR_BIN.
"""
import difflib
import os
import re
import subprocess
import sys
import tempfile
from itertools import zip_longest

JDK = os.path.join(os.environ["JFR_BIN"], "jfr") if "JFR_BIN" in os.environ else "jfr"
FIRST = b'      "type": '
KEY = re.compile(rb'("class":"(?:[^"\\]|\\.)*"),"key":\d+')
SHOWN = 2


def lines_of(*words):
    """The lines that a command writes."""
    with subprocess.Popen(words, stdout=subprocess.PIPE) as running:
        yield from running.stdout
    if running.returncode:
        raise subprocess.CalledProcessError(running.returncode, words)


def printed_by_jdk(recording):
    """The text of each event, as the JDK prints it."""
    event = []
    for line in lines_of(JDK, "print", "--json", "--stack-depth", "4096", recording):
        if line.startswith(FIRST):
            if event:
                yield b"".join(event)
            event = [line]
        elif event:
            event.append(line)
    if event:
        yield b"".join(event)


def printed_by(program, depth):
    """A function from a recording to the text of each event, as this program prints it, without keys of references."""
    def printed(recording):
        for line in lines_of(program, "print", "--json", "--depth", str(depth), recording):
            yield KEY.sub(rb"\1", line)
    return printed


def difference(one, other):
    """The first lines of two events that differ, with the lines before them."""
    texts = [(text or b"").decode("utf-8", "replace").replace(',"', ',\n"').splitlines() for text in (one, other)]
    return "\n".join(list(difflib.unified_diff(*texts, "without new keys", "with new keys", lineterm="", n=2))[:20])


def compared(name, printed, one, other, wrong):
    """How many events two recordings have, and adds to `wrong` what differs."""
    count = differ = 0
    for event, its in zip_longest(printed(one), printed(other)):
        count += 1
        if event != its:
            differ += 1
            if differ <= SHOWN:
                wrong.append(f"event {count} as {name} prints it:\n{difference(event, its)}")
    if differ:
        wrong.append(f"{differ} of {count} events differ as {name} prints them")
    return count


def chunks_of(program, recording):
    """The chunks of a recording, each in a file of its own."""
    folder = recording + ".chunks"
    os.mkdir(folder)
    os.link(recording, os.path.join(folder, "all"))
    subprocess.run([program, "disassemble", "--max-chunks", "1", "all"], cwd=folder, check=True)
    return [os.path.join(folder, name) for name in sorted(os.listdir(folder)) if name != "all"]


def tried(program, file, options, folder):
    """The row of a file, and what was wrong."""
    plain, new = (os.path.join(folder, name) for name in ("plain.jfr", "new.jfr"))
    for renumber, made in ("no", plain), ("yes", new):
        subprocess.run([program, "scrub", "--renumber", renumber, *options, file, made], check=True)
    wrong = []
    sizes = [os.path.getsize(path) for path in (file, plain, new)]
    chunks = list(zip(chunks_of(program, plain), chunks_of(program, new), strict=True))
    count = sum(compared("the JDK", printed_by_jdk, one, other, wrong) for one, other in chunks)
    misread = sum(one != other for one, other in zip_longest(printed_by_jdk(plain), printed_by_jdk(new)))
    compared("the program", printed_by(program, 8 if sizes[0] < 5_000_000 else 2), plain, new, wrong)
    if sizes[2] > sizes[1]:
        wrong.append("new keys made the output longer")
    return [os.path.basename(file), *sizes, len(chunks), count, misread], wrong


def main(words):
    end = words.index("--") if "--" in words else len(words)
    if end < 2:
        print("usage: renumber.py PROGRAM FILE.. [-- OPTION..]", file=sys.stderr)
        return 1
    program, *files = map(os.path.abspath, words[:end])
    options = words[end + 1 :]
    bad = 0
    titles = "file", "bytes", "scrubbed", "with new keys", "chunks", "events", "misread at once"
    print("| " + " | ".join(titles) + " |", "|---|" + "---:|" * (len(titles) - 1), sep="\n")
    for file in files:
        with tempfile.TemporaryDirectory() as folder:
            try:
                row, wrong = tried(program, file, options, folder)
            except subprocess.CalledProcessError as failure:
                row, wrong = [os.path.basename(file)], [str(failure)]
        print("|", " | ".join(map(str, row)), "|", flush=True)
        bad |= bool(wrong)
        for line in wrong:
            print(line)
    return bad


if __name__ == "__main__":
    sys.exit(main(sys.argv[1:]))
