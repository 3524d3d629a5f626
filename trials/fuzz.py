#!/usr/bin/env python3
"""Runs the commands on mutated recordings and texts: fuzz.py [--jobs N] [--inputs N] [--texts] PROGRAM SECONDS SEED FILE..

Takes the given recordings, small ones of hostile.py, and some of events with times, changes one in some places
(mutations.py: bits, integers at their limits, pieces moved, repeated and cut; half the time records, classes and values
besides, with sizes, positions and deltas that are true again), and runs commands on the outcome, with 1 GB of memory:
`summary` first. On an input that it accepts come `print --json` and scrub, a scrub with an option or a window, and half
of the other commands that read chunks, and `sample`; on one that it refuses, and those are four of five, one of all
these. The choice rotates with the input's number.

Every fifth input, or with --texts each, is a text for `build` instead, which is one of those below with changes in its
lines, words and bytes. If a recording is built of it, `summary` and `scrub` have to accept that. Wrong is

- a signal, more than 20 seconds, a status that isn't one of the command's, 5 of a command other than print and stacks;
- more than 20 times the input's size and 64 MB of memory of a command other than print and stacks;
- another answer of two commands that check the same: status or line on the error stream;
- a line of `print --json` that Python's json doesn't read, or another number of lines than `summary` counts events;
- JSON of `summary` or `metadata` that doesn't say what their text says;
- events of `print`, or stacks, that aren't those of a scrub with the same option or window;
- a scrub's output that isn't accepted, that scrubs to something else with the same options, or, without options, of
  which `print --json` shows something else;
- a scrub with new keys that is longer than the one without, or of which `print --json` shows more than other keys;
- a scrub that its receipts don't verify, and one with a byte changed, in it or in the receipts, that they verify, but
  of which `print --json` shows something else;
- a mask whose events differ from a scrub's other than by one pseudonym of its table for each text, or which has other
  numbers of events or of stacks; one of all texts in which one is left that isn't known; one with known texts that
  numbers others than the rest, in the same order;
- lines of `stacks` that aren't texts with counts, in order, or that count more events than there are;
- parts, or files joined, that aren't the input again;
- a sample with other numbers than it was asked for;
- an output of `build` if it refuses a text, a line that isn't there, or a recording with another number of events than
  the text has lines of them.

With --jobs N, N processes work at once, each on every Nth input; with --inputs N it stops after N inputs, if
SECONDS are enough for them. Inputs have numbers: the seed and the files determine each, and which commands are run on it.
An input with a wrong run is kept in the folder `found` where the script is run, and reported by its number; a process stops
after 20 of them. Prints at the end how often each status of each command came, and how often each reason of refusal; the
status is 0 if nothing was wrong.
"""
import argparse
import json
import multiprocessing
import os
import random
import re
import resource
import shutil
import signal
import sys
import tempfile
import time
from collections import Counter
from concurrent.futures import ProcessPoolExecutor

sys.path.insert(0, os.path.dirname(os.path.realpath(__file__)))
sys.dont_write_bytecode = True
import hostile
from masks import PSEUDONYM, differences, texts_in
from mutations import mutated, mutated_text, parsed_or_none

LARGEST_TEXT = 64 << 20
REFUSAL = re.compile(r"chunk [0-9]+ offset [0-9]+: [A-Za-z]+\n")
DOUBT = re.compile(r"chunk [0-9]+: [A-Za-z]+\n")
BAD_LINE = re.compile(r"line ([0-9]+): [A-Za-z]+\n")
STACK = re.compile(rb"[^ ]* ([1-9][0-9]*)\n")
KEY = re.compile(rb'("class":"(?:[^"\\]|\\.)*"),"key":\d+')
DIGITS = re.compile(r"0x(?:[0-9a-f]{8}){1,2}")
LIKE_PSEUDONYM = "masked-", "()masked-"
# Texts that are longer aren't compared: most are one value many times.
LARGEST_COMPARED = 1 << 20
PATTERNS = {
    "threads": ["*", "main*", "worker*", "*e*", "nosuch", "*a*a*b"],
    "categories": ["*", "Java*", "*System", "a?", "nosuch", "*a*a*b"],
    "events": ["*", "A", "t.*", "*E", "nosuch", "ThreadPark"],
}

# Texts for `build`, besides the small ones of hostile.py.
TEXTS = [
    """class 5 long
event 8 t.A
field n 5 -
record 8 300
""",
    """class 2 boolean
class 3 byte
class 4 char
class 5 short
class 6 int
class 7 long
class 8 float
class 9 double
class 10 java.lang.String
event 20 t.All
field truth 2 -
field byte 3 -
field char 4 -
field short 5 -
field int 6 -
field long 7 -
field float 8 -
field double 9 -
field text 10 -
record 20 true -128 65535 -32768 2147483647 -9223372036854775808 0x7fc00000 0xfff0000000000000 "a\\u0020\\"\\\\\\u007f\u00e9"
record 20 false 127 0 32767 -2147483648 9223372036854775807 0x00000000 0x8000000000000000 null
record 20 false 0 1 -1 -1 0 0x3fc00000 0x3ff8000000000000 #7
constant 10 7 "seven"
constant 10 8 ""
constant 10 9 #7
""",
    """class 7 long
class 10 java.lang.String
class 30 java.lang.Thread
field javaName 10 -
field osName 10 -
class 31 t.Pair
field one 7 -
field other 30 -

event 9223372036854775807 t.Many
field eventThread 30 c
field longs 7 a
field texts 10 ca
field pairs 31 a
field pair 31 -
field threads 30 ca
constant 30 1 "main" null
constant 30 9223372036854775807 #3 ""
record 9223372036854775807 #1 [3 1 2 3 [2 #3 #4 [2 7 "a" "b" 8 null #3 9 "x" "y" [0
record 9223372036854775807 #0 [0 [0 [0 0 null null [2 #1 #0

constant 31 1 5 "n" "o"
constant 10 3 "t"
constant 30 1 "again" #3""",
    """event 100 jdk.Empty
class 200 t.Unused
record 100
record 100
constant 200 1
constant 200 0
""",
    """class 10 java.lang.String
class 21 t.Trace
field frames 22 a
class 22 t.Frame
field method 23 c
class 23 t.Method
field type 24 c
field name 25 c
class 24 t.Type
field name 25 c
class 25 t.Symbol
field string 10 -
event 20 jdk.Sample
field stackTrace 21 c
record 20 #1
record 20 #2
constant 21 1 [2 #1 #2
constant 21 2 [0
constant 23 1 #1 #1
constant 23 2 #1 #2
constant 24 1 #3
constant 25 1 "run"
constant 25 2 "main"
constant 25 3 "app/Main"
""",
]


class Wrong(Exception):
    pass


# Texts that the program writes, read by these rules of docs/SCRUBBING.md.


def quoted(text):
    """The text between quotes."""
    escaped = {ord(one): "\\" + one for one in '"\\'}
    escaped.update({code: "\\u%04x" % code for code in [*range(0x20), 0x7F]})
    return '"%s"' % text.translate(escaped)


def summary_of(line):
    """The text of `summary`, from its line of JSON."""
    members = json.loads(line)
    types = members.pop("types")
    text = "".join("%s %s\n" % member for member in members.items())
    return text + "".join("%s %d %d\n" % tuple(one[name] for name in ("name", "events", "bytes")) for one in types)


def class_of(line):
    """A class's chunk and its text in `metadata`, from its line of JSON."""
    one = json.loads(line)
    lines = ["%s id %d%s" % (one["name"], one["id"], "" if one["super"] is None else " super " + one["super"])]
    if one["categories"]:
        lines.append("  category " + ", ".join(map(quoted, one["categories"])))
    for each in one["fields"]:
        marks = "[]" * each["array"] + " constant" * each["constant"]
        lines.append("  %s: %s%s" % (each["name"], each["class"], marks))
    return one["chunk"], "\n".join(lines) + "\n"


def metadata_of(lines, many):
    """The text of `metadata` for this number of chunks, from its lines of JSON."""
    texts = ["chunk %d\n" % number for number in range(1, many + 1)]
    for line in lines:
        number, text = class_of(line)
        texts[number - 1] += text
    return "".join(texts)


def texts_of(value):
    """The texts in a value, but not the names of classes beside keys."""
    if isinstance(value, str):
        yield value
    elif isinstance(value, list):
        for item in value:
            yield from texts_of(item)
    elif isinstance(value, dict) and not {"class", "key"} <= set(value):
        for member in value.values():
            yield from texts_of(member)


def is_masked(text, shown, texts, known):
    """Whether a mask with this table may show this in place of a text, or of a key that isn't followed to its text."""
    pseudonym = PSEUDONYM.fullmatch(shown) if isinstance(shown, str) else None
    if isinstance(text, dict) and text.get("class") == "java.lang.String":
        return not shown or shown in known or pseudonym is not None
    return pseudonym is not None and texts.get(pseudonym[1]) == text and text.startswith("(") == shown.startswith("(")


class Stream:
    """A file that stays open, to which runs write in turn: opening one costs more than what most of them write."""

    def __init__(self, path):
        self.place = os.open(path, os.O_RDWR | os.O_CREAT, 0o600)

    def empty(self):
        os.lseek(self.place, 0, os.SEEK_SET)
        os.truncate(self.place, 0)

    def size(self):
        return os.fstat(self.place).st_size

    def bytes(self):
        return os.pread(self.place, self.size(), 0)


class Tally:
    """What came of some inputs."""

    def __init__(self):
        self.inputs = self.size = self.runs = self.wrong = 0
        self.counts, self.reasons = Counter(), Counter()

    def add(self, other):
        for name in vars(self):
            setattr(self, name, getattr(self, name) + getattr(other, name))


# Runs.


class Trial:
    """The runs on one input, in a folder of their own."""

    def __init__(self, program, work, tally):
        self.program, self.work, self.tally = program, work, tally
        self.source, self.folder = self.name("in", "i.jfr"), self.name("parts")
        os.mkdir(self.name("in"))
        os.mkdir(self.folder)
        self.nowhere = os.open(os.devnull, os.O_WRONLY)
        names = "said", "totals", "lines", "other", "nothing"
        self.said, self.totals, self.lines, self.other, self.nothing = map(Stream, map(self.name, names))
        self.peak = os.open("/proc/self/clear_refs", os.O_WRONLY)
        self.child = None
        self.late = False
        signal.signal(signal.SIGALRM, self.end)

    def end(self, *_):
        self.late = True
        os.kill(self.child, signal.SIGKILL)

    def name(self, *parts):
        return os.path.join(self.work, *parts)

    def run(self, label, words, statuses, text=None, most=None):
        """One run: its status and the line that it said."""
        self.said.empty()
        if text:
            text.empty()
        out = text.place if text else self.nowhere
        actions = [(os.POSIX_SPAWN_DUP2, out, 1), (os.POSIX_SPAWN_DUP2, self.said.place, 2)]
        self.late = False
        # A run begins as a part of this process, so its peak of memory is at least this one's, which is set to what is in
        # use. Peaks are counted roughly.
        os.write(self.peak, b"5")
        own = (resource.getrusage(resource.RUSAGE_SELF).ru_maxrss << 10) + (4 << 20)
        self.child = os.posix_spawn(self.program, [self.program, *words], {}, file_actions=actions)
        signal.alarm(20)
        _, answer, used = os.wait4(self.child, 0)
        signal.alarm(0)
        self.tally.runs += 1
        status = os.waitstatus_to_exitcode(answer)
        self.tally.counts[label, "late" if self.late else status] += 1
        line = self.said.bytes().decode()
        if self.late:
            raise Wrong("%s takes more than 20 seconds" % label)
        if status == 4 and text and text.size() >= LARGEST_TEXT:
            return status, line
        if status not in statuses:
            raise Wrong("%s: status %d, %s" % (label, status, line.strip()))
        said = {2: REFUSAL, 7: DOUBT, 8: BAD_LINE}
        if any((status == one) != bool(form.fullmatch(line)) for one, form in said.items()) or status == 0 and line:
            raise Wrong("%s: status %d, said %r" % (label, status, line))
        if most is not None and used.ru_maxrss * 1024 > max(most, own):
            raise Wrong("%s takes %d KB" % (label, used.ru_maxrss))
        return status, line

    def fresh(self, name):
        path = self.name(name)
        try:
            os.remove(path)
        except FileNotFoundError:
            pass
        return path

    def bytes_of(self, *parts):
        with open(self.name(*parts), "rb") as file:
            return file.read()

    def count_lines(self):
        """How many lines of JSON there are, each the text of an event."""
        many = 0
        with open(self.name("lines"), encoding="utf-8", newline="\n") as file:
            for line in file:
                if set(json.loads(line)) != {"type", "values"} or not line.endswith("\n"):
                    raise ValueError(line[:80])
                many += 1
        return many

    def agrees(self, label, answer, verdict):
        if answer != verdict:
            raise Wrong("%s answers otherwise than summary" % label)

    def chunks_shown(self):
        """How many chunks come before the first refused one."""
        if self.verdict[0] == 2:
            return int(self.verdict[1].split()[1]) - 1
        return int(re.search(rb"\nchunks ([0-9]+)\n", self.totals.bytes())[1])

    def metadata(self):
        """The classes, as text and as JSON."""
        for label, text in ("metadata", self.other), ("metadata --json", self.lines):
            answer = self.run(label, [*label.split(), self.source], (0, 2), text, self.most)
            if answer[0] == 4:
                return
            self.agrees(label, answer, self.verdict)
        if self.other.size() <= LARGEST_COMPARED:
            lines = self.lines.bytes().decode().split("\n")[:-1]
            if metadata_of(lines, self.chunks_shown()) != self.other.bytes().decode():
                raise Wrong("metadata --json says something else than metadata")

    def summary_json(self):
        """The totals as JSON."""
        answer = self.run("summary --json", ["summary", "--json", self.source], (0, 2), self.other, self.most)
        self.agrees("summary --json", answer, self.verdict)
        if answer[0] == 0 and summary_of(self.other.bytes()) != self.totals.bytes().decode():
            raise Wrong("summary --json says something else than summary")

    def print_text(self, *options):
        label = " ".join(["print", *options])
        answer = self.run(label, ["print", *options, self.source], (0, 2, 5))
        if answer[0] != 5:
            self.agrees(label, answer, self.verdict)

    def print_json(self):
        """The lines of the input, and whether all of them were printed."""
        answer = self.run("print --json", ["print", "--json", self.source], (0, 2, 5), self.lines)
        if answer[0] in (4, 5):
            return False
        self.agrees("print --json", answer, self.verdict)
        try:
            many = self.count_lines()
        except (ValueError, TypeError, RecursionError) as error:
            raise Wrong("a line isn't JSON of an event: %s" % error)
        if self.verdict[0] == 0 and b"\nevents %d\n" % many not in self.totals.bytes():
            raise Wrong("print --json has other events than summary")
        return True

    def scrub(self, *filters):
        """A scrub with these options, and one of its output, where that has a chunk: its name."""
        label = " ".join(["scrub", *filters[:1]])
        out, again = self.fresh("out.jfr"), self.fresh("again.jfr")
        self.agrees(label, self.run(label, ["scrub", *filters, self.source, out], (0, 2), most=self.most), self.verdict)
        made = self.bytes_of("out.jfr")
        if len(made) > len(self.data):
            raise Wrong("%s makes more bytes" % label)
        if not made:
            return None
        if self.run(label + ", again", ["scrub", *filters, out, again], (0,))[0] != 0 or self.bytes_of("again.jfr") != made:
            raise Wrong("%s of its output makes something else" % label)
        return out

    def scrub_and_print(self):
        all_printed = self.print_json()
        out = self.scrub()
        if out and all_printed:
            self.run("print --json, scrubbed", ["print", "--json", out], (0,), self.other)
            if self.other.bytes() != self.lines.bytes():
                raise Wrong("print --json shows something else of the scrub's output")

    def printed(self, name, text):
        """What `print --json` shows of a file, or nothing if that is too long."""
        answer = self.run("print --json, of " + name, ["print", "--json", self.name(name)], (0, 5), text)
        return text.bytes() if answer[0] == 0 else None

    def shown_like_scrub(self, *option):
        """The events and the stacks by an option or a window, and those of a scrub by it."""
        words = {"--include-events": "--events", "--include-categories": "--categories"}
        if option[0] not in ("--from", "--to", *words):
            return
        # The last words may be for descriptions, of which these commands show nothing.
        shown = option[: option.index("--describe")] if "--describe" in option else option
        given, out = [words.get(word, word) for word in shown], self.fresh("out.jfr")
        self.run("scrub", ["scrub", *option, self.source, out], (0, 2), most=self.most)
        for command in ("print", "--json"), ("stacks",):
            label = " ".join([*command, *given[:1]])
            answer = self.run(label, [*command, *given, self.source], (0, 2, 5), self.other)
            if answer[0] not in (4, 5):
                self.agrees(label, answer, self.verdict)
            if answer[0] == 0:
                status = self.run(label + ", of a scrub", [*command, out], (0, 5), self.lines)[0]
                if status == 0 and self.lines.bytes() != self.other.bytes():
                    raise Wrong("%s shows something else than of a scrub" % label)

    def masked(self, label, words, filters):
        """A mask of the input with a table, by these words: the texts of the table, if the input is accepted."""
        masked, table = self.fresh("masked.jfr"), self.fresh("table")
        words = ["mask", *filters, *words, "--table", table, self.source, masked]
        self.agrees(label, self.run(label, words, (0, 2), most=self.most), self.verdict)
        if self.verdict[0] != 0:
            return None
        texts = texts_in(table)
        if list(texts) != ["masked-%d" % number for number in range(1, len(texts) + 1)]:
            raise Wrong("%s: the table has other numbers" % label)
        if len(set(texts.values())) < len(texts):
            raise Wrong("%s: the table has a text twice" % label)
        return texts

    def compare_masked(self, texts, known, all_masked):
        """Compares the events of a mask and of a scrub."""
        shown = [self.printed_deep(name, text) for name, text in (("out.jfr", self.lines), ("masked.jfr", self.other))]
        if None in shown:
            return
        if len(shown[0]) != len(shown[1]):
            raise Wrong("a mask has other events than a scrub")
        for one, other in zip(*shown):
            one, other = json.loads(one), json.loads(other)
            for path, text, shown_for in differences(one, other, one["type"]):
                if not is_masked(text, shown_for, texts, known):
                    raise Wrong("a mask shows %s as %r in place of %r" % (path, shown_for, text))
            for left in texts_of(other["values"]) if all_masked else ():
                if left and left not in known and not PSEUDONYM.fullmatch(left) and not DIGITS.fullmatch(left):
                    raise Wrong("a mask of all texts shows %r" % left)

    def printed_deep(self, name, text):
        """The lines of the events of a file, or nothing if they are too long."""
        words = ["print", "--json", "--depth", "8", self.name(name)]
        answer = self.run("print --json --depth 8, of " + name, words, (0, 5), text)
        return text.bytes().splitlines() if answer[0] == 0 and text.size() <= LARGEST_COMPARED else None

    def mask(self, rng, *filters):
        """A mask, and one with some of its texts known."""
        words = strings_of(rng)
        texts = self.masked("mask", words, filters)
        if texts is None:
            return
        out = self.fresh("out.jfr")
        self.run("scrub", ["scrub", *filters, self.source, out], (0,), most=self.most)
        self.compare_masked(texts, (), words == ["--strings", "*"])
        known = {text for text in texts.values() if "\n" not in text and rng.random() < 0.5}
        with open(self.name("known"), "w", encoding="utf-8", newline="") as file:
            file.write("\n".join(sorted(known)))
        known = {text for text in known if not text.startswith(LIKE_PSEUDONYM)}
        rest = self.masked("mask --known", [*words, "--known", self.name("known")], filters)
        if list(rest.values()) != [text for text in texts.values() if text not in known]:
            raise Wrong("mask --known numbers other texts")
        self.compare_masked(rest, known, words == ["--strings", "*"])
        counts = [self.stacks_of(name) for name in ("out.jfr", "masked.jfr")]
        if None not in counts and counts[0] != counts[1]:
            raise Wrong("a mask has stacks of other events than a scrub")

    def stacks_of(self, name):
        """How many events have a stack in a file, or nothing if its stacks are too long."""
        answer = self.run("stacks, of " + name, ["stacks", self.name(name)], (0, 5), self.other)
        return sum(int(line.rpartition(b" ")[2]) for line in self.other.bytes().splitlines()) if answer[0] == 0 else None

    def sample(self, rng):
        """A sample of a seed and a number of events."""
        seed, many = rng.choice((0, 1, rng.randrange(2**32), 2**32 - 1)), rng.choice((1, 2, rng.randrange(1, 2000)))
        self.run("sample", ["sample", str(seed), str(many)], (0,), self.other, 64 << 20)
        lines = [line.rpartition(" ") for line in self.other.bytes().decode().splitlines()]
        said = {name: int(number) for name, _, number in lines}
        if (said["events"], said["constants"]) != (many, many) or said["kept events"] > many or said["kept bytes"] > said["bytes"]:
            raise Wrong("sample %d %d has other numbers" % (seed, many))

    def renumber(self, *filters):
        """A scrub with new keys, and one without."""
        label, out, new = "scrub --renumber yes", self.fresh("out.jfr"), self.fresh("new.jfr")
        self.run("scrub", ["scrub", *filters, self.source, out], (0, 2), most=self.most)
        self.agrees(label, self.run(label, ["scrub", "--renumber", "yes", *filters, self.source, new], (0, 2), most=self.most), self.verdict)
        if len(self.bytes_of("new.jfr")) > len(self.bytes_of("out.jfr")):
            raise Wrong("new keys make more bytes")
        if not self.bytes_of("new.jfr"):
            return
        shown, its = self.printed("out.jfr", self.lines), self.printed("new.jfr", self.other)
        if None not in (shown, its) and KEY.sub(rb"\1", shown) != KEY.sub(rb"\1", its):
            raise Wrong("print --json shows other values with new keys")

    def verify(self, rng, *filters):
        """A scrub with its receipts, and both with a byte changed."""
        out, receipt = self.fresh("out.jfr"), self.fresh("receipt")
        self.run("scrub", ["scrub", *filters, self.source, out], (0, 2), most=self.most)
        self.agrees("receipt", self.run("receipt", ["receipt", *filters, self.source, receipt], (0, 2), most=self.most), self.verdict)
        words = ["verify", *filters, self.source, out, receipt]
        answer = self.run("verify", words, (0, 2, 7), self.other, self.most)
        status = answer[0]
        if status != 7:
            self.agrees("verify", answer, self.verdict)
        elif self.verdict[0] == 0:
            raise Wrong("verify doubts a scrub: %s" % answer[1])
        if status == 0 and b"\nchunks %s\n" % self.other.bytes()[len(b"verified "):-1] not in self.totals.bytes():
            raise Wrong("verify counts other chunks than summary")
        shown = self.printed("out.jfr", self.lines) if self.bytes_of("out.jfr") else None
        for name in ("out.jfr", "receipt"):
            data = self.bytes_of(name)
            if data and status == 0:
                at = rng.randrange(len(data))
                with open(self.name(name), "wb") as file:
                    file.write(data[:at] + bytes([data[at] ^ rng.randrange(1, 256)]) + data[at + 1 :])
                passed = self.run("verify, %s changed" % name, words, (0, 7), self.nothing, self.most)[0] == 0
                if passed and shown is not None and self.printed("out.jfr", self.other) != shown:
                    raise Wrong("verify passes %s with byte %d changed" % (name, at))
                with open(self.name(name), "wb") as file:
                    file.write(data)

    def stacks(self):
        answer = self.run("stacks", ["stacks", self.source], (0, 2, 5), self.other)
        if answer[0] in (4, 5):
            return
        self.agrees("stacks", answer, self.verdict)
        lines = self.other.bytes().splitlines(keepends=True)
        found = list(map(STACK.fullmatch, lines))
        texts = [line[: line.rindex(b" ")] for line in lines]
        if not all(found) or texts != sorted(set(texts)):
            raise Wrong("stacks writes other lines than folded stacks")
        if answer[0] == 0 and sum(int(one[1]) for one in found) > int(re.search(rb"\nevents ([0-9]+)\n", self.totals.bytes())[1]):
            raise Wrong("stacks counts more events than summary")

    def parts(self):
        for name in os.listdir(self.folder):
            os.remove(self.name("parts", name))
        words = ["disassemble", "--max-chunks", "1", "--output", self.folder, self.source]
        cut = self.run("disassemble", words, (0, 2), most=self.most)
        together = b"".join(self.bytes_of("parts", name) for name in sorted(os.listdir(self.folder)))
        joined = self.run("assemble", ["assemble", self.name("in"), self.fresh("joined.jfr")], (0, 2), most=self.most)
        if cut != joined:
            raise Wrong("assemble answers otherwise than disassemble")
        if self.verdict[0] == 0 and cut[0] != 0:
            raise Wrong("disassemble refuses what summary accepts")
        for made in (together, self.bytes_of("joined.jfr")):
            if not self.data.startswith(made) or cut[0] == 0 and made != self.data:
                raise Wrong("disassemble or assemble makes other bytes")

    def tried_text(self, data):
        """The runs on a text for `build`."""
        most = 20 * len(data) + (64 << 20)
        with open(self.source, "wb") as file:
            file.write(data)
        built = self.fresh("built.jfr")
        status, line = self.run("build", ["build", self.source, built], (0, 5, 8), most=most)
        self.tally.reasons["text: " + (line.split()[-1] if line else "built")] += 1
        lines = data.split(b"\n")
        if status == 8 and (os.path.exists(built) or int(BAD_LINE.fullmatch(line)[1]) > len(lines)):
            raise Wrong("build refuses a text, but makes an output or says a line that isn't there: %s" % line.strip())
        if status:
            return
        self.run("summary, built", ["summary", built], (0,), self.totals, most)
        for name, many in ("bytes", os.path.getsize(built)), ("events", sum(one.startswith(b"record ") for one in lines)):
            if b"\n%s %d\n" % (name.encode(), many) not in self.totals.bytes():
                raise Wrong("summary shows other %s of what build makes than %d" % (name, many))
        self.run("scrub, built", ["scrub", built, self.fresh("out.jfr")], (0,), most=most)

    def tried(self, data, number, option, rng):
        """The runs on the input of this number; some of them have this option."""
        self.data, self.most = data, 20 * len(data) + (64 << 20)
        with open(self.source, "wb") as file:
            file.write(data)
        self.verdict = self.run("summary", ["summary", self.source], (0, 2), self.totals, self.most)
        self.tally.reasons[self.verdict[1].split()[-1] if self.verdict[0] else "accepted"] += 1
        first = self.scrub_and_print, lambda: self.scrub(*option)
        others = (
            self.metadata,
            self.print_text,
            lambda: self.verify(rng, *option),
            lambda: self.print_text("--depth", "8"),
            self.parts,
            lambda: self.renumber(*option),
            lambda: self.verify(rng),
            self.renumber,
            self.stacks,
            lambda: self.mask(rng),
            lambda: self.shown_like_scrub(*option),
            lambda: self.mask(rng, *option),
            self.summary_json,
            lambda: self.shown_like_scrub(*window_of(rng, data)),
            lambda: self.sample(rng),
        )
        groups = first + others
        accepted = self.verdict[0] == 0
        for group in first + others[number % 2::2] if accepted else groups[number % len(groups)::len(groups)]:
            group()


def window_of(rng, data):
    """A window, by moments near the first chunk's, and sometimes with events that are always in it."""
    start, took = (int.from_bytes(data[at:at + 8], "big") for at in (32, 40))
    near = [start + change for change in (-1, 0, 1, took // 2, took, took + 1)]
    moments = [str(max(0, min(2**63 - 1, rng.choice([*near, 0, 2**63 - 1])))) for _ in range(2)]
    words = rng.choice((("--from", moments[0]), ("--to", moments[0]), ("--from", moments[0], "--to", moments[1])))
    return (*words, "--always", rng.choice(PATTERNS["events"])) if rng.random() < 0.3 else words


def strings_of(rng):
    """The words for which strings are masked."""
    words = ["--strings", rng.choice(("*", "*", "t.*", "*.text", "*.string,*Name", "nosuch", "*a*a*b,java.lang.*"))]
    return [*words, "--except", rng.choice(("t.E.*", "*.name", "*", "nosuch"))] if rng.random() < 0.4 else words


def option_of(rng, data):
    """An option of a scrub with its pattern, or a window, and sometimes types to describe."""
    if rng.random() < 0.3:
        option = window_of(rng, data)
    else:
        name, given = rng.choice(list(PATTERNS.items()))
        option = "--%s-%s" % (rng.choice(("include", "exclude")), name), rng.choice(given)
    return (*option, "--describe", rng.choice(PATTERNS["events"])) if rng.random() < 0.3 else option


def timed_seeds():
    """Recordings of events with times near the moments of windows: with a duration and without one, and both."""
    fields = ("startTime", hostile.LONG, {}), ("duration", hostile.LONG, {})
    times = [(start, took) for start in (-1, 0, 1, 2, 5, 6) for took in (0, 1, -1)]

    def chunk(many):
        events = (b"".join(map(hostile.integer, time[:many])) for time in times)
        described = hostile.metadata(hostile.event_class(*fields[:many]))
        return hostile.chunk(described, b"".join(hostile.record(hostile.EVENT, event) for event in events))
    return [chunk(2), chunk(1), chunk(2) + chunk(1)]


def seeds_of(files):
    seeds = timed_seeds()
    for path in files:
        with open(path, "rb") as file:
            seeds.append(file.read())
    for kind, make in hostile.KINDS.items():
        seeds.append(make(0.0000005 if kind != "fan" else 0.003))
        if kind in ("chain", "ring", "string_ring", "same_names"):
            seeds.append(make(0.0005))
    return seeds


def text_seeds():
    """The texts above, and the small ones of hostile.py."""
    small = (make(0.0000005) for make in hostile.TEXTS.values())
    return [text.encode() for text in TEXTS] + [text for text in small if len(text) < 5000]


class Task:
    """The inputs of a run, which several processes share."""

    def __init__(self, given):
        self.program, self.seed = os.path.realpath(given.program), given.seed
        self.seconds, self.inputs, self.jobs = given.seconds, given.inputs, given.jobs
        self.seeds = seeds_of(given.files)
        self.parsed = [parsed_or_none(data) for data in self.seeds]
        self.texts, self.only_texts = text_seeds(), given.texts

    def numbers(self, job):
        """The numbers of a process's inputs, until the seconds are over."""
        start, number = time.monotonic(), job
        while time.monotonic() - start < self.seconds and (self.inputs is None or number < self.inputs):
            yield number
            number += self.jobs

    def done(self, job):
        """What comes of a process's inputs."""
        resource.setrlimit(resource.RLIMIT_AS, (1 << 30, 1 << 30))
        resource.setrlimit(resource.RLIMIT_FSIZE, (LARGEST_TEXT, LARGEST_TEXT))
        work = tempfile.mkdtemp(dir="/dev/shm" if os.path.isdir("/dev/shm") else None)
        tally = Tally()
        try:
            trial = Trial(self.program, work, tally)
            for number in self.numbers(job):
                rng = random.Random("%d %d" % (self.seed, number))
                is_text = self.only_texts or number % 5 == 4
                data = mutated_text(rng, self.texts) if is_text else mutated(rng, self.seeds, self.parsed)
                option = ("a text",) if is_text else option_of(rng, data)
                tally.inputs, tally.size = tally.inputs + 1, tally.size + len(data)
                try:
                    if is_text:
                        trial.tried_text(data)
                    else:
                        trial.tried(data, number, option, rng)
                except Wrong as error:
                    self.keep(number, data, "%s; %s" % (error, option))
                    tally.wrong += 1
                    if tally.wrong == 20:
                        break
        finally:
            shutil.rmtree(work)
        return tally

    def keep(self, number, data, error):
        os.makedirs("found", exist_ok=True)
        path = os.path.join("found", "%d-%d.jfr" % (self.seed, number))
        with open(path, "wb") as file:
            file.write(data)
        print("%s: %s" % (path, error), flush=True)


def tallied(task):
    """What comes of all inputs."""
    tally = Tally()
    with ProcessPoolExecutor(task.jobs, multiprocessing.get_context("fork")) as processes:
        for one in processes.map(task.done, range(task.jobs)):
            tally.add(one)
    return tally


def main(words):
    parser = argparse.ArgumentParser(usage="fuzz.py [--jobs N] [--inputs N] [--texts] PROGRAM SECONDS SEED FILE..")
    parser.add_argument("program")
    parser.add_argument("seconds", type=float)
    parser.add_argument("seed", type=int)
    parser.add_argument("files", nargs="*")
    parser.add_argument("--jobs", type=int, default=1)
    parser.add_argument("--inputs", type=int)
    parser.add_argument("--texts", action="store_true")
    task = Task(parser.parse_intermixed_args(words))
    start = time.monotonic()
    tally = tallied(task)
    took = time.monotonic() - start
    print("%d inputs of %d bytes on average, of %d seeds, of which %d are taken apart; %d runs in %.0f s by %d processes; %d inputs wrong" %
          (tally.inputs, tally.size / max(1, tally.inputs), len(task.seeds), sum(one is not None for one in task.parsed),
           tally.runs, took, task.jobs, tally.wrong))
    print("| command | status | runs |\n|---|---|---:|")
    for (label, status), many in sorted(tally.counts.items(), key=str):
        print("| %s | %s | %d |" % (label, status, many))
    print("| answer of summary, or to a text | inputs |\n|---|---:|")
    for reason, many in tally.reasons.most_common():
        print("| %s | %d |" % (reason, many))
    return 1 if tally.wrong else 0


if __name__ == "__main__":
    sys.exit(main(sys.argv[1:]))
