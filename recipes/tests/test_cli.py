"""The command line, explanations, copies for the JDK, and flame graphs."""

import os
import re
import signal
import subprocess
import unittest
import xml.dom.minidom

from kijorafe.explain import reasons
from kijorafe.integers import integer_at, spelled
from tests.support import EVENTS, SHUTDOWN, TOP, TYPES, Case

NAMES = (
    *("vendor", "strict", "tenant", "masked", "many", "check", "left", "strangers", "threads"),
    *("flame", "jdk", "names", "explain"),
)


class Words(Case):
    def test_help(self) -> None:
        front = os.path.join(TOP, "kijorafe")
        said = subprocess.run([front, "--help"], check=True, stdout=subprocess.PIPE).stdout.decode()
        for name in NAMES:
            self.assertIn(f"    {name}", said)
            run = self.recipe(name, "--help")
            self.assertEqual((run.status, run.err), (0, ""))
            self.assertIn(f"usage: kijorafe {name}", run.out)

    def test_wrong_words(self) -> None:
        self.recording("in.jfr")
        for text, words in (
            ("OUT", ("vendor", "in.jfr")),
            ("OUT", ("strict", "--", "in.jfr")),
            ("write ./-in.jfr", ("vendor", "--", "-in.jfr", "out")),
            ("isn't an option", ("vendor", "in.jfr", "out", "--fast")),
            ("a name is empty", ("vendor", "in.jfr", "")),
            ("a pattern is empty", ("tenant", "", "in.jfr", "out")),
            ("belongs to the pattern", ("tenant", "a, b", "in.jfr", "out")),
            ("are to be different", ("masked", "in.jfr", "out", "--table", "./out")),
            ("are to be different", ("masked", "in.jfr", "out", "--table", "t", "--report", "t")),
            ("IN OUT", ("jdk", "in.jfr")),
            ("OUT", ("flame", "in.jfr")),
        ):
            with self.subTest(words=words):
                run = self.recipe(*words)
                self.assert_run(run, 1, text)
                self.assertIn("usage: kijorafe", run.err)
        self.assert_only("in.jfr")
        self.assert_run(self.recipe("tenant", "-x", "in.jfr", "out"), 0, "the pattern -x matches no thread")

    def test_files(self) -> None:
        self.recording("in.jfr")
        self.write("out", "")
        for recipe in ("vendor",), ("strict",), ("tenant", "x"), ("tenant", "--addresses"), ("masked",), ("jdk",), ("flame",):
            for status, text, words in (
                (4, "out exists already", ("in.jfr", "out")),
                (4, "folder none doesn't exist", ("in.jfr", "none/new")),
                (3, "none.jfr doesn't exist", ("none.jfr", "new")),
                (3, "is a folder", (".", "new")),
            ):
                with self.subTest(recipe=recipe, words=words):
                    self.assert_run(self.recipe(*recipe, *words), status, text)
        self.assert_only("in.jfr", "out")

    def test_closed_streams(self) -> None:
        self.recording("in.jfr")
        script = "exec 0<&- 1>&- 2>&-; exec send/recipes/vendor in.jfr out.jfr"
        self.assertEqual(subprocess.call(["sh", "-c", script]), 0)
        self.recipe("vendor", "in.jfr", "again.jfr")
        self.assertEqual(self.read("out.jfr"), self.read("again.jfr"))

    def test_output_that_nobody_takes(self) -> None:
        self.recording("in.jfr")
        with open("/dev/full", "wb") as full:
            done = subprocess.run(self.command("left", "in.jfr"), stdout=full, stderr=subprocess.PIPE)
        self.assertEqual((done.returncode, done.stderr.count(b"\n")), (2, 1))
        # The second one has more strings than a buffer.
        texts = "".join(f'record 8 "{number:0100}"\n' for number in range(1000))
        self.recording("large.jfr", "class 6 java.lang.String\nevent 8 t.A\nfield s 6 -\n" + texts)
        for name in "in.jfr", "large.jfr":
            reader, writer = os.pipe()
            os.close(reader)
            done = subprocess.run(self.command("left", name), stdout=writer, stderr=subprocess.PIPE)
            os.close(writer)
            self.assertEqual((done.returncode, done.stderr), (-signal.SIGPIPE, b""))

    def test_no_python(self) -> None:
        os.mkdir("bin")
        for name in "sh", "dirname", "readlink":
            os.symlink(f"/bin/{name}", f"bin/{name}")
        run = self.process("vendor", "in.jfr", "out.jfr", env={"PATH": os.path.abspath("bin")})
        self.assert_run(run, 69, "Python 3.8 or later, and glibc 2.34")


class Explanations(Case):
    def test_all_reasons_and_doubts(self) -> None:
        names = []
        with open(os.path.join(TOP, "docs", "FORMAT.md"), encoding="utf-8") as page:
            rows = [line.split("|")[1:3] for line in page if line.startswith("|") and line.count("|") == 5]
            names += [name.strip() for number, name in rows if number.strip().isdigit()]
        with open(os.path.join(TOP, "docs", "SCRUBBING.md"), encoding="utf-8") as page:
            doubts = page.read().partition("`verify` writes `verified`")[2].partition("\n## ")[0]
            names += re.findall(r"^- ([A-Z]\w*):", doubts, re.MULTILINE)
        names.append("MaskTooLong")
        self.assertEqual(sorted(reasons()), sorted(set(names)))
        self.assertEqual(len(reasons()), 27 + 3 + 8 + 1)

    def test_explain(self) -> None:
        for words in ("Unfinished",), ("chunk 1 offset 64: Unfinished",), ("chunk", "1", "offset", "64:", "Unfinished"):
            run = self.recipe("explain", *words)
            self.assertEqual((run.status, run.out[:44]), (0, "Unfinished: the recording is still being wri"))
        self.assertEqual(len(self.recipe("explain").out.splitlines()), len(reasons()))
        run = self.recipe("explain", "\x1bx")
        self.assertEqual(run[:2], (1, "\\u001bx is neither a reason of refusal nor a doubt\n"))


class Integers(unittest.TestCase):
    def test_integers(self) -> None:
        for value in 0, 127, 128, 300, 2**56 - 1:
            self.assertEqual(integer_at(spelled(value, 9) + b"\1", 0), (value, 9))
        self.assertEqual(integer_at(b"\xff" * 9, 0), (2**64 - 1, 9))
        self.assertEqual(integer_at(b"\xac\x82\x80\x00", 0), (300, 4))
        self.assertEqual(spelled(300, 4), b"\xac\x82\x80\x00")


class Files(Case):
    def test_jdk(self) -> None:
        self.recording("first")
        self.recording("second", TYPES + EVENTS + SHUTDOWN)
        with open("both.jfr", "wb") as file:
            file.write(self.read("first") + self.read("second"))
        self.run_program("scrub", "--exclude-events", "farm.*", "both.jfr", "out.jfr")
        self.assert_run(self.recipe("jdk", "out.jfr", "copy.jfr"), 0, "changed the metadata id of 1 chunks")
        out, copied = self.read("out.jfr"), self.read("copy.jfr")
        self.assertEqual(sum(a != b for a, b in zip(out, copied)), 1)
        self.assertEqual(len(out), len(copied))
        self.assertEqual(self.recipe("jdk", "--ids", "copy.jfr").out, "1\n2\n")
        self.assert_run(self.process("jdk", "/dev/stdin", "again.jfr", stdin=copied), 0, "of 0 chunks")
        self.assertEqual(self.read("again.jfr"), copied)
        self.write("text", "FLR\0" + "x" * 200)
        self.assert_run(self.recipe("jdk", "text", "new"), 2, "isn't a recording")
        self.assertFalse(os.path.exists("new"))

    def test_flame(self) -> None:
        self.write("folded\x1b", 'main;a 1\nmain;b<"&\\u003b 2\n')
        self.assert_run(self.recipe("flame", "folded\x1b", "f.svg"), 0)
        xml.dom.minidom.parseString(self.read("f.svg"))
        folded = b"main;" + b"x" * 100 + b" 1\n"
        self.assert_run(self.process("flame", "/dev/stdin", "g.svg", stdin=folded * 30000), 0)
        self.assertIn(b"all: 30000, 100.00 %", self.read("g.svg"))
        self.recording("in.jfr")
        for words in ("in.jfr",), ("in.jfr", "--events", "CPULoad"):
            self.assert_run(self.recipe("flame", words[0], "new.svg", *words[1:]), 2, "there is no stack")
        for text in "words", "a 1e9", "a " + "9" * 400:
            self.write("text", text)
            self.assert_run(self.recipe("flame", "text", "new.svg"), 2, "isn't a folded stack")
        self.assertFalse(os.path.exists("new.svg"))


class Scripts(Case):
    def test_a_script_for_each_recipe(self) -> None:
        script = self.read("send/recipes/vendor").decode()
        for name in NAMES[:-1]:
            self.assertEqual(self.read(f"send/recipes/{name}").decode(), script.replace("vendor", name))
            run = self.recipe(name)
            self.assertIn(f"usage: kijorafe {name}", run.err)
            self.assertEqual(run.status, 2 if name in ("left", "strangers", "threads") else 1)
        done = subprocess.run(["send/recipes/left", "none"], stdout=subprocess.PIPE, stderr=subprocess.PIPE)
        self.assertEqual((done.returncode, done.stderr), (2, b"kijorafe left: none isn't a file\n"))
