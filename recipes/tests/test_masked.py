"""Masks: which texts have pseudonyms, the table and the report, and the names of a JDK."""

import json
import lzma
import os
import subprocess
from typing import Dict, List

from kijorafe import genuine
from kijorafe.known import kept_by, written_once
from kijorafe.opened import Method, Names as CodeNames, opened
from kijorafe.program import Program
from kijorafe.texts import texts_by_field
from kijorafe.unmasked import unmasked
from tests.support import EVENTS, INLINED, METHODS, SHUTDOWN, TYPES, Case

# Types with names of code, and events with two of them.
CODE = """\
class 9 jdk.types.Symbol
field string 6 -
class 10 java.lang.Class
field name 9 c
event 27 jdk.SyncOnValueBasedClass
field startTime 5 -
field eventThread 7 c
field stackTrace 8 c
field valueBasedClass 10 c
"""
CLASSES = """\
constant 9 1 "com/shop/Order"
constant 9 2 "java/lang/Integer"
constant 10 1 #1
constant 10 2 #2
record 27 1 #1 #0 #1
record 27 1 #1 #0 #2
"""
SECRETS = "main", "http GET /pay", "/secret/path"


class Data(Case):
    def test_types(self) -> None:
        kept = kept_by("masked")
        self.assertLess(set(kept_by("vendor")), set(kept))
        self.assertIn("jdk.SocketRead", kept)
        self.assertIn("jdk.JVMInformation", written_once())

    def test_unmasked_fields(self) -> None:
        kept, fields = set(kept_by("masked")), unmasked(False)
        texts = {
            f"{row.name}.{field.partition(':')[0]}"
            for row in genuine.rows()
            for field in row.fields.split()
            if ":java.lang.String" in field
        }
        for field, reason in fields.items():
            name = field.rpartition(".")[0]
            self.assertTrue(field in texts and name in kept or name.startswith("jdk.types."), field)
            self.assertRegex(field, r"^[A-Za-z0-9.]+$")
            self.assertTrue(reason, field)
        code = set(fields) - set(unmasked(True))
        self.assertIn("jdk.types.Symbol.string", code)
        self.assertLess(set(unmasked(True)), set(fields))
        for field in "java.lang.Thread.javaName", "jdk.FileRead.path", "jdk.JVMInformation.jvmArguments":
            self.assertNotIn(field, fields)


class Texts(Case):
    def test_texts_by_field(self) -> None:
        text = """\
class 5 long
class 6 java.lang.String
class 9 t.Pair
field a 6 -
field n 5 -
field all 6 a
event 8 t.A
field n 5 -
field text 6 -
field pair 9 -
field other 9 c
event 10 t.B
field other 9 c
constant 6 1 "by\\u0020key"
constant 9 1 "constant" 7 [1 #1
record 8 1 #1 "inside" 2 [2 "x" null #1
record 10 #1
"""
        self.recording("a.jfr", text)
        with open("two.jfr", "wb") as file:
            file.write(self.read("a.jfr") * 2)
        found = texts_by_field(Program(self.program), "two.jfr")
        expected: Dict[str, Dict[str, int]] = {
            "t.A.text": {"by key": 2},
            "t.Pair.a": {"inside": 2, "constant": 2},
            "t.Pair.all": {"x": 2, "by key": 2},
        }
        self.assertEqual({field: dict(counts) for field, counts in found.items()}, expected)


class Masked(Case):
    def setUp(self) -> None:
        super().setUp()
        self.recording("in.jfr", TYPES + CODE + EVENTS + CLASSES + SHUTDOWN)

    def texts(self, name: str) -> Dict[str, List[str]]:
        found = texts_by_field(Program(self.program), name)
        return {field: sorted(counts) for field, counts in found.items()}

    def table(self, name: str) -> Dict[str, str]:
        """The pseudonyms of a table by their texts."""
        lines = (line.partition(" ") for line in self.read(name).decode().splitlines())
        return {json.loads(text): pseudonym for pseudonym, _, text in lines}

    def test_what_stays(self) -> None:
        run = self.recipe("masked", "in.jfr", "out.jfr")
        self.assert_run(run, 0, "7 of 8 events are left, of 5 of 6 types")
        self.assertIn("removed, since the list of the JDK's types doesn't have them: 1 farm.Own", run.err)
        self.assertIn("3 texts have pseudonyms\n", run.err)
        self.assertEqual(run.out, "")
        out = self.read("out.jfr")
        for text in SECRETS:
            self.assertNotIn(text.encode(), out)
        texts = self.texts("out.jfr")
        self.assertEqual(texts["jdk.Shutdown.reason"], ["no reason"])
        self.assertEqual(texts["jdk.types.Symbol.string"], ["com/shop/Order", "java/lang/Integer"])
        mask = os.umask(0)
        os.umask(mask)
        self.assertEqual(self.mode("out.jfr"), 0o666 & ~mask)
        self.assert_only("in.jfr", "out.jfr")

    def test_output_is_what_the_program_makes(self) -> None:
        self.write("known", "main\n")
        types = ",".join(kept_by("masked"))
        words = ["--include-events", types, "--describe", types, "--strings", "*", "--except", ",".join(unmasked(True))]
        made = ["send/jfr", "mask", *words, "--known", "known", "in.jfr", "by-hand.jfr"]
        subprocess.run(made, check=True)
        self.assert_run(self.recipe("masked", "--code", "--known", "known", "in.jfr", "out.jfr"), 0)
        self.assertEqual(self.read("out.jfr"), self.read("by-hand.jfr"))

    def test_table(self) -> None:
        self.assert_run(self.recipe("masked", "--table", "table", "in.jfr", "out.jfr"), 0)
        table = self.table("table")
        self.assertEqual(set(table), set(SECRETS))
        texts = self.texts("out.jfr")
        self.assertEqual(texts["jdk.FileRead.path"], [table["/secret/path"]])
        self.assertEqual(texts["java.lang.Thread.javaName"], sorted([table["main"], table["http GET /pay"]]))
        self.assertEqual(self.mode("table"), 0o600)
        self.assert_only("in.jfr", "out.jfr", "table")
        self.recipe("masked", "in.jfr", "without.jfr")
        self.assertEqual(self.read("without.jfr"), self.read("out.jfr"))

    def test_code(self) -> None:
        self.assert_run(self.recipe("masked", "--code", "in.jfr", "out.jfr"), 0, "5 texts have pseudonyms")
        self.assertEqual(len(self.texts("out.jfr")["jdk.types.Symbol.string"]), 2)
        self.assertNotIn(b"java/lang/Integer", self.read("out.jfr"))
        self.write("known", "java/lang/Integer\nmasked-1\n")
        self.assert_run(self.recipe("masked", "--code", "--known", "known", "in.jfr", "jdk.jfr"), 0, "4 texts have")
        self.assertIn("java/lang/Integer", self.texts("jdk.jfr")["jdk.types.Symbol.string"])
        self.assertNotIn(b"com/shop/Order", self.read("jdk.jfr"))
        words = ["masked", "--code", "--known", "/dev/stdin", "in.jfr", "again.jfr"]
        self.assert_run(self.process(*words, stdin=self.read("known")), 0)
        self.assertEqual(self.read("again.jfr"), self.read("jdk.jfr"))

    def test_names_of_jdks(self) -> None:
        words = "masked", "--code", "in.jfr"
        self.assert_run(self.recipe(*words, "none.jfr"), 0, "names of the JDK are masked, too")
        self.assertNotIn("names", self.recipe("masked", "in.jfr", "code.jfr").err)
        for folder, file, said in (
            ("dist", "jdk-names-17-21-25.xz", "names stay of JDK 17, 21 and 25, which "),
            ("share", "jdk-names-17.xz", "names stay of JDK 17, which "),
        ):
            with self.subTest(folder=folder):
                os.mkdir(f"send/{folder}")
                with lzma.open(f"send/{folder}/{file}", "wb") as names:
                    names.write(b"java/lang/Integer\nmain\n")
                self.write(f"send/{folder}/jdk-names.txt", "another")
                run = self.recipe(*words, f"{folder}.jfr")
                self.assert_run(run, 0, f"{said}{os.path.abspath('send')}/{folder}/{file} has\n")
                self.assertEqual(self.texts(f"{folder}.jfr")["jdk.types.Symbol.string"][0], "java/lang/Integer")
                self.assertNotIn(b"com/shop/Order", self.read(f"{folder}.jfr"))
                self.recipe(*words, "opened.jfr", "--open", "com.shop.*")
                texts = self.texts("opened.jfr")
                self.assertEqual(texts["jdk.types.Symbol.string"], ["com/shop/Order", "java/lang/Integer"])
                self.assertEqual(texts["java.lang.Thread.javaName"][0], "main")
                os.unlink("opened.jfr")
                self.assertNotIn("names", self.recipe(*words, "known.jfr", "--known", "/dev/null").err)
                self.assertEqual(self.read("known.jfr"), self.read("none.jfr"))
                os.unlink("known.jfr")
                self.write(f"send/{folder}/{file}", "no archive")
                self.assert_run(self.recipe(*words, "new.jfr"), 3, f"{folder}/{file} is damaged")
                os.unlink(f"send/{folder}/{file}")
        self.assert_only("in.jfr", "none.jfr", "code.jfr", "dist.jfr", "share.jfr")

    def test_known_texts(self) -> None:
        self.write("known", "main\r\nhttp GET /pay\n/secret")
        run = self.recipe("masked", "--known", "known", "--table", "table", "in.jfr", "out.jfr")
        self.assert_run(run, 0, "WARNING: lines of known end with a carriage return")
        self.assertEqual(set(self.table("table")), {"main", "/secret/path"})

    def test_report(self) -> None:
        classes = CLASSES.replace("java/lang/Integer", "main")
        self.recording("main.jfr", TYPES + CODE + EVENTS + classes + SHUTDOWN)
        run = self.recipe("masked", "--report", "report", "main.jfr", "out.jfr")
        self.assert_run(run, 0, "texts that are also in fields that aren't masked: \"main\"\n")
        self.assertEqual(self.mode("report"), 0o600)
        expected = [
            "masked\t2\t2\tjava.lang.Thread.javaName",
            "masked\t1\t1\tjdk.FileRead.path",
            "stays\t1\t1\tjdk.Shutdown.reason\twhy the JVM ended",
            f"stays\t2\t2\tjdk.types.Symbol.string\t{unmasked(False)['jdk.types.Symbol.string']}",
            'also\t1\t1\tjdk.types.Symbol.string\t"main"',
        ]
        self.assertEqual(self.read("report").decode().splitlines(), expected)

    def test_windows_and_trust(self) -> None:
        run = self.recipe("masked", "--to", "1970-01-01T00:00:00Z", "in.jfr", "out.jfr")
        self.assert_run(run, 0, "0 of 8 events are left")
        self.assertIn("the window is --to", run.err)
        self.recording("own.jfr", TYPES + "event 24 jdk.FileRead\nfield text 6 -\n" + EVENTS + 'record 24 "an\\u0020own"\n')
        self.assert_run(self.recipe("masked", "own.jfr", "o.jfr"), 0, "jdk.FileRead (two types have this name)")
        run = self.recipe("masked", "--trust", "jdk.FileRead", "--table", "table", "own.jfr", "trusted.jfr")
        self.assert_run(run, 0, "WARNING: kept on trust")
        self.assertIn("an own", self.table("table"))
        self.assertNotIn(b"an own", self.read("trusted.jfr"))

    def test_several_chunks(self) -> None:
        self.recording("second.jfr", TYPES + CODE + EVENTS.replace("/secret/path", "/another"))
        with open("two.jfr", "wb") as file:
            file.write(self.read("in.jfr") + self.read("second.jfr"))
        self.assert_run(self.recipe("masked", "--table", "table", "two.jfr", "out.jfr"), 0, "4 texts")
        table = self.table("table")
        self.assertEqual(sorted(table.values()), [f"masked-{number}" for number in range(1, 5)])
        self.assertEqual(len(self.texts("out.jfr")["java.lang.Thread.javaName"]), 2)

    def test_faults(self) -> None:
        self.write("there", "")
        os.mkdir("folder")
        for status, text, words in (
            (4, "there exists already", ("--table", "there")),
            (4, "there exists already", ("--report", "there")),
            (4, "the folder none doesn't exist", ("--table", "none/table")),
            (3, "reading none failed", ("--known", "none")),
            (3, "folder is a folder", ("--known", "folder")),
        ):
            with self.subTest(words=words):
                self.assert_run(self.recipe("masked", *words, "in.jfr", "out.jfr"), status, text)
        self.assertEqual(self.read("there"), b"")
        self.assert_only("in.jfr", "there", "folder")

    def test_faults_of_the_program(self) -> None:
        words = "masked", "--table", "table", "in.jfr", "out.jfr"
        for status, line, text in (
            (9, "chunk 2: MaskTooLong", "in.jfr: the masked chunk would have a gigabyte or more"),
            (4, "write fault", "writing out.jfr failed; "),
            (5, "out of memory", "there is not enough memory for in.jfr"),
            (1, "usage", "doesn't take these words"),
        ):
            with self.subTest(status=status):
                fake = f'mask) echo "{line}" >&2; exit {status} ;;'
                self.fake_program(f'case $1 in {fake} *) exec {self.program} "$@" ;; esac\n')
                run = self.recipe(*words)
                self.assert_run(run, status, text)
                self.assertEqual("or writing table failed; " in run.err, status == 4)
                self.assert_only("in.jfr")

    def test_texts_that_are_not_masked(self) -> None:
        words = 'while [ $# -gt 2 ]; do [ "$1" != --table ] || : >"$2"; shift; done'
        scrub = f'{words}; exec {self.program} scrub "$1" "$2"'
        self.fake_program(f'case $1 in mask) {scrub} ;; *) exec {self.program} "$@" ;; esac\n')
        run = self.recipe("masked", "in.jfr", "out.jfr")
        self.assert_run(run, 71, "texts aren't masked at farm.Own.text; java.lang.Thread.javaName; jdk.FileRead.path\n")
        self.assert_only("in.jfr")


class Opened(Case):
    def names(self, *methods: Method) -> CodeNames:
        own = {"com/shop/Order", "Main", *(each.class_name for each in methods)}
        classes = {"org/lib/Base", "[[Lorg/lib/Item;", "org/lib/two\nlines", *own}
        return CodeNames(classes, {"org/lib", "com/shop", "org/library"}, set(methods))

    def test_classes_and_packages(self) -> None:
        both = {"org/lib/Base", "org.lib.Base", "org/lib", "org.lib", "[[Lorg/lib/Item;", "[[Lorg.lib.Item;"}
        for patterns in "org.lib.*", "org/lib/*", "org.l?b.*", "*.lib.Base,*Item", "org.lib.Base,org.lib.Item":
            with self.subTest(patterns=patterns):
                self.assertEqual(opened(self.names(), patterns, set()), (both, []))
        self.assertEqual(opened(self.names(), "Main,org.lib.X,org,[[*", set()), ({"Main"}, ["org.lib.X", "org", "[[*"]))
        self.assertEqual(opened(self.names(), "org.library", set()).texts, {"org/library", "org.library"})

    def test_methods(self) -> None:
        own = Method("com/shop/Order", "pay", "()Lcom/shop/Order;")
        descriptors = "()V", "(Lcom/shop/Order;)V", "([Lorg/lib/X;Ljava/lang/A;)V"
        base = [Method("org/lib/Base", "run", descriptor) for descriptor in descriptors]
        texts = opened(self.names(own, *base), "org.lib.*", {"java/lang/A"}).texts
        self.assertLess({"run", "()V", "([Lorg/lib/X;Ljava/lang/A;)V"}, texts)
        self.assertFalse(texts & {"pay", "()Lcom/shop/Order;", "(Lcom/shop/Order;)V", "com/shop/Order", "com/shop"})
        self.assertNotIn("([Lorg/lib/X;Ljava/lang/A;)V", opened(self.names(*base), "org.lib.*", set()).texts)

    def masked(self, *words: str) -> "Dict[str, List[str]]":
        """The texts of an output that aren't pseudonyms."""
        self.assert_run(self.recipe("masked", "--code", *words, "in.jfr", "out.jfr"), 0)
        found = texts_by_field(Program(self.program), "out.jfr")
        os.unlink("out.jfr")
        return {field: sorted(text for text in counts if "masked-" not in text) for field, counts in found.items()}

    def test_a_recording(self) -> None:
        self.recording("one.jfr", TYPES + METHODS + EVENTS + INLINED)
        self.recording("two.jfr", TYPES + METHODS + EVENTS + INLINED.replace("org/lib/Base", "org/lib/Later"))
        with open("in.jfr", "wb") as file:
            file.write(self.read("one.jfr") + self.read("two.jfr"))
        self.write("known", "java/lang/String")
        texts = self.masked("--open", "org.lib.*", "--known", "known")
        symbols = ["(Lorg/lib/Base;I)V", "(Lorg/lib/Later;I)V", "org/lib", "org/lib/Base", "org/lib/Later", "run"]
        self.assertEqual(texts["jdk.types.Symbol.string"], symbols)
        self.assertEqual(texts["jdk.types.CalleeMethod.type"], ["org/lib/Base", "org/lib/Inner", "org/lib/Later"])
        self.assertEqual(texts["jdk.types.CalleeMethod.name"], ["get", "inner"])
        # What `add` of the program's own class takes is a text that a method of the other has, too.
        self.assertEqual(texts["jdk.types.CalleeMethod.descriptor"], ["()V", "(Ljava/lang/String;)I"])
        self.assertEqual(self.masked("--open", "org.lib.*")["jdk.types.CalleeMethod.descriptor"], ["()V"])
        self.assertEqual(self.masked()["jdk.types.Symbol.string"], [])
        self.assert_only("in.jfr", "one.jfr", "two.jfr", "known")

    def test_what_is_said(self) -> None:
        self.recording("in.jfr", TYPES + METHODS + EVENTS + INLINED)
        run = self.recipe("masked", "--code", "--open", "org.lib.B*,none.*", "in.jfr", "out.jfr")
        self.assert_run(run, 0, "8 names stay, of what --open matches, and of its methods\n")
        self.assertIn("WARNING: the pattern 'none.*' matches no class or package of in.jfr\n", run.err)
        for words, text in (
            (["--open", "org.*"], "--open is for use with --code"),
            (["--code", "--open", "org.*,"], "a pattern is empty"),
            (["--code", "--open", "a, b"], "a blank beside a comma"),
        ):
            self.assert_run(self.recipe("masked", *words, "in.jfr", "new.jfr"), 1, text)
        self.assert_run(self.recipe("many", "--code", "--open", "org.*", "vendor", "in", "new"), 1, "are for masked")
        os.mkdir("in")
        os.rename("in.jfr", "in/x.jfr")
        run = self.process("many", "masked", "in", "new", "--open", "org.lib.B*,none.*", "--code")
        self.assert_run(run, 0, "WARNING: 1 have warnings")
        self.assertEqual(self.read("new/x.jfr"), self.read("out.jfr"))

    def test_the_file_is_private(self) -> None:
        self.recording("in.jfr", TYPES + METHODS + EVENTS + INLINED)
        self.fake_program(f'[ "$1" != mask ] || stat -c %a .out.jfr.part/known >mode; exec {self.program} "$@"\n')
        self.assert_run(self.recipe("masked", "--code", "--open", "org.*", "in.jfr", "out.jfr"), 0)
        self.assertEqual(self.read("mode"), b"600\n")
        self.fake_program(f'[ "$1" != mask ] || exit 5; exec {self.program} "$@"\n')
        self.assert_run(self.recipe("masked", "--code", "--open", "org.*", "in.jfr", "new.jfr"), 5)
        self.assert_only("in.jfr", "out.jfr", "mode")


class Names(Case):
    def java(self, script: str) -> None:
        os.makedirs("jdk/bin", exist_ok=True)
        self.write("jdk/bin/java", f"#!/bin/sh\n{script}\n")
        os.chmod("jdk/bin/java", 0o755)

    def test_names(self) -> None:
        self.java("for last; do :; done; test -r $last && echo java/lang/String")
        self.assert_run(self.recipe("names", "jdk", "out"), 0)
        self.assertEqual(self.read("out"), b"java/lang/String\n")
        self.assert_run(self.recipe("names", "jdk", "out"), 4, "out exists already")
        os.unlink("out")
        self.java("echo half; echo 'error: release 8' >&2; exit 1")
        self.assert_run(self.recipe("names", "jdk", "out"), 69, "a JDK of 11 or later can: error: release 8")
        self.java("echo half; exit 4")
        self.assert_run(self.recipe("names", "jdk", "out"), 4, "writing out failed; ")
        self.assert_run(self.recipe("names", "none", "out"), 3, "none isn't the folder of a JDK")
        self.assert_only("jdk")
