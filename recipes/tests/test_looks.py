"""Looks at recordings: left, threads, strangers, and names that are made safe."""

import base64
import gzip
import json
import time
import unittest

from kijorafe.shown import file_name, quoted, shown
from kijorafe.threads import ADDRESS, pattern_of
from tests.support import EVENTS, SHUTDOWN, TYPES, Case

TEXTS = "class 6 java.lang.String\nevent 8 t.A\nfield s 6 -\nfield t 6 -\n"
# What the metadata is listed with.
LISTED = "".join(f'1\t(metadata)\tt.A\t"{text}"\n' for text in ("s", "t", "t.A"))
# A constant that refers to others, and an event that refers to one.
NODES = """\
class 6 java.lang.String
class 9 t.Node
field all 9 ca
field text 6 -
event 8 t.A
field node 9 c
record 8 #1
"""


def encoded(text: str) -> str:
    """The text in base64, within another text."""
    return f"key={base64.b64encode(text.encode()).decode()}"


class Names(unittest.TestCase):
    def test_shown(self) -> None:
        self.assertEqual(shown("a b ä"), "a b ä")
        self.assertEqual(shown("\x1b\n\x85\u202e\u2029"), "\\u001b\\u000a\\u0085\\u202e\\u2029")
        self.assertEqual(shown("\udc80\U000e0001"), "\\udc80\\udb40\\udc01")
        self.assertEqual(quoted('"\\\n\u202e'), '"\\"\\\\\\n\\u202e"')

    def test_file_names(self) -> None:
        self.assertEqual(file_name("a.jfr"), "a.jfr")
        self.assertEqual(file_name("a b"), "'a b'")
        self.assertEqual(file_name("a'\n\udcff"), "$'a\\'\\x0a\\xff'")

    def test_addresses(self) -> None:
        for name in (
            "RMI TCP Connection(1)-127.0.0.1", "x fe80::1", "shop.example:8080", "http://x", "a?user=1", "GET /",
            "me@shop.example",
        ):
            self.assertTrue(ADDRESS.search(name), name)
        for name in "main", "G1 Main Marker", "Thread-7", "a.b", "1.2.3", "x:1":
            self.assertFalse(ADDRESS.search(name), name)

    def test_patterns(self) -> None:
        self.assertEqual(pattern_of("http-nio-8080-exec-12"), "http-nio-*-exec-*")
        self.assertEqual(pattern_of("a,b*c\x1b\u202e\x85"), "a?b?c???")

    def test_long_names(self) -> None:
        start = time.process_time()
        for part in "a", "a.", "1.", "a:", "a@", "?a", "-", "f:":
            ADDRESS.search(part * (200_000 // len(part)))
        self.assertLess(time.process_time() - start, 3)


class Looks(Case):
    def test_left(self) -> None:
        self.recording("a.jfr", TEXTS + 'record 8 "one\\u001b" "two"\nrecord 8 "com/shop/Order" null\n')
        run = self.recipe("left", "a.jfr")
        expected = '1\tt.A\ts\t"com/shop/Order"\n1\tt.A\ts\t"one\\u001b"\n1\tt.A\tt\t"two"\n'
        self.assertEqual(run.out, LISTED + expected)
        self.write("words", "com.shop.Order\nthree\nt.A\n")
        run = self.recipe("left", "a.jfr", "words")
        self.assert_run(run, 1, "2 of 3 words found in a.jfr")
        self.assertIn("line 1: t.A s, 1 times\n", run.out)
        self.assertIn("line 3: (metadata) t.A, 1 times\n", run.out)
        self.write("words", "three\n")
        self.assert_run(self.recipe("left", "a.jfr", "words"), 0, "0 of 1 words found")
        self.recording("b.jfr", TEXTS + 'constant 6 1 "in\\u0020the\\u0020pool"\nrecord 8 #1 null\n')
        self.assertEqual(self.recipe("left", "b.jfr").out, LISTED + '1\tt.A\ts\t"in the pool"\n')

    def test_metadata(self) -> None:
        self.recording("a.jfr", "region xx_YY 3600000\n" + TYPES)
        own = [f'1\t(metadata)\t{where}\t"{text}"\n' for where, text in (
            ("(no class)", "xx_YY"), ("farm.Own", "farm.Own"), ("farm.Own", "text")
        )]
        self.assertEqual(self.recipe("left", "a.jfr").out, "".join(own))
        self.recording("b.jfr", TYPES.replace("field jvmUser", "field hunter2"))
        self.assertIn('1\t(metadata)\tjdk.CPULoad\t"hunter2"\n', self.recipe("left", "b.jfr").out)
        self.write("words", "XX_yy\nhunter2\n")
        self.assertIn("line 1: (metadata) (no class), 1 times\n", self.recipe("left", "a.jfr", "words").out)
        self.assertIn("line 2: (metadata) jdk.CPULoad, 1 times\n", self.recipe("left", "b.jfr", "words").out)

    def test_constants_that_share_others(self) -> None:
        nodes = [f'constant 9 {n} [100{f" #{n + 1}" * 100} "text {n}"\n'.replace("text ", "text\\u0020") for n in range(1, 12)]
        self.recording("a.jfr", NODES + "".join(nodes))
        out = self.recipe("left", "a.jfr").out
        for number in range(1, 9):
            path = "node" + (number - 1) * ".all[]" + ".text"
            self.assertIn(f'{100 ** (number - 1)}\tt.A\t{path}\t"text {number}"\n', out)
        for number in range(9, 12):
            self.assertIn(f'0\t(not within 8 references)\tt.Node.text\t"text {number}"\n', out)
        self.write("words", "TEXT 11\n")
        run = self.recipe("left", "a.jfr", "words")
        self.assertIn("line 1: (not within 8 references) t.Node.text, 0 times\n", run.out)

    def test_many_paths(self) -> None:
        self.replace("kijorafe.strings.PATHS", 50)
        fields = "".join(f"field f{n} 9 c\n" for n in range(10))
        text = NODES.replace("field all 9 ca\n", fields)
        self.recording("a.jfr", text + f'constant 9 1{" #1" * 10} "deep"\n')
        out = self.recipe("left", "a.jfr").out
        self.assertIn('1\tt.A\tnode.f0.text\t"deep"\n', out)
        self.assertRegex(out, r'\n[0-9]+\tt.A\t\*\.text\t"deep"\n')
        self.assertEqual(sum(int(line.split()[0]) for line in out.splitlines() if "deep" in line), 11111111)

    def test_many_paths_to_strings_by_key(self) -> None:
        self.replace("kijorafe.strings.PATHS", 50)
        fields = "".join(f"field f{n} 9 c\n" for n in range(10))
        text = NODES.replace("field all 9 ca\n", fields).replace("field text", "field javaName")
        self.recording("a.jfr", text + f'constant 9 1{" #1" * 10} #2\nconstant 6 2 #3\nconstant 6 3 "x://deep"\n')
        out = self.recipe("left", "a.jfr").out
        self.assertRegex(out, r'\n[0-9]+\tt.A\t\*\.javaName\t"x://deep"\n')
        self.assertNotIn('\t*\t"x://deep"', out)
        self.assertEqual(self.recipe("threads", "a.jfr").out, '111111 "x://deep"\n')
        self.assertEqual(self.recipe("threads", "--addresses", "a.jfr").out, "x://deep\n")
        self.recording("b.jfr", text + f'constant 9 1{" #2" * 10} null\nconstant 9 2{" #0" * 10} #2\nconstant 6 2 "x://b"\n')
        self.replace("kijorafe.strings.PATHS", 0)
        self.assertEqual(self.recipe("threads", "--addresses", "b.jfr").out, "x://b\n")

    def test_left_of_several_chunks(self) -> None:
        self.recording("a.jfr")
        self.recording("b.jfr", TEXTS + 'record 8 "one" "two"\n')
        with open("c.jfr", "wb") as file:
            file.write(self.read("a.jfr") + self.read("b.jfr"))
        run = self.recipe("left", "c.jfr")
        self.assertIn('1\tfarm.Own\ttext\t"secret text"\n', run.out)
        self.assertIn('1\tt.A\tt\t"two"\n', run.out)
        self.assertIn('1\tjdk.ThreadStart\teventThread.javaName\t"main"\n', run.out)
        self.assertNotIn("0x00000000", run.out)
        with open("c.gz", "wb") as file:
            file.write(gzip.compress(self.read("c.jfr")))
        expected = self.recipe("left", "c.jfr").out
        self.assertEqual(self.recipe("left", "c.gz").out, expected)
        self.assertEqual(self.process("left", "/dev/stdin", stdin=self.read("c.jfr")).out, expected)

    def test_fields_named_as_in_references(self) -> None:
        own = "class 5 long\nclass 9 t.Pair\nfield class 6 -\nfield key 5 -\n"
        own += "event 10 t.B\nfield pair 9 -\nfield other 9 c\n"
        text = TEXTS.replace("event", own + "event", 1) + 'constant 9 1 "inside" 7\nrecord 10 "direct" 9 #1\n'
        self.recording("a.jfr", text)
        run = self.recipe("left", "a.jfr")
        self.assertTrue(run.out.endswith('"t.Pair"\n1\tt.B\tother.class\t"inside"\n1\tt.B\tpair.class\t"direct"\n'))

    def test_types_of_one_name(self) -> None:
        own = "class 3 boolean\nclass 5 long\nclass 9 t.Same\nfield class 6 -\nfield key 5 -\nfield missing 3 -\n"
        own += "class 10 t.Same\nfield text 6 -\nfield key 5 -\n"
        own += "event 11 t.B\nfield one 9 -\nfield other 10 -\nevent 12 t.B\nfield one 10 c\n"
        text = TEXTS.replace("event", own + "event", 1) + 'constant 10 7 "inside" 1\n'
        self.recording("a.jfr", text + 'record 11 "direct" 7 true "two" 7\nrecord 12 #7\n')
        found = [line.split("\t")[2:] for line in self.recipe("left", "a.jfr").out.splitlines() if "metadata" not in line]
        self.assertEqual(found, [["one.class", '"direct"'], ["one.text", '"inside"'], ["other.text", '"two"']])

    def test_class_of_a_basic_name(self) -> None:
        self.recording("a.jfr", TEXTS + 'event 9 t.NamedAsAString\nfield javaName 6 -\nrecord 9 "inert"\nrecord 8 "one" null\n')
        with open("b.jfr", "wb") as file:
            file.write(self.read("a.jfr").replace(b"t.NamedAsAString", b"java.lang.String"))
        self.assertIn('"inert"', self.recipe("left", "a.jfr").out)
        self.assertEqual(self.recipe("threads", "a.jfr").out, '1 "inert"\n')
        self.assertNotIn('"inert"', self.recipe("left", "b.jfr").out)
        self.assertEqual(self.recipe("threads", "b.jfr")[:2], (0, ""))

    def test_how_words_are_found(self) -> None:
        types = TEXTS + "class 5 long\nevent 9 t.N\nfield n 5 -\n"
        for number, (string, word, is_found, is_exactly) in enumerate([
            ("x-Db.Example", "DB.EXAMPLE", True, False),
            ("straße", "STRASSE", True, False),
            ("com/shop/Order$Item", "com.shop.Order.Item", True, True),
            ("caf\u00e9", "cafe\u0301", True, True),
            ("?q=a%20b%2Fc", "a b/c", True, True),
            ("?q=a+b", "a b", True, True),
            ("say \\u00e4.", "ä", True, True),
            (encoded("1hunter2-secret"), "hunter2-secret", True, True),
            (encoded("12hunter2-secret"), "hunter2-secret", True, True),
            (encoded("123hunter2-secret9"), "hunter2-secret", True, True),
            ("", "8443", True, True),
            ("", "844", False, False),
            ("hunter2", "hunter3", False, False),
        ]):
            with self.subTest(string=string, word=word):
                text = json.dumps(string, ensure_ascii=False).replace(" ", "\\u0020")
                self.recording(f"{number}.jfr", types + f"record 9 8443\nrecord 8 {text} null\n")
                self.write("words", word + "\n")
                run = self.recipe("left", f"{number}.jfr", "words")
                self.assertEqual(run.status, int(is_found))
                self.assertEqual("line 1: t." in run.out, is_found)
                self.assertEqual(self.recipe("left", "--exact", f"{number}.jfr", "words").status, int(is_exactly))
        self.write("words", "hunter3\n8443\nnothing\n")
        run = self.recipe("left", "0.jfr", "words")
        self.assert_run(run, 1, "not found: line 1, 3\n")
        self.assertEqual(run.out, "line 2: t.N n, 1 times\n")

    def test_bytes_across_blocks(self) -> None:
        self.replace("kijorafe.left.BLOCK", 7)
        self.recording("a.jfr", TEXTS + 'record 8 "Hunter2Secret" null\n')
        self.write("words", "hunter2secret\nanother\n")
        at = self.read("a.jfr").find(b"Hunter2")
        self.assertIn(f"line 1: the bytes, first at {at}\n", self.recipe("left", "a.jfr", "words").out)

    def test_left_that_fails(self) -> None:
        self.recording("a.jfr")
        self.write("empty", "")
        self.write("text", "x")
        for words in ("a.jfr", "empty"), ("none.jfr",), ("text",), ("a.jfr", "none"), ("-a.jfr",), ():
            self.assertEqual(self.recipe("left", *words).status, 2, words)

    def test_strangers(self) -> None:
        self.recording("a.jfr", TYPES + SHUTDOWN.replace("#1", "#0"))
        self.assertEqual(self.recipe("strangers", "a.jfr")[:2], (0, ""))
        self.recording("b.jfr")
        self.assertEqual(self.recipe("strangers", "b.jfr")[:2], (1, "1 farm.Own\n"))
        own = "event 24 jdk.CPULoad\nfield n 5 -\nevent 26 jdk.SwapSpace\nfield n 5 -\n"
        self.recording("c.jfr", TYPES + own + EVENTS)
        run = self.recipe("strangers", "c.jfr")
        self.assertEqual(run.status, 1)
        self.assertEqual(
            run.out.splitlines(),
            [
                "1 farm.Own",
                "jdk.CPULoad (two types have this name)",
                "jdk.SwapSpace (its fields aren't those of the JDK's type)",
            ],
        )
        self.write("text", "x")
        for words in ("none.jfr",), ("text",), ("-b.jfr",), ():
            self.assertEqual(self.recipe("strangers", *words).status, 2, words)

    def test_threads(self) -> None:
        self.recording("a.jfr")
        self.assertEqual(self.recipe("threads", "a.jfr")[:2], (0, '1 "http GET /pay"\n1 "main"\n'))
        self.assertEqual(self.recipe("threads", "--addresses", "a.jfr")[:2], (0, "http GET /pay\n"))
        self.assertEqual(self.recipe("threads", "none.jfr").status, 2)

    def test_where_names_of_threads_are(self) -> None:
        own = "class 5 long\nclass 7 t.Thread\nfield javaName 6 -\nfield osName 6 -\nclass 9 t.Held\nfield n 5 -\n"
        own += "field by 7 c\nevent 10 t.B\nfield text 6 -\nfield in 9 -\nfield last 6 -\nfield osName 5 -\n"
        own += "event 11 t.C\nfield all 9 ca\nfield javaName 6 -\nfield osName 6 a\nevent 12 t.D\nfield osName 9 c\n"
        text = TEXTS.replace("event", own + "event", 1)
        text += 'constant 6 1 "by\\u0020key"\nconstant 7 1 "" null\nconstant 7 2 #1 "os"\nconstant 7 3 "no\\u0020event" null\n'
        text += "constant 9 1 300 #2\nconstant 9 2 300 #3\n"
        text += 'record 8 "javaName" "t"\nrecord 10 "text" 7 #1 "last" 9\n'
        self.recording("a.jfr", text + 'record 11 [2 #1 #1 "direct" [1 "item"\nrecord 12 #1\n')
        expected = '1 ""\n1 "direct"\n3 "by key"\n3 "os"\n'
        self.assertEqual(self.recipe("threads", "a.jfr")[:2], (0, expected))

    def test_names_in_constants_that_share_others(self) -> None:
        nodes = [f'constant 9 {n} [100{f" #{n + 1}" * 100} "name{n}.x:1"\n' for n in range(1, 12)]
        self.recording("a.jfr", NODES.replace("field text", "field osName") + "".join(nodes))
        out = "".join(f'{100 ** (n - 1)} "name{n}.x:1"\n' for n in range(1, 9))
        self.assertEqual(self.recipe("threads", "a.jfr").out, out)
        self.assertEqual(self.recipe("threads", "--addresses", "a.jfr").out, "name*.x:*\n")

    def test_threads_of_what_is_refused(self) -> None:
        self.recording("a.jfr")
        self.write("text", "x")
        with open("cut.jfr", "wb") as file:
            file.write(self.read("a.jfr")[:-1])
        for name, reason in ("cut.jfr", "ShortChunk"), ("text", "ShortHeader"):
            self.assert_run(self.recipe("threads", name), 2, reason)
            run = self.recipe("tenant", "--addresses", name, "out.jfr")
            self.assert_run(run, 2, f"{name}: ")
            self.assertIn("It can't be searched for addresses, so nothing is written", run.err)
