"""Checks of scrubs for somebody who has the original."""

import gzip
import lzma
import os
from typing import List

from tests.support import EVENTS, INLINED, METHODS, SHUTDOWN, TYPES, Case, Run

OPTIONS = ["--include-events", "jdk.CPULoad,ThreadStart", "--exclude-threads", "-x,http*"]


class Check(Case):
    def setUp(self) -> None:
        super().setUp()
        self.recording("in.jfr")
        self.run_program("scrub", *OPTIONS, "in.jfr", "out.jfr")
        self.run_program("receipt", *OPTIONS, "in.jfr", "receipt")

    def changed(self, at: int, value: bytes) -> None:
        """Replaces bytes of the output."""
        content = self.read("out.jfr")
        with open("out.jfr", "wb") as file:
            file.write(content[:at] + value + content[at + len(value) :])

    def check(self, *words: str) -> Run:
        return self.recipe("check", *words)

    def assert_same(self, run: Run, verified: str = "") -> None:
        self.assert_run(run, 0)
        self.assertRegex(run.out, f"^{verified}the same as a scrub, byte for byte: chunks 1, bytes [0-9]+, inert 0\n$")

    def assert_doubt(self, run: Run, *texts: str) -> None:
        self.assertEqual((run.status, run.err), (7, ""))
        for text in texts:
            self.assertIn(text, run.out)

    def test_what_is_right(self) -> None:
        self.assert_same(self.check(*OPTIONS, "in.jfr", "out.jfr"))
        self.assert_same(self.check("in.jfr", "out.jfr", "receipt", *OPTIONS), "verified 1\n")
        with open("in.gz", "wb") as file:
            file.write(gzip.compress(self.read("in.jfr")))
        self.assert_same(self.process("check", *OPTIONS, "in.gz", "/dev/stdin", stdin=self.read("out.jfr")))
        self.run_program("scrub", "--renumber", "yes", "in.jfr", "new.jfr")
        self.assert_same(self.check("--renumber", "yes", "in.jfr", "new.jfr"))
        self.assert_only("in.jfr", "out.jfr", "receipt", "in.gz", "new.jfr")

    def test_recipes(self) -> None:
        # All but the last are those that the recipe has.
        runs: List[List[str]] = [["vendor"], ["strict", "--last", "1s"], ["tenant", "http*"], ["vendor", "--trust", "jdk.CPULoad"]]
        for recipe, *words in runs:
            with self.subTest(recipe=recipe):
                self.assert_run(self.recipe(recipe, *words, "in.jfr", "o.jfr"), 0)
                words = ["--exclude-threads", *words] if recipe == "tenant" else words
                self.assert_same(self.check("--recipe", recipe, *words, "in.jfr", "o.jfr"))
                self.assert_doubt(self.check("in.jfr", "o.jfr"), "chunk 1: EventsDiffer: the output's events aren't")
                os.unlink("o.jfr")

    def test_masks(self) -> None:
        self.recording("code.jfr", TYPES + METHODS + EVENTS + INLINED)
        self.write("known", "main\nmasked-1\n")
        code, known, opened = ["--code"], ["--known", "known"], ["--open", "org.lib.*,none.*"]
        runs: List[List[str]] = [[], code, known, [*code, *opened], [*code, *known, *opened, "--last", "1s"]]
        for number, words in enumerate(runs):
            with self.subTest(words=words):
                self.assert_run(self.recipe("masked", *words, "code.jfr", f"{number}.jfr"), 0)
                run = self.check("--recipe", "masked", "code.jfr", *words, f"{number}.jfr")
                self.assert_run(run, 0)
                self.assertRegex(run.out, "^the same as a mask, byte for byte: chunks 1, bytes [0-9]+, inert 0\n$")
                self.assertEqual("the pattern 'none.*' matches no class" in run.err, opened[0] in words)
        others: List[List[str]] = [[], [*code, *known], [*code, "--open", "org.*"]]
        for words in others:
            with self.subTest(words=words):
                run = self.check("--recipe", "masked", *words, "code.jfr", "4.jfr")
                self.assertEqual(run.status, 7, run.err)
                self.assertIn("chunk 1: the first byte that differs is at ", run.out)
                self.assertIn("a mask also differs if --code, --open or the texts that are known", run.out)
                self.assertNotIn("verified", run.out)
        words = ["--recipe=masked", *code, "--known", "/dev/stdin", *opened, "code.jfr", "4.jfr", "--last", "1s"]
        run = self.process("check", *words, stdin=b"main")
        self.assertEqual((run.status, run.out[:18]), (0, "the same as a mask"))
        content = self.read("1.jfr")
        with open("1.jfr", "wb") as file:
            file.write(content.replace(b"masked-1", b"masked-9"))
        self.assertEqual(self.check("--recipe", "masked", *code, "code.jfr", "1.jfr").status, 7)
        made = (f"{number}.jfr" for number in range(5))
        self.assert_only("in.jfr", "out.jfr", "receipt", "code.jfr", "known", *made)

    def test_names_of_jdks(self) -> None:
        os.mkdir("send/share")
        with lzma.open("send/share/jdk-names-17.xz", "wb") as names:
            names.write(b"org/lib/Base\nrun\n")
        self.recording("code.jfr", TYPES + METHODS + EVENTS + INLINED)
        self.assert_run(self.recipe("masked", "--code", "code.jfr", "o.jfr"), 0)
        run = self.check("--recipe", "masked", "--code", "code.jfr", "o.jfr")
        self.assert_run(run, 0, "names stay of JDK 17, which ")
        os.unlink("send/share/jdk-names-17.xz")
        self.assertEqual(self.check("--recipe", "masked", "--code", "code.jfr", "o.jfr").status, 7)

    def test_the_known_texts_are_private(self) -> None:
        self.write("known", "main\n")
        self.recipe("masked", "--known", "known", "in.jfr", "o.jfr")
        find = 'for word; do [ "$last" != --known ] || stat -c "%a %n" "$word" >mode; last=$word; done'
        self.fake_program(f'[ "$1" != mask ] || {{ {find}; }}; exec {self.program} "$@"\n')
        self.assert_run(self.check("--recipe", "masked", "--known", "known", "in.jfr", "o.jfr"), 0)
        mode, place = self.read("mode").decode().split()
        self.assertEqual(mode, "600")
        self.assertFalse(os.path.exists(os.path.dirname(place)))

    def test_window(self) -> None:
        words = ["--from", "0", "--to", "1970-01-01T00:00:00.5Z"]
        self.run_program("scrub", "--from", "0", "--to", "500000000", "in.jfr", "o.jfr")
        self.assert_same(self.check(*words, "in.jfr", "o.jfr"))

    def test_other_events(self) -> None:
        run = self.check(*OPTIONS[:2], "in.jfr", "out.jfr", "receipt")
        self.assert_doubt(
            run,
            "chunk 1: EventsDiffer: the output's events aren't",
            "chunk 1: it has 2 events, and a scrub has 3\n",
            "chunk 1: events, and those of a scrub: jdk.ThreadStart 1 and 2\n",
        )
        self.assertNotIn("has no doubt", run.out)

    def test_other_descriptions(self) -> None:
        run = self.check(*OPTIONS, "--describe", "Shutdown", "in.jfr", "out.jfr", "receipt")
        text = "chunk 1: a scrub describes classes that it doesn't, or otherwise: jdk.Shutdown\n"
        self.assert_doubt(run, "verified 1\n", text, "`verify` has no doubt")
        run = self.check(*OPTIONS, "--describe", "Shutdown", "in.jfr", "out.jfr")
        self.assert_doubt(run, "verified 1\n", text, "`verify` has no doubt")

    def test_other_header(self) -> None:
        self.changed(39, b"\7")
        run = self.check(*OPTIONS, "in.jfr", "out.jfr", "receipt")
        self.assert_doubt(
            run, "chunk 1: its header has another start\nchunk 1: the first byte that differs is at 39, in the header\n"
        )

    def test_other_bytes(self) -> None:
        for old, new, part in ((b"main", b"mean", "a checkpoint"), (b"truncated", b"truncatet", "the metadata")):
            with self.subTest(part=part):
                at = self.read("out.jfr").index(old)
                self.changed(at, new)
                run = self.check(*OPTIONS, "in.jfr", "out.jfr")
                different = next(n for n in range(len(old)) if old[n] != new[n])
                self.assert_doubt(run, f"chunk 1: the first byte that differs is at {at + different}, in {part}\n")
                self.changed(at, old)
        at = self.read("out.jfr").index(b"\x14\1" + bytes(12)) + 13
        self.changed(at, b"\7")
        run = self.check(*OPTIONS, "in.jfr", "out.jfr")
        self.assert_doubt(run, "EventsDiffer", f"the first byte that differs is at {at}, in an event\n")

    def test_records_that_belong_to_nothing(self) -> None:
        content = bytearray(self.read("out.jfr")) + b"\x03\x63\x00"
        content[8:16] = len(content).to_bytes(8, "big")
        self.changed(0, bytes(content))
        run = self.check(*OPTIONS, "in.jfr", "out.jfr", "receipt")
        self.assert_doubt(
            run,
            "verified 1\n",
            "chunk 1: it has 1 records that belong to nothing, and a scrub has 0\n",
            f"at {len(content) - 3}, in an event, or a record that belongs to nothing\n",
        )

    def test_other_chunks(self) -> None:
        self.recording("second.jfr", TYPES + EVENTS + SHUTDOWN)
        with open("two.jfr", "wb") as file:
            file.write(self.read("in.jfr") + self.read("second.jfr"))
        self.run_program("scrub", "in.jfr", "one.jfr")
        run = self.check("two.jfr", "one.jfr")
        self.assert_doubt(run, "it has 1 chunks, and a scrub has 2\nchunk 2: ChunksDiffer: one of the original")
        self.changed(100, b"\xff" * 20)
        self.assert_doubt(self.check(*OPTIONS, "in.jfr", "out.jfr"), "a chunk of the output isn't a chunk that jfr accepts")

    def test_faults(self) -> None:
        self.write("text", "text")
        for status, text, words in (
            (3, "none.jfr doesn't exist", ("none.jfr", "out.jfr")),
            (3, "none.jfr doesn't exist", ("in.jfr", "none.jfr")),
            (3, "none doesn't exist", ("in.jfr", "out.jfr", "none")),
            (2, "isn't a recording", ("text", "out.jfr")),
            (1, "for use with --recipe", ("--last", "1s", "in.jfr", "out.jfr")),
            (1, "for use with --recipe", ("--recipe", "vendor", "--describe", "x", "in.jfr", "out.jfr")),
            (1, "with --recipe tenant", ("--recipe", "vendor", "--exclude-threads", "x", "in.jfr", "out.jfr")),
            (1, "with new keys", ("--renumber", "yes", "in.jfr", "out.jfr", "receipt")),
            (1, "with masks", ("--recipe", "masked", "in.jfr", "out.jfr", "receipt")),
            (1, "with --recipe masked", ("--recipe", "vendor", "--code", "in.jfr", "out.jfr")),
            (1, "with --recipe masked", ("--known", "text", "in.jfr", "out.jfr")),
            (1, "for use with --code", ("--recipe", "masked", "--open", "x", "in.jfr", "out.jfr")),
            (1, "with --recipe tenant", ("--recipe", "masked", "--exclude-threads", "x", "in.jfr", "out.jfr")),
            (3, "reading none failed", ("--recipe", "masked", "--known", "none", "in.jfr", "out.jfr")),
            (1, "isn't a time", ("--from", "12:", "in.jfr", "out.jfr")),
            (1, "doesn't take these words", ("--include-events", "", "in.jfr", "out.jfr")),
        ):
            with self.subTest(words=words):
                self.assert_run(self.check(*words), status, text)
        self.fake_program('case $1 in summary) exec ' + self.program + ' "$@" ;; scrub) exit 4 ;; esac\n')
        self.assert_run(self.check("in.jfr", "out.jfr"), 4, "TMPDIR names another folder")
        self.assert_only("in.jfr", "out.jfr", "receipt", "text")
