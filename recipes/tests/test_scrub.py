"""Scrubs: which events are kept, what is said, and what is left after a failure."""

import gzip
import os
from typing import List, Tuple

from kijorafe.known import kept_by
from kijorafe.program import Class, Program
from tests.support import EVENTS, SHUTDOWN, TYPES, Case

KEPT = {"vendor": ["jdk.CPULoad", "jdk.ThreadStart"], "strict": ["jdk.CPULoad"], "tenant": ["jdk.CPULoad"]}


class Scrub(Case):
    def types_in(self, name: str) -> List[str]:
        return [line.split()[0] for line in self.run_program("summary", name).splitlines()[9:]]

    def test_kept_types(self) -> None:
        self.recording("in.jfr")
        runs: List[Tuple[str, ...]] = [("vendor",), ("strict",), ("tenant", "x*"), ("tenant", "--addresses")]
        for recipe, *words in runs:
            with self.subTest(recipe=recipe, words=words):
                run = self.recipe(recipe, *words, "in.jfr", "out.jfr")
                self.assert_run(run, 0, f"of 5 events are left, of {len(KEPT[recipe])} of 4 types")
                self.assertIn("removed, since the list of the JDK's types doesn't have them: 1 farm.Own", run.err)
                self.assertEqual(run.out, "")
                self.assertEqual(self.types_in("out.jfr"), KEPT[recipe])
                os.unlink("out.jfr")

    def test_output_is_what_the_program_makes(self) -> None:
        self.recording("in.jfr")
        types = ",".join(kept_by("vendor"))
        self.run_program("scrub", "--include-events", types, "--describe", types, "in.jfr", "by-hand.jfr")
        self.assert_run(self.recipe("vendor", "in.jfr", "out.jfr"), 0)
        self.assertEqual(self.read("out.jfr"), self.read("by-hand.jfr"))
        mask = os.umask(0)
        os.umask(mask)
        self.assertEqual(self.mode("out.jfr"), 0o666 & ~mask)
        self.assert_only("in.jfr", "by-hand.jfr", "out.jfr")

    def test_threads_of_tenant(self) -> None:
        self.recording("in.jfr")
        run = self.recipe("tenant", "main,nobody*", "in.jfr", "out.jfr")
        self.assert_run(run, 0, "the pattern 'nobody*' matches no thread")
        self.assertNotIn("pattern main", run.err)
        run = self.recipe("tenant", "--addresses", "in.jfr", "found.jfr")
        self.assert_run(run, 0, "threads with addresses in their names: 'http GET /pay'")

    def test_pipes_and_compressed_inputs(self) -> None:
        self.recording("in.jfr")
        self.recipe("vendor", "in.jfr", "expected.jfr")
        with open("in.gz", "wb") as file:
            file.write(gzip.compress(self.read("in.jfr")[:100]) + gzip.compress(self.read("in.jfr")[100:]))
        for at, (source, stdin) in enumerate(
            [("in.gz", b""), ("/dev/stdin", self.read("in.jfr")), ("/dev/stdin", self.read("in.gz"))]
        ):
            run = self.process("vendor", source, f"out{at}.jfr", stdin=stdin)
            self.assert_run(run, 0, "events are left")
            self.assertEqual(self.read(f"out{at}.jfr"), self.read("expected.jfr"))
        run = self.process("tenant", "nobody", "/dev/stdin", "t.jfr", stdin=self.read("in.jfr"))
        self.assert_run(run, 0, "WARNING: the pattern nobody matches no thread")

    def test_refused_inputs_leave_nothing(self) -> None:
        self.recording("in.jfr")
        whole = self.read("in.jfr")
        cases = [
            (b"", "NoChunk", "is empty"),
            (whole[:-1], "ShortChunk", "is cut short"),
            (whole + whole[:80], "ShortChunk", "is cut short"),
            (b"PK" + whole, "Magic", "isn't a recording"),
            (whole[:64] + b"\1" + whole[65:], "Unfinished", "still being written"),
        ]
        for content, reason, text in cases:
            with self.subTest(reason=reason):
                with open("bad.jfr", "wb") as file:
                    file.write(content)
                run = self.recipe("vendor", "bad.jfr", "out.jfr")
                self.assert_run(run, 2, reason)
                self.assertIn(text, run.err)
                self.assert_only("in.jfr", "bad.jfr")
        self.assert_run(self.process("vendor", "/dev/stdin", "out.jfr", stdin=b"PK" + whole), 2, "Magic")
        run = self.process("vendor", "/dev/stdin", "out.jfr", stdin=gzip.compress(whole)[:-9])
        self.assert_run(run, 2, "damaged or cut short")
        self.assert_only("in.jfr", "bad.jfr")

    def test_a_report_that_fails(self) -> None:
        self.recording("in.jfr")
        self.fake_program(
            f'case $1 in metadata) echo "out of memory" >&2; exit 5 ;; *) exec {self.program} "$@" ;; esac\n'
        )
        run = self.recipe("vendor", "in.jfr", "out.jfr")
        self.assert_run(run, 71, "can't be checked, so there is no output")
        self.assertIn("out of memory", run.err)
        self.assert_only("in.jfr")

    def test_descriptions_stay_in_each_chunk(self) -> None:
        first, second = self.recording("a"), self.recording("b", TYPES + EVENTS + SHUTDOWN)
        with open("in.jfr", "wb") as file:
            file.write(self.read(first) + self.read(second))
        for recipe, types in (
            ("vendor", ["jdk.CPULoad", "jdk.ThreadStart", "jdk.Shutdown"]),
            ("strict", ["jdk.CPULoad"]),
        ):
            self.assert_run(self.recipe(recipe, "in.jfr", f"{recipe}.jfr"), 0)
            described = [(each.chunk, each.name) for each in self.classes(f"{recipe}.jfr") if each.is_event]
            self.assertEqual(described, [(chunk, name) for chunk in (1, 2) for name in types])

    def classes(self, name: str) -> List[Class]:
        return list(Program(self.program).classes(name))

    def test_own_types_with_names_of_the_jdk(self) -> None:
        own = "event 24 jdk.CPULoad\nfield text 6 -\nevent 26 jdk.SwapSpace\nfield text 6 -\n"
        self.recording("in.jfr", TYPES + own + EVENTS + 'record 26 "own"\n')
        run = self.recipe("vendor", "in.jfr", "out.jfr")
        self.assert_run(run, 0, "2 of 6 events are left")
        self.assertIn("jdk.CPULoad (two types have this name); jdk.SwapSpace (its fields aren't those", run.err)
        self.assertEqual(self.types_in("out.jfr"), ["jdk.ThreadStart"])
        run = self.recipe("vendor", "--trust", "jdk.SwapSpace", "in.jfr", "--trust", "jdk.CPULoad", "trusted.jfr")
        self.assert_run(run, 0, "WARNING: kept on trust, though")
        self.assertIn("the program's own types have these names: jdk.CPULoad; jdk.SwapSpace\n", run.err)
        self.assertEqual(self.types_in("trusted.jfr"), ["jdk.CPULoad", "jdk.SwapSpace", "jdk.ThreadStart"])
        run = self.recipe("vendor", "--trust", "farm.Own", "in.jfr", "o")
        self.assert_run(run, 1, "isn't the name of a type of the JDK")
        run = self.recipe("tenant", "--trust", "jdk.CPULoad", "--", "-x", "in.jfr", "tenant.jfr")
        self.assertEqual(self.types_in("tenant.jfr"), ["jdk.CPULoad"])

    def test_names_are_made_safe(self) -> None:
        self.recording("in.jfr", TYPES + "event 24 \x1b[31mred\u202ex\u2028y\nfield n 5 -\n" + EVENTS + "record 24 1\n")
        run = self.recipe("vendor", "in.jfr", "out.jfr")
        self.assert_run(run, 0, "1 \\u001b[31mred\\u202ex\\u2028y")
        run = self.recipe("strangers", "in.jfr")
        self.assertEqual((run.status, run.out), (1, "1 \\u001b[31mred\\u202ex\\u2028y\n1 farm.Own\n"))
