"""Scrubs of folders."""

import os
from typing import List

from tests.support import Case


class Many(Case):
    def setUp(self) -> None:
        super().setUp()
        os.makedirs("in/a")
        os.makedirs("in/folder.jfr")
        self.recording("in/a/x.jfr")
        self.recording("in/two\nlines {} $x.jfr")
        self.write("in/cut.jfr", "FLR")
        os.symlink("none", "in/link.jfr")

    def log(self) -> List[str]:
        return self.read("out.log").decode().splitlines()

    def test_a_folder(self) -> None:
        run = self.process("many", "--jobs", "2", "vendor", "in", "out")
        self.assert_run(run, 2, "2 of 3 recordings were scrubbed, 0 before, 1 were refused")
        self.assertIn("cut.jfr: status 2: chunk 1 offset 3: ShortHeader", run.err)
        self.assertEqual(self.read("out/a/x.jfr"), self.read("out/two\nlines {} $x.jfr"))
        self.assertEqual(sorted(os.listdir("out")), ["a", "two\nlines {} $x.jfr"])
        self.assertEqual(self.log()[0], f"# recipes/many vendor {os.path.realpath('in')} ")
        self.assertEqual(sorted(line.split("\t")[0] for line in self.log()[1:]), ["0", "0", "2"])
        self.assert_run(self.process("many", "vendor", "in", "out"), 4, "add --resume")
        self.assert_run(self.process("many", "--resume", "strict", "in", "out"), 4, "of another recipe")
        os.unlink("in/cut.jfr")
        self.recording("in/new.jfr")
        run = self.process("many", "--resume", "vendor", "in", "out")
        self.assert_run(run, 0, "1 of 3 recordings were scrubbed, 2 before, 0 were refused")

    def test_tenant(self) -> None:
        os.unlink("in/cut.jfr")
        run = self.process("many", "tenant", "-x*,main", "in", "out")
        self.assert_run(run, 0, "2 of 2")
        self.assertIn("WARNING: 2 have warnings, which", run.err)
        self.assert_run(self.process("many", "tenant", "--addresses", "in", "out2"), 0, "2 of 2")
        self.assert_run(self.process("many", "--trust", "jdk.CPULoad", "tenant", "-x*,main", "in", "out3"), 0, "2 of 2")
        self.assertEqual(self.read("out/a/x.jfr"), self.read("out3/a/x.jfr"))
        words = ["--one", "--trust", "jdk.CPULoad", "tenant", "--", "-x*,main", "in", "out4", "a/x.jfr"]
        run = self.process("many", *words)
        self.assertRegex(run.out, r'\[0, \d+, "a/x.jfr", "WARNING: the pattern')
        self.recipe("tenant", "--addresses", "in/a/x.jfr", "one.jfr")
        self.assertEqual(self.read("out2/a/x.jfr"), self.read("one.jfr"))

    def test_masked(self) -> None:
        os.unlink("in/cut.jfr")
        self.write("known", "main\n")
        run = self.process("many", "--code", "masked", "in", "out", "--known", "known")
        self.assert_run(run, 0, "2 of 2")
        self.recipe("masked", "--code", "--known", "known", "in/a/x.jfr", "one.jfr")
        self.assertEqual(self.read("out/a/x.jfr"), self.read("one.jfr"))
        self.assertIn(b"main", self.read("one.jfr"))

    def test_faults(self) -> None:
        os.mkdir("empty")
        for status, text, words in (
            (3, "doesn't exist", ("vendor", "none", "out")),
            (4, "must not be IN_FOLDER or in it", ("vendor", "in", "in/out")),
            (4, "can't be made", ("vendor", "in", "none/out")),
            (2, "has no file", ("vendor", "empty", "out")),
            (1, "usage", ("many", "in", "out")),
            (1, "usage", ("vendor", "in")),
            (1, "usage", ("tenant", "in", "out")),
            (1, "a pattern is empty", ("tenant", "a,", "in", "out")),
            (1, "--code, --known and --open are for masked", ("--code", "vendor", "in", "out")),
            (1, "none can't be read", ("--known", "none", "masked", "in", "out")),
            (1, "usage", ("--jobs", "0", "vendor", "in", "out")),
        ):
            with self.subTest(words=words):
                self.assert_run(self.recipe("many", *words), status, text)
