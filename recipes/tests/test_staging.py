"""Outputs: races, names, signals, full disks, and what a killed run leaves."""

import errno
import os
import signal
import subprocess
import time
from unittest import mock

from kijorafe import staging
from kijorafe.messages import Fault
from tests.support import Case

# A program that writes a part of its output and then waits for the file `go`.
SLOW = """\
case $1 in
    scrub | mask)
        for last; do :; done
        umask >mask
        echo part >"$last"
        echo "$last" >begun.new && mv begun.new begun
        while [ ! -e go ]; do sleep 0.02; done
        ;;
esac
"""


def take_signals() -> None:
    """Signals act in this process even if whoever started the tests ignores them, as nohup does."""
    for number in signal.SIGINT, signal.SIGTERM, signal.SIGHUP:
        signal.signal(number, signal.SIG_DFL)


class Interrupted(Case):
    def begin(self, *words: str) -> "subprocess.Popen[bytes]":
        """Starts a recipe, and waits until its output is begun."""
        self.fake_program(SLOW)
        self.write("in.jfr", "FLR\0")
        process = subprocess.Popen(
            self.command(*words),
            stderr=subprocess.PIPE,
            stdin=subprocess.DEVNULL,
            start_new_session=True,
            preexec_fn=take_signals,
        )
        until = time.monotonic() + 10
        while not os.path.exists("begun") and time.monotonic() < until:
            time.sleep(0.01)
        return process

    def end(self, process: "subprocess.Popen[bytes]") -> str:
        _, said = process.communicate(timeout=10)
        for name in "begun", "mask", "go":
            if os.path.exists(name):
                os.unlink(name)
        return said.decode()

    def test_signals_leave_nothing(self) -> None:
        for number in signal.SIGINT, signal.SIGTERM, signal.SIGHUP:
            for to_all in False, True:
                with self.subTest(signal=number, to_all=to_all):
                    process = self.begin("vendor", "in.jfr", "out.jfr")
                    self.assertEqual(self.mode(os.path.dirname(self.read("begun").decode())), 0o700)
                    self.assertEqual(self.mode(self.read("begun").decode().strip()), 0o600)
                    (os.killpg if to_all else os.kill)(process.pid, number)
                    said = self.end(process)
                    self.assertEqual(process.returncode, -number)
                    self.assertIn("out.jfr isn't written", said)
                    self.assert_only("in.jfr")

    def test_a_signal_leaves_no_table(self) -> None:
        process = self.begin("masked", "--table", "table", "in.jfr", "out.jfr")
        self.assertEqual(self.mode(".table.part"), 0o700)
        os.kill(process.pid, signal.SIGTERM)
        said = self.end(process)
        self.assertEqual(process.returncode, -signal.SIGTERM)
        for name in "out.jfr", "table":
            self.assertIn(f"{name} isn't written", said)
        self.assert_only("in.jfr")

    def test_a_killed_run_is_told_by_the_next(self) -> None:
        process = self.begin("vendor", "in.jfr", "out.jfr")
        os.killpg(process.pid, signal.SIGKILL)
        self.end(process)
        self.assert_only("in.jfr", ".out.jfr.part")
        self.write("go", "")
        run = self.recipe("vendor", "in.jfr", "out.jfr")
        self.assertIn("is of a run that was killed, and is emptied", run.err)
        self.assertNotIn(".out.jfr.part", os.listdir("."))

    def test_two_runs(self) -> None:
        process = self.begin("vendor", "in.jfr", "out.jfr")
        run = self.recipe("vendor", "in.jfr", "out.jfr")
        self.assert_run(run, 4, "another run is making out.jfr")
        os.kill(process.pid, signal.SIGTERM)
        self.end(process)
        self.assert_only("in.jfr")

    def test_an_interrupted_folder(self) -> None:
        os.makedirs("in/sub")
        self.fake_program(SLOW)
        for name in "in/a.jfr", "in/sub/b.jfr":
            self.write(name, "FLR\0")
        process = self.begin("many", "--jobs", "2", "vendor", "in", "out")
        time.sleep(0.2)
        os.kill(process.pid, signal.SIGTERM)
        said = self.end(process)
        self.assertEqual(process.returncode, -signal.SIGTERM)
        self.assertIn("--resume goes on", said)
        self.assertEqual([files for _, _, files in os.walk("out")], [[]] * len(list(os.walk("out"))))


class Outputs(Case):
    def test_the_loser_of_a_race(self) -> None:
        with self.assertRaises(Fault) as raised, staging.Output("out") as output:
            self.write(output.path, "mine")
            self.write("out", "theirs")
            output.commit()
        self.assertEqual(raised.exception.status, 4)
        self.assertIn("somebody else has made out", raised.exception.message)
        self.assertEqual(self.read("out"), b"theirs")
        self.assert_only("out")

    def test_all_or_none(self) -> None:
        for is_late in False, True:
            with staging.Output("one", is_private=True) as one, staging.Output("two") as two:
                self.write(one.path, "mine")
                self.write(two.path, "mine")
                if is_late:
                    self.write("two", "theirs")
                    with self.assertRaises(Fault):
                        staging.commit_all([one, two])
                else:
                    staging.commit_all([one, two])
                    self.assertEqual((self.mode("one"), self.read("two")), (0o600, b"mine"))
                    os.unlink("one")
                    os.unlink("two")
        self.assertEqual(self.read("two"), b"theirs")
        self.assert_only("two")

    def test_a_disk_without_links(self) -> None:
        refused = OSError(errno.EPERM, "no links")
        with mock.patch("os.link", side_effect=refused):
            with staging.Output("out") as output:
                self.write(output.path, "mine")
                output.commit()
            with self.assertRaises(Fault), staging.Output("other") as output:
                self.write(output.path, "mine")
                self.write("other", "theirs")
                output.commit()
        self.assertEqual((self.read("out"), self.read("other")), (b"mine", b"theirs"))
        self.assert_only("out", "other")

    def test_long_and_odd_names(self) -> None:
        for name in "x" * 255, "ä" * 127, "two\nlines \x1b", os.fsdecode(b"\xff"), "./-x":
            with staging.Output(name) as output:
                self.write(output.path, "mine")
                output.commit()
            self.assertEqual(self.read(name), b"mine")
        odd = os.fsdecode(b"in\xff.jfr")
        os.rename(self.recording("in.jfr"), odd)
        self.assert_run(self.recipe("vendor", odd, os.fsdecode(b"out\xff.jfr")), 0, "events are left")

    def test_a_folder_of_somebody_else(self) -> None:
        os.mkdir(".out.part", 0o777)
        os.chmod(".out.part", 0o777)
        with self.assertRaises(Fault), staging.Output("out"):
            pass
        os.rmdir(".out.part")
        os.symlink("elsewhere", ".out.part")
        with self.assertRaises(Fault), staging.Output("out"):
            pass

    def test_a_full_disk(self) -> None:
        os.mkdir("disk")
        if subprocess.call(["mount", "-t", "tmpfs", "-o", "size=16k", "tmpfs", "disk"], stderr=subprocess.DEVNULL):
            self.skipTest("only root can make a small disk")
        self.addCleanup(subprocess.call, ["umount", os.path.abspath("disk")])
        self.recording("in.jfr")
        content = self.read("in.jfr")
        with open("long.jfr", "wb") as file:
            file.write(content * 100)
        for source, stdin in ("long.jfr", b""), ("/dev/stdin", content * 100):
            run = self.process("vendor", source, "disk/out.jfr", stdin=stdin)
            self.assert_run(run, 4, "writing disk/out.jfr failed")
            self.assertEqual(os.listdir("disk"), [])
        self.assert_run(self.recipe("jdk", "long.jfr", "disk/out.jfr"), 4, "writing disk/out.jfr failed")
        self.assertEqual(os.listdir("disk"), [])
