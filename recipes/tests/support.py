"""What the tests share: a folder with the recipes and the program, and small recordings that the program makes."""

import io
import os
import shutil
import stat
import subprocess
import tempfile
import unittest
from contextlib import redirect_stderr, redirect_stdout
from typing import Dict, List, NamedTuple, Optional
from unittest import mock

from kijorafe import cli

RECIPES = os.path.dirname(os.path.dirname(os.path.realpath(__file__)))
TOP = os.path.dirname(RECIPES)

# Types: one of the JDK that all recipes keep, one that only vendor keeps, one that none keeps, one of the program's
# own, and one of which there is no event. Those of the JDK have the fields of 17 and 25.
TYPES = """\
class 3 boolean
class 4 float
class 5 long
class 6 java.lang.String
class 7 java.lang.Thread
field javaName 6 -
class 8 jdk.types.StackTrace
field truncated 3 -
event 20 jdk.CPULoad
field startTime 5 -
field jvmUser 4 -
field jvmSystem 4 -
field machineTotal 4 -
event 21 jdk.ThreadStart
field startTime 5 -
field eventThread 7 c
field stackTrace 8 c
field thread 7 c
field parentThread 7 c
event 22 jdk.FileRead
field startTime 5 -
field duration 5 -
field eventThread 7 c
field stackTrace 8 c
field path 6 -
field bytesRead 5 -
field endOfFile 3 -
event 23 farm.Own
field text 6 -
event 25 jdk.Shutdown
field startTime 5 -
field eventThread 7 c
field stackTrace 8 c
field reason 6 -
"""
EVENTS = """\
constant 7 1 "main"
constant 7 2 "http\\u0020GET\\u0020/pay"
record 20 1 0x00000000 0x00000000 0x00000000
record 21 1 #1 #0 #0 #0
record 21 1 #2 #0 #0 #0
record 22 1 1 #0 #0 "/secret/path" 7 true
record 23 "secret\\u0020text"
"""


SHUTDOWN = 'record 25 1 #1 #0 "no\\u0020reason"\n'
# Methods of classes, and an event that has one in it. Symbols have the numbers of what they name.
METHODS = """\
class 2 int
class 9 jdk.types.Symbol
field string 6 -
class 12 jdk.types.Package
field name 9 c
class 10 java.lang.Class
field name 9 c
field package 12 c
class 11 jdk.types.Method
field type 10 c
field name 9 c
field descriptor 9 c
class 13 jdk.types.CalleeMethod
field type 6 -
field name 6 -
field descriptor 6 -
event 27 jdk.CompilerInlining
field startTime 5 -
field eventThread 7 c
field compileId 2 -
field caller 11 c
field callee 13 -
field succeeded 3 -
field message 6 -
field bci 2 -
"""
INLINED = """\
constant 9 1 "org/lib/Base"
constant 9 2 "org/lib"
constant 9 3 "com/shop/Order"
constant 9 4 "com/shop"
constant 9 5 "run"
constant 9 6 "pay"
constant 9 7 "(Lorg/lib/Base;I)V"
constant 9 8 "(Lcom/shop/Order;)V"
constant 9 9 "[Lorg/lib/Item;"
constant 12 1 #2
constant 12 2 #4
constant 10 1 #1 #1
constant 10 2 #3 #2
constant 10 3 #9 #0
constant 11 1 #1 #5 #7
constant 11 2 #2 #5 #8
constant 11 3 #2 #6 #7
constant 11 4 #1 #5 #8
record 27 1 #1 1 #1 "org/lib/Inner" "inner" "(Ljava/lang/String;)I" true "message" 0
record 27 1 #1 1 #2 "com/shop/Cart" "add" "()V" true "message" 0
record 27 1 #1 1 #3 "org/lib/Base" "get" "()V" true "message" 0
record 27 1 #1 1 #4 "org/lib/Base" "get" "()V" true "message" 0
"""


class Run(NamedTuple):
    """What a command gave."""

    status: int
    out: str
    err: str


def program() -> str:
    """The program itself."""
    path = os.path.join(TOP, "jfr")
    subprocess.run([path, "sample", "0", "1"], check=True, stdout=subprocess.DEVNULL)
    with open(path, "rb") as file:
        return path if file.read(2) != b"#!" else os.path.join(TOP, "crates", "jfr", "out", "jfr")


def in_memory() -> Optional[str]:
    """A folder in memory in which programs may run, if there is one; a recipe waits for a disk."""
    folder = "/dev/shm"
    usable = os.path.isdir(folder) and os.access(folder, os.W_OK) and not os.statvfs(folder).f_flag & os.ST_NOEXEC
    return folder if usable else None


class Case(unittest.TestCase):
    """A test in a folder with send/jfr, which may be another program, and send/recipes; it is the current folder."""

    program = ""

    @classmethod
    def setUpClass(cls) -> None:
        if not Case.program:
            Case.program = program()

    def setUp(self) -> None:
        before = os.getcwd()
        work = tempfile.mkdtemp(prefix="recipes-", dir=in_memory())
        self.addCleanup(shutil.rmtree, work)
        self.addCleanup(os.chdir, before)
        os.chdir(work)
        shutil.copytree(RECIPES, "send/recipes", ignore=shutil.ignore_patterns("tests"))
        os.symlink(self.program, "send/jfr")
        # Signals are for the process of the tests to handle.
        self.replace("kijorafe.program.PLACE", os.path.abspath("send"))
        self.replace("kijorafe.interrupts.catch", lambda: None)
        self.replace("kijorafe.interrupts.ignore", lambda: None)

    def replace(self, name: str, value: object) -> None:
        """Gives something another value during the test."""
        changed = mock.patch(name, value)
        changed.start()
        self.addCleanup(changed.stop)

    def run_program(self, *words: str) -> str:
        """Runs the program, which must end with 0."""
        return subprocess.run([self.program, *words], check=True, stdout=subprocess.PIPE).stdout.decode()

    def recording(self, name: str, text: str = TYPES + EVENTS) -> str:
        """Makes a recording of a text, and returns its name."""
        self.write("text.txt", text)
        self.run_program("build", "text.txt", name)
        os.unlink("text.txt")
        return name

    def write(self, name: str, text: str) -> str:
        with open(name, "w", encoding="utf-8") as file:
            file.write(text)
        return name

    def read(self, name: str) -> bytes:
        with open(name, "rb") as file:
            return file.read()

    def command(self, recipe: str, *words: str) -> List[str]:
        return ["send/recipes/kijorafe/start", recipe, *words]

    def recipe(self, *words: str) -> Run:
        """Runs a recipe in this process."""
        out, err = io.StringIO(), io.StringIO()
        with redirect_stdout(out), redirect_stderr(err):
            try:
                status = cli.main(list(words))
            except SystemExit as end:
                assert isinstance(end.code, int)
                status = end.code
        return Run(status, out.getvalue(), err.getvalue())

    def process(self, recipe: str, *words: str, stdin: bytes = b"", env: Optional[Dict[str, str]] = None) -> Run:
        """Runs a recipe in a process of its own."""
        done = subprocess.run(
            self.command(recipe, *words),
            input=stdin,
            stdout=subprocess.PIPE,
            stderr=subprocess.PIPE,
            env={**os.environ, **(env or {})},
        )
        return Run(done.returncode, done.stdout.decode(), done.stderr.decode())

    def fake_program(self, script: str) -> None:
        """Puts a script of sh in the program's place. `jfr sample` must end with 0."""
        os.unlink("send/jfr")
        self.write("send/jfr", "#!/bin/sh\n" + script)
        os.chmod("send/jfr", 0o755)

    def assert_run(self, run: Run, status: int, text: str = "") -> None:
        self.assertEqual(run.status, status, run.err)
        self.assertIn(text, run.err)

    def assert_only(self, *names: str) -> None:
        """The files that are there, beside send/."""
        self.assertEqual(sorted(os.listdir(".")), sorted(["send", *names]))

    def mode(self, name: str) -> int:
        return stat.S_IMODE(os.stat(name).st_mode)
