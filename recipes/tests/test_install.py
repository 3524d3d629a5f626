"""The script that installs the program and the recipes."""

import os
import subprocess
from typing import List

from tests.support import TOP, Case, Run


class Install(Case):
    def install(self, *words: str) -> Run:
        done = subprocess.run([os.path.join(TOP, "install"), *words], stdout=subprocess.PIPE, stderr=subprocess.PIPE)
        return Run(done.returncode, done.stdout.decode(), done.stderr.decode())

    def test_completion(self) -> None:
        cases = {
            "s": "strict strangers",
            "vendor --l": "--last",
            "vendor --last 10m x": "",
            "many --resume v": "vendor",
            "left --": "--exact --help",
            "check --rec": "--recipe",
            "check --recipe t": "tenant",
            "check --recipe m": "masked",
            "check --o": "--open",
            "masked --o": "--open",
            "check --ex": "--exclude-events --exclude-categories --exclude-threads",
        }
        bash = '. "$0"; for line; do read -ra COMP_WORDS <<<"kijorafe $line"; COMP_CWORD=$((${#COMP_WORDS[@]} - 1));'
        bash += ' _kijorafe; echo "${COMPREPLY[*]}"; done'
        words = ["bash", "-c", bash, os.path.join(TOP, "completions", "jfr.bash"), *cases]
        done = subprocess.run(words, stdout=subprocess.PIPE, check=True)
        self.assertEqual(done.stdout.decode().split("\n")[:-1], list(cases.values()))

    def names(self) -> List[str]:
        """The files and links below the folder, without what is in lib/kijorafe."""
        found = [os.path.join(above, name) for above, _, names in os.walk("to") for name in names]
        found += [os.path.join(above, name) for above, names, _ in os.walk("to") for name in names if name == "kijorafe"]
        return sorted(name[3:] for name in found if not name.startswith("to/lib/kijorafe/"))

    def test_install_and_remove(self) -> None:
        for _ in "first", "again":
            self.assert_run(self.install("--prefix", "to"), 0)
        links = [
            "bin/kijorafe",
            "bin/kjfr",
            "lib/kijorafe",
            "share/bash-completion/completions/kijorafe",
            "share/bash-completion/completions/kjfr",
            "share/man/man1/kijorafe.1",
            "share/man/man1/kjfr.1",
            "share/zsh/site-functions/_kjfr",
        ]
        self.assertEqual(self.names(), links)
        self.recording("in.jfr")
        done = subprocess.run(["to/bin/kijorafe", "threads", "in.jfr"], stdout=subprocess.PIPE, check=True)
        self.assertEqual(done.stdout, b'1 "http GET /pay"\n1 "main"\n')
        versions = [
            subprocess.run(words, stdout=subprocess.PIPE, check=True).stdout.split()[1]
            for words in (["to/bin/kijorafe", "--version"], [os.path.join(TOP, "jfr"), "version"])
        ]
        self.assertEqual(versions[0], versions[1].rstrip(b","))
        done = subprocess.run(["to/bin/kjfr", "sample", "0", "1"], stdout=subprocess.PIPE, check=True)
        self.assertEqual(done.stdout.decode(), self.run_program("sample", "0", "1"))
        for name in links:
            self.assertTrue(os.path.exists(os.path.join("to", name)), name)
        for name in "types", "fields", "unmasked", "kijorafe/Names.java":
            self.assertEqual(self.read(f"to/lib/kijorafe/recipes/{name}"), self.read(f"send/recipes/{name}"))
        names = [name for name in os.listdir(os.path.join(TOP, "dist")) if name.startswith("jdk-names-")]
        self.assertEqual(len(names), 1)
        self.assertEqual(self.read(f"to/lib/kijorafe/share/{names[0]}"), self.read(os.path.join(TOP, "dist", names[0])))
        words = ["to/bin/kijorafe", "masked", "--code", "in.jfr", "out.jfr"]
        done = subprocess.run(words, stderr=subprocess.PIPE, check=True)
        self.assertIn(f"which {os.path.abspath('to')}/lib/kijorafe/share/{names[0]} has\n", done.stderr.decode())
        self.assert_run(self.install("--remove", "--prefix=to"), 0)
        self.assertEqual(self.names(), [])

    def test_what_is_there_stays(self) -> None:
        os.makedirs("to/bin")
        self.write("to/bin/kjfr", "another")
        for words in ("--prefix", "to"), ("--remove", "--prefix", "to"):
            self.assert_run(self.install(*words), 2, "bin/kjfr is another's, and stays")
            self.assertEqual(self.names(), ["bin/kjfr"])
        os.rename("to/bin/kjfr", "to/bin/other")
        os.makedirs("to/lib/kijorafe")
        self.assert_run(self.install("--prefix", "to"), 2, "lib/kijorafe is another's")
        self.assertEqual(self.names(), ["bin/other", "lib/kijorafe"])

    def test_wrong_words(self) -> None:
        for words in ("--prefix",), ("to",), ("--prefix", ""):
            self.assert_run(self.install(*words), 1, "usage: ./install")
        self.assert_run(self.install("--remove", "--prefix", "none"), 2, "none doesn't exist")
