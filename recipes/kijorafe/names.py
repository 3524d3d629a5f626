"""The names of a JDK's own code, which its `java` finds by Names.java, for `--known` of the recipe masked."""

import os
import subprocess

from kijorafe.messages import Fault
from kijorafe.scrub import READ_FAULT, WRITE_FAULT
from kijorafe.shown import file_name, shown
from kijorafe.staging import Output, free_bytes

NAMES = os.path.join(os.path.dirname(os.path.realpath(__file__)), "Names.java")
NO_JAVA = 69


def names(java_home: str, target: str) -> int:
    """Writes the names of the JDK in this folder, one a line."""
    java = os.path.join(java_home, "bin", "java")
    if not os.access(java, os.X_OK):
        raise Fault(READ_FAULT, f"{file_name(java_home)} isn't the folder of a JDK: it has no bin/java")
    with Output(target) as output:
        try:
            with open(os.open(output.path, os.O_WRONLY | os.O_CREAT | os.O_EXCL, 0o600), "wb") as file:
                done = subprocess.run(
                    [java, NAMES], stdin=subprocess.DEVNULL, stdout=file, stderr=subprocess.PIPE
                )
        except OSError as fault:
            raise output.failed(fault) from fault
        if done.returncode == WRITE_FAULT:
            raise Fault(WRITE_FAULT, f"writing {file_name(target)} failed{free_bytes(target)}")
        if done.returncode != 0:
            lines = done.stderr.decode("utf-8", "replace").splitlines()
            said = f": {shown(lines[-1])}" if lines else ""
            raise Fault(NO_JAVA, f"{file_name(java)} can't find the names; a JDK of 11 or later can{said}")
        output.commit()
    return 0
