"""Scrubs all recordings of a folder and its subfolders, several at once.

Each recording is a job: a process of its own that runs a recipe. Jobs run here, or, by GNU parallel, on other hosts.
"""

import json
import os
import subprocess
import sys
import threading
import time
from concurrent.futures import ThreadPoolExecutor, as_completed
from typing import Iterator, List, NamedTuple, Optional, Set

from kijorafe import interrupts, program
from kijorafe.joblog import Log, Result
from kijorafe.messages import WARNING, Fault, say, write
from kijorafe.shown import file_name, in_a_row, shown

START = os.path.join(os.path.dirname(os.path.realpath(__file__)), "start")


class Order(NamedTuple):
    """What to do with each recording: the recipe, its options, the patterns of tenant, and the two folders."""

    recipe: str
    options: List[str]
    patterns: Optional[str]
    source: str
    target: str

    def words(self) -> List[str]:
        """The words of the recipe."""
        return [self.recipe, *self.options, *([] if self.patterns is None else ["--", self.patterns])]


class Jobs:
    """The jobs that run, so that all can be stopped."""

    def __init__(self) -> None:
        self._lock = threading.Lock()
        self._running: "Set[subprocess.Popen[bytes]]" = set()
        self._stopped = False

    def run(self, order: Order, name: str) -> Result:
        """Scrubs one recording."""
        start = time.monotonic()
        target = os.path.join(order.target, name)
        try:
            os.makedirs(os.path.dirname(target), exist_ok=True)
        except OSError as fault:
            return Result(4, 0, name, shown(f"the output's folder can't be made: {fault.strerror}"))
        words = [START, *order.words(), os.path.join(order.source, name), target]
        with self._lock:
            if self._stopped:
                return Result(130, 0, name, "stopped")
            process = subprocess.Popen(
                words, stdin=subprocess.DEVNULL, stdout=subprocess.DEVNULL, stderr=subprocess.PIPE
            )
            self._running.add(process)
        _, said = process.communicate()
        with self._lock:
            self._running.discard(process)
        seconds = int(time.monotonic() - start)
        lines = said.decode("utf-8", "replace").splitlines()
        prefix = f"kijorafe {order.recipe}: "
        text = "; ".join(shown(line[len(prefix) :] if line.startswith(prefix) else line) for line in lines)
        status = process.returncode
        return Result(status if status >= 0 else 128 - status, seconds, name, text)

    def stop(self) -> None:
        """Asks the jobs to stop, and waits for them to clean up."""
        with self._lock:
            self._stopped = True
            for process in self._running:
                process.terminate()


def one(order: Order, name: str) -> int:
    """A job that another host runs: prints its result as a line of JSON."""
    print(json.dumps(Jobs().run(order, name)), flush=True)
    return 0


def many(order: Order, at_once: int, hosts: Optional[str], resume: bool) -> int:
    """Scrubs the recordings of a folder. The status is 2 if one was refused."""
    order = _checked(order)
    said = [order.recipe, *order.options, *([] if order.patterns is None else [order.patterns]), order.source]
    head = " ".join(["# recipes/many", *(file_name(word) for word in said), ""])
    log = Log(f"{order.target}.log", head, resume)
    every = list(_recordings_in(order.source))
    if not every:
        raise Fault(2, f"{file_name(order.source)} has no file whose name ends in .jfr")
    names = [name for name in every if not (log.was_done(name) and _is_newer(order, name))]
    # Unpacks or builds the program once, before the jobs need it.
    program.find()
    os.environ["JFR_BUILD"] = "0"
    if hosts and not _has_parallel():
        say("without GNU parallel all jobs run on this host")
        hosts = None
    results = _by_parallel(order, names, at_once, hosts) if hosts else _here(order, names, at_once)
    refused, warned, count = [], [], 0
    try:
        for result in results:
            log.add(result)
            count += result.status == 0
            if result.status != 0:
                refused.append(result)
            elif WARNING in result.said:
                warned.append(file_name(result.name))
            if sys.stderr is not None and sys.stderr.isatty():
                write(f"\r{count + len(refused)} of {len(names)} ")
    except interrupts.Stopped:
        say("interrupted; --resume goes on")
        raise
    if sys.stderr is not None and sys.stderr.isatty():
        write("\n")
    if warned:
        say(f"{WARNING}{len(warned)} have warnings, which {file_name(log.name)} has: {in_a_row(warned)}")
    return _told(len(every), len(names), count, refused)


def _told(every: int, begun: int, count: int, refused: List[Result]) -> int:
    before = every - begun
    say(f"{count} of {every} recordings were scrubbed, {before} before, {len(refused)} were refused")
    for result in refused:
        say(f"{file_name(result.name)}: status {result.status}: {result.said}")
    lost = begun - count - len(refused)
    if lost:
        say(f"{lost} jobs ended without a result")
    return 0 if count + before == every else 2


def _checked(order: Order) -> Order:
    """The order with the full names of its folders; makes the second one if it isn't there."""
    if not os.path.isdir(order.source):
        raise Fault(3, f"the folder {file_name(order.source)} doesn't exist")
    try:
        if not os.path.isdir(order.target):
            os.mkdir(order.target)
    except OSError as fault:
        raise Fault(4, f"the folder {file_name(order.target)} can't be made: {fault.strerror}") from fault
    source, target = os.path.realpath(order.source), os.path.realpath(order.target)
    if os.path.commonpath([source, target]) == source:
        raise Fault(4, "OUT_FOLDER must not be IN_FOLDER or in it")
    if not os.access(target, os.W_OK | os.X_OK):
        raise Fault(4, f"there is no permission to write to {file_name(target)}")
    return order._replace(source=source, target=target)


def _recordings_in(folder: str) -> Iterator[str]:
    """The names of the recordings below a folder, links to files among them, folder by folder."""
    for above, folders, files in os.walk(folder):
        folders.sort()
        for name in sorted(files):
            path = os.path.join(above, name)
            if name.endswith(".jfr") and os.path.isfile(path):
                yield os.path.relpath(path, folder)


def _is_newer(order: Order, name: str) -> bool:
    """Whether the output is there, and no older than the recording."""
    try:
        return os.stat(os.path.join(order.target, name)).st_mtime >= os.stat(os.path.join(order.source, name)).st_mtime
    except OSError:
        return False


def _here(order: Order, names: List[str], at_once: int) -> Iterator[Result]:
    """The results of the jobs on this host, as they end."""
    jobs = Jobs()
    with ThreadPoolExecutor(at_once) as pool:
        futures = [pool.submit(jobs.run, order, name) for name in names]
        try:
            for future in as_completed(futures):
                yield future.result()
        finally:
            for future in futures:
                future.cancel()
            jobs.stop()


def _has_parallel() -> bool:
    """Whether GNU parallel is installed. Another program has this name, too."""
    try:
        said = subprocess.run(["parallel", "--version"], stdin=subprocess.DEVNULL, capture_output=True).stdout
    except OSError:
        return False
    return said.startswith(b"GNU parallel")


def _by_parallel(order: Order, names: List[str], at_once: int, hosts: str) -> Iterator[Result]:
    """The results of the jobs on the hosts of a file."""
    job = [START, "many", "--one", *order.options, *order._replace(options=[]).words(), order.source, order.target]
    words = ["parallel", "--will-cite", "--null", "--quote", "--jobs", str(at_once), "--sshloginfile", hosts, *job]
    process = subprocess.Popen(words, stdin=subprocess.PIPE, stdout=subprocess.PIPE)
    assert process.stdin is not None and process.stdout is not None
    feeder = threading.Thread(target=_feed, args=(process, names), daemon=True)
    feeder.start()
    try:
        for line in process.stdout:
            yield Result(*json.loads(line))
    finally:
        if process.poll() is None:
            process.terminate()
        process.wait()


def _feed(process: "subprocess.Popen[bytes]", names: List[str]) -> None:
    assert process.stdin is not None
    try:
        with process.stdin as stream:
            for name in names:
                stream.write(os.fsencode(name) + b"\0")
    except OSError:
        pass
