"""The command line: `kijorafe RECIPE ARGS`. Each recipe has its words in `arguments`, and its work in a module."""

import argparse
import io
import os
import signal
import sys
from datetime import time
from typing import Callable, Dict, List, NoReturn, Optional

from kijorafe import check, interrupts, many, masked, messages
from kijorafe.arguments import LISTS, Arguments, Parser, in_order, name, parser, patterns
from kijorafe.explain import explain
from kijorafe.flame import flame
from kijorafe.jdk import copy, print_ids
from kijorafe.left import left
from kijorafe.masking import MASKED, Masks
from kijorafe.messages import Fault, say, write
from kijorafe.names import names
from kijorafe.scrub import Order, scrub, tenant, tenant_by_addresses
from kijorafe.shown import file_name
from kijorafe.strangers import strangers
from kijorafe.threads import list_threads
from kijorafe.window import Asked, moment


def _order(given: Arguments) -> Order:
    return Order(given.recipe_name, given.source, given.target, tuple(given.trust), _asked(given))


def _asked(given: Arguments) -> Asked:
    """The window of time."""
    if given.last is not None and (given.since is not None or given.until is not None):
        _wrong(given, "--last isn't for use with --from or --to")
    return Asked(given.since, given.until, given.last)


def _run_scrub(given: Arguments) -> int:
    return scrub(_order(given))


def _run_tenant(given: Arguments) -> int:
    return tenant_by_addresses(_order(given)) if given.addresses else tenant(_order(given), given.patterns)


def _run_masked(given: Arguments) -> int:
    targets = [given.target, *(each for each in (given.table, given.report) if each is not None)]
    if len({os.path.abspath(each) for each in targets}) < len(targets):
        _wrong(given, "OUT and the FILEs of --table and --report are to be different")
    return masked.masked(masked.Order(_order(given), _masks(given), given.table, given.report))


def _masks(given: Arguments) -> Masks:
    """Which texts stay."""
    if given.opened and not given.code:
        _wrong(given, "--open is for use with --code: without it, all names of code stay")
    return Masks(given.code, given.known, given.opened)


def _run_jdk(given: Arguments) -> int:
    if given.ids:
        return print_ids(given.ids)
    if given.target is None:
        _wrong(given, "the following arguments are required: IN OUT")
    source: str = given.source
    return copy(source, given.target)


def _run_many(given: Arguments) -> int:
    operands, texts = list(given.operands), None
    masks = _masks(given).words()
    if masks and given.recipe != MASKED:
        _wrong(given, "--code, --known and --open are for masked")
    options = [word for type_name in given.trust for word in ("--trust", type_name)] + _asked(given).words() + masks
    if given.addresses:
        options.append("--addresses")
        if given.recipe != "tenant":
            _wrong(given, "--addresses is for tenant")
    elif given.recipe == "tenant":
        texts = _checked(given, patterns, operands.pop(0))
    if len(operands) != 2 + given.one:
        _wrong(given, "IN_FOLDER and OUT_FOLDER are needed, after the patterns of tenant")
    source, target = (_checked(given, name, folder) for folder in operands[:2])
    order = many.Order(given.recipe, options, texts, source, target)
    if given.one:
        return many.one(order, operands[2])
    if given.sshloginfile and any(isinstance(moment(text), time) for text in (given.since, given.until) if text):
        _wrong(given, "with --sshloginfile times need a date and a zone, since other hosts may have other local times")
    return many.many(order, given.jobs, given.sshloginfile, given.resume)


def _run_check(given: Arguments) -> int:
    lists = {option: getattr(given, option[2:].replace("-", "_")) for option in LISTS}
    options = tuple(word for option, text in lists.items() if text is not None for word in (option, text))
    renumber = given.renumber == "yes"
    if given.recipe is None and (given.trust or given.last):
        _wrong(given, "--trust and --last are for use with --recipe")
    if given.recipe is not None and (renumber or not {*options[::2]} <= {"--exclude-threads"}):
        _wrong(given, "of the options of jfr scrub, only --exclude-threads, --from and --to are for use with --recipe")
    if given.recipe in ("vendor", "strict", MASKED) and options:
        _wrong(given, "--exclude-threads is for use with --recipe tenant")
    masks = _masks(given)
    if masks.words() and given.recipe != MASKED:
        _wrong(given, "--code, --known and --open are for use with --recipe masked")
    if (renumber or given.recipe == MASKED) and given.receipt is not None:
        _wrong(given, f"no receipt checks an output with {'new keys' if renumber else 'masks'}")
    made = options, _asked(given), renumber, given.recipe, tuple(given.trust), masks
    return check.check(check.Order(given.source, given.target, given.receipt, *made))


RUNS: Dict[str, Callable[[Arguments], int]] = {
    "vendor": _run_scrub,
    "strict": _run_scrub,
    "tenant": _run_tenant,
    "masked": _run_masked,
    "many": _run_many,
    "check": _run_check,
    "left": lambda given: left(given.file, given.words, given.exact),
    "strangers": lambda given: strangers(given.file),
    "threads": lambda given: list_threads(given.file, given.addresses),
    "explain": lambda given: explain(" ".join(given.words)),
    "flame": lambda given: flame(given.source, given.target, given.events, given.categories),
    "jdk": _run_jdk,
    "names": lambda given: names(given.java_home, given.target),
}


def _checked(given: Arguments, check: Callable[[str], str], text: str) -> str:
    try:
        return check(text)
    except argparse.ArgumentTypeError as fault:
        _wrong(given, str(fault))


def _wrong(given: Arguments, message: str) -> NoReturn:
    used: Parser = given.parser
    used.error(message)


def _parsed(words: List[str]) -> Arguments:
    whole = parser()
    given, rest = whole.parse_known_args(in_order(words))
    if given.recipe_name is None:
        write(whole.format_help())
        sys.exit(1)
    messages.speak_as(given.parser.prog)
    if rest:
        _wrong(given, f"{file_name(rest[0])} isn't an option; for a file, write ./{file_name(rest[0])}")
    return given


def _prepare_streams() -> None:
    """Opens the standard streams that are closed, so that no file gets their numbers; sets their encoding."""
    while True:
        descriptor = os.open(os.devnull, os.O_RDWR)
        if descriptor > 2:
            os.close(descriptor)
            break
    for stream in sys.stdout, sys.stderr:
        if isinstance(stream, io.TextIOWrapper):
            stream.reconfigure(encoding="utf-8", errors="backslashreplace")


def main(words: Optional[List[str]] = None) -> int:
    """Runs the recipe, and returns its status."""
    _prepare_streams()
    interrupts.catch()
    try:
        return _run(sys.argv[1:] if words is None else words)
    except Fault as fault:
        say(fault.message)
        return fault.status
    except interrupts.Stopped as stopped:
        interrupts.end_by(stopped.number)
    except BrokenPipeError:
        interrupts.end_by(signal.SIGPIPE)
    except MemoryError:
        say("out of memory")
        return 5
    except OSError as fault:
        say(f"{file_name(fault.filename or 'a stream')}: {fault.strerror}")
        return 4
    finally:
        _give_up_output()


def _run(words: List[str]) -> int:
    given = _parsed(words)
    status = RUNS[given.recipe_name](given)
    try:
        if sys.stdout is not None:
            sys.stdout.flush()
    except BrokenPipeError:
        raise
    except OSError as fault:
        raise Fault(2, f"the output can't be written: {fault.strerror}") from fault
    return status


def _give_up_output() -> None:
    """Drops the output that can't be written, so that Python doesn't try again when it ends."""
    try:
        if sys.stdout is not None:
            sys.stdout.flush()
    except OSError:
        os.dup2(os.open(os.devnull, os.O_WRONLY), sys.stdout.fileno())
