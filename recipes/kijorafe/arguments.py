"""The words of each recipe: its options, its operands, and its help."""

import argparse
import os
import re
import sys
from typing import Callable, List, NoReturn

from kijorafe.known import known_types
from kijorafe.messages import write
from kijorafe.program import PLACE
from kijorafe.shown import file_name, shown
from kijorafe.window import duration, moment

Arguments = argparse.Namespace
DESCRIPTION = "Scrubs recordings of JDK Flight Recorder for different readers, and shows what is left of them."
NEEDS = (
    "Needs Linux on x86-64 with glibc 2.34 or later, and Python 3.8 or later. docs/OPERATORS.md describes the recipes."
)
SCRUBS = (
    "OUT must not exist, and is there only when it is complete. IN may be a pipe, or compressed by gzip. The statuses"
    " are those of jfr, and 71 if it can't be checked what is left."
)
MANY = (
    "kijorafe many [--resume] [--jobs N] [--sshloginfile FILE] [--trust TYPE] [--from TIME] [--to TIME] [--last TIME]"
    " [--code] [--known FILE] [--open PATTERNS] RECIPE [PATTERNS|--addresses] IN_FOLDER OUT_FOLDER"
)
CHECK = (
    "kijorafe check [--recipe RECIPE [--trust TYPE] [--last TIME] [--code] [--known FILE] [--open PATTERNS]"
    " | options of jfr scrub] [--from TIME] [--to TIME] IN OUT [RECEIPT]"
)
# The program's filter options whose values are lists of patterns.
LISTS = tuple(
    [f"--{way}-{of}" for of in ("events", "categories", "threads") for way in ("include", "exclude")]
    + ["--always", "--describe"]
)
# The options of tenant, many and check that take a value.
WITH_VALUES = (
    *("--trust", "--from", "--to", "--last", "--known", "--open", "--jobs", "--sshloginfile", "--recipe", "--renumber"),
    *LISTS,
)


class Parser(argparse.ArgumentParser):
    """A parser that ends with the recipe's status when the words are wrong."""

    wrong_words = 1

    def error(self, message: str) -> NoReturn:
        write(self.format_usage())
        write(f"{self.prog}: {message}\n")
        sys.exit(self.wrong_words)


def name(text: str) -> str:
    """The name of a file or folder."""
    if not text:
        raise argparse.ArgumentTypeError("a name is empty")
    if text.startswith("-"):
        raise argparse.ArgumentTypeError(f"a name begins with -: write ./{file_name(text)}")
    return text


def patterns(text: str) -> str:
    """A list of patterns. One that is empty, or a blank beside a comma, is a slip."""
    parts = text.split(",")
    if "" in parts:
        raise argparse.ArgumentTypeError("a pattern is empty")
    if any(part != part.strip(" ") for part in parts):
        raise argparse.ArgumentTypeError(
            "a blank beside a comma belongs to the pattern; if it is meant, write ? for it"
        )
    return text


def jdk_type(text: str) -> str:
    """The name of an event type of the JDK."""
    if text not in known_types():
        raise argparse.ArgumentTypeError(f"{shown(text)} isn't the name of a type of the JDK, such as jdk.CPULoad")
    return text


def time_text(text: str) -> str:
    """A moment with a date and a zone, or a time of day."""
    try:
        moment(text)
    except ValueError as fault:
        raise argparse.ArgumentTypeError(
            f"{shown(text)} isn't a time such as 2026-11-30T10:15:00Z, 2026-11-30T11:15:00+01:00, 11:15 or 11:15:30"
        ) from fault
    return text


def time_or_number(text: str) -> str:
    """The same, or a number of nanoseconds since 1970."""
    return text if text.isascii() and text.isdigit() and len(text) < 20 else time_text(text)


def span_text(text: str) -> str:
    """A duration."""
    try:
        duration(text)
    except ValueError as fault:
        raise argparse.ArgumentTypeError(f"{shown(text)} isn't a duration such as 90s, 10m, 2h or 1d") from fault
    return text


def at_once(text: str) -> int:
    """A number of jobs."""
    if not (text.isascii() and text.isdigit() and len(text) < 5 and int(text) > 0):
        raise argparse.ArgumentTypeError("a number from 1 to 9999 is needed")
    return int(text)


def readable(text: str) -> str:
    """The full name of a file that can be read."""
    if not os.access(text, os.R_OK):
        raise argparse.ArgumentTypeError(f"{file_name(text)} can't be read")
    return os.path.abspath(text)


def version() -> str:
    """The number of the version that CHANGELOG.md has first, as `./jfr version` says it."""
    try:
        with open(os.path.join(PLACE, "CHANGELOG.md"), encoding="utf-8") as changes:
            found = re.search(r"^## \[([0-9.]+)\]", changes.read(), re.MULTILINE)
    except OSError:
        found = None
    return found[1] if found else "of an unknown version"


def parser() -> Parser:
    """The parser of all recipes."""
    whole = Parser(prog="kijorafe", description=DESCRIPTION, epilog=NEEDS, allow_abbrev=False)
    whole.add_argument("--version", action="version", version=f"kijorafe {version()}")
    recipes = whole.add_subparsers(title="recipes", dest="recipe_name", metavar="RECIPE")

    def recipe(title: str, summary: str, more: str, wrong_words: int = 1) -> Parser:
        description = f"{summary[0].upper()}{summary[1:]}. {more}"
        made: Parser = recipes.add_parser(title, help=summary, description=description, allow_abbrev=False)
        made.wrong_words = wrong_words
        made.set_defaults(parser=made)
        return made

    _add_scrubs(recipe)
    _add_many(recipe)
    _add_check(recipe)
    _add_looks(recipe)
    _add_copies(recipe)
    _add_names(recipe)
    return whole


def _names(made: Parser) -> None:
    made.add_argument("source", metavar="IN", type=name, help="the recording")
    made.add_argument("target", metavar="OUT", type=name, help="the output")


def _trust(made: Parser) -> None:
    made.add_argument(
        "--trust",
        metavar="TYPE",
        type=jdk_type,
        action="append",
        default=[],
        help="keep this type, though a type of the program's own has its name; may be repeated",
    )


def _masks(made: Parser, file: Callable[[str], str]) -> None:
    group = made.add_argument_group("masks", "Which texts have pseudonyms; for the recipe masked.")
    group.add_argument(
        "--code",
        action="store_true",
        help="mask names of classes, methods and other code, too, but those of the JDKs in the file jdk-names",
    )
    group.add_argument(
        "--known",
        metavar="FILE",
        type=file,
        help="leave the texts that are lines of FILE, such as the names of a JDK that `kijorafe names` writes, and not"
        " those of jdk-names",
    )
    group.add_argument(
        "--open",
        dest="opened",
        metavar="PATTERNS",
        type=patterns,
        help="with --code, leave the names of the classes and packages that match, such as 'org.apache.*,io.netty.*', and"
        " of their methods; a slash counts as a dot",
    )


def _window(made: Parser) -> None:
    group = made.add_argument_group(
        "a window of time",
        "Only events stay of which some moment lies in the window, and those that a JVM writes once in each chunk, such"
        " as its flags. TIME is a date and time with a zone, such as 2026-11-30T10:15:00Z, or a local time of day, such"
        " as 11:15, of the day on which it is nearest to the recording.",
    )
    group.add_argument("--from", dest="since", metavar="TIME", type=time_text, help="from this moment on")
    group.add_argument("--to", dest="until", metavar="TIME", type=time_text, help="before this moment")
    group.add_argument("--last", metavar="TIME", type=span_text, help="the end of the recording: 90s, 10m, 2h or 1d")


def _add_scrubs(recipe: Callable[..., Parser]) -> None:
    vendor = recipe(
        "vendor",
        "keep what helps to diagnose a performance problem",
        "It removes the environment, properties, command lines, paths of files that were read or written, hosts,"
        f" messages and the program's own events. {SCRUBS}",
    )
    strict = recipe(
        "strict",
        "remove names of code and threads, too",
        f"Events about collections, memory and processors stay. {SCRUBS}",
    )
    tenant = recipe(
        "tenant",
        "remove the events of some threads, too",
        "It removes what vendor removes, the events of the threads, and the types that name threads in other fields."
        f" {SCRUBS}",
    )
    choice = tenant.add_mutually_exclusive_group(required=True)
    choice.add_argument("--addresses", action="store_true", help="the threads that `threads --addresses` finds in IN")
    choice.add_argument("patterns", metavar="PATTERNS", type=patterns, nargs="?", help="such as 'shop-*,batch-?'")
    masked = recipe(
        "masked",
        "keep more, with pseudonyms for texts",
        "It keeps what vendor does, and files, sockets, exceptions, the command line, processes, native libraries; all"
        " texts become pseudonyms such as masked-1, the same ones for equal texts, but those of the JVM's own, and names"
        f" of code. {SCRUBS}",
    )
    _masks(masked, name)
    masked.add_argument(
        "--table", metavar="FILE", type=name, help="write each pseudonym with its text to FILE, which only you can read"
    )
    masked.add_argument(
        "--report",
        metavar="FILE",
        type=name,
        help="write to FILE a line for each field: whether it is masked, how many texts OUT has there, how many different"
        " ones, and why they stay; and for each masked text that is also in a field that stays",
    )
    for made in vendor, strict, tenant, masked:
        _names(made)
        _trust(made)
        _window(made)


def _add_many(recipe: Callable[..., Parser]) -> None:
    many = recipe(
        "many",
        "scrub the recordings of a folder",
        "A recording is a file whose name ends in .jfr; its output has the same name below OUT_FOLDER."
        " OUT_FOLDER.log gets a line for each: its status, seconds, name, and what was said. The status is 0 if all"
        " were scrubbed, 2 if not.",
    )
    many.usage = MANY
    many.add_argument("--resume", action="store_true", help="go on after an interruption; try again what was refused")
    processors = len(os.sched_getaffinity(0))
    many.add_argument("--jobs", type=at_once, metavar="N", default=processors, help="how many at once")
    many.add_argument(
        "--sshloginfile",
        metavar="FILE",
        type=readable,
        help="other hosts, for GNU parallel; they need this repository and both folders under the same names",
    )
    many.add_argument("--addresses", action="store_true", help="for tenant, instead of PATTERNS")
    _trust(many)
    _masks(many, readable)
    _window(many)
    many.add_argument("--one", action="store_true", help=argparse.SUPPRESS)
    scrubs = "vendor", "strict", "tenant", "masked"
    many.add_argument("recipe", metavar="RECIPE", choices=scrubs, help=", ".join(scrubs))
    many.add_argument("operands", metavar="FOLDER", nargs="+", help="the patterns of tenant, and the two folders")


def _add_check(recipe: Callable[..., Parser]) -> None:
    check = recipe(
        "check",
        "check a scrub or a mask of which the original is there",
        "It verifies OUT by RECEIPT, if that is given, and compares OUT with a scrub or a mask of its own, byte for byte;"
        " what differs is printed. Give the options of the scrub: --recipe, or those of jfr scrub. The files may be pipes, or"
        " compressed by gzip. The status is 0 if OUT is what the scrub makes of IN, 7 if it isn't, and otherwise that of"
        " jfr.",
    )
    check.usage = CHECK
    made = check.add_argument_group("if a recipe has made OUT")
    made.add_argument("--recipe", choices=("vendor", "strict", "tenant", "masked"), help="the recipe")
    made.add_argument(
        "--trust", metavar="TYPE", type=jdk_type, action="append", default=[], help="as for the recipe"
    )
    made.add_argument("--last", metavar="TIME", type=span_text, help="as for the recipe")
    _masks(check, name)
    made = check.add_argument_group(
        "the options of jfr scrub",
        f"{', '.join(LISTS)}, --renumber, --from and --to. With --recipe only the last two, which also take a time as the"
        " recipes do, and for tenant --exclude-threads with its patterns.",
    )
    for option in LISTS:
        made.add_argument(option, metavar="LIST", help=argparse.SUPPRESS)
    made.add_argument("--from", dest="since", metavar="TIME", type=time_or_number, help=argparse.SUPPRESS)
    made.add_argument("--to", dest="until", metavar="TIME", type=time_or_number, help=argparse.SUPPRESS)
    made.add_argument("--renumber", choices=("yes", "no"), default="no", help=argparse.SUPPRESS)
    _names(check)
    check.add_argument("receipt", metavar="RECEIPT", type=name, nargs="?", help="what jfr receipt has made of IN")


def _add_looks(recipe: Callable[..., Parser]) -> None:
    left = recipe(
        "left",
        "list the strings that a recording has, or look for words in it",
        "Each line of the file WORDS is a word; it is looked for in all strings and numbers, also of the"
        " metadata, and in the bytes: in any case, with . for / and $, and as URL, JSON or base64. FILE may be a pipe,"
        " or compressed by gzip. The status is 0 if none is found, 1 if one is, and 2 if that isn't known.",
        wrong_words=2,
    )
    left.add_argument("--exact", action="store_true", help="upper and lower case differ")
    left.add_argument("file", metavar="FILE", type=name)
    left.add_argument("words", metavar="WORDS", type=name, nargs="?")
    strangers = recipe(
        "strangers",
        "list the event types that aren't the JDK's",
        "A type that has the name of a JDK type and other fields, or a name that two types have, is one, too. The"
        " status is 0 if there is none, 1 if there are some, and 2 if that isn't known.",
        wrong_words=2,
    )
    strangers.add_argument("file", metavar="FILE", type=name)
    threads = recipe(
        "threads", "list the names of threads", "The status is 2 if the recording can't be read.", wrong_words=2
    )
    threads.add_argument(
        "--addresses", action="store_true", help="print patterns for tenant, of the names that look like addresses"
    )
    threads.add_argument("file", metavar="FILE", type=name)
    explain = recipe(
        "explain",
        "say what a reason of refusal or a doubt means, and what to do",
        "WORDS are a reason, or a line of jfr that ends with one; without WORDS all are explained.",
    )
    explain.add_argument("words", metavar="WORDS", nargs="*")


def _add_copies(recipe: Callable[..., Parser]) -> None:
    flame = recipe(
        "flame",
        "draw the stacks as a flame graph, for a browser",
        "IN is a recording, or a text of folded stacks. The statuses are those of jfr, and 2 if there is no stack.",
    )
    flame.add_argument("--events", metavar="LIST", help="only these event types")
    flame.add_argument("--categories", metavar="LIST", help="only these categories")
    _names(flame)
    jdk = recipe(
        "jdk",
        "make a copy of a scrub that the JDK's reader reads completely",
        "The copy has another id wherever the metadata differs from that of the chunk before. The status is 2 if the"
        " input isn't a recording, 3 if it can't be read, 4 if the output can't be written.",
    )
    jdk.add_argument("--ids", metavar="FILE", type=name, help="print the id of each chunk's metadata instead")
    jdk.add_argument("source", metavar="IN", type=name, nargs="?")
    jdk.add_argument("target", metavar="OUT", type=name, nargs="?")


def _add_names(recipe: Callable[..., Parser]) -> None:
    made = recipe(
        "names",
        "write the names of a JDK's own code, for `masked --known`",
        "JAVA_HOME is the folder of a JDK of 11 or later, whose java is run. OUT gets a line for each name: classes,"
        " packages, methods, fields, what methods take and return, modules with versions and places. It must not exist.",
    )
    made.add_argument("java_home", metavar="JAVA_HOME", type=name)
    made.add_argument("target", metavar="OUT", type=name, help="the output")


def in_order(words: List[str]) -> List[str]:
    """The words with the options of tenant, many and check first, and a mark before the others.

    So options may be anywhere, and patterns may begin with a hyphen.
    """
    if words[:1] not in (["tenant"], ["many"], ["check"]):
        return words
    options, operands, rest = [], [], words[1:]
    while rest:
        word = rest.pop(0)
        if word == "--":
            operands += rest
            break
        if word in WITH_VALUES:
            options.append("=".join([word, *rest[:1]]))
            del rest[:1]
        elif word.startswith("--") or word == "-h":
            options.append(word)
        else:
            operands.append(word)
    return [words[0], *options, "--", *operands]
