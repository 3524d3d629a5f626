"""Masks: what vendor keeps, and more, with a pseudonym in place of each text that may be somebody's."""

import json
import os
import re
from contextlib import ExitStack
from typing import AbstractSet, Dict, Iterator, List, NamedTuple, Optional, Set, Tuple

from kijorafe import scrub
from kijorafe.inputs import check_input, recording_of
from kijorafe.masking import Known, Mask, Masks, known_of, mask_of
from kijorafe.messages import Fault, say
from kijorafe.program import Failure, Program, find
from kijorafe.scrub import as_operand, plan_of, report_of, run, unchecked
from kijorafe.shown import in_a_row, quoted, shown
from kijorafe.staging import Output, commit_all
from kijorafe.texts import Texts, texts_by_field

PSEUDONYM = re.compile(r"(\(\))?masked-[1-9][0-9]*")


class Order(NamedTuple):
    """What to mask; which texts stay; where pseudonyms and a report go."""

    base: scrub.Order
    masks: Masks = Masks()
    table: Optional[str] = None
    report: Optional[str] = None


class Masked(NamedTuple):
    """An output's texts by field; the fields whose texts stay, and why; the texts that have pseudonyms."""

    texts: Texts
    stay: Dict[str, str]
    secrets: AbstractSet[str]

    def not_masked(self, known: AbstractSet[str]) -> List[str]:
        """The fields with a text that should have a pseudonym."""
        return [
            field
            for field, counts in sorted(self.texts.items())
            if field not in self.stay
            and any(text and text not in known and not PSEUDONYM.fullmatch(text) for text in counts)
        ]

    def also(self) -> Iterator[Tuple[str, str, int]]:
        """The masked texts that a field has whose texts stay: the field, the text, and how often."""
        for field in sorted(self.stay):
            for text, count in sorted(self.texts.get(field, {}).items()):
                if text in self.secrets:
                    yield field, text, count

    def said(self) -> List[str]:
        """How many texts are masked, and which of them are left elsewhere."""
        lines = [f"{len(self.secrets)} texts have pseudonyms"]
        also = sorted({text for _, text, _ in self.also()})
        if also:
            lines.append(f"texts that are also in fields that aren't masked: {in_a_row(map(quoted, also))}")
        return lines

    def report(self) -> Iterator[str]:
        """A line for each field, and for each masked text that is left elsewhere."""
        for field, counts in sorted(self.texts.items()):
            numbers = [str(sum(counts.values())), str(len(counts))]
            reason = [self.stay[field]] if field in self.stay else []
            yield "\t".join(["stays" if reason else "masked", *numbers, shown(field), *reason]) + "\n"
        for field, text, count in self.also():
            yield f"also\t{count}\t1\t{shown(field)}\t{quoted(text)}\n"


def masked(order: Order) -> int:
    """Masks by the lists of the recipe."""
    check_input(order.base.source)
    known = known_of(order.masks)
    output = Output(order.base.target)
    table = None if order.table is None else Output(order.table, is_private=True)
    report = None if order.report is None else Output(order.report, is_private=True)
    with ExitStack() as stack:
        others = [stack.enter_context(each) for each in (table, report) if each is not None]
        stack.enter_context(output)
        lines = _masked(order, known, output, table, report)
        commit_all([*others, output])
    for line in lines:
        say(line)
    return 0


def _masked(
    order: Order, known: Known, output: Output, table: Optional[Output], report: Optional[Output]
) -> List[str]:
    """Makes the outputs; what came of it."""
    recording, program = recording_of(order.base.source, output), find()
    plan = plan_of(program, order.base, [], recording)
    mask = mask_of(program, order.masks, known, order.base.source, as_operand(recording))
    words = ["mask", *plan.options, *mask.options(output.beside("known"))]
    if mask.known.content is not None:
        _write(mask.known.content, output.beside("known"), output)
    place = output.beside("table") if table is None else table.path
    words += ["--table", as_operand(place), as_operand(recording), as_operand(output.path)]
    run(program, order.base, words, [output, *([] if table is None else [table])])
    lines = report_of(program, order.base, plan, recording, output)
    made = _checked(program, order, output, place, mask)
    if report is not None:
        _write("".join(made.report()).encode("utf-8", "surrogatepass"), report.path, report)
    return [*lines, *made.said(), *mask.known.said]


def _checked(program: Program, order: Order, output: Output, table: str, mask: Mask) -> Masked:
    """What the output has, if all is masked that must be."""
    try:
        made = Masked(texts_by_field(program, output.path), mask.fields, _secrets_of(table))
    except (Failure, Fault, MemoryError, OSError, ValueError) as failure:
        raise unchecked(order.base.source, failure) from failure
    wrong = made.not_masked(mask.known.texts())
    if wrong:
        raise unchecked(order.base.source, f"texts aren't masked at {in_a_row(wrong)}")
    return made


def _secrets_of(table: str) -> Set[str]:
    """The texts of the pseudonyms: in each line a pseudonym, a blank, and the text as JSON."""
    with open(table, encoding="utf-8", newline="\n") as lines:
        return {json.loads(line.partition(" ")[2]) for line in lines}


def _write(content: bytes, path: str, output: Output) -> None:
    """Writes a file of an output's folder."""
    try:
        with open(os.open(path, os.O_WRONLY | os.O_CREAT | os.O_EXCL, 0o600), "wb") as file:
            file.write(content)
    except OSError as fault:
        raise output.failed(fault) from fault
