"""Checks a scrub or a mask against its original: by receipts, and by making it again."""

import os
from tempfile import TemporaryDirectory
from typing import List, NamedTuple, Optional, Tuple

from kijorafe import scrub
from kijorafe.differences import differences, first_difference
from kijorafe.explain import fault_of, reason_in, reasons
from kijorafe.inputs import check_input, readable
from kijorafe.masking import MASKED, Known, Mask, Masks, known_of, mask_of
from kijorafe.messages import Fault, say
from kijorafe.program import Failure, Program, find
from kijorafe.scrub import REFUSED, WRITE_FAULT
from kijorafe.shown import file_name, shown
from kijorafe.staging import free_bytes
from kijorafe.window import Asked, window_of

DOUBT = 7
NOT_COMPARED = (
    "`verify` has no doubt: events, and the constants that they reach, are those of a scrub."
    " What differs is what it doesn't compare"
)
OTHER_TEXTS = "a mask also differs if --code, --open or the texts that are known aren't those with which the output was made"


class Order(NamedTuple):
    """What to check: the original, the output, the receipts if there are some, and how the output was made.

    That is by filter options of the program, and new keys or not; or by a recipe, which leaves out the threads of the
    options, has kept types on trust, and masks texts.
    """

    source: str
    target: str
    receipt: Optional[str]
    options: Tuple[str, ...]
    asked: Asked = Asked()
    renumber: bool = False
    recipe: Optional[str] = None
    trusted: Tuple[str, ...] = ()
    masks: Masks = Masks()


def check(order: Order) -> int:
    """Prints whether the output is what a scrub makes of the original, and what differs; then the status is DOUBT."""
    for name in order.source, order.target, order.receipt:
        if name is not None:
            check_input(name)
    known = known_of(order.masks)
    with readable(order.source) as source, readable(order.target) as target, TemporaryDirectory() as folder:
        program = find()
        checker = Checker(program, order, source, target, folder, _making_of(program, order, source, known))
        is_verified = None if order.receipt is None else checker.verify(order.receipt)
        return 0 if checker.compare(is_verified) and is_verified is not False else DOUBT


class Making(NamedTuple):
    """How the output is made: the filter options of the program, and what a mask leaves, if texts are masked."""

    options: List[str]
    mask: Optional[Mask] = None


def _making_of(program: Program, order: Order, source: str, known: Known) -> Making:
    if order.recipe is None:
        window = window_of(order.asked, source)
        return Making([*order.options, *([] if window is None else window.words())])
    by_recipe = scrub.Order(order.recipe, order.source, order.target, order.trusted, order.asked)
    plan = scrub.plan_of(program, by_recipe, order.options, source)
    if order.recipe != MASKED:
        return Making(plan.options)
    return Making(plan.options, mask_of(program, order.masks, known, order.source, source))


class Checker(NamedTuple):
    """The program, what to check, by which names it reads the original and the output, a folder, how OUT is made."""

    program: Program
    order: Order
    source: str
    target: str
    folder: str
    making: Making

    def verify(self, receipt: str) -> bool:
        """Whether `verify` has no doubt; prints what it says."""
        try:
            lines = list(self.program.lines("verify", *self.making.options, self.source, self.target, receipt))
        except Failure as failure:
            if failure.status != DOUBT:
                raise fault_of(failure, self.order.source) from failure
            print(f"{shown(failure.line)}: {reasons()[reason_in(failure.line)]}")
            return False
        print(b"".join(lines).decode(), end="")
        return True

    def compare(self, is_verified: Optional[bool]) -> bool:
        """Whether the output is one of one's own, byte for byte; prints what differs, and verifies a scrub if needed."""
        try:
            totals = self.program.totals(self.target)
        except Failure as failure:
            if failure.status != REFUSED:
                raise fault_of(failure, self.order.target) from failure
            print(f"the output's {shown(failure.line)}: {reasons()['OutRefused']}")
            return False
        own = self._own()
        if first_difference(self.target, own) is not None:
            for line in differences(self.program, self.target, own):
                print(line)
            if self.making.mask is not None:
                print(OTHER_TEXTS)
                return False
            if is_verified is None and not self.order.renumber:
                is_verified = self.verify(self._made("receipt"))
            if is_verified:
                print(NOT_COMPARED)
            return False
        made = "scrub" if self.making.mask is None else "mask"
        counts = f"chunks {totals.chunks}, bytes {totals.bytes}, inert {totals.inert}"
        print(f"the same as a {made}, byte for byte: {counts}")
        return totals.inert == 0

    def _own(self) -> str:
        """A scrub or a mask of the original; says which texts stay in a mask."""
        mask = self.making.mask
        if mask is None:
            return self._made("scrub", "--renumber", "yes" if self.order.renumber else "no")
        for line in mask.known.said:
            say(line)
        known = os.path.join(self.folder, "known")
        try:
            with open(os.open(known, os.O_WRONLY | os.O_CREAT | os.O_EXCL, 0o600), "wb") as file:
                file.write(mask.known.content or b"")
        except OSError as fault:
            raise self._unwritten(known) from fault
        return self._made("mask", *mask.options(known))

    def _made(self, command: str, *more: str) -> str:
        """What the program makes of the original."""
        name = os.path.join(self.folder, command)
        try:
            self.program.run(command, *self.making.options, *more, self.source, name)
        except Failure as failure:
            if failure.status == WRITE_FAULT:
                raise self._unwritten(name) from failure
            raise fault_of(failure, self.order.source) from failure
        return name

    def _unwritten(self, name: str) -> Fault:
        """What to say if a file can't be written to the folder."""
        said = f"writing to {file_name(self.folder)} failed{free_bytes(name)}; TMPDIR names another folder for it"
        return Fault(WRITE_FAULT, said)
