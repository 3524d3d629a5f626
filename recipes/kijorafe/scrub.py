"""Scrubs of recordings: vendor, strict and tenant."""

from typing import Dict, List, NamedTuple, Optional, Sequence, Tuple

from kijorafe import genuine, known
from kijorafe.explain import fault_of
from kijorafe.inputs import check_input, recording_of
from kijorafe.messages import WARNING, Fault, say
from kijorafe.program import WRONG_WORDS, Failure, Program, find
from kijorafe.shown import file_name, in_a_row
from kijorafe.staging import Output, free_bytes
from kijorafe.threads import addresses_in
from kijorafe.window import Asked, Window, window_of

REFUSED = 2
READ_FAULT = 3
WRITE_FAULT = 4
UNCHECKED = 71


class Order(NamedTuple):
    """What to scrub, to what, by which recipe; types to keep though they may be the program's own; the window."""

    recipe: str
    source: str
    target: str
    trusted: Tuple[str, ...] = ()
    asked: Asked = Asked()


def scrub(order: Order) -> int:
    """Scrubs by the list of a recipe."""
    check_input(order.source)
    with Output(order.target) as output:
        recording = recording_of(order.source, output)
        return _scrubbed(find(), order, [], recording, output)


def tenant(order: Order, patterns: str) -> int:
    """The same, without the events of the threads that match the patterns."""
    check_input(order.source)
    with Output(order.target) as output:
        recording, program = recording_of(order.source, output), find()
        _report_patterns(program, patterns, order.source, recording, output)
        return _scrubbed(program, order, ["--exclude-threads", patterns], recording, output)


def tenant_by_addresses(order: Order) -> int:
    """The same for the threads whose names look like addresses or requests."""
    source = order.source
    check_input(source)
    with Output(order.target) as output:
        recording, program = recording_of(source, output), find()
        try:
            patterns = addresses_in(program, recording)
        except Failure as failure:
            reason = fault_of(failure, source)
            raise Fault(2, f"{reason.message} It can't be searched for addresses, so nothing is written") from failure
        say(f"threads with addresses in their names: {file_name(patterns) if patterns else 'none'}")
        options = ["--exclude-threads", patterns] if patterns else []
        return _scrubbed(program, order, options, recording, output)


class Plan(NamedTuple):
    """The options of the program for a scrub by a recipe, the names that own types share with it, and the window."""

    options: List[str]
    own: Dict[str, str]
    window: Optional[Window]


def plan_of(program: Program, order: Order, options: Sequence[str], recording: str) -> Plan:
    """How the program is run for an order, with these further options."""
    own = _own_types(program, order.source, recording)
    kept = known.kept_by(order.recipe)
    names = ",".join(name for name in kept if name not in own or name in order.trusted)
    # With the descriptions of all types that can be left, the JDK's reader finds the events of each chunk.
    words = ["--include-events", names, "--describe", names, *options]
    window = window_of(order.asked, recording)
    if window is not None:
        words += [*window.words(), "--always", ",".join(known.written_once())]
    return Plan(words, {name: reason for name, reason in own.items() if name in kept}, window)


def _scrubbed(program: Program, order: Order, options: Sequence[str], recording: str, output: Output) -> int:
    """Scrubs, and says what came of it, when the output has its name."""
    plan = plan_of(program, order, options, recording)
    run(program, order, ["scrub", *plan.options, as_operand(recording), as_operand(output.path)], [output])
    report = report_of(program, order, plan, recording, output)
    output.commit()
    for line in report:
        say(line)
    return 0


def run(program: Program, order: Order, words: Sequence[str], outputs: Sequence[Output]) -> None:
    """Runs the program with words by which it writes these outputs."""
    try:
        program.run(*words)
    except Failure as failure:
        fault = fault_of(failure, order.source)
        if failure.status == WRITE_FAULT:
            failed = (f"writing {file_name(output.name)} failed{free_bytes(output.name)}" for output in outputs)
            fault = Fault(WRITE_FAULT, ", or ".join(failed))
        raise fault from failure


def report_of(program: Program, order: Order, plan: Plan, recording: str, output: Output) -> List[str]:
    """What came of it, to be said when the output has its name."""
    try:
        report = _report(program, recording, output)
    except (Failure, Fault, MemoryError) as failure:
        raise unchecked(order.source, failure) from failure
    return [*report, *_report_own(plan.own, order), *([] if plan.window is None else plan.window.report())]


def _own_types(program: Program, source: str, recording: str) -> Dict[str, str]:
    """The names of JDK types that the program's own types have."""
    try:
        return genuine.own_types(program.classes(as_operand(recording)))
    except Failure as failure:
        if failure.status in (WRONG_WORDS, REFUSED, READ_FAULT):
            raise fault_of(failure, source) from failure
        raise unchecked(source, failure) from failure


def unchecked(source: str, failure: object) -> Fault:
    """The fault of an output of which it isn't known what is left in it."""
    return Fault(UNCHECKED, f"{file_name(source)} can't be checked, so there is no output: {failure}")


def as_operand(name: str) -> str:
    """A name that the program takes for a file: none that begins with a hyphen."""
    return f"./{name}" if name.startswith("-") else name


def _report(program: Program, recording: str, output: Output) -> List[str]:
    """How much is left, and which types were removed that aren't the JDK's."""
    before, after = program.summary(as_operand(recording)), program.summary(output.path)
    total, left = sum(each.events for each in before), sum(each.events for each in after)
    lines = [f"{left} of {total} events are left, of {len(after)} of {len(before)} types"]
    strangers = sorted(known.strangers_in(before), key=lambda each: (-each.events, each.name))
    if strangers:
        names = in_a_row(f"{each.events} {each.name}" for each in strangers)
        lines.append(f"removed, since the list of the JDK's types doesn't have them: {names}")
    return lines


def _report_own(own: Dict[str, str], order: Order) -> List[str]:
    """Which of the types that a recipe keeps may be the program's own."""
    lines = []
    kept = [name for name in own if name in order.trusted]
    removed = [name for name in own if name not in order.trusted]
    if kept:
        lines.append(f"{WARNING}kept on trust, though the program's own types have these names: {in_a_row(kept)}")
    if removed:
        names = in_a_row(f"{name} ({own[name]})" for name in removed)
        lines.append(f"removed, since the program's own types have these names: {names}; --trust NAME keeps one")
    return lines


def _report_patterns(program: Program, patterns: str, source: str, recording: str, output: Output) -> None:
    """Says which patterns match no thread. The program itself is asked, by a scrub for each pattern."""
    for number, pattern in enumerate(patterns.split(",")):
        found = output.beside(f"pattern{number}")
        try:
            program.run("scrub", "--include-threads", pattern, as_operand(recording), found)
            events = sum(each.events for each in program.summary(found))
        except Failure:
            say("the patterns couldn't be checked")
            return
        if events == 0:
            say(f"{WARNING}the pattern {file_name(pattern)} matches no thread of {file_name(source)}")
        output.remove(found)
