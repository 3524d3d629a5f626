"""A window of time: what the options --from, --to and --last mean for a recording."""

import re
from datetime import datetime, time, timedelta, timezone
from typing import List, NamedTuple, Optional, Tuple, Union

from kijorafe.headers import NO_RECORDING, headers_of
from kijorafe.messages import WARNING, Fault
from kijorafe.shown import file_name

SECOND = 10**9
SECONDS = {"s": 1, "m": 60, "h": 3600, "d": 86400}
EPOCH = datetime(1970, 1, 1, tzinfo=timezone.utc)
DAY = timedelta(days=1)
# The moments that the program takes, in nanoseconds since 1970.
MOMENTS = range(2**63)

_CLOCK = re.compile(r"[0-9]{2}:[0-9]{2}(?::[0-9]{2})?")
_MOMENT = re.compile(
    r"(?P<day>[0-9]{4}-[0-9]{2}-[0-9]{2})[Tt ](?P<clock>[0-9]{2}:[0-9]{2})"
    r"(?P<second>:[0-9]{2})?(?:\.(?P<fraction>[0-9]{1,9}))?(?P<zone>[Zz]|[+-][0-9]{2}:[0-9]{2})"
)
_NUMBER = re.compile(r"[0-9]{1,19}")
_SPAN = re.compile(r"([0-9]{1,9})([smhd])")


class Asked(NamedTuple):
    """The options as they were written; --last isn't given with one of the others."""

    since: Optional[str] = None
    until: Optional[str] = None
    last: Optional[str] = None

    def words(self) -> List[str]:
        """The options that are given."""
        pairs = ("--from", self.since), ("--to", self.until), ("--last", self.last)
        return [word for name, text in pairs if text is not None for word in (name, text)]


class Span(NamedTuple):
    """The time from a first moment to a last one, in nanoseconds since 1970."""

    first: int
    last: int

    def distance(self, number: int) -> int:
        """How far outside a moment lies."""
        return max(self.first - number, number - self.last, 0)


class Window(NamedTuple):
    """The moments from `first` on and before `end`, in nanoseconds since 1970, for a recording of this span."""

    first: Optional[int]
    end: Optional[int]
    recording: Span

    def bounds(self) -> List[Tuple[str, int]]:
        """The bounds that are given, each with its option."""
        pairs = ("--from", self.first), ("--to", self.end)
        return [(option, number) for option, number in pairs if number is not None]

    def words(self) -> List[str]:
        """The options of the program."""
        return [word for option, number in self.bounds() for word in (option, str(number))]

    def report(self) -> List[str]:
        """What the window is; a warning if it lies outside the recording."""
        shown = ", ".join(f"{option} {number} ({shown_moment(number)})" for option, number in self.bounds())
        lines = [f"the window is {shown}"]
        first, last = self.recording
        if (self.first is not None and self.first > last) or (self.end is not None and self.end <= first):
            lines.append(f"{WARNING}the recording is from {shown_moment(first)} to {shown_moment(last)}")
        return lines


def moment(text: str) -> Union[int, time]:
    """A moment in nanoseconds since 1970, or a local time of day; raises ValueError if the text is neither."""
    if _CLOCK.fullmatch(text):
        return time.fromisoformat(text)
    found = _MOMENT.fullmatch(text)
    if not found or (found["fraction"] and not found["second"]):
        raise ValueError
    zone = found["zone"].upper().replace("Z", "+00:00")
    whole = datetime.fromisoformat(f"{found['day']}T{found['clock']}{found['second'] or ':00'}{zone}")
    number = nanoseconds(whole) + int((found["fraction"] or "").ljust(9, "0"))
    if number not in MOMENTS:
        raise ValueError
    return number


def moment_or_number(text: str) -> Union[int, time]:
    """The same, or a number of nanoseconds since 1970, as the program takes it."""
    if _NUMBER.fullmatch(text) and int(text) in MOMENTS:
        return int(text)
    return moment(text)


def duration(text: str) -> int:
    """A duration, such as 10m, in nanoseconds; raises ValueError if the text is none."""
    found = _SPAN.fullmatch(text)
    if not found:
        raise ValueError
    return int(found[1]) * SECONDS[found[2]] * SECOND


def nanoseconds(whole: datetime) -> int:
    """A moment with a zone, in whole seconds, in nanoseconds since 1970."""
    return (whole - EPOCH) // timedelta(seconds=1) * SECOND


def shown_moment(number: int) -> str:
    """The moment in local time, with its zone."""
    return (EPOCH + timedelta(microseconds=number // 1000)).astimezone().isoformat(timespec="milliseconds")


def span_of(recording: str) -> Span:
    """The time from the beginning of a recording to its end, by the headers of its chunks."""
    try:
        with open(recording, "rb") as file:
            headers = list(headers_of(file))
        return Span(min(each.start for each in headers), max(each.start + each.duration for each in headers))
    except NO_RECORDING as fault:
        raise Fault(2, f"{file_name(recording)} isn't a recording that jfr accepts") from fault
    except OSError as fault:
        raise Fault(3, f"{file_name(recording)} can't be read: {fault.strerror}") from fault


def window_of(asked: Asked, recording: str) -> Optional[Window]:
    """The window that the options mean for a recording, if one is given."""
    if asked == Asked():
        return None
    span = span_of(recording)
    if asked.last is not None:
        return Window(max(span.last - duration(asked.last), 0), None, span)
    first, end = (None if text is None else _number(moment_or_number(text), span) for text in (asked.since, asked.until))
    if first is not None and end is not None and first > end:
        raise Fault(1, f"--from {asked.since} is after --to {asked.until}: {shown_moment(first)}, {shown_moment(end)}")
    return Window(first, end, span)


def _number(given: Union[int, time], span: Span) -> int:
    """A moment in nanoseconds since 1970. A time of day is of the day on which it is nearest to the recording."""
    if isinstance(given, int):
        return given
    if span.last - span.first >= SECONDS["d"] * SECOND:
        raise Fault(1, f"the recording is of a day or more: give {given} with a date and a zone")
    start = (EPOCH + timedelta(microseconds=span.first // 1000)).astimezone().date()
    days = (start + DAY * number for number in range(-1, 3))
    numbers = (nanoseconds(datetime.combine(day, given).astimezone()) for day in days)
    return max(min(numbers, key=span.distance), 0)
