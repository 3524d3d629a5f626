"""Windows of time: what the options mean, and which events stay."""

import os
import struct
import time
import unittest
from datetime import time as Clock
from typing import List, Tuple

from kijorafe.messages import Fault
from kijorafe.window import SECOND, Asked, Span, Window, duration, moment, span_of, window_of
from tests.support import TYPES, Case

# 2026-11-30T23:50:00Z
START = 1796082600 * SECOND
MINUTE = 60 * SECOND
# A JVM writes this type once in each chunk.
ONCE = "event 26 jdk.OSInformation\nfield startTime 5 -\nfield osVersion 6 -\n"


class Texts(unittest.TestCase):
    def test_moments(self) -> None:
        for text, number in (
            ("1970-01-01T00:00:00Z", 0),
            ("2026-11-30T23:50:00Z", START),
            ("2026-11-30t23:50:00z", START),
            ("2026-12-01 00:50:00+01:00", START),
            ("2026-11-30T20:20:00-03:30", START),
            ("2026-11-30T23:50Z", START),
            ("2026-11-30T23:50:00.000000001Z", START + 1),
            ("2026-11-30T23:50:00.25Z", START + SECOND // 4),
        ):
            self.assertEqual(moment(text), number, text)
        self.assertEqual(moment("09:05"), Clock(9, 5))
        self.assertEqual(moment("23:59:59"), Clock(23, 59, 59))
        for text in (
            "",
            "yesterday",
            "9:05",
            "24:00",
            "10:60",
            "10:15:00.5",
            "10:15Z",
            "2026-11-30",
            "2026-11-30T23:50:00",
            "2026-11-31T23:50:00Z",
            "2026-11-30T23:50:60Z",
            "2026-11-30T23:50.5Z",
            "2026-11-30T23:50:00.1234567890Z",
            "1969-12-31T23:59:59Z",
            "2262-04-12T00:00:00Z",
            "٢٠٢٦-11-30T23:50:00Z",
            "2026-11-30T23:50:00Z\n",
        ):
            with self.assertRaises(ValueError, msg=text):
                moment(text)

    def test_durations(self) -> None:
        for text, seconds in ("90s", 90), ("10m", 600), ("2h", 7200), ("1d", 86400), ("0s", 0):
            self.assertEqual(duration(text), seconds * SECOND)
        for text in "", "10", "m", "1.5h", "-1s", "10 m", "1h30m":
            with self.assertRaises(ValueError, msg=text):
                duration(text)


class Windows(Case):
    """The recording is from 23:50 to 00:20 in UTC, with an event each five minutes, and one that is written once."""

    def setUp(self) -> None:
        super().setUp()
        loads = "".join(f"record 20 {number * MINUTE} 0x00000000 0x00000000 0x00000000\n" for number in range(0, 31, 5))
        self.recording("in.jfr", TYPES + ONCE + loads + 'record 26 0 "Linux"\n')
        with open("in.jfr", "r+b") as file:
            file.seek(32)
            file.write(struct.pack(">qq", START, 30 * MINUTE))
        self.in_zone("UTC")

    def in_zone(self, name: str) -> None:
        before = os.environ.get("TZ")

        def back() -> None:
            if before is None:
                del os.environ["TZ"]
            else:
                os.environ["TZ"] = before
            time.tzset()

        self.addCleanup(back)
        os.environ["TZ"] = name
        time.tzset()

    def bounds(self, asked: Asked) -> Tuple[object, object]:
        """The bounds of the window, in minutes after the recording's start."""
        found = window_of(asked, "in.jfr")
        assert found is not None
        return tuple(None if number is None else (number - START) / MINUTE for number in found[:2])  # type: ignore

    def test_bounds(self) -> None:
        self.assertEqual(span_of("in.jfr"), Span(START, START + 30 * MINUTE))
        self.assertIsNone(window_of(Asked(), "in.jfr"))
        for zone, asked, expected in (
            ("UTC", Asked("2026-12-01T00:00:00Z"), (10, None)),
            ("UTC", Asked(None, "2026-12-01T00:00:00Z"), (None, 10)),
            ("UTC", Asked("23:55", "00:10:30"), (5, 20.5)),
            ("UTC", Asked("23:00", "01:00"), (-50, 70)),
            ("UTC", Asked("23:50", "23:50"), (0, 0)),
            ("Asia/Kolkata", Asked("05:25", "05:40"), (5, 20)),
            ("America/New_York", Asked("18:55", "19:10"), (5, 20)),
            ("UTC", Asked(None, None, "10m"), (20, None)),
            ("UTC", Asked(None, None, "2h"), (-90, None)),
        ):
            with self.subTest(zone=zone, asked=asked):
                self.in_zone(zone)
                self.assertEqual(self.bounds(asked), expected)
        self.assertEqual(window_of(Asked(None, None, "999999999d"), "in.jfr"), Window(0, None, span_of("in.jfr")))

    def test_refused_windows(self) -> None:
        with self.assertRaises(Fault) as raised:
            window_of(Asked("00:10", "00:05"), "in.jfr")
        self.assertEqual(raised.exception.status, 1)
        self.assertIn("--from 00:10 is after --to 00:05", raised.exception.message)
        with open("in.jfr", "r+b") as file:
            file.seek(40)
            file.write(struct.pack(">q", 24 * 60 * MINUTE))
        with self.assertRaises(Fault) as raised:
            window_of(Asked("00:10"), "in.jfr")
        self.assertIn("give 00:10:00 with a date and a zone", raised.exception.message)
        self.assertEqual(self.bounds(Asked(None, None, "23h")), (60, None))
        for words, text in (
            (("--from", "00:20", "--to", "23:50"), "of a day or more"),
            (("--from", "tomorrow"), "tomorrow isn't a time"),
            (("--last", "10"), "10 isn't a duration"),
            (("--last", "10m", "--to", "00:10"), "--last isn't for use with"),
        ):
            self.assert_run(self.recipe("vendor", *words, "in.jfr", "out.jfr"), 1, text)
            self.assertFalse(os.path.exists("out.jfr"))

    def left(self, name: str) -> List[Tuple[str, int]]:
        words = (line.rsplit(" ", 2) for line in self.run_program("summary", name).splitlines()[9:])
        return [(word[0], int(word[1])) for word in words]

    def test_events(self) -> None:
        tenant = ("tenant", "--from", "23:55", "nobody", "--to=00:10")
        runs: List[Tuple[Tuple[str, ...], int]] = [
            (("vendor", "--from", "23:55", "--to", "00:10"), 3),
            (("strict", "--last", "10m"), 3),
            (tenant, 3),
            (("vendor", "--to", "2026-11-30T23:50:00.000000001Z"), 1),
            (("vendor", "--to", "23:50"), 0),
        ]
        for words, loads in runs:
            with self.subTest(words=words):
                run = self.recipe(*words, "in.jfr", "out.jfr")
                self.assert_run(run, 0, f"{loads + 1} of 8 events are left")
                self.assertIn("the window is --", run.err)
                expected = ([("jdk.CPULoad", loads)] if loads else []) + [("jdk.OSInformation", 1)]
                self.assertEqual(self.left("out.jfr"), expected)
                os.unlink("out.jfr")
        run = self.recipe("vendor", "--from", "23:55", "in.jfr", "out.jfr")
        self.assertIn("the window is --from 1796082900000000000 (2026-11-30T23:55:00.000+00:00)\n", run.err)
        self.assertNotIn("WARNING", run.err)
        run = self.recipe("vendor", "--from", "00:30", "in.jfr", "none.jfr")
        self.assert_run(run, 0, "WARNING: the recording is from 2026-11-30T23:50:00.000+00:00 to 2026-12-01T00:20")

    def test_many(self) -> None:
        os.mkdir("in")
        os.rename("in.jfr", "in/in.jfr")
        run = self.process("many", "--last", "10m", "tenant", "-x*", "in", "out", env={"TZ": "UTC"})
        self.assert_run(run, 0, "1 of 1 recordings")
        self.assertEqual(self.left("out/in.jfr"), [("jdk.CPULoad", 3), ("jdk.OSInformation", 1)])
        self.write("hosts", ":\n")
        run = self.process("many", "--sshloginfile", "hosts", "--from", "10:15", "vendor", "in", "out2")
        self.assert_run(run, 1, "times need a date and a zone")
