"""What speaks against the date of an act, at the exact second of each boundary: how long a span is called, when an
objection's time is over, which dates are too early, and whether all of the time of a late call is over."""
import sys
from types import SimpleNamespace

from tests.support.case import Case
from tests.support.in_process import stopped
from tests.support.program import DAY, T0, TOP

sys.path.insert(0, str(TOP / "tools"))
from grdesk.acts.act import Act  # noqa: E402
from grdesk.acts.moment import (  # noqa: E402
    check_clocks,
    check_seconds,
    duration,
    is_voting_over,
    late_call,
    late_clock,
    span_text,
    until_of,
)
from grdesk.error import Refused, Wrong  # noqa: E402

HOUR, MINUTE = 3_600, 60
# A span is told in days, hours or minutes from two of these on, and what is left over is not told.
SPANS = {
    0: "0 seconds",
    1: "1 second",
    2: "2 seconds",
    119: "119 seconds",
    120: "2 minutes",
    179: "2 minutes",
    180: "3 minutes",
    2 * HOUR - 1: "119 minutes",
    2 * HOUR: "2 hours",
    DAY: "24 hours",
    36 * HOUR: "36 hours",
    2 * DAY - 1: "47 hours",
    2 * DAY: "2 days",
    3 * DAY - 1: "2 days",
    3 * DAY: "3 days",
    400 * DAY: "400 days",
}
DURATIONS = {"1s": 1, "90s": 90, "5m": 300, "24h": DAY, "36h": 36 * HOUR, "2d": 2 * DAY, "999999s": 999_999}
NO_DURATIONS = "", "0s", "05m", "1", "h", "1.5h", "-1h", "1 h", "1w", "1H", "1000000s", "24h ", "\u0664h"
# 2000-01-01T00:00:00Z.
YEAR_2000 = 946_684_800


def words(hold=None, hold_until=None):
    return SimpleNamespace(hold=hold, hold_until=hold_until)


def call(days):
    return Act("/resolutions/1/call", {"days": days})


class Spans(Case):
    def test_a_span_is_told_in_the_greatest_unit_of_which_it_has_two(self):
        for seconds, text in SPANS.items():
            with self.subTest(seconds=seconds):
                self.assertEqual(span_text(seconds), text)

    def test_a_duration_is_a_whole_number_with_its_unit(self):
        for text, seconds in DURATIONS.items():
            with self.subTest(text=text):
                self.assertEqual(duration(text), seconds)

    def test_nothing_else_is_a_duration(self):
        for text in NO_DURATIONS:
            with self.subTest(text=text):
                message = f"a DURATION is written like 24h or 2d, and not {text!r}"
                self.assertEqual(stopped(Wrong, duration, text), message)


class Objections(Case):
    def test_a_hold_until_the_moment_of_the_act_itself_or_before_it_is_wrong(self):
        for until in T0 - 1, T0:
            with self.subTest(until=until):
                message = stopped(Wrong, until_of, words(hold_until=until), T0)
                self.assertEqual(message, "--hold-until must be later than the act itself")

    def test_a_hold_until_a_second_later_is_taken(self):
        self.assertEqual(until_of(words(hold_until=T0 + 1), T0), T0 + 1)

    def test_a_hold_lasts_from_the_moment_of_the_act(self):
        self.assertEqual(until_of(words(hold=DAY), T0), T0 + DAY)

    def test_without_either_nothing_is_waited_for(self):
        self.assertIsNone(until_of(words(), T0))


class Dates(Case):
    def test_a_date_before_2000_is_wrong_and_the_first_moment_of_2000_is_not(self):
        message = "--at is 1999-12-31T23:59:59Z (946684799); a date is written as 2026-01-14T21:07:00Z, and one before"
        self.assertEqual(stopped(Wrong, check_seconds, "--at", YEAR_2000 - 1)[: len(message)], message)
        for moment in YEAR_2000, None:
            with self.subTest(moment=moment):
                self.assertIsNone(check_seconds("--at", moment))

    def test_an_act_of_this_second_is_sent_and_one_of_the_next_is_not(self):
        check_clocks(T0, T0, T0)
        message = f"nothing was sent: 2026-01-01T00:00:01Z ({T0 + 1}) is later than the machine's clock by 1 second;"
        self.assertEqual(stopped(Refused, check_clocks, T0 + 1, T0, T0)[: len(message)], message)

    def test_a_desk_whose_clock_is_a_second_later_than_the_machines_takes_nothing(self):
        message = f"nothing was sent: the desk's clock is 2026-01-01T00:00:01Z ({T0 + 1}), later than the machine's by"
        self.assertEqual(stopped(Refused, check_clocks, T0, T0 + 1, T0)[: len(message)], message)

    def test_a_late_clock_is_told_of_the_moment_that_was_given_or_of_the_machine(self):
        message = "--at is 3 days before the desk's clock: each act with that date is refused 2 ClockBack"
        self.assertEqual(late_clock("3 days", True), message)
        message = "the desk's clock is 3 days later than the machine's: until then each act without --at is refused 2"
        self.assertEqual(late_clock("3 days", False), f"{message} ClockBack")


class LateCalls(Case):
    """A call of seven days, dated T0."""

    def test_all_of_its_time_is_over_from_the_end_of_its_days_on(self):
        for now, is_over in (T0 + 7 * DAY - 1, False), (T0 + 7 * DAY, True), (T0 + 7 * DAY + 1, True):
            with self.subTest(now=now):
                self.assertEqual(is_voting_over(call(b"7"), T0, now), is_over)

    def test_of_days_that_are_no_number_nothing_is_over(self):
        for days in b"", b"-7", b"07", b"seven", b"\xff":
            with self.subTest(days=days):
                self.assertFalse(is_voting_over(call(days), T0, T0 + 400 * DAY))

    def test_it_is_told_how_late_it_comes_and_what_that_costs(self):
        less = "the call comes 6 days after its date, and its voters have so much less time"
        self.assertEqual(late_call(call(b"7"), T0, T0 + 7 * DAY - 1), less)
        over = "the call comes 7 days after its date, when all of its time for votes is over"
        self.assertEqual(late_call(call(b"7"), T0, T0 + 7 * DAY), over)
