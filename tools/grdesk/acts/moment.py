"""The dates of acts: what words may say of them, and what speaks against one."""
import re

from grdesk.acts.act import NUMBER
from grdesk.dates import dated
from grdesk.desk.limit import DAY
from grdesk.error import Refused, Wrong
from grdesk.output import counted

# The beginning of 2000. Whoever gives an earlier date has hardly meant it.
EARLIEST_MEANT = 946_684_800

SECONDS = {"s": 1, "m": 60, "h": 3_600, "d": DAY}


def duration(text):
    """A DURATION, in seconds."""
    found = re.fullmatch("([1-9][0-9]{0,5})([smhd])", text, re.ASCII)
    if not found:
        raise Wrong(f"a DURATION is written like 24h or 2d, and not {text!r}")
    return int(found[1]) * SECONDS[found[2]]


def check_seconds(option, moment):
    """Refuses a year, or a day without its hyphens, which would be taken for seconds since 1970."""
    if moment is not None and moment < EARLIEST_MEANT:
        message = f"{option} is {dated(moment)}; a date is written as 2026-01-14T21:07:00Z"
        raise Wrong(f"{message}, and one before 2000 needs --ahead, for example in a rehearsal")


def until_of(arguments, moment):
    """When the time of objection is over that the words give, or None."""
    if arguments.hold is not None:
        return moment + arguments.hold
    if arguments.hold_until is not None and arguments.hold_until <= moment:
        raise Wrong("--hold-until must be later than the act itself")
    return arguments.hold_until


def span_text(seconds):
    """About how long a span is, in the greatest unit of which it has at least two."""
    for word, unit in ("day", DAY), ("hour", 3_600), ("minute", 60):
        if seconds >= 2 * unit:
            return counted(seconds // unit, word)
    return counted(seconds, "second")


def check_clocks(moment, clock, now):
    """Refuses what may block the desk, or is blocked: no act is taken that is dated before the last one."""
    if moment > now:
        message = f"{dated(moment)} is later than the machine's clock by {span_text(moment - now)}"
        raise Refused(f"nothing was sent: {message}; with --ahead it is sent all the same, for example in a rehearsal")
    if clock > now:
        message = f"the desk's clock is {dated(clock)}, later than the machine's by {span_text(clock - now)}"
        raise Refused(f"nothing was sent: {message}; with --ahead this is sent all the same")


def late_clock(span, is_given):
    """What is said where the desk's clock is later, by this span, than a moment that was given, or than the machine's.
    """
    if is_given:
        return f"--at is {span} before the desk's clock: each act with that date is refused 2 ClockBack"
    message = f"the desk's clock is {span} later than the machine's"
    return f"{message}: until then each act without --at is refused 2 ClockBack"


# A call that is entered after its date, from which on its voting counts.


def is_voting_over(call, moment, now):
    """Whether all of the time for votes is over at `now`, of a call with this date."""
    days = call.values["days"].decode(errors="replace")
    return bool(NUMBER.fullmatch(days)) and moment + int(days) * DAY <= now


def late_call(call, moment, now):
    """What is said of it."""
    message = f"the call comes {span_text(now - moment)} after its date"
    if is_voting_over(call, moment, now):
        return f"{message}, when all of its time for votes is over"
    return f"{message}, and its voters have so much less time"
