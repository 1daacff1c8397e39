"""How a moment is written, and what a DATE among words says."""
import calendar
import re
import time
from datetime import datetime, timedelta, timezone

from grdesk.error import Failed, Wrong


def date_of(moment):
    return time.strftime("%Y-%m-%dT%H:%M:%SZ", time.gmtime(moment))


def dated(moment):
    """A moment in both its forms."""
    return f"{date_of(moment)} ({moment})"


def moment_of(text):
    """The moment of a date, in seconds since 1970."""
    try:
        return calendar.timegm(time.strptime(text, "%Y-%m-%dT%H:%M:%SZ")) if text else None
    except ValueError:
        raise Failed(f"{text} is no moment, so what answers is no desk") from None


# The last moment that the program takes after --at.
MOST_SECONDS = 9_999_999_999

DATE = re.compile(
    r"([0-9]{4})-([0-9]{2})-([0-9]{2})[T ]([0-9]{2}):([0-9]{2})(?::([0-9]{2}))?"
    r"(?P<offset> ?(?:Z|(?P<sign>[+-])(?P<hours>[0-9]{2}):(?P<minutes>[0-5][0-9])))?",
    re.ASCII,
)


def moment_number(text):
    """A DATE, as seconds since 1970: a date with its offset from UTC, or these seconds."""
    if re.fullmatch("[0-9]{1,10}", text, re.ASCII):
        return int(text)
    found = DATE.fullmatch(text)
    if not found:
        forms = "as 2026-01-14T21:07:00Z or '2026-01-14 21:07 +01:00', or in seconds since 1970"
        raise Wrong(f"a DATE is {forms}, and not {text!r}")
    if not found["offset"]:
        raise Wrong(f"{text!r} does not say its offset from UTC: put Z after it for UTC, or one as +01:00")
    offset = timedelta(hours=int(found["hours"] or 0), minutes=int(found["minutes"] or 0))
    if found["sign"] == "-":
        offset = -offset
    try:
        parts = (int(part or 0) for part in found.groups()[:6])
        seconds = round(datetime(*parts, tzinfo=timezone(offset)).timestamp())
    except (ValueError, OverflowError):
        raise Wrong(f"{text!r} is no date of the calendar") from None
    if not 0 <= seconds <= MOST_SECONDS:
        raise Wrong(f"{text!r} lies before 1970, or too far ahead")
    return seconds
