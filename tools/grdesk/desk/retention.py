"""The copies of a desk in a folder, by the times in their names, and which of them are kept."""
import calendar
import os
import re
import time
from contextlib import suppress
from typing import NamedTuple

from grdesk.desk.copy import log_of
from grdesk.desk.digest import digests_at
from grdesk.desk.limit import DAY
from grdesk.error import Refused

# What the name of a desk is followed by in those of the copies that `votes` makes before it sends anything, and how
# many of them it keeps.
BEFORE_VOTES = "before-votes"
KEPT_BEFORE_VOTES = 3

FORM = "%Y%m%dT%H%M%SZ"
TIME = "[0-9]{8}T[0-9]{6}Z"

HOUR, WEEK, YEAR = 3_600, 7 * DAY, 365 * DAY


class DatedCopy(NamedTuple):
    """A copy in a folder, and when it was made."""

    moment: int
    path: str

    def remove(self):
        """Takes it away. The file goes first, so that what is left by a kill is no desk."""
        for part in self.path, digests_at(self.path), log_of(self.path):
            with suppress(FileNotFoundError):
                os.unlink(part)


def base_of(desk):
    """The name of a desk without its folder, with which those of its copies begin."""
    return os.path.basename(desk.rstrip("/"))


def name_at(base, moment):
    """The name of a copy of the desk with this name."""
    return f"{base}-{time.strftime(FORM, time.gmtime(moment))}"


def name_before_votes(base, moment):
    """The name of a copy that `votes` makes of the desk with this name."""
    return name_at(f"{base}-{BEFORE_VOTES}", moment)


def copies_in(folder, base):
    """The copies of a desk that have such names, the newest first. None of them is one that `votes` made. So a desk
    whose name ends as theirs do has no copies here, and is refused."""
    if base.endswith(f"-{BEFORE_VOTES}"):
        raise Refused(f"nothing was done: copies of {base} have names like those that gr-desk votes makes: rename it")
    return named_copies(folder, base)


def surplus_before_votes(newest):
    """The copies that `votes` made and keeps no longer, once this one stands. That stays in any case."""
    folder, name = os.path.split(newest)
    others = [copy for copy in named_copies(folder, name[: name.rindex("-")]) if copy.path != newest]
    return others[KEPT_BEFORE_VOTES - 1 :]


def named_copies(folder, base):
    """What is named like a copy of something with this name, the newest first."""
    form = re.compile(f"{re.escape(base)}-({TIME})")
    found = filter(None, map(form.fullmatch, os.listdir(folder)))
    return sorted((DatedCopy(moment_in_name(each[1]), os.path.join(folder, each[0])) for each in found), reverse=True)


def copies_until(now, folder, base):
    """Those but for what has a later time, as by a clock that was wrong."""
    return [copy for copy in copies_in(folder, base) if copy.moment <= now]


def moment_in_name(text):
    """The moment of such a time. One that no calendar has is long ago."""
    with suppress(ValueError):
        return calendar.timegm(time.strptime(text, FORM))
    return 0


def surplus(copies, now):
    """Those of some copies, the newest first, that are kept no longer: all of a day stay, and of what is older the last
    one of each hour of a week, and of each day of a year. The newest always stays."""
    hours, days = set(), set()
    for number, copy in enumerate(copies):
        age, hour, day = now - copy.moment, copy.moment // HOUR, copy.moment // DAY
        is_kept = age < DAY or age < WEEK and hour not in hours or age < YEAR and day not in days
        if number > 0 and not is_kept:
            yield copy
        hours.add(hour)
        days.add(day)
