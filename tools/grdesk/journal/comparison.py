"""The desk that the first acts of a journal make, beside one that was found. The one that was found has these acts, and
no others, only if each row of the two is the same: neither a count nor the moment of the last act says that."""
import math
import subprocess
from dataclasses import dataclass
from itertools import islice
from typing import NamedTuple

from grdesk.desk.copy import copy_desk, desk_at, log_of
from grdesk.desk.digest import check_digests
from grdesk.desk.file import DeskFile
from grdesk.desk.program import program
from grdesk.desk.row import VOTING, accepted_in, differences, header_in, rows_in
from grdesk.error import Failed, Refused
from grdesk.journal.entry import Entries
from grdesk.journal.listing import running_votes
from grdesk.journal.replay import (
    Replay,
    Step,
    close_by_roll,
    copy_closed,
    has_secret,
    missing_text,
    read_closed,
    unanswered,
    way_to_settle,
)
from grdesk.output import shown

# In how many ways it is tried which open acts have the numbers of which no act is known.
MOST_WAYS = 16
# How many differences a sentence names.
MOST_NAMED = 3


class MadeDesk(NamedTuple):
    """A desk that was made: which open acts are among its acts, by number, its file, and a line for each difference
    between its rows and those of the desk that was found."""

    taken: dict
    file: str
    differences: list


@dataclass
class Comparison:
    """A desk that was found, by its rows, and one in a folder that has `first` acts, into which further ones of the
    journal are entered. `missing` are the numbers after that, up to that of the last act of the desk that was found, of
    which no act is known."""

    entries: Entries
    found: dict
    begun: str
    first: int
    missing: list
    # Whether the acts before the first missing one were entered.
    is_entered: bool = False

    @classmethod
    def begin(cls, entries, found, folder, from_copy=None):
        """Begins in a folder of its own, with a new desk or with a copy of one."""
        begun = str(folder / "made")
        begin_desk(begun, from_copy)
        first = read_closed(header_in, begun, from_copy or "the new desk").accepted
        # A turned bit may have made the number of acts a very high one.
        last = min(accepted_in(found), max(first, entries.last) + len(entries.open) + 1)
        return cls(entries, found, begun, first, entries.missing(first, last))

    @property
    def accepted(self):
        return accepted_in(self.found)

    @property
    def clock(self):
        """The moment of the last act of the desk that was found, or None where a turned bit has taken it away."""
        clock = next(iter(self.found["desk"].values()), {}).get("clock")
        return clock if isinstance(clock, int) else None

    def made_desks(self):
        """The desks that the acts make up to the number of the last one of the desk: one for each way in which open
        acts may be among them, and none where an answer differs from the one that is kept. Where no act is open, such
        a difference is refused."""
        ways = self.ways()
        if not ways or len(ways) > MOST_WAYS or self.first > self.accepted:
            return []
        self.enter_known()
        if ways == [{}]:
            return [MadeDesk({}, self.begun, self.differences_to(self.begun))]
        return [made for number, taken in enumerate(ways) if (made := self.made_with(taken, number))]

    def ways(self):
        """The ways in which open acts may have the numbers of which no act is known, in the order in which they were
        sent: for each way these acts, by number. They may be too many by one."""
        if len(self.missing) > len(self.entries.open):
            return []
        return list(islice(self.ways_after(0, self.missing), MOST_WAYS + 1))

    def ways_after(self, order, missing):
        if not missing:
            yield {}
            return
        for entry in self.entries.open:
            if entry.order > order and self.entries.may_have(entry, missing[0]):
                for others in self.ways_after(entry.order, missing[1:]):
                    yield {missing[0]: entry, **others}

    def enter_known(self):
        """Enters the acts before the first number of which none is known, once."""
        if self.is_entered:
            return
        self.is_entered = True
        last = min([*(number - 1 for number in self.missing[:1]), self.accepted, self.entries.last])
        self.enter(self.begun, {}, self.first, last)

    def made_with(self, taken, number):
        """The desk with these open acts, or None where an answer differs."""
        file = f"{self.begun}.{number}"
        copy_closed(self.begun, file)
        try:
            self.enter(file, taken, self.missing[0] - 1, self.accepted)
        except Refused:
            return None
        return MadeDesk(taken, file, self.differences_to(file))

    def enter(self, file, taken, after, last):
        """Enters the acts with the numbers after this one up to the last into a desk."""
        steps = [Step(taken.get(number) or self.entries.accepted[number], number)
                 for number in range(after + 1, last + 1)]
        replay = Replay(file, self.entries, self.found)
        for step, seconds in zip(steps, self.seconds_of(steps)):
            replay.enter(step, seconds)

    def seconds_of(self, steps):
        """The seconds at one of which each act came: not before one with a lower number, not after one with a higher
        one, and the last one of the desk at its clock."""
        spans = [step.entry.seconds() for step in steps]
        is_within = bool(steps) and steps[-1].number <= self.accepted and self.clock is not None
        earliest, latest, ends = 0, self.clock if is_within else math.inf, []
        for span in reversed(spans):
            latest = min(latest, span[-1])
            ends.append(latest)
        for step, span, end in zip(steps, spans, reversed(ends)):
            earliest = max(earliest, span[0])
            is_last = step.number == self.accepted and self.clock in span
            # Where nothing is left, the rows will differ.
            yield [self.clock] if is_last else range(earliest, end + 1) or span

    def differences_to(self, file):
        return public_differences(self.entries, self.found, read_closed(rows_in, file, "the desk that was made"))


def taken_of(comparison, journal, desk, from_copy):
    """The open acts, by number, that are among the acts of a desk which is to get further ones. Refuses a desk whose
    rows are not those of the first acts of the journal, and one of which nobody can tell."""
    if comparison.first > comparison.accepted:
        raise Refused(f"nothing was entered: {from_copy} has more acts than {desk}; give an earlier copy of it")
    made = comparison.made_desks()
    same = [each.taken for each in made if not each.differences]
    if len(same) == 1:
        return same[0]
    entries = comparison.entries
    if entries.open and (same or not made):
        raise Refused(f"nothing was entered: {unanswered(entries.open)}; {way_to_settle(entries.open)}")
    if made:
        raise Refused(f"nothing was entered: {no_copy(made[0], journal, desk)}")
    missing = missing_text(entries, comparison.missing, has_secret(entries, comparison.found))
    way = "another --from, a later copy" if from_copy else "--from COPY, an earlier copy of it"
    message = f"nothing was entered: {missing}, so nobody can see whether {desk} is the desk of the journal"
    raise Refused(f"{message}; {way} that has them, shows it")


def no_copy(made, journal, desk):
    """That a desk has other rows than the one that was made, which of them, and what to do."""
    named = "; ".join(map(shown, made.differences[:MOST_NAMED]))
    more = "; and more" if made.differences[MOST_NAMED:] else ""
    message = f"{desk} is no copy of the desk of {journal}, since the first acts there make other rows: {named}{more}"
    why = "an act came to it by another way, or a bit turned in it: gr-desk journal check says more"
    return f"{message}. Put a copy of that desk in its place. If it is one, {why}"


def public_differences(entries, found, made):
    """A line for each row and column that differs. Of the ballots of a vote that is running it is only said whether any
    differs: each line would tell of one that it came."""
    hidden = {int(number) for number in running_votes(entries)}
    for rows in found, made:
        hidden |= {key[0] for key, row in rows["resolution"].items() if row["stage"] == VOTING}
    lines = list(differences(*({**rows, "ballot2": ballot_rows(rows, hidden, False)} for rows in (found, made))))
    for number in sorted(hidden, key=repr):
        if ballot_rows(found, {number}, True) != ballot_rows(made, {number}, True):
            lines.append(f"ballot2 resolution {number}: its ballots differ, and no more is said while it is in voting")
    return lines


def ballot_rows(rows, numbers, is_of_them):
    """The rows of the ballots on these resolutions, or on all others."""
    return {key: row for key, row in rows["ballot2"].items() if (key[0] in numbers) == is_of_them}


def begin_desk(made, copy):
    """Makes the desk into which the acts are entered: a new one, or one as this copy."""
    if copy is None:
        ran = subprocess.run([program(), "init", made], stdin=subprocess.DEVNULL, capture_output=True, check=False)
        if ran.returncode != 0:
            raise Failed(f"a new desk could not be made: {ran.stderr.decode(errors='replace').strip()}")
    else:
        copy_desk(desk_at(copy), made)
        check_digests(copy, made, log_of(made))
    close_by_roll(DeskFile(made, copy))
