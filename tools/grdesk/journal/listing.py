"""What a journal says of a desk, in lines for a Secretary. Of a vote that is not closed it says nothing, and of none
who voted how, or with which token or receipt."""
import math
import re
from collections import Counter

from grdesk.acts.act import ROLL
from grdesk.dates import date_of, dated
from grdesk.journal.entry import Fate, arrived
from grdesk.journal.source import source_text
from grdesk.output import counted, shown


def running_votes(entries):
    """The resolutions that are in voting, as far as the journal says. One whose call or whose votes may have been
    accepted is taken for one."""
    found = set()
    for entry in in_order(entries):
        is_done = entry.fate is Fate.ACCEPTED
        if entry.act == "vote" or entry.act == "call" and not (entry.answer or "").endswith(" cancelled\n"):
            found.add(entry.resolution)
        elif entry.act == "close" and is_done:
            found.discard(entry.resolution)
    return found


def in_order(entries):
    """The acts that the desk has or may have, by their numbers. An open one is put just before the first one after
    it."""
    placed = [(number, 1, entry) for number, entry in entries.accepted.items()]
    placed += [(math.inf if entry.below is None else entry.below, 0, entry) for entry in entries.open]
    return [entry for _, _, entry in sorted(placed, key=lambda each: each[:2])]


def tells_of_votes(entries, number):
    """Whether the number that the desk gave an act would tell of a running vote how many ballots came."""
    calls = {entry.resolution: of_call for of_call, entry in entries.accepted.items() if entry.act == "call"}
    return any(number > calls.get(resolution, 0) for resolution in running_votes(entries))


def closed(entries):
    return {entry.resolution for entry in entries.accepted.values() if entry.act == "close"} - running_votes(entries)


def moment_text(entry):
    if entry.moment is not None:
        return dated(entry.moment)
    if entry.after is None:
        return f"{dated(entry.before)} or later"
    return dated(entry.before) if entry.before == entry.after else f"{dated(entry.before)} to {dated(entry.after)}"


class Listing:
    """The lines that `list` prints. The counts of accepted acts are left out while a vote is running."""

    def __init__(self, entries):
        self.entries = entries
        # The number that the desk has now of each act: where one was left out, those after it have lower ones.
        self.numbers = {entry.number: number for number, entry in entries.accepted.items()}
        self.running = running_votes(entries)
        self.closed = closed(entries)

    def lines(self, resolution=None):
        """Those of each act but the votes, or of the acts on one resolution, with its texts."""
        texts = Texts()
        for entry in self.entries.all.values():
            if not entry.is_vote and resolution in (None, entry.resolution):
                yield from self.act(entry)
                if resolution is not None:
                    yield from texts.lines(entry)
        if self.running:
            names = ", ".join(sorted(self.running, key=int))
            yield f"Votes and counts are left out, since resolution {names} is in voting, or may be."

    def act(self, entry):
        """An act, what became of it, and where it came from."""
        words = entry.words() + (f", {counted(count_of_rows(entry), 'row')}" if ROLL in entry.fields else "")
        yield f"{entry.number:>4}  {moment_text(entry)}  {words}"
        yield f"      {self.fate(entry)}"
        if entry.source:
            yield f"      source: {source_text(entry.source)}"
        if entry.why_dropped:
            yield f"      source of the objection: {source_text(entry.why_dropped)}"
        if entry.act == "close" and entry.fate is Fate.ACCEPTED and entry.resolution in self.closed:
            yield f"      ballots by day: {self.by_day(entry.resolution)}"

    def fate(self, entry):
        """What became of an act: the line of the answer where there is one."""
        if entry.fate is Fate.HELD:
            return f"held until {dated(entry.until)}" if entry.until else "held after those before it"
        if entry.answer and entry.fate is not Fate.GONE:
            number = None if self.running else self.numbers.get(entry.number)
            return re.sub("^ok [0-9]+", "ok" if number is None else f"ok {number}", entry.answer.strip())
        return entry.fate.value

    def by_day(self, resolution):
        """How many ballots came on each day, replaced ones too. Those of one run of gr-desk votes have one moment."""
        votes = [each for each in self.entries.accepted.values() if each.is_vote and each.resolution == resolution]
        days = Counter(date_of(arrived(each))[:10] for each in votes)
        return ", ".join(f"{day} {days[day]}" for day in sorted(days)) or "none"


def count_of_rows(entry):
    """How many lines a roll file has after its first one. A name may have what a text of Python ends at."""
    return max(0, len(entry.fields[ROLL].encode(errors="surrogateescape").splitlines()) - 1)


class Texts:
    """The texts of the choices of a resolution, as its acts change them one after the other."""

    def __init__(self):
        self.now = {}

    def lines(self, entry):
        """What an act says of a text: the new one, and the one that it takes away."""
        choice = choice_in(entry)
        if choice is None or entry.fate not in (Fate.ACCEPTED, Fate.GONE):
            return
        if entry.act == "amend" and choice in self.now:
            yield f"      choice {choice} was {shown(self.now[choice]['summary'])}:"
            yield from text_lines(self.now[choice])
            yield f"      and is {shown(entry.fields['summary'])}:"
        yield from text_lines(entry.fields)
        if entry.fate is Fate.ACCEPTED:
            self.now[choice] = entry.fields


def choice_in(entry):
    """The number of the choice of which an act gives the text, or None."""
    if entry.act == "propose":
        return "1"
    if entry.act == "amend":
        return entry.fields["choice"]
    made = entry.act == "choice" and re.search(r" choice ([0-9]+)\n", entry.answer or "")
    return made[1] if made else None


def text_lines(fields):
    for line in fields["text"].removesuffix("\n").split("\n"):
        yield f"      | {shown(line)}"
