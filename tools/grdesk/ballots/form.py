"""The form for a ballot: what it says of a vote that was called, and its text, as it is sent out."""
import hashlib
import textwrap
from dataclasses import dataclass

from grdesk.acts.refusal import STAGE_TEXTS
from grdesk.dates import date_of
from grdesk.desk.limit import DAY
from grdesk.desk.rank import DEFAULT_OPTION, NO_RANK, rank_number
from grdesk.desk.sheet import status_of, statuses_of
from grdesk.error import Refused
from grdesk.output import shown

# What stands around the lines that a voter fills in. Neither begins with a hyphen, before which a signature in the text
# would put another one.
BEGIN, END = "+++++ ballot begins +++++", "+++++ ballot ends +++++"
IDENTIFIER, TOKEN = "Identifier:", "Token:"
# How broad the lines of a mail are, but those of options.
WIDTH = 72

HOW = """\
Send the lines between the two marker lines back, with a number in each box: 1 for what you prefer to all else, and
greater ones up to 35 in falling preference. Two boxes may have the same number, and numbers may be left out. A box with
- or with nothing has no rank: it comes after each one that has, and is level with the others that have none. Change
nothing else between the marker lines. Other text may stand around them, and the form may be quoted. The mail has to
have it as plain text. It may be signed, and not encrypted.

A form on which all boxes are empty is not counted. A - in each box is an empty ballot, which counts for the number of
ballots alone. Of several ballots of one voter the last one that arrives counts.

After "Token:" you may write 8 to 64 letters and digits that nobody can guess, and that you use nowhere else. If it
stays empty, one is made for you. Token and receipt are sent to you once the ballot is counted. By them you find it in
the tally, and so can whoever else reads them."""


@dataclass(frozen=True)
class Form:
    """The form for the ballots on a resolution. The summaries are those of its options in the order of their places."""

    number: int
    begin: int
    end: int
    developers: int
    summaries: tuple

    def option(self, place):
        """What stands after the box of a place."""
        return f"Choice {place}: {self.summaries[place - 1]}"

    @property
    def places(self):
        return range(1, len(self.summaries) + 1)

    @property
    def title(self):
        return title_of(self.number, self.summaries[0])

    def identifier(self):
        """The SHA-256 of what the vote is about, by which a form of another vote is recognised."""
        about = [self.number, self.begin, (self.end - self.begin) // DAY, self.developers]
        return hashlib.sha256("".join(f"{line}\n" for line in [*about, *self.option_lines()]).encode()).hexdigest()

    def option_lines(self):
        return [f"[   ] {self.option(place)}" for place in self.places]

    def filled(self, ranks):
        """The option lines with these ranks in their boxes, which are characters of a desk."""
        marks = (str(rank_number(rank) or NO_RANK) for rank in ranks)
        return [f"[{mark:>2} ] {self.option(place)}" for place, mark in enumerate(marks, start=1)]

    def lines(self):
        """Both marker lines, and what is filled in between them."""
        return [BEGIN, f"{IDENTIFIER} {self.identifier()}", *self.option_lines(), TOKEN, END]

    def times(self):
        until = f"until {date_of(self.end)}. What arrives then or later is not counted"
        return f"Votes are taken from {date_of(self.begin)} {until}. Both are moments in UTC."

    def text(self):
        """The whole form."""
        head = [self.title, "", folded(self.times()), "", folded(HOW), ""]
        return "\n".join([*head, *self.lines(), ""])


def title_of(number, summary):
    """How a resolution is called. A desk keeps no title of it, so the first summary stands for one."""
    return f"Resolution {number}: {summary}"


def folded(text):
    """Paragraphs in lines of the breadth of a mail."""
    return "\n\n".join(textwrap.fill(part, WIDTH, break_on_hyphens=False) for part in text.split("\n\n"))


def placed_in(status):
    """The choices on the ballot of a resolution, by their places."""
    return sorted((choice for choice in status.choices if choice.place), key=lambda choice: choice.place)


def form_of(status):
    """The form of a vote that was called."""
    if status.voting is None:
        message = f"resolution {status.number} {STAGE_TEXTS[status.stage][0]}"
        raise Refused(f"{message}, and has no ballot before it is called")
    summaries = *(shown(choice.summary) for choice in placed_in(status)), DEFAULT_OPTION
    return Form(status.number, *status.voting, status.developers, summaries)


def forms_of_others(desk, rows, number):
    """The forms of the other votes of a desk with these rows, and whether each is open. Only by a port, where no rows
    are known, each resolution is asked for."""
    if rows is None:
        statuses = (each for each in statuses_of(desk) if each.voting)
    else:
        called = (each for (each,), row in rows["resolution"].items() if row["called"])
        statuses = (status_of(each, desk.sheet("status", each)) for each in called if each != number)
    return {form_of(each): each.stage == "Voting" for each in statuses if each.number != number}
