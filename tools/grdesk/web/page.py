"""The pages of a desk: of each resolution at a moment, from the sheets, and from the rows where there is a file."""
from functools import cached_property

from grdesk.acts.resolution import sheet_in, status_in
from grdesk.dates import date_of
from grdesk.desk.sheet import roll_of, statuses_of
from grdesk.output import note
from grdesk.web.closed_vote import vote_of
from grdesk.web.result import count_parts, outcome_parts
from grdesk.web.stage import Stage


class Pages:
    """The pages of a desk at a moment. `entries` are the acts of its journal, or None."""

    def __init__(self, desk, at, entries):
        self.desk = desk
        self.at = at
        self.entries = entries

    @cached_property
    def roll(self):
        return {developer.login: developer for developer in roll_of(self.desk.sheet("roll"))}

    @cached_property
    def rows(self):
        return self.desk.rows()

    def statuses(self):
        return list(statuses_of(self.desk))

    def stage(self, status):
        row = self.rows and self.rows["resolution"][status.number,]
        return Stage(status, self.roll, self.at, row, self.entries)

    def sheets(self, number):
        """The tally and the result of a closed vote."""
        return sheet_in(self.desk, "tally", number), sheet_in(self.desk, "result", number)

    def page(self, number, status=None):
        """The page of a resolution."""
        status = status or status_in(self.desk, number)
        self.warn_of_past(status)
        stage = self.stage(status)
        if status.stage != "Closed":
            return stage.page()
        tally, result = self.sheets(number)
        vote = vote_of(number, tally, result)
        return stage.page(outcome_parts(vote), count_parts(vote, tally, result))

    def warn_of_past(self, status):
        """Says that a desk keeps no earlier stage, where the moment is before the stage of a resolution began."""
        span = status.voting or status.discussion
        if span and self.at < span[0]:
            what = f"{'voting' if status.voting else 'discussion'} of resolution {status.number}"
            message = f"{what} began {date_of(span[0])}, after {date_of(self.at)}"
            note(f"warning: {message}; its page tells how it is now")
