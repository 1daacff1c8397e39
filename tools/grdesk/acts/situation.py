"""An act as it is explained, and the desk where that is looked at, by its sheets and, in a file, by its rows."""
from dataclasses import dataclass, replace
from functools import cached_property
from typing import Optional

from grdesk.acts.act import ACTS, Act
from grdesk.dates import dated
from grdesk.desk.sheet import NotGiven, outcome_of, roll_of, status_of


class DeskView:
    """A desk that is looked at. It is opened where something is asked of it that is not known yet."""

    def __init__(self, open_desk, known):
        self.open_desk = open_desk
        self.answers = known

    @cached_property
    def desk(self):
        return self.open_desk()

    def sheet(self, form, *words):
        """What a form makes of a sheet, or None where the desk refuses it."""
        if words not in self.answers:
            try:
                self.answers[words] = form(self.desk.sheet(*words))
            except NotGiven:
                self.answers[words] = None
        return self.answers[words]

    def status(self, number):
        return self.sheet(lambda text: status_of(number, text), "status", number)

    def roll(self):
        """The developers by their logins."""
        return self.sheet(lambda text: {each.login: each for each in roll_of(text)}, "roll")

    def outcome(self, number):
        return self.sheet(lambda text: outcome_of(number, text), "result", number)

    def rows(self, table):
        """The rows of a table of the desk, or None where only its sheets are read."""
        if "rows" not in self.answers:
            self.answers["rows"] = self.desk.rows()
        return self.answers["rows"] and self.answers["rows"][table]

    def clock(self):
        header = self.rows("desk")
        return header and header[1,]["clock"]

    def tried(self, act, at):
        """What the desk would answer to an act at a moment, or None where that is not tried."""
        return self.desk.tried(act.request(), at)


@dataclass
class Situation:
    """An act, and the desk where it is seen. `at` is the moment of the act, or near it where that was a port's."""

    name: str
    resolution: Optional[int]
    values: dict
    at: int
    view: Optional[DeskView]

    def act(self):
        return Act(ACTS[self.name][0].replace("{r}", str(self.resolution)), self.values)

    def at_moment(self, moment):
        """The same act at another moment."""
        return replace(self, at=moment)

    def text(self, field):
        return self.values[field].decode(errors="replace")

    def status(self):
        return self.view.status(self.resolution)

    def choice(self):
        """The choice that the act names."""
        return next(each for each in self.status().choices if each.number == int(self.values["choice"]))

    def login(self):
        return self.text("login" if "login" in self.values else "author")

    def named(self):
        return f"resolution {self.resolution}"

    def named_choice(self):
        return f"choice {int(self.values['choice'])} of {self.named()}"

    def earlier(self, end):
        """What is said where only a date before an end could do."""
        clock = self.view.clock()
        if clock is None:
            return f"only a date before {dated(end)} would do"
        if clock >= end:
            return f"no date would do any more: the desk's clock is at {dated(clock)}"
        return f"only a date from {dated(clock)} to {dated(end - 1)} would do"
