"""Who voted on a resolution whose vote is closed, from the rows of a copy of its desk."""
from typing import NamedTuple

from grdesk.acts.resolution import sheet_in, status_in
from grdesk.desk.rank import preference_of
from grdesk.desk.sheet import roll_of
from grdesk.output import counted, shown

# Where fewer voted, the ballots of the tally are nearly revealed by who voted.
FEW = 5
ALIKE = "all ballots are alike, so that this list tells who voted how"


class Electorate(NamedTuple):
    """Who has a ballot: logins with names, by login. `developers` are those who were current at the call."""

    number: int
    developers: int
    voters: list
    are_alike: bool

    def text(self):
        """The list."""
        count = f"{self.developers} current at the call, {len(self.voters)} voted"
        lines = [f"Voters on resolution {self.number}", f"Developers: {count}"]
        return "\n".join([*lines, *(f"{login} {shown(name)}" for login, name in self.voters), ""])

    def warnings(self):
        """Why the list reveals more than who voted."""
        if 0 < len(self.voters) < FEW:
            yield f"only {counted(len(self.voters), 'developer')} voted, so that the tally nearly tells who voted how"
        if self.voters and self.are_alike:
            yield ALIKE

    def reveals(self):
        """Why the list shows how somebody voted, beside the tally, or None."""
        if len(self.voters) == 1:
            return "only 1 developer voted, so that the tally tells how"
        return ALIKE if self.voters and self.are_alike else None


def order_of(ranks):
    """The order that ranks make, as the places among those given: 13 and 24 say the same."""
    marks = sorted(set(ranks), key=preference_of)
    return tuple(map(marks.index, ranks))


def electorate_of(desk, number):
    """Who voted. Before the close the desk refuses the tally, and so this."""
    sheet_in(desk, "tally", number)
    names = {developer.login: developer.name for developer in roll_of(desk.sheet("roll"))}
    rows = {login.decode(): row for (of, login), row in desk.rows()["ballot2"].items() if of == number}
    are_alike = len({order_of(row["ranks"].decode()) for row in rows.values()}) == 1
    voters = [(login, names[login]) for login in sorted(rows)]
    return Electorate(number, status_in(desk, number).developers, voters, are_alike)
