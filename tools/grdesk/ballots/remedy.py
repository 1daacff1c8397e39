"""What a Secretary types to enter a ballot that was left undecided, once the voter was asked."""
import shlex
from dataclasses import dataclass
from typing import Optional

from grdesk.ballots.outbox import MESSAGE_ID
from grdesk.dates import date_of
from grdesk.desk.address import Address, Port
from grdesk.journal.entry import Entries
from grdesk.journal.source import acts_from
from grdesk.output import shown


@dataclass
class Remedy:
    """The words of the line for each ballot of a resolution. `clock` is that of the desk once the run is done, and
    `end` is when the vote ends. By a port there is an address in the place of a desk, and no moment is said."""

    number: int
    desk: Optional[str]
    address: Optional[Address]
    journal: str
    entries: Entries
    clock: int
    end: int

    def lines(self, ballot):
        """What the table says."""
        leave = "take it out of its mbox" if ballot.arrival.mail.is_in_box else "move its file out of FOLDER"
        if ballot.arrival.filled is None:
            yield f"its form cannot be read: {ballot.arrival.why}. Ask the voter, and then {leave}"
        elif self.moment(ballot) >= self.end:
            yield f"it can only be entered past the end of the vote: ask the voter, and then {leave}"
        else:
            yield f"ask the voter, and then {leave}; or type this line, then the ranks and the token in a line each:"
            yield f"    {self.line(ballot)}"

    def moment(self, ballot):
        return max(self.clock, ballot.moment)

    def line(self, ballot):
        """The line, in words of a shell. Ranks and token are read from standard input, where no other account sees
        them."""
        mail = ballot.arrival.mail
        source = source_word(mail)
        kept = {"text": source} if not source.startswith("@") else mail.source()
        words = ["gr-desk", "act", *self.desk_words(ballot), f"--journal={self.journal}", f"--source={source}"]
        words += ["--yes"] if acts_from(self.entries, kept) else []
        return shown(shlex.join([*words, "vote", str(self.number), f"login={ballot.login}"]))

    def desk_words(self, ballot):
        if self.desk is not None:
            return [f"--desk={self.desk}", f"--at={date_of(self.moment(ballot))}"]
        value = self.address.number if isinstance(self.address, Port) else self.address.path
        return [f"{self.address.option}={value}"]


def source_word(mail):
    """What stands after --source: the file of the mail. One in an mbox has none of its own, so its Message-ID stands
    there, or its SHA-256 if it has none or one that cannot be typed."""
    own = mail.source()
    if not mail.is_in_box and shown(mail.name) == mail.name:
        return f"@{mail.name}"
    known = own.get("message_id", "")
    return known if MESSAGE_ID.fullmatch(known) else own["sha256"]
