"""Ballots that are judged in process, without a desk: mails with what matters of them, and a journal of votes."""
import hashlib
import sys
from dataclasses import dataclass
from typing import Optional

from tests.support.called import CALLED, ENDED
from tests.support.program import TOP

sys.path.insert(0, str(TOP / "tools"))
from grdesk.ballots.arrival import Arrival, By  # noqa: E402
from grdesk.ballots.batch import Batch, Standing, ends_in  # noqa: E402
from grdesk.ballots.form_reader import FilledForm  # noqa: E402
from grdesk.desk.receipt import receipt_of  # noqa: E402
from grdesk.desk.sheet import Developer  # noqa: E402
from grdesk.journal.entry import Entries, line_of  # noqa: E402

HOUR = 3_600
# Long after the vote, as for a Secretary who enters ballots at its end.
NOW = ENDED + 10 * HOUR


@dataclass(frozen=True)
class CameMail:
    """A mail, by what is asked of one: its name, what tells it from others, and its From."""

    name: str
    content: str
    message_id: Optional[str] = None
    is_mail: bool = True
    is_in_box: bool = False
    sender: str = ""
    has_received: bool = False

    def source(self):
        digest = {"sha256": hashlib.sha256(self.content.encode()).hexdigest()}
        return {"message_id": self.message_id, **digest} if self.message_id else digest

    def key(self):
        return self.message_id or self.source()["sha256"]

    def date(self):
        return None

    def senders(self):
        return tuple(filter(None, [self.sender.lower()]))

    def sender_text(self):
        return self.sender


def mail_came(login, ranks, hours, token=None, number=None, **more):
    """A mail of a voter, so many hours after the call. Its Message-ID has this number, or another one for each mail;
    ranks None are of a form that is not read."""
    name = f"{login}-{ranks}-{hours}-{token}"
    mail = CameMail(f"came/{name}.eml", f"{name} {number}", f"<{number or name}@example.net>", **more)
    return arrived(login, ranks, hours, token, mail, By.HOST)


def text_came(login, ranks, hours, token=None, name=None):
    """A text that is no mail."""
    content = f"{ranks} {token}"
    mail = CameMail(f"came/{name or login}.txt", content, is_mail=False)
    return arrived(login, ranks, hours, token, mail, By.FILE)


def arrived(login, ranks, hours, token, mail, by):
    filled = None if ranks is None else FilledForm(ranks, token)
    return Arrival(login, mail, CALLED + int(hours * HOUR), by, filled, None if filled else "all boxes are empty")


class Journaled:
    """The votes of a journal, and what the desk has of them."""

    def __init__(self):
        self.entries = Entries()
        self.held = {}
        self.count = 10

    def vote(self, arrival, token, answer="", status=200, moment=None, source=None):
        """A vote that was sent, at its arrival or another moment, and its answer; accepted if nothing is said."""
        number = self.entries.next_number(is_vote=True)
        fields = {"login": arrival.login, "ranks": arrival.filled.ranks, "token": token}
        self.entries.take(line_of(
            "act", number=number, desk="/desk", path="/resolutions/1/vote", fields=fields,
            source=source or arrival.source, moment=moment or arrival.moment, before=None, count=self.count,
        ))
        if answer is None:
            return number
        if status == 200:
            self.count += 1
            digits = receipt_of(1, arrival.login, token)
            self.held[arrival.login] = arrival.filled.ranks, digits
            answer = f"ok {self.count} receipt {digits}\n"
        self.entries.take(line_of("answer", number=number, status=status, text=answer, after=None))
        return number

    def replaced(self, arrival, resolution=1):
        """A ballot that a later one replaced before it was sent."""
        ranks, token = arrival.filled
        what = {"login": arrival.login, "ranks": ranks, "token": token, "source": arrival.source}
        self.entries.take(line_of("replaced", resolution=resolution, **what))


def judged(arrivals, journal=None, **more):
    """A batch of these arrivals."""
    journal = journal or Journaled()
    roll = {f"d{number}": Developer(f"d{number}", number != 9, f"Name {number}") for number in range(1, 10)}
    how = {"number": 1, "end": ENDED, "ends": [ENDED], "now": NOW, "clock": CALLED, "stored": journal.held,
           "entries": journal.entries, "reported": set(), "roll": roll, **more}
    batch = Batch(**how)
    batch.take(sorted(arrivals, key=lambda each: each.moment))
    return batch


def cases_of(batch):
    """How it stands with each ballot, by the name of its mail."""
    return {each.arrival.mail.name: each.standing for each in batch.ballots}


__all__ = ["CALLED", "ENDED", "HOUR", "NOW", "By", "CameMail", "Case", "Journaled", "arrived", "cases_of", "ends_in",
           "judged", "mail_came", "text_came"]
