"""The ballots that came in a folder: for each voter a file, an mbox or a Maildir, named by the login of whom somebody
has checked the identity. Of each mail it is reported when it arrived, what was filled in, or why it is not taken."""
import os
import re
import stat
from collections import Counter
from dataclasses import dataclass
from enum import Enum
from typing import NamedTuple, Optional

from grdesk.acts.refusal import MEANINGS
from grdesk.ballots.form_reader import FilledForm, OfAnotherVote, read_form
from grdesk.ballots.mail import Mail, mails_at
from grdesk.ballots.mailbox import is_kind, is_of_mails
from grdesk.error import Failed, NotRead

LOGIN = re.compile("[a-z0-9][a-z0-9._-]{0,31}", re.ASCII)
ENDS = ".txt", ".eml", ".mbox"
NO_OTHERS = {}


class By(Enum):
    """By what it is known when a mail arrived."""

    HOST = "by the field Received"
    FILE = "by the time of its file"
    # It came before, and what was known then counts.
    JOURNAL = "by the journal"


class Clock(Enum):
    """Whose time it is at which a mail arrived. That of a file may be long after the arrival, and that of an mbox is
    when any mail was put there."""

    HOST = "host"
    FILE = "file"
    BOX = "box"

    def is_surely_after(self, other):
        """Whether a mail with a later time of this kind came after one with a time of another kind, or of none."""
        return self is Clock.HOST or self is Clock.FILE and other in (Clock.FILE, Clock.BOX)


@dataclass
class Arrival:
    """A mail of a voter. What is filled in is None if it is not read, and so is whether it is signed if nothing in the
    mail is read. If `why` says why it is not taken, it may be read all the same."""

    login: str
    mail: Mail
    moment: int
    by: By
    filled: Optional[FilledForm] = None
    why: Optional[str] = None
    is_signed: Optional[bool] = None
    # Whose time the journal has, if the moment is that of the journal and it says so.
    kept_clock: Optional[Clock] = None

    @property
    def clock(self):
        """Whose time the moment is."""
        if self.by is By.FILE:
            return Clock.BOX if self.mail.is_in_box else Clock.FILE
        return Clock.HOST if self.by is By.HOST else self.kept_clock

    @property
    def source(self):
        own = {"clock": self.clock.value} if self.clock else {}
        return {**self.mail.source(), "arrived": self.moment, **own}

    @property
    def is_taken(self):
        return self.filled is not None and self.why is None


class Stray(NamedTuple):
    """What is left out: what is no voter's, and what is passed over of a voter's mails, with the reason, and whether a
    form is filled in there all the same."""

    name: str
    why: str
    is_filled: bool


class Came(NamedTuple):
    """What came in a folder: the arrivals, in the order of their moments, what is left out, and how many ballots are on
    other votes, by the numbers of these."""

    arrivals: list
    strays: list
    elsewhere: Counter


def arrivals_in(folder, form, host, roll, others=NO_OTHERS):
    """What came in a folder. `others` are the forms of the other votes of the desk, and whether each is open."""
    try:
        names = sorted(os.listdir(folder))
    except OSError as error:
        raise Failed(f"{folder} cannot be read: {error.strerror}") from None
    found, strays, elsewhere = [], [], Counter()
    for name in names:
        path = os.path.join(folder, name)
        login = login_of(name, is_kind(path, stat.S_ISDIR))
        if why := why_stray(login, path, roll):
            strays.append(Stray(name, why, is_filled(path, form)))
            continue
        box = mails_at(path)
        for mail in box.mails:
            try:
                found.append(arrival_of(roll[login], mail, form, host, others))
            except OfAnotherVote as other:
                elsewhere[other.form.number] += 1
        strays += [stray_of(each, folder, form) for each in box.passed]
    strays.sort(key=lambda each: not each.is_filled)
    return Came(sorted(found, key=lambda each: each.moment), strays, elsewhere)


def stray_of(passed, folder, form):
    """What is passed over in a file, an mbox or a Maildir of a voter's, by its name in the folder."""
    name = passed.name[len(os.path.join(folder, "")) :]
    return Stray(name, f"it {passed.why}", passed.mail is not None and has_filled(passed.mail, form))


def login_of(name, is_folder):
    """The login that a name gives, or None."""
    base, end = (name, "") if is_folder else os.path.splitext(name)
    return base if (is_folder or end in ENDS) and LOGIN.fullmatch(base) else None


def why_stray(login, path, roll):
    """Why what stands in the folder is no voter's, or None."""
    if is_kind(path, stat.S_ISLNK):
        return "it is a link, and no link is followed"
    if login is None:
        return "its name is no login with .txt, .eml or .mbox after it"
    if not is_of_mails(path):
        return "it is no file, mbox or Maildir"
    return None if login in roll else MEANINGS["NoDeveloper"]


def is_filled(path, form):
    """Whether a form that was filled in stands there, which may be that of a voter whose login is misspelt."""
    return is_of_mails(path) and any(has_filled(mail, form) for mail in mails_at(path).mails)


def has_filled(mail, form):
    try:
        return bool(read_form(form, mail.written().text))
    except NotRead:
        return False


def arrival_of(developer, mail, form, host, others=NO_OTHERS):
    """A mail as it arrived. OfAnotherVote if the ballot in it is on another vote, which answers it. No run of a vote
    that is closed answers what came after its end, so that is refused here."""
    received = mail.received(host)
    moment, by = (mail.modified, By.FILE) if received is None else (received, By.HOST)
    arrival = Arrival(developer.login, mail, moment, by)
    try:
        written = mail.written()
        arrival.is_signed = written.is_signed
        arrival.filled = read_form(form, written.text, others)
    except OfAnotherVote as other:
        if others[other.form] or moment < other.form.end:
            raise
        arrival.why = f"{other}, and that vote is over"
    except NotRead as why:
        arrival.why = str(why)
    return arrival
