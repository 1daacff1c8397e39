"""Ballots that came in a folder, for tests that look at gr-desk votes: forms that are filled in, as files, mails,
boxes and folders with the times at which they arrived, and the mails that an outbox got for them."""
import email
import email.policy
import mailbox
import os
import re
import stat
from datetime import datetime, timezone
from email.message import EmailMessage
from email.utils import format_datetime

from tests.support.journaled import rows_of
from tests.support.program import fail, tool, expect

HOST = "vote.example.org"


class Folder:
    """A folder with ballots for a resolution in voting."""

    def __init__(self, place, desk):
        self.place = place
        place.mkdir()
        ran = tool("ballot", "form", desk.file, 1)
        expect("form", ran[::2], (0, b""))
        self.form = ran.out.decode()

    def filled(self, ranks, token=""):
        """The form with these ranks, a character for each place: a digit, or - for a box that is left empty."""
        text = self.form.replace("\nToken:", f"\nToken: {token}")
        for place, rank in enumerate(ranks, start=1):
            text = text.replace(f"[   ] Choice {place}:", f"[ {rank if rank != '-' else ' '} ] Choice {place}:")
        return text

    def text(self, login, content, at):
        """A text that came at a moment."""
        return self.put(f"{login}.txt", content.encode(), at)

    def mail(self, login, mail, at):
        return self.put(f"{login}.eml", mail.as_bytes(), at)

    def put(self, name, content, at):
        path = self.place / name
        path.write_bytes(content)
        os.utime(path, (at, at))
        return path

    def mbox(self, login, *mails, at):
        path = self.place / f"{login}.mbox"
        box = mailbox.mbox(path)
        for each in mails:
            box.add(each)
        box.close()
        os.utime(path, (at, at))

    def maildir(self, login, *mails):
        """A Maildir, of mails with the times of their files."""
        box = mailbox.Maildir(self.place / login)
        for each, at in mails:
            path = self.place / login / "new" / box.add(each)
            os.utime(path, (at, at))


def date_field(at, offset="+0000"):
    return format_datetime(datetime.fromtimestamp(at, timezone.utc)).replace("+0000", offset)


def mail_of(text, number, received=None, host=HOST, dated=None, before="voter.example.net", offset="+0000"):
    """A mail with this text, which a host received at a moment, and another one before it."""
    mail = EmailMessage()
    if received:
        date = date_field(received, offset)
        mail["Received"] = f"from voter (by accident) by {host} (Postfix) with ESMTPS id 1; {date} (UTC)"
        mail["Received"] = f"from home by {before}; {date_field(received - 3_600)}"
    mail["From"] = "voter@example.net"
    mail["Message-ID"] = f"<{number}@example.net>"
    if dated:
        mail["Date"] = date_field(dated)
    mail.set_content(text)
    return mail


def answers_in(outbox):
    """The texts of the mails in an outbox, by login, each of which its owner alone may read."""
    expect("the mode of the outbox", stat.filemode(outbox.stat().st_mode), "drwx------")
    found = {}
    for path in sorted(outbox.iterdir()):
        expect(f"the mode of {path.name}", stat.filemode(path.stat().st_mode), "-rw-------")
        if path.suffix == ".eml":
            mail = email.message_from_bytes(path.read_bytes(), policy=email.policy.default)
            found.setdefault(path.name.rsplit(".", 2)[0], []).append((mail, mail.get_content()))
    return found


def receipt_in(text):
    """The receipt that a mail reports, and its token."""
    found = re.search(r"^Token: ([A-Za-z0-9]{8,64})\nReceipt: ([0-9a-f]{64})$", text, re.M)
    if not found:
        fail(f"no token and receipt are in\n{text}")
    return found[2], found[1]


def votes(*words, journal, **streams):
    return tool("votes", "--journal", journal, *words, **streams)


def ballots_in(file):
    """The ballots of a desk: ranks, receipt and received by login."""
    return {login: tuple(rest) for _, login, *rest in rows_of(file)["ballot2"]}


def says(what, ran, status, *texts):
    """A run ended with this status, and said these texts, whatever the blanks between their words."""
    said = " ".join((ran.out + ran.err).decode().split())
    for text in texts:
        if text not in said:
            fail(f"{what} does not say {text!r}, but {said}")
    expect(f"the status of {what}", ran.status, status)
