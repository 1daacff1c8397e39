"""The mails in a file, an mbox or a Maildir, and of each what a voter wrote, when it arrived and from whom it is. No
signature is checked, and nothing that a stranger wrote stops it."""
import re
from functools import cached_property
from typing import NamedTuple, Optional

from grdesk.ballots.mailbox import MOST_BYTES, Item, items_at
from grdesk.ballots.signed_text import Written, written_in_mail, written_in_text
from grdesk.error import NotRead
from grdesk.journal.source import source_of_mail

TWO_IDS = "the mail has two different fields Message-ID"
TOO_LARGE = f"the mail has more than {MOST_BYTES:,} bytes; send only the form"
RECEIVED = re.compile(rb"^received[ \t]*:", re.I | re.M)
# No more characters of a sender are shown.
MOST_OF_A_SENDER = 100


class Mail(Item):
    """A mail, or a text that is none. It is parsed and hashed once, however often something is asked of it."""

    @classmethod
    def of(cls, item):
        """The mail that stands there, with its head if that was parsed already."""
        mail = cls(item.name, item.content, item.modified, item.is_in_box)
        vars(mail).update(vars(item))
        return mail

    @cached_property
    def is_mail(self):
        return self.is_in_box or self.head.is_of_a_mail

    @cached_property
    def message_ids(self):
        return self.head.message_ids() if self.is_mail else []

    def source(self):
        """Where a vote comes from, as a journal keeps it."""
        return dict(self.kept_source)

    @cached_property
    def kept_source(self):
        return source_of_mail(self.content, self.message_ids)

    def key(self):
        """By what it is known: its Message-ID, or the SHA-256 of what has none. One that was delivered twice has other
        lines in its head the second time."""
        return self.kept_source.get("message_id") or self.kept_source["sha256"]

    def received(self, host):
        """When this host received it, by the field at its top, or None."""
        return self.head.received(host) if self.is_mail else None

    def host(self):
        """The host that received it, by the same field, or nothing."""
        return self.head.host_and_date()[0] if self.is_mail else ""

    @cached_property
    def has_received(self):
        """Whether a line `Received:` is in its head, or anywhere in a text that is no mail."""
        return self.head.has_received or not self.is_mail and bool(RECEIVED.search(self.content))

    def date(self):
        """The voter's own date, which anybody may write, or None."""
        return self.head.date() if self.is_mail else None

    def senders(self):
        """The addresses in its fields From, in small letters."""
        return tuple(self.head.senders()) if self.is_mail else ()

    def sender_text(self):
        """What its From says, for a table. If that is long, it is the addresses alone, so that no name hides them."""
        text = self.head.sender_text() if self.is_mail else ""
        if len(text) > MOST_OF_A_SENDER:
            text = ", ".join(self.senders()) or text
        return text if len(text) <= MOST_OF_A_SENDER else f"{text[: MOST_OF_A_SENDER - 2]}.."

    def written(self):
        """What the voter wrote: what is signed, if something is. NotRead has the reason if it is not read."""
        if isinstance(self.outcome, Written):
            return self.outcome
        raise NotRead(self.outcome)

    @cached_property
    def outcome(self):
        """What was written, or why it is not read."""
        if len(self.content) > MOST_BYTES:
            return TOO_LARGE
        if len(self.message_ids) > 1:
            return TWO_IDS
        try:
            return written_in_mail(self.content, self.head) if self.is_mail else written_in_text(self.content)
        except NotRead as why:
            return str(why)
        except Exception as error:  # Whatever a stranger wrote, it is this mail alone that is not read.
            return f"it cannot be read as a mail: {type(error).__name__}"


class SkippedMail(NamedTuple):
    """What is passed over: its name, why it is, as a sentence without `it`, and the mail, if it is one."""

    name: str
    why: str
    mail: Optional[Mail] = None


class Box(NamedTuple):
    """The mails that stand at a place, and what is passed over there."""

    mails: list
    passed: list


def mails_at(path):
    """The mails in a file, an mbox or a Maildir, in their order there, and what is passed over."""
    found, skipped = items_at(path)
    passed = [SkippedMail(each.name, each.why, Mail.of(each.item) if each.item else None) for each in skipped]
    return Box([Mail.of(item) for item in found], passed)
