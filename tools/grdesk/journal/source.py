"""Where acts came from: what a journal keeps of that, and which of its acts came from there too."""
import hashlib

from grdesk.error import Failed, Wrong
from grdesk.journal.entry import Fate
from grdesk.mail_head import Head
from grdesk.output import shown
from grdesk.regular_file import open_regular

# What is said of an act that came from the same source as another one.
FATES = {
    Fate.ACCEPTED: "was accepted",
    Fate.HELD: "is held",
    Fate.OPEN: "was sent, and no answer to it is kept",
}

# What stands before a part of a source.
PARTS = {"text": "", "message_id": "Message-ID ", "sha256": "SHA-256 "}


def source_of(text):
    """What is kept of where an act came from: a text as it is, or of a mail in a file its Message-ID and SHA-256."""
    if not text:
        return None
    if not text.startswith("@"):
        return {"text": text}
    try:
        with open_regular(text[1:]) as file:
            mail = file.read()
    except OSError as error:
        raise Wrong(f"{text[1:]!r} cannot be read: {error.strerror}") from None
    except Failed:
        raise Wrong(f"{text[1:]!r} is no file: save the mail in one, and name that") from None
    head = Head(mail)
    return source_of_mail(mail, head.message_ids() if head.is_of_a_mail else [])


def source_of_mail(content, message_ids):
    """What is kept of a mail: its SHA-256, and its Message-ID if it has one, and no other beside it."""
    digest = {"sha256": hashlib.sha256(content).hexdigest()}
    return {"message_id": message_ids[0], **digest} if len(message_ids) == 1 else digest


def source_text(source):
    """A source in words."""
    return ", ".join(f"{PARTS.get(name, '')}{shown(str(part))}" for name, part in source.items())


def acts_from(entries, source):
    """The acts of a journal with the same source: one Message-ID, one SHA-256 or one text. A Message-ID may have been
    given as a text. Acts that the desk has not, and will not have, are none of them."""
    marks = marks_of(source)
    return [entry for entry in entries.all.values() if entry.fate in FATES and marks & marks_of(entry.source)]


def marks_of(source):
    return {bare_message_id(str(part)) for part in (source or {}).values()}


def bare_message_id(text):
    """A Message-ID without its angle brackets, which a text may leave out, or another text."""
    text = text.strip()
    return text[1:-1] if text.startswith("<") and text.endswith(">") else text
