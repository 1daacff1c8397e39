"""The files, mboxes and Maildirs that mails stand in, as bytes. They come from strangers: regular files alone are
opened, no link is followed, and what is passed over has a name and a reason."""
import os
import re
import stat
from contextlib import contextmanager
from dataclasses import dataclass
from functools import cached_property
from typing import NamedTuple, Optional

from grdesk.mail_head import Head

# The folders of a Maildir with mails that were delivered.
PARTS = "new", "cur"
FILE = os.O_RDONLY | os.O_NOFOLLOW | os.O_NONBLOCK | os.O_CLOEXEC
FOLDER = os.O_RDONLY | os.O_NOFOLLOW | os.O_DIRECTORY | os.O_CLOEXEC
# Of a mail that is greater no more is kept than one byte past this, and of it nothing is read.
MOST_BYTES = 10_000_000
PIECE = 1 << 20

KINDS = [(stat.S_ISLNK, "is a link"), (stat.S_ISFIFO, "is a FIFO"), (stat.S_ISSOCK, "is a socket"),
         (stat.S_ISDIR, "is a folder"), (stat.S_ISBLK, "is a device"), (stat.S_ISCHR, "is a device")]
# What a name in a Maildir has behind it, and what two of its letters say.
FLAGS = re.compile(r":2,([A-Za-z]*)")
TRASHED, DRAFT = "is trashed", "is a draft"

# A line before each mail of an mbox: an address, and a date as asctime writes it, with an offset or without one.
ZONE = rb"(?: +(?:[A-Z]{1,5}|[+-][0-9]{4}))?"
SEPARATOR = re.compile(
    rb"From +[^ \t\r\n]+ +(?:Mon|Tue|Wed|Thu|Fri|Sat|Sun) +(?:Jan|Feb|Mar|Apr|May|Jun|Jul|Aug|Sep|Oct|Nov|Dec)"
    rb" +[0-9]{1,2} +[0-9]{1,2}:[0-9]{2}(?::[0-9]{2})?" + ZONE + rb" +[0-9]{4}" + ZONE + rb"[ \t]*\r?\n?"
)


@dataclass(frozen=True, eq=False)
class Item:
    """The bytes of a mail, or of a text: where they stand, the time of their file, and whether others may stand beside
    them there. Of one that is too large `content` is no more than its beginning."""

    name: str
    content: bytes
    modified: int
    is_in_box: bool = False

    @cached_property
    def head(self):
        return Head(self.content)


class Skipped(NamedTuple):
    """What is passed over: its name, why it is, as a sentence without `it`, and the mail, if it is one."""

    name: str
    why: str
    item: Optional[Item] = None


class Unreadable(Exception):
    """Why a file is not opened, as a sentence without `it`."""


def items_at(path):
    """What is in a file, an mbox or a Maildir, in its order there, and what is passed over."""
    name, found, passed = os.fspath(path), [], []
    try:
        if stat.S_ISDIR(os.lstat(name).st_mode):
            with opened_folder(name) as folder:
                put_maildir(name, folder, found, passed)
        else:
            with opened(name) as file:
                put_file(name, file, found, passed)
    except Unreadable as why:
        passed.append(Skipped(name, str(why)))
    except OSError as error:
        passed.append(Skipped(name, f"cannot be read: {error.strerror}"))
    return found, passed


def is_of_mails(path):
    """Whether it is a file or a Maildir. A link is neither."""
    return is_kind(path, stat.S_ISREG) or all(is_kind(os.path.join(path, part), stat.S_ISDIR) for part in PARTS)


def is_kind(path, is_it):
    """Whether a path is a file of this kind, and no link to one."""
    try:
        return is_it(os.lstat(path).st_mode)
    except OSError:
        return False


@contextmanager
def opened(name, folder=None):
    """Opens a regular file."""
    check_kind(os.stat(name, dir_fd=folder, follow_symlinks=False))
    with open(os.open(name, FILE, dir_fd=folder), "rb") as file:
        check_kind(os.fstat(file.fileno()))
        yield file


def check_kind(about):
    if not stat.S_ISREG(about.st_mode):
        raise Unreadable(next((name for is_it, name in KINDS if is_it(about.st_mode)), "is no file"))


@contextmanager
def opened_folder(name, folder=None):
    descriptor = os.open(name, FOLDER, dir_fd=folder)
    try:
        yield descriptor
    finally:
        os.close(descriptor)


# Of files.


class Gathered:
    """Bytes that come one after the other. Of too many the first alone are kept."""

    def __init__(self):
        self.pieces, self.left = [], MOST_BYTES + 1

    def put(self, piece):
        if self.left and piece:
            self.pieces.append(piece[: self.left])
            self.left -= len(self.pieces[-1])

    def item(self, name, modified, is_in_box):
        return Item(name, b"".join(self.pieces), modified, is_in_box)


def put_file(name, file, found, passed):
    """Puts what is in a file: one mail or text, or the mails of an mbox."""
    modified = int(os.fstat(file.fileno()).st_mtime)
    first = file.readline(MOST_BYTES)
    if SEPARATOR.fullmatch(first):
        for number, mail in enumerate(mails_of_mbox(file), start=1):
            item = mail.item(f"{name}, mail {number}", modified, True)
            if why := why_left_out(item.head):
                passed.append(Skipped(item.name, why, item))
            else:
                found.append(item)
        return
    found.append(whole_of(name, file, first, modified))


def whole_of(name, file, first, modified):
    mail = Gathered()
    mail.put(first)
    while mail.left and (piece := file.read(PIECE)):
        mail.put(piece)
    return mail.item(name, modified, False)


def mails_of_mbox(file):
    """The mails of an mbox behind its first line. The empty line before the next mail is not one of them."""
    mail, is_after_empty, held, is_at_begin = Gathered(), False, b"", True
    # A line that is longer is read in pieces.
    while line := file.readline(PIECE):
        if is_at_begin and is_after_empty and SEPARATOR.fullmatch(line):
            yield mail
            mail, is_after_empty, held = Gathered(), False, b""
            continue
        mail.put(held)
        held = line if is_at_begin and line == b"\n" else b""
        mail.put(b"" if held else line)
        is_after_empty = is_at_begin and line in (b"\n", b"\r\n")
        is_at_begin = line.endswith(b"\n")
    yield mail


def why_left_out(head):
    """Why a mail of an mbox with this head is left out, or None."""
    status, more = ("".join(map(head.text, head.all(name))) for name in ("Status", "X-Status"))
    if "D" in status + more:
        return TRASHED
    return DRAFT if "T" in more else None


# Of Maildirs.


def put_maildir(name, folder, found, passed):
    """Puts the mails of a Maildir, in the order of their times."""
    for part in PARTS:
        if not is_folder(part, folder):
            raise Unreadable(f"is no Maildir: it has no folder {part}")
    for part in PARTS:
        place = os.path.join(name, part)
        try:
            with opened_folder(part, folder) as inner:
                for each in sorted(os.listdir(inner)):
                    if not each.startswith("."):
                        put_mail(os.path.join(place, each), each, inner, found, passed)
        except OSError as error:
            passed.append(Skipped(place, f"cannot be read: {error.strerror}"))
    found.sort(key=lambda item: item.modified)


def is_folder(name, folder):
    try:
        return stat.S_ISDIR(os.stat(name, dir_fd=folder, follow_symlinks=False).st_mode)
    except OSError:
        return False


def put_mail(path, name, folder, found, passed):
    """Puts a mail of a Maildir."""
    try:
        with opened(name, folder) as file:
            item = whole_of(path, file, b"", int(os.fstat(file.fileno()).st_mtime))
    except Unreadable as why:
        passed.append(Skipped(path, str(why)))
        return
    except OSError as error:
        passed.append(Skipped(path, f"cannot be read: {error.strerror}"))
        return
    flags = FLAGS.search(name)
    letters = flags[1] if flags and flags.end() == len(name) else ""
    if "T" in letters or "D" in letters:
        passed.append(Skipped(path, TRASHED if "T" in letters else DRAFT, item))
    else:
        found.append(item)
