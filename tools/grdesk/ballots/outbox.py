"""An outbox: a folder with the mails to voters, which its owner alone may read. A mail has a voter's token beside the
login, so it is for that voter alone. No mail is written twice, also where the first was sent and taken away since."""
import os
import re
import stat
from contextlib import suppress
from email.message import EmailMessage
from email.policy import default

from grdesk.error import Failed, Refused
from grdesk.new_file import BEGUN, Folder, naming, write_all

# Lines of a mail that are not folded: up to so many characters one may have (RFC 5322, 2.1.1).
POLICY = default.clone(max_line_length=998, cte_type="8bit")
# A Message-ID that an answer can name (RFC 5322, 3.6.4). One of any other form would break the head of the answer.
MESSAGE_ID = re.compile("<[!-~]{1,900}>")
# A SHA-256 in a line for each mail that was written, and each ballot that was reported. By this file an outbox is
# known.
WRITTEN = ".written"


class Outbox:
    """An outbox that is there, or was made."""

    def __init__(self, folder):
        self.folder = folder
        try:
            with suppress(FileExistsError):
                os.mkdir(folder, 0o700)
            self.place = Folder(folder)
            check_private_folder(self.place)
            self.written = self.place.open(WRITTEN, os.O_RDWR | os.O_CREAT | os.O_APPEND)
        except OSError as error:
            raise Failed(f"{folder} cannot be used as an outbox: {error.strerror}") from None
        if not stat.S_ISREG(os.fstat(self.written).st_mode):
            raise Failed(f"{folder} cannot be used as an outbox: {self.place.path_of(WRITTEN)} is no file; remove it")
        with open(self.written, "rb", closefd=False) as file:
            lines = file.read()
        # A stop may have cut off the last one, and left a mail without its name.
        self.length = lines.rfind(b"\n") + 1
        os.ftruncate(self.written, self.length)
        self.digests = set(lines[: self.length].decode().split())
        for name in self.place.names():
            if name.endswith(BEGUN):
                self.place.remove(name)

    def has(self, digest):
        """Whether the mail with this digest was written before, or the ballot reported."""
        return digest in self.digests

    def put(self, login, answer):
        """Writes an answer, where it was not written before: under its name at once and whole. Gives whether it did.
        The mail and its name are on the disk before the outbox says that it was written. Fails by an OSError that has
        the path of the mail, or of what says which were written."""
        if self.has(answer.digest):
            return False
        self.place.put(f"{login}.{answer.digest[:16]}.eml", answer.mail.as_bytes())
        self.keep([answer.digest])
        return True

    def keep(self, digests):
        """Keeps those digests that are new."""
        new = [each for each in digests if not self.has(each)]
        if new:
            lines = "".join(f"{each}\n" for each in new).encode()
            with naming(self.place.path_of(WRITTEN)):
                try:
                    write_all(self.written, lines)
                    os.fsync(self.written)
                except BaseException:
                    os.ftruncate(self.written, self.length)
                    raise
            self.length += len(lines)
            self.digests.update(new)

    def end(self):
        self.place.sync()


def check_private_folder(place):
    """Refuses a folder that is not this account's alone, or that has something and is no outbox."""
    about = place.about()
    if about.st_uid != os.geteuid():
        raise Refused(f"nothing was done: {place.path} belongs to another account: name an outbox of your own")
    if about.st_mode & 0o077:
        message = f"nothing was done: other accounts may enter {place.path}, which shows who voted how"
        raise Refused(f"{message}: chmod 700 it")
    names = place.names()
    if names and WRITTEN not in names:
        raise Refused(f"nothing was done: {place.path} is not empty, and is not an outbox: name a new folder")


def check_apart(folder):
    """Refuses a folder that will be public, and that holds an outbox, or lies in one."""
    place = os.path.realpath(folder)
    above = place
    while True:
        if os.path.lexists(os.path.join(above, WRITTEN)):
            raise Refused(f"nothing was written: {folder} is inside the outbox {above}: name another folder")
        if above == os.path.dirname(above):
            break
        above = os.path.dirname(above)
    for below, _, files in os.walk(place):
        if WRITTEN in files:
            raise Refused(f"nothing was written: {folder} contains the outbox {below}: name another folder")


def mail_of(subject, text, to, answered):
    """A mail to a voter, as an answer to one of his."""
    mail = EmailMessage(policy=POLICY)
    mail["Subject"] = subject
    if to:
        mail["To"] = to
    if answered and MESSAGE_ID.fullmatch(answered):
        mail["In-Reply-To"] = answered
    mail.set_content(text)
    return mail
