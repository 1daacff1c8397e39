"""The parts of a mail: where each lies in it, what it is, and what it has. How deep they may stand in one another, and
how many there may be, has a limit, so that no mail takes long."""
import base64
import binascii
import re
from dataclasses import dataclass
from functools import cached_property
from typing import Optional

from grdesk.error import NotRead
from grdesk.mail_head import Head, decoded
from grdesk.output import quoted

MOST_PARTS, MOST_LEVELS = 500, 30
# No more bytes are decoded of attached mails, each of which may have another one.
MOST_DECODED = 30_000_000
# Base64 that is put together of more pieces than these is damaged.
MOST_PIECES = 100
# What changes no byte of a part.
AS_IT_IS = "", "7bit", "8bit", "binary"
ENCODINGS = *AS_IT_IS, "quoted-printable", "base64"

TOO_DEEP = "the mail has too many parts in one another"
TOO_MANY = f"the mail has more than {MOST_PARTS} parts"
TOO_LARGE = f"the mails that are attached have more than {MOST_DECODED:,} bytes; send only the form"
NO_BOUNDARY = "the mail has parts, and does not say what separates them"
DAMAGED_BASE64 = "a text of the mail is damaged: it is not valid base64"
BASE64 = re.compile(rb"[A-Za-z0-9+/]*={0,2}")
NO_DIGITS = re.sub(rb"[A-Za-z0-9+/]", b"", bytes(range(256)))


@dataclass(frozen=True, eq=False)
class Part:
    """A part, which lies in a text from `begin` to `end`, behind its head. Of a multipart `parts` are those in it, and
    of a mail that is attached the mail."""

    whole: bytes
    begin: int
    end: int
    kind: str = "text/plain"
    charset: Optional[str] = None
    encoding: str = ""
    parts: tuple = ()

    @property
    def is_multipart(self):
        return self.kind.startswith("multipart/")

    @property
    def is_encoded(self):
        return self.encoding not in AS_IT_IS

    @property
    def raw(self):
        return self.whole[self.begin : self.end]

    @cached_property
    def content(self):
        """What it has once it is decoded. Of base64 that is damaged all is decoded that can be."""
        return content_of(self.raw, self.encoding)

    def text(self, content):
        """What is in it, or in a piece of it, as a text."""
        if self.encoding == "base64" and not BASE64.fullmatch(self.raw.translate(None, b" \t\r\n")):
            raise NotRead(DAMAGED_BASE64)
        return decoded(content, "utf-8" if self.charset is None else self.charset)

    def tree(self):
        """It and the parts in it, but none of a mail that is attached."""
        yield self
        if self.is_multipart:
            for part in self.parts:
                yield from part.tree()

    def all(self):
        """It and all in it, also of mails that are attached."""
        yield self
        for part in self.parts:
            yield from part.all()


def content_of(raw, encoding):
    if encoding == "quoted-printable":
        # A lone CR is no line end, behind which the rest of the line would be left out.
        return binascii.a2b_qp(re.sub(rb"=\r(?!\n)", b"=3D\r", raw))
    if encoding == "base64":
        return b"\n".join(map(from_base64, re.split(rb"=[=\s]*", raw, maxsplit=MOST_PIECES)))
    return raw


def from_base64(piece):
    piece = piece.translate(None, NO_DIGITS)
    return base64.b64decode(piece[: len(piece) - (len(piece) % 4 == 1)] + b"==")


def parts_of(head):
    """The mail with this head as the part that it is."""
    return PartReader().part(head, len(head.content))


class PartReader:
    """Finds the parts of one mail, and counts them and the bytes of those that are decoded."""

    def __init__(self):
        self.count = self.decoded = 0

    def part(self, head, end, level=0, default="text/plain"):
        """What stands behind a head, up to its end."""
        self.count += 1
        if level > MOST_LEVELS:
            raise NotRead(TOO_DEEP)
        if self.count > MOST_PARTS:
            raise NotRead(TOO_MANY)
        whole, kind, encoding = head.content, head.kind(default), head.encoding()
        if encoding not in ENCODINGS:
            raise NotRead(f"a part of the mail is encoded in {quoted(encoding)}, which is not known here")
        found = ()
        if kind.type.startswith("multipart/"):
            if encoding not in AS_IT_IS:
                raise NotRead(f"a part of the mail that has others in it is encoded in {quoted(encoding)}")
            found = tuple(self.parts(whole, head.body, end, level, kind))
        elif kind.type.startswith("message/"):
            found = (self.attached(whole, head.body, end, level, encoding),)
        return Part(whole, head.body, end, kind.type, kind.charset, encoding, found)

    def attached(self, whole, begin, end, level, encoding):
        """The mail that is attached in a part."""
        if encoding not in AS_IT_IS:
            whole = content_of(whole[begin:end], encoding)
            begin, end = 0, len(whole)
            self.decoded += end
            if self.decoded > MOST_DECODED:
                raise NotRead(TOO_LARGE)
        return self.part(Head(whole, begin, end), end, level + 1)

    def parts(self, whole, begin, end, level, kind):
        """The parts of a multipart. The line between two of them ends the one, with the line end before it."""
        if not kind.boundary:
            raise NotRead(NO_BOUNDARY)
        default = "message/rfc822" if kind.type == "multipart/digest" else "text/plain"
        last = None
        for line in lines_between(whole, begin, end, kind.boundary):
            if last is not None:
                part_end = line.start() - (whole[line.start() - 1 : line.start()] == b"\r")
                part_end = max(last, part_end)
                yield self.part(Head(whole, last, part_end), part_end, level + 1, default)
            if line[1]:
                return
            last = min(end, line.end() + 1)
        if last is not None:
            yield self.part(Head(whole, last, end), end, level + 1, default)


def lines_between(whole, begin, end, boundary):
    """The lines between the parts of a multipart, each with the LF before it. The head before it ends in one, too."""
    line = rb"\n--" + re.escape(boundary.encode("utf-8", "surrogateescape")) + rb"(--)?[ \t]*\r?(?=\n|\Z)"
    return re.compile(line).finditer(whole, max(begin - 1, 0), end)
