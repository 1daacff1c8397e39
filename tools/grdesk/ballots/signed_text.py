"""Which text of a mail is read: one place alone, that somebody who verifies its signature takes too. Where several
could be that place, nothing is read."""
import re
from typing import NamedTuple

from grdesk.ballots.armour import (
    DETACHED,
    MORE_THAN_ONE,
    NO_SIGNATURE_IN_IT,
    WHOLE,
    WHY_ENCRYPTED,
    Armour,
    ArmourReader,
    check_lengths,
    is_signature,
    piece_in,
)
from grdesk.ballots.form import BEGIN, END
from grdesk.ballots.mail_part import Part, parts_of
from grdesk.error import NotRead

ENCRYPTED = ["multipart/encrypted", "application/pgp-encrypted", "application/pkcs7-mime", "application/x-pkcs7-mime"]
PGP_SIGNATURE = "application/pgp-signature"
SIGNATURES = [PGP_SIGNATURE, "application/pkcs7-signature", "application/x-pkcs7-signature"]
MARKERS = BEGIN.encode(), END.encode()
# The end of a line in quoted-printable that is none in the file.
LINE_END = re.compile(rb"=0[Aa]")
# Versions of signatures, and methods of compression.
VERSION = re.compile(rb"[\0-\6]")

NO_TEXT = "the mail has no text that is plain; send the form as plain text, and not as HTML alone"
OUTSIDE = "the form stands outside what is signed; send only the form, signed or not"
BESIDE = "the mail has something signed besides the text that would be read; send only the form"
PACKETS = "the text begins as a signed message without armour does; send the form as plain text"
WRONG_SHAPE = ("the mail is signed in an unusual way: a multipart/signed must have a text, then its signature, and "
               "nothing else")


class Written(NamedTuple):
    """What a voter wrote, and whether it is signed. The signature is not checked."""

    text: str
    is_signed: bool


def written_in_text(content):
    """What is written in a text that is no mail."""
    check_begin(content)
    return MailOfParts(content, Part(content, 0, len(content))).written()


def written_in_mail(content, head):
    """What is written in a mail."""
    check_begin(content)
    return MailOfParts(content, parts_of(head)).written()


def check_begin(content):
    """Looks whether a file may begin with a packet. A verifier takes it for a signed message then, and the text in it
    or behind it for none. No signature is UTF-8 by chance. A compressed message may be made so, but it has its method,
    a byte of at most 3, as a signature that is not compressed has its version."""
    if content[:1] >= b"\x80":
        try:
            content.decode()
        except UnicodeDecodeError:
            raise NotRead(PACKETS) from None
        if VERSION.search(content):
            raise NotRead(PACKETS)


class MailOfParts:
    """A mail with its parts, and the armour lines in it: those of the file as it is, and those of each part that only
    show once it is decoded."""

    def __init__(self, content, whole):
        self.content, self.whole = content, whole
        self.parts = list(whole.tree())
        self.reader, self.found = ArmourReader(), {}
        self.raw = self.reader.lines(content)
        self.encoded = [part for part in whole.all() if part.is_encoded]
        self.hidden = [part for part in self.encoded if self.armour_of(part)]
        # A mail that is attached may be signed without armour.
        self.foreign = [part for part in whole.all() if part.kind == "multipart/signed" and part not in self.parts]

    def armour_of(self, part):
        """The armour lines of a part, once it is decoded."""
        if part not in self.found:
            self.found[part] = self.reader.lines(part.content)
        return self.found[part]

    def written(self):
        if any(part.kind in ENCRYPTED for part in self.parts):
            raise NotRead(WHY_ENCRYPTED)
        wholes = [part for part in self.parts if part.kind == "multipart/signed"]
        if len(wholes) > 1:
            raise NotRead(MORE_THAN_ONE)
        if wholes:
            return self.in_signed_part(wholes[0])
        texts = [part for part in self.parts if part.kind == "text/plain"]
        armoured = [text for text in texts if self.armour_of(text)]
        if not self.raw and not self.hidden and not self.foreign and not armoured:
            return Written(joined(texts), False)
        if len(armoured) > 1:
            raise NotRead(MORE_THAN_ONE)
        if not armoured:
            raise NotRead(OUTSIDE if any(map(has_marker, (text.content for text in texts))) else BESIDE)
        return self.in_its_midst(armoured[0])

    def in_signed_part(self, signed):
        """What is written in a multipart/signed: the texts in its first part."""
        if len(signed.parts) != 2 or signed.parts[1].kind not in SIGNATURES:
            raise NotRead(WRONG_SHAPE)
        first, signature = signed.parts
        texts = [part for part in first.tree() if part.kind == "text/plain"]
        if within := [line.armour for text in texts for line in self.armour_of(text)]:
            raise NotRead(WHY_ENCRYPTED if Armour.MESSAGE in within else MORE_THAN_ONE)
        self.check_armour(signature)
        lines = self.armour_of(signature)
        if lines:
            if [line.armour for line in lines] != DETACHED or signature.kind != PGP_SIGNATURE:
                raise NotRead(MORE_THAN_ONE)
            self.check_signature(signature.content, lines)
        self.check_markers(first, list(first.all()))
        return Written(joined(texts), True)

    def in_its_midst(self, text):
        """What is written in a text of which a piece is signed."""
        content = text.content
        lines = self.armour_of(text)
        piece = piece_in(content, lines)
        self.check_armour(text)
        self.check_signature(content, lines)
        self.check_markers(text, [text])
        if has_marker(content[: piece.begin]) or has_marker(content[piece.end :]):
            raise NotRead(OUTSIDE)
        return Written(text.text(piece.content), True)

    def check_signature(self, content, lines):
        """Looks whether a signature stands between the last two armour lines, also in the file as it is, and whether no
        line is too long for a verifier."""
        as_it_is = [(self.content, self.raw)] if self.raw else []
        for whole, its_lines in ((content, lines), *as_it_is):
            check_lengths(whole, its_lines)
            pair = its_lines[-2:]
            is_pair = [line.armour for line in pair] == DETACHED
            if not is_pair or not is_signature(whole[pair[0].end : pair[1].begin]):
                raise NotRead(NO_SIGNATURE_IN_IT)

    def check_armour(self, taken):
        """Looks whether there are other armour lines than those of the part that has them."""
        outside = [line for line in self.raw if not taken.begin <= line.begin < taken.end]
        if outside or self.foreign or any(part is not taken for part in self.hidden):
            hidden = (line for part in self.hidden if part is not taken for line in self.armour_of(part))
            is_second = any(line.armour is Armour.SIGNED for line in (*outside, *hidden))
            raise NotRead(MORE_THAN_ONE if is_second else BESIDE)
        if taken.is_encoded and not self.is_same(taken):
            raise NotRead(BESIDE)

    def is_same(self, taken):
        """Whether the armour lines of a part are those of the file too, or of the part alone once it is decoded. A line
        of the one may be in the midst of a line of the other, and a line of the file may be several once it is decoded:
        what a verifier passes over as one line of a head could have a form in it."""
        if not self.raw:
            return True
        if len(self.raw) > len(WHOLE) or len(self.raw) != len(self.armour_of(taken)):
            return False
        if LINE_END.search(self.content, self.raw[0].begin, self.raw[-1].end):
            return False
        before = (Part(self.content, taken.begin, line.begin, encoding=taken.encoding).content for line in self.raw)
        return taken.encoding == "quoted-printable" and all(not each or each.endswith(b"\n") for each in before)

    def check_markers(self, taken, own):
        """Looks whether a line of a form is outside the part that is read, and outside of the parts in it."""
        outside = [self.content[: taken.begin], self.content[taken.end :]]
        outside += [part.content for part in self.encoded if all(part is not each for each in own)]
        if any(map(has_marker, outside)):
            raise NotRead(OUTSIDE)


def has_marker(content):
    """Whether something in it may be taken for a form, also where it is HTML."""
    return any(marker in content for marker in MARKERS)


def joined(texts):
    """The texts of some parts, one after the other."""
    if not texts:
        raise NotRead(NO_TEXT)
    return "\n".join(text.text(text.content) for text in texts)
