"""The lines by which OpenPGP marks what is signed in a text (RFC 9580, 6.2 and 7), as gpg takes them, and the text that
is signed between them."""
import base64
import re
from enum import Enum
from typing import NamedTuple, Optional

from grdesk.error import NotRead
from grdesk.output import quoted

WHY_ENCRYPTED = "the mail is encrypted; send the form as plain text, signed or not"


class Armour(Enum):
    """What an armour line begins or ends."""

    SIGNED = b"BEGIN PGP SIGNED MESSAGE"
    SIGNATURE = b"BEGIN PGP SIGNATURE"
    END = b"END PGP SIGNATURE"
    MESSAGE = b"BEGIN PGP MESSAGE"
    # A verifier takes a signed message under each of these names too.
    FILE = b"BEGIN PGP ARMORED FILE"
    PUBLIC = b"BEGIN PGP PUBLIC KEY BLOCK"
    PRIVATE = b"BEGIN PGP PRIVATE KEY BLOCK"
    SECRET = b"BEGIN PGP SECRET KEY BLOCK"


WHOLE = [Armour.SIGNED, Armour.SIGNATURE, Armour.END]
DETACHED = [Armour.SIGNATURE, Armour.END]
KEYS = Armour.PUBLIC, Armour.PRIVATE, Armour.SECRET
# gpg passes over a CR anywhere behind the hyphens, and takes a NUL for the end of the line. A mark U+FEFF at the top of
# a text is passed over by others. What must stand before the hyphens comes after them: `re` is fast if letters come
# first.
LINE = re.compile(
    rb"-----(?:(?<=^-----)|(?<=\A\xef\xbb\xbf-----))((?:BEGIN|END) PGP [A-Z ]+)-----([ \t\r]*)(?:$|\0)", re.M)
STRICT = re.compile(rb"[ \t]*\r?")
HASH = re.compile(rb"Hash: [ \t]*[!-~][ -~\t]*")
# What stands between the first and the last line of armour that programs write: a head, which an empty line ends, lines
# of digits, and a checksum. gpg takes less for armour too, and finds a message in what others pass over.
HEAD = re.compile(rb"\n(?:[A-Za-z]+: [^\n]{0,9000}\n){0,20}[ \t]{0,9000}\r?\n")
# The digits are looked for ahead, so that `re` does not look for a shorter run of them if what follows does not fit.
BODY = re.compile(rb"(?=([A-Za-z0-9+/\r\n]*))\1(?:(?<=\n)|(={1,2})\r?\n)(?:=[A-Za-z0-9+/]{4}\r?\n)?")
LONGEST_LINE = 76
# gpg passes over a line of 20,000 bytes if it looks for armour or reads a head, even if it is blank. So what is before
# the empty line for gpg may be behind it for others.
LONGEST_READ = 10_000
# Where quoted-printable breaks such a line. For gpg its digits end there, and so few behind it are no checksum.
SOFT_END = re.compile(rb"=\r?\n(?=[A-Za-z0-9+/]{1,3}(?:\r?\n|=3D)|=3D)")
KEY_END = re.compile(rb"\n-----END PGP ([A-Z ]+)-----[ \t]*\r?(?:\n|\Z)")
# So many armour lines are no signed form, whatever further ones there are.
MOST_LINES = 100
# So many packets are no key and no signature.
MOST_PACKETS = 5_000
# No more packets of keys are looked at in a mail. A key that is encoded may be looked at twice, or as a part of an
# attached mail three times.
MOST_OF_KEYS = 20_000
# The tags of packets (RFC 9580, 5): a signature, those that a key begins with, those that have a version for a key, and
# those that may be in its armour beside them, which are signatures, names and pictures.
SIGNATURE_TAG, FIRST_TAGS, KEY_TAGS, OTHER_TAGS = 2, (5, 6), (5, 6, 7, 14), (2, 13, 17)
KEY_VERSIONS = 4, 5, 6

MORE_THAN_ONE = "more than one text in the mail is signed; send only the signed form"
NO_SIGNATURE = "the signed text has no end: its signature is missing"
NO_TEXT = "the mail has a signature, but the beginning of the signed text is missing"
NO_END = 'the signature has no end: the line "-----END PGP SIGNATURE-----" is missing'
NO_EMPTY_LINE = "the empty line before the signed text is missing"
DAMAGED = "the signed text is damaged: a line begins with a hyphen that is not escaped"
TOO_LONG = f"a line of the signed text has more than {LONGEST_READ:,} bytes"
DAMAGED_LINE = "a line that begins or ends the signed text is damaged"
UNKNOWN_ORDER = "the OpenPGP lines in the mail are not those of one signed text"
NO_SIGNATURE_IN_IT = "the signed text has something else in the place of its signature"
TOO_MANY_KEYS = "the mail has too many OpenPGP keys, or one that is too large; send only the form"

# What is missing, by the armour lines that are there.
MISSING = {
    (Armour.SIGNED,): NO_SIGNATURE,
    (Armour.SIGNED, Armour.END): NO_SIGNATURE,
    (Armour.SIGNED, Armour.SIGNATURE): NO_END,
    (Armour.SIGNATURE,): NO_TEXT,
    (Armour.END,): NO_TEXT,
    (Armour.SIGNATURE, Armour.END): NO_TEXT,
}


class Line(NamedTuple):
    """An armour line: what it begins or ends, where it lies, and whether it has nothing but blanks behind it."""

    armour: Armour
    begin: int
    end: int
    is_strict: bool


class Piece(NamedTuple):
    """A signed text, without the hyphens that were put before others, and where it lies."""

    content: bytes
    begin: int
    end: int


class ArmourReader:
    """Finds the armour lines in the texts of one mail, and counts the packets of its keys."""

    def __init__(self):
        self.packets = 0

    def lines(self, content):
        """The armour lines in a text, without those of keys. Of too many the first alone are found."""
        found, keys = [], 0
        for line in LINE.finditer(content):
            name = line[1]
            if name not in {each.value for each in Armour}:
                continue
            end = content.find(b"\n", line.end(2))
            end = len(content) if end < 0 else end
            is_first = content[line.start() - 1 : line.start()] in (b"", b"\n")
            is_strict = is_first and line.end() == end and bool(STRICT.fullmatch(line[2]))
            each = Line(Armour(name), line.start(), end, is_strict)
            keys += each.armour in KEYS
            if each.armour not in KEYS or keys > MOST_LINES or not is_strict or not self.is_key(content, each):
                found.append(each)
            if len(found) > MOST_LINES:
                break
        return found

    def is_key(self, content, line):
        """Whether the armour that this line begins has nothing but keys, to the end of its last packet."""
        end = KEY_END.match(content, content.find(b"\n-----", line.end))
        if not end or b"BEGIN PGP " + end[1] != line.armour.value:
            return False
        packets = self.counted(packets_in(content[line.end : end.start() + 1]))
        first = next(packets, None)
        return is_of_key(first) and first.tag in FIRST_TAGS and all(map(is_of_key, packets))

    def counted(self, packets):
        """These packets. It ends with NotRead if the mail has too many."""
        for packet in packets:
            self.packets += 1
            if self.packets > MOST_OF_KEYS:
                raise NotRead(TOO_MANY_KEYS)
            yield packet


def piece_in(content, lines):
    """The one signed text among these armour lines of a text."""
    kinds = [line.armour for line in lines]
    if Armour.MESSAGE in kinds:
        raise NotRead(WHY_ENCRYPTED)
    if kinds.count(Armour.SIGNED) > 1 or kinds.count(Armour.SIGNATURE) > 1:
        raise NotRead(MORE_THAN_ONE)
    if not all(line.is_strict for line in lines):
        raise NotRead(DAMAGED_LINE)
    if kinds != WHOLE:
        raise NotRead(MISSING.get(tuple(kinds), UNKNOWN_ORDER))
    first, second, last = lines
    begin = text_begin(content, first.end + 1, second.begin)
    if not is_signature(content[second.end : last.begin]):
        raise NotRead(NO_SIGNATURE_IN_IT)
    return Piece(unescaped(content[begin : max(begin, second.begin - 1)]), begin, second.begin)


def text_begin(content, begin, end):
    """Where the text begins that is signed: behind the lines `Hash:`, and the empty line after them."""
    while begin < end:
        line_end = content.index(b"\n", begin)
        line = content[begin:line_end].strip(b" \t\r")
        begin = line_end + 1
        if not line:
            return begin
        if not HASH.fullmatch(line):
            said = quoted(line.decode("utf-8", "replace"))
            raise NotRead(f'the head of the signed text has {said}, and only lines "Hash:" may be there')
    raise NotRead(NO_EMPTY_LINE)


def unescaped(text):
    """A signed text without the hyphen that was put before each line that begins with one (RFC 9580, 7.2)."""
    text = b"\n" + text
    if text.count(b"\n-") != text.count(b"\n- "):
        raise NotRead(DAMAGED)
    return text.replace(b"\n- ", b"\n")[1:]


def check_lengths(content, lines):
    """Looks whether a verifier reads each line whole from the first of these armour lines to the last one."""
    begin, end = lines[0].begin, lines[-1].end
    while end - begin > LONGEST_READ:
        # The last line that begins so near that no line before it is too long.
        begin = content.rfind(b"\n", begin, begin + LONGEST_READ + 1) + 1
        if not begin:
            raise NotRead(TOO_LONG)


def is_signature(armour):
    """Whether an armour has signatures alone. One that has a text too is verified without what stands beside it."""
    found = list(packets_in(armour))
    return bool(found) and all(packet and packet.tag == SIGNATURE_TAG for packet in found)


def is_of_key(packet):
    """Whether a packet may be in a key. gpg passes over a version that it does not know."""
    if packet is None or packet.tag not in (*KEY_TAGS, *OTHER_TAGS):
        return False
    return packet.tag not in KEY_TAGS or packet.version in KEY_VERSIONS


class Packet(NamedTuple):
    """A packet: its tag, and its first byte, which is the version of a key."""

    tag: int
    version: Optional[int]


def packets_in(armour):
    """The packets between the first and the last line of an armour, and at their end None if not all of it is packets
    in armour as programs write it."""
    content = content_in(armour)
    if content is None:
        yield None
        return
    place = 0
    for _ in range(MOST_PACKETS):
        if place == len(content):
            return
        first = content[place]
        is_new = bool(first & 0x40)
        found = new_size(content, place + 1) if is_new else old_size(content, place + 1, first & 3)
        if not first & 0x80 or found is None or found[1] > len(content):
            break
        begin, place = found
        yield Packet(first & 0x3F if is_new else first >> 2 & 0xF, content[begin] if begin < place else None)
    yield None


def content_in(armour):
    """The bytes in an armour, or None if it has anything else than programs write."""
    head = HEAD.match(armour)
    if not head:
        return None
    body = armour[head.end() :]
    found = BODY.fullmatch(body)
    if not found and b"=" in body:
        found = BODY.fullmatch(SOFT_END.sub(b"", body).replace(b"=3D", b"="))
    if not found:
        return None
    *lines, last = found[1].replace(b"\r\n", b"\n").split(b"\n")
    digits = b"".join(lines) + last + (found[2] or b"")
    if not all(lines) or max(map(len, (*lines, last))) > LONGEST_LINE or b"\r" in digits or len(digits) % 4:
        return None
    return base64.b64decode(digits)


def new_size(packets, place):
    """Where the body of a packet begins and ends whose length is in the new form, or None if that is not known."""
    length = packets[place : place + 5]
    if not length or 224 <= length[0] < 255:
        return None
    if length[0] < 192:
        count, size = 1, length[0]
    elif length[0] < 224:
        count, size = 2, (length[0] - 192 << 8) + int.from_bytes(length[1:2], "big") + 192
    else:
        count, size = 5, int.from_bytes(length[1:], "big")
    return place + count, place + count + size


def old_size(packets, place, kind):
    """Where the body of a packet begins and ends whose length is in the old form, or None if that is not known."""
    if kind == 3:
        return None
    count = 1 << kind
    return place + count, place + count + int.from_bytes(packets[place : place + count], "big")
