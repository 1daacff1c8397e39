"""Parts of mails that are made from a seed, as bytes, and which of their texts a reader may take: what is in a mail is
known from how it was built. No parser of mails is used here."""
import base64
import binascii
import re
from dataclasses import dataclass, field
from enum import Enum
from typing import NamedTuple, Optional

from tests.support.made_texts import SIGNATURE, SIGNATURE_END, SIGNED, UNCLEAR, Reason, Text, radix_lines

# The charsets that are read, by some of their names.
CHARSETS = {"us-ascii": "ascii", "ascii": "ascii", "utf-8": "utf-8", "utf8": "utf-8", "latin1": "iso8859-1",
            "latin2": "iso8859-2", "latin3": "iso8859-3", "latin4": "iso8859-4", "latin5": "iso8859-9"}
for number in (1, 2, 3, 4, 5, 6, 7, 8, 9, 10, 11, 13, 14, 15, 16):
    CHARSETS.update({f"iso-8859-{number}": f"iso8859-{number}", f"iso8859-{number}": f"iso8859-{number}",
                     f"iso_8859-{number}": f"iso8859-{number}"})
for number in range(1250, 1259):
    CHARSETS.update({f"windows-{number}": f"cp{number}", f"cp{number}": f"cp{number}"})
# Names of charsets, of other codecs of Python, and of nothing.
OTHER_CHARSETS = (
    "utf-16", "utf-16le", "utf-32", "utf-7", "punycode", "idna", "koi8-r", "gb2312", "gbk", "big5", "iso-2022-jp",
    "euc-jp", "shift_jis", "euc-kr", "cp437", "mac-roman", "hex", "rot13", "base64", "zlib", "bz2", "uu", "quopri",
    "unicode_escape",
    "raw_unicode_escape", "undefined", "x-klingon", "unknown-8bit", "iso-8859-12", "iso-8859-17", "iso-8859-0",
    "windows-1259", "windows-1249", "windows-31j", "utf-9", "utf-8-", "8859-1-", "ebcdic", "none", "../utf-8",
    "utf-8\0", "u\0tf-8", "a" * 3_000)
OTHER_TRANSFERS = ("x-uuencode", "uuencode", "x-uue", "uue", "x-gzip64", "7-bit", "8 bit", "base-64", "none", "utf-8",
                   "quoted_printable", "x-yenc", "hex", "base64base64", "rot13")
TYPES = ("application/octet-stream", "application/pdf", "image/png", "text/x-diff", "text/calendar",
         "application/pgp-keys", "application/msword", "text/csv", "x-unknown/x-unknown")

# Of more bytes each is not looked at for itself.
LARGE = 50_000
ARMOUR_LINE = re.compile(rb"^-----(?:BEGIN|END) PGP (?:SIGNED MESSAGE|SIGNATURE)-----[ \t\r]*$", re.M)
SIGNATURES = re.compile(rb"^-----BEGIN PGP SIGNATURE-----[ \t]*$.*?^-----END PGP SIGNATURE-----[ \t]*$", re.M | re.S)


@dataclass
class Leaf:
    """A part with a text or with bytes. `type` is its content type, and `lines` are those of its head. `faults` has why
    it is refused if it would be read, `field_faults` why it is in any place, and `may` why it may be."""

    text: Text
    lines: list = field(default_factory=list)
    body: bytes = b""
    type: str = "text/plain"
    faults: set = field(default_factory=set)
    field_faults: set = field(default_factory=set)
    may: set = field(default_factory=set)
    is_identity: bool = True


@dataclass
class Multi:
    """A part with parts. `boundary_field` is its parameter, if that is written in another way."""

    children: list
    subtype: str = "mixed"
    preamble: Text = field(default_factory=lambda: Text([]))
    epilogue: Text = field(default_factory=lambda: Text([]))
    parameters: str = ""
    boundary: str = "b"
    field_faults: set = field(default_factory=set)
    is_closed: bool = True
    has_boundary: bool = True
    lines_before: list = field(default_factory=list)
    blanks: str = ""
    name: str = "multipart"
    boundary_field: str = ""
    may: set = field(default_factory=set)


@dataclass
class Attached:
    """A mail that is attached: its head, and what stands in it. In a digest no type is named."""

    head: list
    node: object
    is_in_digest: bool = False


# How a text becomes the body of a part.


def encodable(text, codec):
    try:
        text.encode(codec)
    except UnicodeError:
        return False
    return True


def quoted_printable(luck, content, eol):
    """Every byte that must be encoded is, and others are by chance; lines are broken at any place."""
    if len(content) > LARGE:
        return eol.join(quoted_line(line, eol) for line in content.split(b"\n"))
    share = luck.choice([0.0, 0.05, 0.3])
    made, width = bytearray(), 0
    for place, byte in enumerate(content):
        if byte == 10:
            made += eol
            width = 0
            continue
        is_last = place + 1 == len(content) or content[place + 1] == 10
        is_plain = 33 <= byte <= 126 and byte != 61 or byte in (9, 32) and not is_last
        piece = bytes([byte]) if is_plain and not (share and luck.chance(share)) else b"=%02X" % byte
        if width + len(piece) > 74 or share and luck.chance(share / 10):
            made += b"=" + eol
            width = 0
        made += piece
        width += len(piece)
    return bytes(made)


PAIRS = [bytes([byte]) if 33 <= byte <= 126 and byte != 61 else b"=%02X" % byte for byte in range(256)]


def quoted_line(line, eol):
    """A line of which each byte but letters, digits and marks is encoded."""
    pieces = [PAIRS[byte] for byte in line]
    return (b"=" + eol).join(b"".join(pieces[place : place + 24]) for place in range(0, len(pieces), 24))


def in_base64(luck, content, eol):
    width = luck.choice([76, 76, 64, 20, 1_000_000] + [4] * (len(content) < LARGE))
    digits = base64.b64encode(content)
    return eol.join(digits[place : place + width] for place in range(0, len(digits), width))


def uuencoded(luck, content, eol):
    lines = [b"begin 644 ballot.txt"]
    lines += [binascii.b2a_uu(content[place : place + 45]).rstrip(b"\n") for place in range(0, len(content), 45)]
    if luck.chance(0.5):
        lines[luck.randrange(1, len(lines) + 1) - 1 :] = [b"begin 644 x", b"~~~~ not so \xff"]
    return eol.join([*lines, b"`", b"end"])


def cased(luck, name):
    return luck.choice([name, name, name.upper(), name.title()])


def type_line(luck, kind, parameters=(), name="Content-Type"):
    """The field with a content type, folded or not."""
    between = luck.choice(["; ", ";", " ; ", ";\n ", ";\n\t"])
    return f"{name}:{luck.choice([' ', ' ', '', '  '])}" + between.join([kind, *parameters])


def transferred(luck, content, eol):
    """Bytes in some encoding: the lines of the head, the body, whether they stand there as they are."""
    names = ["", "8bit", "binary", "quoted-printable", "quoted-printable", "base64"] + ["7bit"] * content.isascii()
    name = luck.choice(names)
    luck.kinds.add(f"transfer {name or 'not named'}")
    line = [f"Content-Transfer-Encoding: {cased(luck, name)}"] if name else []
    if name == "quoted-printable":
        return line, quoted_printable(luck, content, eol), False
    if name == "base64":
        # Lines within may end otherwise than those of the mail.
        content = content.replace(b"\n", luck.choice([b"\n", b"\r\n"]))
        return line, in_base64(luck, content, eol), False
    return line, content.replace(b"\n", eol), True


def charset_of(luck, text, whole):
    """A charset that has all letters of a text: its name or None, its codec, and whether it is the one that is
    meant."""
    if luck.chance(0.25) and encodable(whole, "utf-8"):
        luck.kinds.add("no charset is named")
        return None, "utf-8"
    if luck.chance(0.15) and text.has_ascii_ballots and encodable(whole, "latin-1") and not whole.isascii():
        luck.kinds.add("bytes that are none of the charset")
        return luck.choice(["us-ascii", "utf-8"]), "latin-1"
    fit = [name for name, codec in CHARSETS.items() if whole.isascii() or encodable(whole, codec)]
    name = luck.choice(fit)
    luck.kinds.add(f"charset {name}")
    return name, CHARSETS[name]


def whole_of(luck, text):
    """A text as characters, with LF."""
    whole = "\n".join(text.lines)
    return whole + "\n" if whole and luck.chance(0.9) else whole


ODD_PARAMETERS = {
    "charset*": (["charset*=us-ascii'en'utf-8"], set()),
    "charset in two parts": (["charset*0=ut", "charset*1=f-8"], set()),
    "charset in two parts, turned round": (["charset*1=f-8", "charset*0=ut"], set()),
    "charset in two encoded parts": (["charset*0*=us-ascii''ut", "charset*1*=f%2D8"], set()),
    "charset* and charset*0": (["charset*=x", "charset*0=y"], {Reason.CHARSET, Reason.UNREADABLE, Reason.FIELD}),
    "charset*0 and charset*": (["charset*0=y", "charset*=x"], {Reason.CHARSET, Reason.UNREADABLE, Reason.FIELD}),
    "charset*1 alone": (["charset*1=utf-8"], set()),
    "charset* with a NUL": (["charset*=u\0tf'x"], {Reason.CHARSET, Reason.UNREADABLE, Reason.FIELD}),
    "charset* of an odd charset": (["charset*=punycode''utf-8"], set()),
    "charset* with odd bytes": (["charset*=utf-8''%FF%FE%00"], {Reason.CHARSET, Reason.UNREADABLE, Reason.FIELD}),
    "charset twice": (["charset=utf-8", "charset=us-ascii"], set()),
    "charset without a value": (["charset="], set()),
    "charset with an open quote": (['charset="utf-8'], set()),
    "a parameter of many digits": (["charset*99999999999999999999=utf-8"], set()),
    "a parameter without a name": (["=utf-8", "*=x", "*0*=y"], set()),
}


def text_leaf(luck, text, eol, kind="text/plain", is_odd=False):
    """A part with a text, in a charset and an encoding."""
    whole = whole_of(luck, text)
    name, codec = charset_of(luck, text, whole)
    content = whole.encode(codec)
    first, mark = text.lines[0] if text.lines else "", b""
    if codec == "utf-8" and luck.chance(0.04) and not first.startswith("-----BEGIN"):
        luck.kinds.add("U+FEFF before a text")
        mark = b"\xef\xbb\xbf"
    elif codec == "utf-8" and luck.chance(0.04) and first.startswith(SIGNED) and text.pieces and kind == "text/plain":
        # Armour begins in the first column, and so its first line is none here.
        luck.kinds.add("U+FEFF before armour")
        mark = b"\xef\xbb\xbf"
        text.faults |= UNCLEAR
    leaf = Leaf(text, type=kind)
    more = list(luck.choice([[], [], ["format=flowed"], ["format=flowed", "delsp=yes"], ['x-note="a; b"']]))
    parameters = [*([f"charset={quoted_or_not(luck, cased(luck, name))}"] if name else []), *more]
    if is_odd and luck.chance(0.5):
        parameters, faults = luck.one(ODD_PARAMETERS)
        leaf.faults |= faults
        leaf.may |= {Reason.CHARSET, Reason.UNREADABLE, Reason.FIELD}
        content = whole.encode("ascii", "replace") if text.has_ascii_ballots else whole.encode()
        leaf.may |= set() if text.has_ascii_ballots else {Reason.OPTION}
    elif is_odd:
        parameters = [f'charset="{luck.choice(OTHER_CHARSETS)}"']
        luck.kinds.add("a charset that is not read")
        leaf.faults |= {Reason.CHARSET, Reason.UNREADABLE}
    content = mark + content
    line, leaf.body, leaf.is_identity = transferred(luck, content, eol)
    if not leaf.is_identity and shows_other_armour(leaf.body, content):
        leaf.may |= UNCLEAR
    if b"PGP PUBLIC KEY" in content and any("quoted" in each.lower() for each in line):
        # Letters of the key are encoded, as no program writes them, and gpg finds none in the file.
        leaf.may |= UNCLEAR
    if kind == "text/plain" and not parameters and luck.chance(0.3):
        luck.kinds.add("no content type")
        leaf.lines = line
    else:
        leaf.lines = luck.sample([type_line(luck, cased(luck, kind), parameters), *line], k=1 + len(line))
    if luck.chance(0.1):
        more = ["inline", 'attachment; filename="b.txt"', 'attachment; filename="b.asc"']
        leaf.lines.append(f"Content-Disposition: {luck.choice(more)}")
    return leaf


def shows_other_armour(body, content):
    """Whether the file shows armour of a text, and not all of it as it is once the text is decoded: letters of a line
    or of a signature are encoded, as no program writes them, or a line is broken before what is no armour of the
    text."""
    shown = ARMOUR_LINE.findall(body)
    if len(shown) != len(ARMOUR_LINE.findall(content)):
        return bool(shown)
    return SIGNATURES.findall(body.replace(b"\r", b"").replace(b"=3D", b"=")) != SIGNATURES.findall(content)


def quoted_or_not(luck, name):
    return f'"{name}"' if luck.chance(0.4) else name


def spoil_fields(luck, leaf):
    """The fields of the content are doubled, or written as nobody writes them."""
    change = luck.one(FIELD_FAULTS)
    change(luck, leaf)
    leaf.field_faults.add(Reason.FIELD)


def doubled_type(luck, leaf):
    leaf.lines += [line for line in leaf.lines if line.lower().startswith("content-type")][:1]
    others = ["Content-Type: text/plain", "content-type: text/html", "Content-Type: multipart/mixed; boundary=x"]
    while sum(line.lower().startswith("content-type") for line in leaf.lines) < 2:
        leaf.lines.insert(luck.randint(0, len(leaf.lines)), luck.choice(others))


def blank_before_colon(name, values):
    def change(luck, leaf):
        leaf.lines = [line for line in leaf.lines if not line.lower().startswith(name.lower())]
        leaf.lines.append(f"{name}{luck.choice([' ', chr(9), '  '])}: {luck.choice(values)}")

    return change


def doubled_transfer(luck, leaf):
    leaf.lines += ["Content-Transfer-Encoding: 8bit", f"content-transfer-encoding: {luck.choice(['8bit', 'base64'])}"]


def other_transfer(luck, leaf):
    """An encoding that is not read."""
    leaf.lines = [line for line in leaf.lines if "transfer" not in line.lower()]
    name = luck.choice(OTHER_TRANSFERS)
    luck.kinds.add("uuencoded" if "uu" in name else "an encoding that is not known")
    leaf.lines.append(f"Content-Transfer-Encoding: {cased(luck, name)}")
    if "uu" in name:
        leaf.body = uuencoded(luck, leaf.body, b"\n")
        leaf.is_identity = False
    leaf.faults |= {Reason.TRANSFER, Reason.UNREADABLE}


FIELD_FAULTS = {
    "Content-Type twice": doubled_type,
    "Content-Transfer-Encoding twice": doubled_transfer,
    "a blank before the colon of Content-Type": blank_before_colon("Content-Type", ["text/plain", "text/html"]),
    "a blank before the colon of Content-Transfer-Encoding":
        blank_before_colon("Content-Transfer-Encoding", ["7bit", "base64"]),
}


def attachment(luck, text, eol, kind=None):
    """A part of another type than plain text, with a text in it, or with bytes."""
    kind = kind or luck.choice(TYPES)
    leaf = text_leaf(luck, text, eol, kind)
    if not text.lines:
        line, leaf.body, _ = transferred(luck, bytes(luck.choices(range(256), k=luck.randint(0, 200))), eol)
        leaf.lines = [type_line(luck, kind), *line]
    leaf.lines.append(f'Content-Disposition: attachment; filename="{luck.word(1, 9)}"')
    return leaf


def html_of(text):
    """The lines of a text as HTML, each with a tag at its end."""
    lines = [line.replace("&", "&amp;").replace("<", "&lt;") + "<br>" for line in text.lines]
    return Text(["<html><body>", *lines, "</body></html>"], has_html_form=bool(text.all_ballots()),
                names_marker=text.names_marker)


def boundary_of(luck, *others):
    """A boundary, at times with another one as its beginning."""
    made = luck.choice(["=-", "----=_Part_", "==", "_", "'x y'", "a/b:c=?", ""]) + luck.word(6, 30)
    if others and luck.chance(0.2):
        luck.kinds.add("a boundary that begins as another")
        made = others[0] + luck.word(1, 3)
    while made in others:
        made += luck.word(1, 3)
    return made


# The bytes of a part.


def rendered(node, eol):
    """The lines of the head of a part, and its body."""
    if isinstance(node, Leaf):
        return node.lines, node.body
    if isinstance(node, Attached):
        lines, body = rendered(node.node, eol)
        head = [*node.head, *lines]
        return ["Content-Type: message/rfc822"] * (not node.is_in_digest), eol.join([*head_bytes(head, eol), b"", body])
    mark, blanks = b"--" + node.boundary.encode(), node.blanks.encode()
    pieces = [eol.join(line.encode() for line in node.preamble.lines)] if node.preamble.lines else []
    for child in node.children:
        lines, body = rendered(child, eol)
        pieces += [mark + blanks, *head_bytes(lines, eol), b"", body]
    if node.is_closed:
        pieces += [mark + b"--" + blanks, eol.join(line.encode() for line in node.epilogue.lines)]
    boundary = node.boundary_field or f'boundary="{node.boundary}"'
    parameters = boundary if node.has_boundary else "", node.parameters
    line = "; ".join([f"Content-Type: {node.name}/{node.subtype}", *filter(None, parameters)])
    return [*node.lines_before, line], eol.join(pieces)


def head_bytes(lines, eol):
    """The lines of a head. One may be folded, or have bytes that are none of UTF-8 as surrogates."""
    return [line.encode("utf-8", "surrogateescape").replace(b"\n", eol) for line in lines]


# What of it a reader may take.


class Role(Enum):
    """What a text of a mail is."""

    PLAIN = "a plain text of the mail"
    OTHER = "a part of another type"
    SIGNATURE = "the second part of a signed one"
    AROUND = "a preamble, an epilogue or a head"
    ATTACHED = "in an attached mail"


class Place(NamedTuple):
    """A text of a mail, with what its part is refused for. `is_signed` says that it stands in what a multipart/signed
    signs."""

    role: Role
    text: Text
    leaf: Optional[Leaf] = None
    is_signed: bool = False


class Inventory:
    """All that stands in a mail: its places, its multipart/signed, and why it is refused or may be."""

    def __init__(self, node, around=()):
        self.places = [Place(Role.AROUND, text) for text in around]
        # Of each multipart/signed of the mail itself, whether it has the right shape.
        self.signed = []
        self.has_attached_signed = False
        self.must = set()
        self.may = set()
        self.walk(node, False)

    def walk(self, node, is_signed, is_attached=False):
        if isinstance(node, Attached):
            self.walk(node.node, is_signed, True)
            return
        if not is_attached:
            self.must |= node.field_faults
        if isinstance(node, Leaf):
            role = Role.PLAIN if node.type == "text/plain" else Role.OTHER
            self.places.append(Place(Role.ATTACHED if is_attached else role, node.text, node, is_signed))
            if node.type in ENCRYPTED_TYPES and not is_attached:
                self.must.add(Reason.ENCRYPTED)
            return
        if not node.has_boundary and not is_attached:
            self.must.add(Reason.NO_BOUNDARY)
        self.may |= node.may
        self.places += [Place(Role.AROUND, text, None, is_signed) for text in (node.preamble, node.epilogue)]
        if node.subtype == "encrypted" and not is_attached:
            self.must.add(Reason.ENCRYPTED)
        if node.subtype != "signed":
            for child in node.children:
                self.walk(child, is_signed, is_attached)
        elif is_attached:
            self.has_attached_signed = True
            for child in node.children:
                self.walk(child, is_signed, True)
        else:
            self.walk_signed(node, is_signed)

    def walk_signed(self, node, is_signed):
        second = node.children[1] if len(node.children) == 2 else None
        is_right = isinstance(second, Leaf) and second.type in SIGNATURE_TYPES and node.has_boundary
        self.signed.append(is_right)
        for number, child in enumerate(node.children):
            if is_right and number == 1:
                self.must |= child.field_faults
                self.places.append(Place(Role.SIGNATURE, child.text, child, is_signed))
            else:
                self.walk(child, is_signed or is_right and number == 0)


ENCRYPTED_TYPES = ("application/pgp-encrypted", "application/pkcs7-mime", "application/x-pkcs7-mime")
SIGNATURE_TYPES = ("application/pgp-signature", "application/pkcs7-signature", "application/x-pkcs7-signature")


class Verdict(NamedTuple):
    """What must come of a mail: the ballots in what is read, and whether that is signed; or, if `must` has a reason,
    that it is refused, for one of `must` or `may`. It may be refused for one of `may` in any case."""

    ballots: tuple
    is_signed: bool
    must: frozenset
    may: frozenset


def judged(inventory):
    """What READING.md has come of such a mail: the rules about one place, applied to what is known to stand there."""
    places, must, may = inventory.places, set(inventory.must), set(inventory.may)
    armoured = [each for each in places if each.text.is_armoured and each.role is not Role.SIGNATURE]
    for each in places:
        may |= each.leaf.may | each.leaf.faults if each.leaf else set()
        may |= each.text.may
        may |= {Reason.ENCRYPTED} | UNCLEAR if each.text.is_maybe_encrypted else set()
    if inventory.signed:
        read = [each for each in places if each.role is Role.PLAIN and each.is_signed]
        outside = [each for each in places if not each.is_signed]
        if not all(inventory.signed):
            must |= {Reason.SHAPE}
        if len(inventory.signed) > 1 or armoured or any(map(is_more_than_a_signature, places)):
            must |= UNCLEAR
        texts, is_signed = [each.text for each in read], True
        encrypted = [each for each in places if each.text.is_encrypted]
        must |= {Reason.ENCRYPTED, *UNCLEAR} if encrypted else set()
        outer = [each.text for each in outside]
        may |= UNCLEAR if inventory.has_attached_signed else set()
    elif armoured:
        candidates = [each for each in armoured if each.role is Role.PLAIN and len(each.text.pieces) == 1]
        read = candidates if len(armoured) == 1 else []
        if len(read) != 1 or read[0].text.is_stray:
            must |= UNCLEAR
        for each in armoured:
            must |= each.text.faults
        texts, is_signed = [each.text.pieces[0] for each in read], True
        encrypted = [each for each in places if each.text.is_encrypted]
        must |= {Reason.ENCRYPTED, *UNCLEAR} if encrypted else set()
        outer = [each.text for each in places]
        may |= UNCLEAR if inventory.has_attached_signed else set()
    else:
        read = [each for each in places if each.role is Role.PLAIN]
        texts, is_signed, outer = [each.text for each in read], False, []
        encrypted = [each for each in places if each.text.is_encrypted]
        must |= {Reason.ENCRYPTED, *UNCLEAR} if encrypted else set()
        if inventory.has_attached_signed:
            may |= UNCLEAR
            must |= UNCLEAR if any(text.ballots for text in texts) else set()
    for each in read:
        must |= each.leaf.faults if each.leaf else set()
    if any(text.ballots or text.has_html_form for text in outer):
        must.add(Reason.OUTSIDE)
    if any(text.names_marker for text in outer):
        may.add(Reason.OUTSIDE)
    if not read:
        may |= {Reason.NOT_PLAIN, Reason.NO_FORM}
        must |= set() if must else {Reason.NOT_PLAIN}
    ballots = tuple(ballot for text in texts for ballot in text.ballots)
    return Verdict(ballots, is_signed, frozenset(must), frozenset(may))


def is_more_than_a_signature(place):
    """Whether the part of a signature has a signed text too."""
    return place.role is Role.SIGNATURE and bool(place.text.pieces)


def signature_leaf(luck, eol, kind="application/pgp-signature"):
    """The second part of a multipart/signed."""
    if kind == "application/pgp-signature":
        lines = [SIGNATURE, *luck.choice([[], [], ["Version: GnuPG v2"]]), "", *radix_lines(luck, 0), SIGNATURE_END]
        name = luck.choice([[], ['name="signature.asc"']])
        head = [type_line(luck, cased(luck, kind), name), *luck.choice(SIGNATURE_HEADS)]
        return Leaf(Text(lines, is_stray=True), head, eol.join(line.encode() for line in lines) + eol, kind)
    body = in_base64(luck, bytes(luck.choices(range(256), k=300)), eol)
    lines = [type_line(luck, kind, ['name="smime.p7s"']), "Content-Transfer-Encoding: base64",
             'Content-Disposition: attachment; filename="smime.p7s"']
    return Leaf(Text([]), lines, body, kind)


SIGNATURE_HEADS = ([], ["Content-Description: OpenPGP digital signature"],
                   ['Content-Disposition: attachment; filename="OpenPGP_signature"'])
