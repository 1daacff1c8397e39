"""Texts that a voter may send, made from a seed: filled-in forms as mail programs change them, other lines around, and
clear-signed pieces. What a reader must find in a text follows from how the text was made, and from nothing else."""
import base64
import random
import re
import sys
import unicodedata
from dataclasses import dataclass, field
from enum import Enum
from typing import NamedTuple, Optional

from tests.support.program import TOP

sys.path.insert(0, str(TOP / "tools"))

from grdesk.ballots.form import BEGIN, END, IDENTIFIER, TOKEN, Form  # noqa: E402

SIGNED = "-----BEGIN PGP SIGNED MESSAGE-----"
SIGNATURE = "-----BEGIN PGP SIGNATURE-----"
SIGNATURE_END = "-----END PGP SIGNATURE-----"
ENCRYPTED = "-----BEGIN PGP MESSAGE-----"
MARKS = "123456789abcdefghijklmnopqrstuvwxyz"
RADIX = "ABCDEFGHIJKLMNOPQRSTUVWXYZabcdefghijklmnopqrstuvwxyz0123456789+/"
WORD = RADIX[:-2]

# What looks like a blank or ends a line for Python, and does neither here.
ODD_BLANKS = ("\u00a0", "\u1680", "\u180e", "\u2000", "\u2003", "\u2009", "\u200b", "\u2028", "\u2029", "\u202f",
              "\u205f", "\u3000", "\ufeff", "\x0b", "\x0c", "\x1c", "\x1d", "\x1e", "\x1f", "\x85")
# An editor puts it before a text, and there it says nothing.
MARK = "\ufeff"
# After these gpg still takes a line for armour: blanks, any number of CR, and whatever stands after a NUL.
GPG_ALONE = "\r\r", "\0", "\0 garbage"


class Reason(Enum):
    """Why something is refused, with what the sentence of the refusal has to match."""

    NO_FORM = "there is no ballot"
    NO_END = "a form has no end"
    NO_BEGINNING = "a form has no beginning"
    TWO_FORMS = "two forms in it are filled in"
    ALL_EMPTY = "all boxes are empty"
    IDENTIFIER = "identifier"
    OPTION = "the line of|after the last choice"
    BOX = "the box of choice"
    TOKEN = "a token has 8 to 64|more than one word"
    ENCRYPTED = "is encrypted"
    NOT_PLAIN = "no text that is plain"
    CHARSET = "no charset that is known here"
    TRANSFER = "encod"
    FIELD = "Content-T"
    MESSAGE_ID = "Message-ID"
    SEVERAL = "sign"
    OUTSIDE = "outside what is signed"
    DAMAGED = "the signed text is damaged"
    ARMOUR = "sign"
    SHAPE = "sign|multipart"
    NO_BOUNDARY = "has parts|no text that is plain|cannot be read as a mail"
    TOO_MUCH = "too many|too large|bytes|parts"
    UNREADABLE = "cannot be read as a mail"
    BROKEN = "damaged"


# Each of these is a true reason if there is more than one place that may be signed.
UNCLEAR = {Reason.SEVERAL, Reason.ARMOUR, Reason.OUTSIDE, Reason.DAMAGED, Reason.SHAPE}


class Luck(random.Random):
    """What is chosen by a seed, with the names of the kinds that were chosen."""

    def __init__(self, seed):
        super().__init__(seed)
        self.kinds = set()

    def chance(self, share):
        return self.random() < share

    def one(self, table, prefix=""):
        """What a table has under one of its names, which is noted."""
        name = self.choice(sorted(table))
        self.kinds.add(prefix + name)
        return table[name]

    def word(self, least, most, letters=WORD):
        return "".join(self.choices(letters, k=self.randint(least, most)))


class Ballot(NamedTuple):
    """A form as it was filled in. `faults` has why it must be refused, if it must."""

    ranks: str
    token: Optional[str]
    is_filled: bool = True
    faults: frozenset = frozenset()
    is_ascii: bool = True


@dataclass
class Text:
    """A text. `ballots` are those in it, outside its clear-signed pieces, which are `pieces`. `faults` has why its
    armour is refused, and `may` why that may be. `names_marker` says that a line outside the pieces has the text of a
    marker line, and more."""

    lines: list
    ballots: list = field(default_factory=list)
    pieces: list = field(default_factory=list)
    faults: set = field(default_factory=set)
    is_stray: bool = False
    is_encrypted: bool = False
    is_maybe_encrypted: bool = False
    names_marker: bool = False
    has_html_form: bool = False
    may: set = field(default_factory=set)

    @property
    def is_armoured(self):
        return bool(self.pieces or self.faults or self.is_stray)

    def all_ballots(self):
        return self.ballots + [each for piece in self.pieces for each in piece.all_ballots()]

    @property
    def has_ascii_ballots(self):
        return all(ballot.is_ascii for ballot in self.all_ballots())


# Votes, and forms of theirs that are filled in.

WORDS = "Red Green Blue as the rooms are not too small for colours of oaks etc.".split()
ODD_SUMMARIES = ("[draft] Red", "Choice 2: Red", "Token: abcdefgh1", "1", "a > b > c", "x]y[z", "Red (see [1])",
                 "- Red", "Café für alle", "Пусть будет так", "Ναι", "投票", "Identifier: 0", "Fußgänger; Öl")


def made_form(luck):
    """A vote, with its options."""
    count = luck.choice([1, 1, 2, 2, 3, 4, 7, 34])
    summaries = []
    for _ in range(count):
        if luck.chance(0.25):
            summaries.append(luck.choice(ODD_SUMMARIES))
        else:
            summaries.append(" ".join(luck.choices(WORDS, k=luck.choice([1, 2, 4, 12])))[:80].strip())
    begin = 1_768_435_200 + luck.randrange(1_000)
    return Form(luck.randint(1, 200), begin, begin + luck.randint(7, 21) * 86_400, luck.randint(1, 2_000),
                (*summaries, "None of the above"))


def filled_lines(luck, form):
    """The lines of a form as it is filled in, and the ballot that it makes."""
    boxes, ranks = [], ""
    for _ in form.places:
        number = luck.choice([0, 0, 1, 1, 2, 2, 3, 4, 5, 9, 10, 35, luck.randint(1, 35)])
        if number:
            ranks += MARKS[number - 1]
            boxes.append(luck.choice([f" {number} ", f" {number} ", str(number), f"{number}  ", f"\t{number} "]))
        else:
            ranks += "-"
            boxes.append(luck.choice(["   ", "   ", "", "\t", " - ", "-"]))
    if not any(box.strip() for box in boxes):
        boxes[-1] = " - "
    token = luck.word(8, 64) if luck.chance(0.5) else None
    last = luck.choice([f"{TOKEN} ", TOKEN]) + (token or "")
    options = [f"[{box}] {form.option(place)}" for place, box in enumerate(boxes, start=1)]
    return [BEGIN, f"{IDENTIFIER} {form.identifier()}", *options, last, END], Ballot(ranks, token)


def empty_lines(luck, form):
    """A form whose boxes are all empty."""
    blank = luck.choice(["   ", "", " ", "\t"])
    options = [f"[{blank}] {form.option(place)}" for place in form.places]
    lines = [BEGIN, f"{IDENTIFIER} {form.identifier()}", *options, TOKEN, END]
    return lines, Ballot("-" * len(options), None, is_filled=False)


# What is wrong with a form: a function that changes its lines, and the reason.


def in_box(text):
    def change(luck, lines):
        place = luck.randrange(2, len(lines) - 2)
        lines[place] = re.sub(r"^\[[^]]*\]", lambda _: f"[{text}]", lines[place])

    return change


def without(place):
    def change(luck, lines):
        del lines[place]

    return change


def changed_to(place, *texts):
    def change(luck, lines):
        lines[place] = luck.choice(texts)

    return change


def after_option(text):
    def change(luck, lines):
        place = luck.randrange(2, len(lines) - 2)
        lines[place] += text

    return change


def odd_blank_in(first, last):
    """An odd blank after a line of a form, between two places."""

    def change(luck, lines):
        place = luck.randrange(first % len(lines), last % len(lines) + 1)
        lines[place] += luck.choice(ODD_BLANKS + ("\r\r",))

    return change


def rank_outside(is_before):
    def change(luck, lines):
        place = luck.randrange(2, len(lines) - 2)
        rest = lines[place][lines[place].index("]") + 1 :].strip()
        lines[place] = f"2 [ ] {rest}" if is_before else f"[ ] 2 {rest}"

    return change


def odd_blank_in_option(luck, lines):
    place = luck.randrange(2, len(lines) - 2)
    box, _, rest = lines[place].partition("Choice ")
    lines[place] = f"{box}Choice{luck.choice(ODD_BLANKS)}{rest}"


def line_within(luck, lines):
    lines.insert(luck.randrange(2, len(lines) - 2), "That would be better.")


def option_twice(luck, lines):
    place = luck.randrange(2, len(lines) - 2)
    lines.insert(place, lines[place])


FORM_FAULTS = {
    "a letter in a box": (in_box(" a "), Reason.BOX),
    "a 0 in a box": (in_box(" 0 "), Reason.BOX),
    "a rank with a 0 in front": (in_box(" 01 "), Reason.BOX),
    "a rank above 35": (in_box(" 36 "), Reason.BOX),
    "two ranks in a box": (in_box(" 1 2 "), Reason.BOX),
    "a no-break space in a box": (in_box("\u00a01\u00a0"), Reason.BOX),
    "an ideographic space in a box": (in_box("\u30001"), Reason.BOX),
    "a form feed in a box": (in_box("1\x0c"), Reason.BOX),
    "a lone CR in a box": (in_box("1\r"), Reason.BOX),
    "a digit of another script in a box": (in_box(" \u0661 "), Reason.BOX),
    "a full-width digit in a box": (in_box(" \uff11 "), Reason.BOX),
    "a NUL in a box": (in_box("1\0"), Reason.BOX),
    "no line of choice 1": (without(2), Reason.OPTION),
    "no line of the last choice": (without(-3), Reason.OPTION),
    "an option that was changed": (after_option(" not"), Reason.OPTION),
    "an odd blank after an option": (odd_blank_in(2, -3), Reason.OPTION),
    "an odd blank in an option": (odd_blank_in_option, Reason.OPTION),
    "a rank before its box": (rank_outside(True), Reason.OPTION),
    "a rank after its box": (rank_outside(False), Reason.OPTION),
    "an option twice": (option_twice, Reason.OPTION),
    "a line between options": (line_within, Reason.OPTION),
    "no identifier": (without(1), Reason.IDENTIFIER),
    "another identifier": (changed_to(1, f"{IDENTIFIER} {'0' * 64}", f"{IDENTIFIER} {'0' * 63}"), Reason.IDENTIFIER),
    "no line of the token": (without(-2), Reason.OPTION),
    "a token of few letters": (changed_to(-2, f"{TOKEN} short", f"{TOKEN} {'a' * 65}"), Reason.TOKEN),
    "a token with odd letters": (changed_to(-2, f"{TOKEN} ab-cdefgh", f"{TOKEN} ägyptische"), Reason.TOKEN),
    "a token of two words": (changed_to(-2, f"{TOKEN} abcdefgh ijklmnop"), Reason.TOKEN),
    "no first line": (without(0), Reason.NO_BEGINNING),
    "no last line": (without(-1), Reason.NO_END),
    "an odd blank after the last line": (odd_blank_in(-1, -1), Reason.NO_END),
    "an odd blank after the first line": (odd_blank_in(0, 0), Reason.NO_BEGINNING),
}


# What mail programs do to the lines of a form, and make no difference.


def quoted(luck, lines):
    mark = luck.choice(["> ", ">", ">>> ", "> > ", " > ", "\t> ", ">\t", "> >>> > "])
    return [mark + line for line in lines]


def wrapped(luck, lines):
    """Long lines are cut at a blank, but never within a box."""
    width = luck.randint(20, 72)
    made = []
    for line in lines:
        start = line.find("]") + 1 if "[" in line.split(":")[0] else 0
        start = max(start, 1)
        while len(line) > width and "+++++" not in line:
            cut = line.rfind(" ", start, width)
            cut = line.find(" ", max(start, width)) if cut < 0 else cut
            if cut < 0:
                break
            made.append(line[:cut])
            line, start = line[cut + 1 :], 1
        made.append(line)
    return made


def broken_identifier(luck, lines):
    """The identifier is cut in its midst, as a program does that wraps by columns."""
    made = []
    for line in lines:
        if line.startswith(IDENTIFIER):
            cut = len(line) - luck.randint(1, 60)
            made += [line[:cut], line[cut:]]
        else:
            made.append(line)
    return made


def with_blanks_after(luck, lines):
    return [line + luck.choice(["", " ", " \t", "   "]) for line in lines]


def with_blank_lines(luck, lines):
    return [each for line in lines for each in [line] + [luck.choice(["", " ", "> "])] * luck.randint(0, 2)]


def with_blanks_before(luck, lines):
    return [luck.choice(["", " ", "\t", "    "]) + line for line in lines]


def decomposed(luck, lines):
    return [unicodedata.normalize("NFD", line) for line in lines]


DRESS = {
    "as it was sent": lambda luck, lines: lines,
    "quoted": quoted,
    "quoted twice": lambda luck, lines: quoted(luck, quoted(luck, lines)),
    "wrapped": wrapped,
    "wrapped, then quoted": lambda luck, lines: quoted(luck, wrapped(luck, lines)),
    "quoted, then wrapped": lambda luck, lines: wrapped(luck, quoted(luck, lines)),
    "an identifier in two lines": broken_identifier,
    "blanks after lines": with_blanks_after,
    "blanks before lines": with_blanks_before,
    "blank lines between": with_blank_lines,
    "decomposed letters": decomposed,
}

# Lines beside a form that say nothing. None of them is a field of a mail, or begins with From and a blank.
BESIDE = {
    "nothing around": [],
    "a greeting": ["Hello,", "", "here is my ballot.", ""],
    "the foot of a mail": ["", "-- ", "A. Voter"],
    "lines of hyphens": ["", "- one", "-----", "-x"],
    "a rank outside the form": ["", "[ 1 ] Choice 1: Red", f"{TOKEN} abcdefgh", f"{IDENTIFIER} 1"],
    "odd ends of lines": ["", "a\x0bb\x0cc\x1cd\x1de\x1ef\x85g\u2028h\u2029i\rj"],
    "odd blanks": ["", "\u00a0a\u3000", "\ufeff"],
    "a NUL in the text": ["", "a\0b"],
    "letters of many scripts": ["", "Grüße, Καλημέρα, привет, 今日は"],
    "letters of Latin-1": ["", "Grüße aus Málaga"],
    "quoted armour": ["", f"> {SIGNED}", "> Hash: SHA512", ">", "> I agree.", f"> {SIGNATURE}", ">", "> iHUEARYKAB0=",
                      f"> {SIGNATURE_END}"],
    "armour within a line": ["", f"I saw {SIGNED} there", f"{SIGNATURE} it was", f"{ENCRYPTED}."],
    "armour with blanks before it": ["", f" {SIGNED}", "", f"\t{SIGNATURE}", f" {SIGNATURE_END}"],
    "a public key": ["", "-----BEGIN PGP PUBLIC KEY BLOCK-----", "", "mAYEAAAAABY=",
                     "-----END PGP PUBLIC KEY BLOCK-----"],
    "an escaped From": ["", ">From here on I quote:"],
}
# Such lines have the text of a marker line, and none is one.
NAMING = {
    "a marker behind an odd end of line": ["", f"x\x0b{BEGIN}", f"\u2028{END}\u2028", f"{END}\x0c", f"\r{BEGIN}"],
    "a marker within a line": ["", f"I sent {BEGIN} and so on", f"{END} was the last line"],
}


def beside(luck):
    """Lines that stand around a form, as a text."""
    if luck.chance(0.06):
        return Text(list(luck.one(NAMING)), names_marker=True)
    return Text(list(luck.one(BESIDE))) if luck.chance(0.6) else Text([])


def joined(*texts):
    """Texts, one after the other."""
    made = Text([])
    for text in texts:
        made.lines += text.lines
        made.ballots += text.ballots
        made.pieces += text.pieces
        made.faults |= text.faults
        made.may |= text.may
        made.is_stray |= text.is_stray
        made.is_encrypted |= text.is_encrypted
        made.is_maybe_encrypted |= text.is_maybe_encrypted
        made.names_marker |= text.names_marker
        made.has_html_form |= text.has_html_form
    return made


def as_text(lines, ballot, **more):
    return Text(lines, [ballot._replace(is_ascii=all(line.isascii() for line in lines))], **more)


def right_form(luck, form):
    lines, ballot = filled_lines(luck, form)
    return as_text(luck.one(DRESS)(luck, lines), ballot)


def wrong_form(luck, form):
    lines, ballot = filled_lines(luck, form)
    change, reason = luck.one(FORM_FAULTS)
    change(luck, lines)
    # A marker line that is spoiled is none, so what stands behind it is seen by what is left.
    names = any(BEGIN in line or END in line for line in lines if line not in (BEGIN, END))
    return as_text(lines, ballot._replace(faults=frozenset({reason})), names_marker=names)


def empty_form(luck, form):
    lines, ballot = empty_lines(luck, form)
    return as_text(luck.one(DRESS)(luck, lines), ballot)


def form_and_empty(luck, form):
    return joined(*luck.sample([right_form(luck, form), empty_form(luck, form)], k=2))


TEXTS = {
    "a filled-in form": right_form,
    "a form with a fault": wrong_form,
    "an empty form alone": empty_form,
    "a filled-in form and an empty one": form_and_empty,
    "two filled-in forms": lambda luck, form: joined(right_form(luck, form), right_form(luck, form)),
    "no form at all": lambda luck, form: Text(["I vote for the first."]),
    "an empty text": lambda luck, form: Text([]),
}


def made_text(luck, form):
    """A text with a form, or with what is none."""
    kind = "a filled-in form" if luck.chance(0.72) else None
    if kind:
        luck.kinds.add(kind)
    text = TEXTS[kind](luck, form) if kind else luck.one(TEXTS)(luck, form)
    return joined(beside(luck), text, beside(luck))


def post(luck):
    """A text without a form, such as somebody signed years ago."""
    return Text(["I agree with this.", "", *luck.choice(BESIDE_POST), "Yours"])


BESIDE_POST = [[], ["- a point"], ["Grüße"], ["> You wrote this."]]


# What is clear-signed.


def escaped(luck, lines, share):
    """Signed lines with `- ` before each that begins with a hyphen, and before some others."""
    return [f"- {line}" if line.startswith("-") or luck.chance(share) else line for line in lines]


def radix_lines(luck, kind=1):
    """The digits of a signature that nobody made: a packet of that kind, and its checksum."""
    packet = bytes([0x88, 117, 4, kind, 22, 10, 0, 29, 22, 33, 4, *luck.choices(range(256), k=20), 5, 2,
                    *luck.choices(range(256), k=4), 0, 10, 9, 16, *luck.choices(range(256), k=10), 1, 0,
                    *luck.choices(range(256), k=32), 1, 0, *luck.choices(range(256), k=32)])[:119]
    digits = base64.b64encode(packet).decode()
    lines = [digits[place : place + 64] for place in range(0, len(digits), 64)]
    return [*lines, "=" + base64.b64encode(checksum(packet).to_bytes(3, "big")).decode()]


def checksum(content):
    """The CRC-24 of armour (RFC 9580, 6.1)."""
    found = 0xB704CE
    for byte in content:
        found ^= byte << 16
        for _ in range(8):
            found = found << 1 ^ (0x1864CFB if found & 0x800000 else 0)
    return found & 0xFFFFFF


def armour_parts(luck, text, share=0.0):
    """The head, the lines and the signature of a clear-signed piece."""
    one, two = luck.choice(["Hash: SHA512", "Hash: SHA256"]), luck.choice(["Hash: SHA512, SHA256", "Hash: SHA1"])
    hashes = luck.choice([[one], [two], [], [two, one]])
    heads = luck.choice([[], [], ["Version: GnuPG v2"], ["Comment: Hash: SHA1", "Version: 1"]])
    head = [SIGNED, *hashes, luck.choice(["", "", "", " \t"])]
    return head, escaped(luck, text.lines, share), [SIGNATURE, *heads, "", *radix_lines(luck), SIGNATURE_END]


def signed_well(luck, text):
    """A right piece, with blanks after its armour or without."""
    share = luck.choice([0.0, 0.0, 0.2, 1.0])
    if share:
        luck.kinds.add("dash escapes before other lines")
    head, lines, signature = armour_parts(luck, text, share)
    if luck.chance(0.2):
        luck.kinds.add("armour with blanks after it")
        head[0], signature[0], signature[-1] = head[0] + " ", signature[0] + "\t ", signature[-1] + "  "
    return Text([*head, *lines, *signature], pieces=[text])


def signed_with_empty_hash(luck, text):
    made = signed_well(luck, text)
    made.lines[1:1] = [luck.choice(["Hash:", "Hash: ", "Hash:\t"])]
    made.may |= {Reason.ARMOUR}
    return made


def broken_piece(change, *reasons):
    """A piece whose head, lines or signature are changed, with what it is refused for."""

    def make(luck, text):
        parts = armour_parts(luck, text)
        change(luck, *parts)
        return Text([line for part in parts for line in part], pieces=[text], faults=set(reasons) or set(UNCLEAR))

    return make


def no_empty_line(luck, head, lines, signature):
    head.pop()
    lines.insert(0, "The first line.")


def other_head(luck, head, lines, signature):
    others = ["Comment: mine", "Charset: utf-8", "NotDashEscaped: You need GnuPG to verify this message", "Version: 1",
              "Hush: SHA512", "\u00a0"]
    head.insert(luck.randrange(1, len(head)), luck.choice(others))


def no_signature(luck, head, lines, signature):
    signature.clear()


def no_end_of_signature(luck, head, lines, signature):
    signature.pop()


def damaged_dash(luck, head, lines, signature):
    lines.insert(luck.randint(0, len(lines)), luck.choice(["-- ", "-", "--", "-x", "-\u00a0x", "-----", "-\tx"]))


def armour_within(luck, head, lines, signature):
    lines.insert(luck.randint(0, len(lines)), luck.choice([SIGNED, SIGNATURE_END]))


def spoil_one(luck, head, lines, signature):
    """One line of armour has an odd blank after it, or before it, and so is none."""
    odd = luck.choice(ODD_BLANKS)
    part, place = luck.choice([(head, 0), (signature, 0), (signature, -1)])
    part[place] = part[place] + odd if luck.chance(0.6) or odd == MARK else odd + part[place]


PIECES = {
    "clear-signed": signed_well,
    "clear-signed with an empty Hash": signed_with_empty_hash,
    "clear-signed without an empty line": broken_piece(no_empty_line, Reason.ARMOUR),
    "clear-signed with another head": broken_piece(other_head, Reason.ARMOUR),
    "clear-signed without a signature": broken_piece(no_signature, Reason.ARMOUR),
    "clear-signed without the end of its signature": broken_piece(no_end_of_signature, Reason.ARMOUR),
    "a damaged dash line": broken_piece(damaged_dash, Reason.DAMAGED),
    "armour within a signed text": broken_piece(armour_within),
    "a line of armour with an odd blank": broken_piece(spoil_one),
}


def not_signed(luck, text, odd, is_before=False):
    """What looks clear-signed, and is not for gpg: each line of its armour has an odd blank at its end or before it. So
    the hyphens before others in it remain, also in a form."""
    head, lines, signature = armour_parts(luck, text)
    for part, place in (head, 0), (signature, 0), (signature, -1):
        part[place] = odd + part[place] if is_before else part[place] + odd
    ballots = text.ballots
    if has_hyphen_in_form(text.lines):
        ballots = [each._replace(faults=each.faults | {Reason.OPTION}) for each in ballots]
    return joined(Text(head), Text(lines, ballots, names_marker=text.names_marker), Text(signature))


def has_hyphen_in_form(lines):
    """Whether a line within a form begins with a hyphen: the rest of a summary that was wrapped."""
    is_within = False
    for line in lines:
        bare = line.strip("> \t")
        is_within = bare == BEGIN or is_within and bare != END
        if is_within and line.startswith("-"):
            return True
    return False


def with_odd_armour(luck, text):
    odd = luck.choice(ODD_BLANKS)
    return not_signed(luck, text, odd, odd != MARK and luck.chance(0.4))


def with_armour_of_gpg(luck, text):
    """Its lines of armour are some for gpg, and look like none: nothing beside them may be read."""
    made = not_signed(luck, text, luck.choice(GPG_ALONE))
    made.faults = set(UNCLEAR)
    return made


def stray_armour(luck):
    """Armour that belongs to no clear-signed piece."""
    lines = luck.choice([[SIGNATURE, "", *radix_lines(luck), SIGNATURE_END], [SIGNATURE_END], [SIGNATURE], [SIGNED]])
    return Text(["", *lines, ""], is_stray=True)
