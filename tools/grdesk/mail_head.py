"""The head of a mail, or of a part of one, as it is written: its fields, and what those say of its arrival, its sender
and its parts. A line that is no field is passed over. What is ambiguous in it is not read (NotRead), or is None."""
import binascii
import re
from datetime import timezone
from email.utils import parsedate_to_datetime
from itertools import islice
from typing import NamedTuple, Optional

from grdesk.error import NotRead
from grdesk.output import quoted

# Lines end at LF alone, and a CR before it is no part of one.
EMPTY_LINE = re.compile(rb"^\r?\n", re.M)
FIELD = re.compile(rb"^[!-9;-~]+[ \t]*:", re.M)
# A file is a mail if a line of its head has one of these names.
OF_A_MAIL = ["From", "To", "Date", "Subject", "Message-ID", "Received", "Return-Path", "Delivered-To", "MIME-Version",
             "Content-Type"]
# The fields of each name that is asked for.
NAMES = {name: re.compile(rb"^%s([ \t]*):" % name.encode(), re.I | re.M)
         for name in (*OF_A_MAIL, "Content-Transfer-Encoding", "Status", "X-Status")}
OF_A_MAIL = re.compile(rb"^(?:%s)[ \t]*:" % "|".join(OF_A_MAIL).encode(), re.I | re.M)
BLANKS = re.compile(r"[ \t]+")
# What begins or ends a piece of a field that is no plain text.
SPECIAL = re.compile(r'[\\"()<>]')

TYPE, ENCODING = "Content-Type", "Content-Transfer-Encoding"
# Lines that begin as such a field, and are none. Others may take them for it.
LIKE = {name: re.compile(rb"^%s(?![!-9;-~]*[ \t]*:)" % name.encode(), re.I | re.M) for name in (TYPE, ENCODING)}
KIND = re.compile(r"[a-z0-9!#$&^_.+-]+/[a-z0-9!#$&^_.+-]+")
# What is longer is no field or no date that a mail program writes, and would take long to be looked at.
LONGEST, LONGEST_DATE = 10_000, 200
# A line of a mail has no more characters (RFC 5322, 2.1.1). What is longer is no Message-ID.
LONGEST_ID = 998

IS_UNUSUAL = "the field {} in the mail is unusual, and mail programs read it in different ways"
STANDS_TWICE = "the mail has the field {} twice in one head"


class Mark(NamedTuple):
    """A piece of a field. `begin` is what it begins with: a quote, a bracket, or nothing if it is plain text."""

    begin: str
    text: str


class Kind(NamedTuple):
    """What a part is: its type, and what it says of its charset and of the line between its parts."""

    type: str
    charset: Optional[str]
    boundary: Optional[str]


class Head:
    """The head that begins at a place in a text, and `body`, where what follows it begins."""

    def __init__(self, content, begin=0, end=None):
        self.content, end = content, len(content) if end is None else end
        empty = EMPTY_LINE.search(content, begin, end)
        self.begin, (self.end, self.body) = begin, empty.span() if empty else (end, end)

    def all(self, name):
        """Its fields of this name, in their order."""
        return NAMES[name].finditer(self.content, self.begin, self.end)

    def first(self, name, count=1):
        return list(islice(self.all(name), count))

    def text(self, field, charset="utf-8"):
        """What a field says, in one line. A line in it that is neither its first nor begins with a blank is none."""
        following = FIELD.search(self.content, field.end(), self.end)
        said = self.content[field.end() : following.start() if following else self.end]
        first, *others = said.split(b"\n")
        lines = [first, *(line for line in others if line[:1] in (b" ", b"\t"))]
        text = b"".join(line[:-1] if line.endswith(b"\r") else line for line in lines)
        return text.decode(charset, "replace").strip(" \t")

    @property
    def is_of_a_mail(self):
        return bool(OF_A_MAIL.search(self.content, self.begin, self.end))

    @property
    def has_received(self):
        return bool(self.first("Received"))

    # What it says of the mail.

    def message_ids(self):
        """The Message-ID, if it is not empty and not too long, and another one if there is one."""
        found = []
        for each in self.all("Message-ID"):
            text = self.text(each, "ascii").strip()
            if text and len(text) <= LONGEST_ID and text not in found:
                found.append(text)
            if len(found) > 1:
                break
        return found

    def received(self, host):
        """When this host received the mail, by the field at the top, or None."""
        by, date = self.host_and_date()
        return seconds_of(date) if host and by and by == host.rstrip(".").lower() else None

    def host_and_date(self):
        """The host that received the mail, in small letters, and the date of that, by the field at the top; empty if it
        does not say it. What stands in comments, in quotes or in <..> is the sender's, and so is all before the last
        `by` that is left."""
        fields = self.first("Received")
        path, _, date = (plain(self.text(fields[0], "ascii")) or "" if fields else "").rpartition(";")
        words = BLANKS.split(path)
        places = [place for place, word in enumerate(words[:-1]) if word.lower() == "by"]
        return words[places[-1] + 1].rstrip(".").lower() if places else "", date

    def date(self):
        """The sender's own date, or None."""
        fields = self.first("Date")
        return seconds_of(plain(self.text(fields[0], "ascii")) or "") if fields else None

    def senders(self):
        """The addresses in the fields From, in small letters."""
        return [address for text in self.sender_fields() for address in addresses_in(text)]

    def sender_text(self):
        return ", ".join(map(with_words, self.sender_fields()))

    def sender_fields(self):
        return [self.text(field)[:LONGEST] for field in self.first("From", 10)]

    # What it says of its parts.

    def only(self, name):
        """What a field says that may be there once, or None."""
        fields = self.first(name, 2)
        if len(fields) > 1:
            raise NotRead(STANDS_TWICE.format(name))
        if LIKE[name].search(self.content, self.begin, self.end) or any(each[1] for each in fields):
            raise NotRead(IS_UNUSUAL.format(name))
        return self.text(fields[0]) if fields else None

    def kind(self, default):
        """What the part is, which is `default` if it does not say it."""
        said = self.only(TYPE)
        if said is None:
            return Kind(default, None, None)
        first, *others = parameters_in(said)
        if not KIND.fullmatch(first.lower()):
            raise NotRead(IS_UNUSUAL.format(TYPE))
        values = {}
        for each in others:
            name, _, value = each.partition("=")
            name = name.strip(" \t").lower()
            if re.split(r"[ \t*]", name)[0] in ("charset", "boundary"):
                if name in values or name not in ("charset", "boundary"):
                    raise NotRead(IS_UNUSUAL.format(TYPE))
                values[name] = unquoted(value.strip(" \t"))
        boundary = values.get("boundary")
        # Some programs leave out blanks at its end (RFC 2046, 5.1.1).
        if boundary and boundary[-1] in " \t":
            raise NotRead(IS_UNUSUAL.format(TYPE))
        return Kind(first.lower(), values.get("charset"), boundary)

    def encoding(self):
        """How the part is encoded, in small letters."""
        said = self.only(ENCODING)
        return ";".join(parameters_in(said, ENCODING)).lower() if said else ""


def marks(text, brackets="(<"):
    """The pieces of a field: comments, which may have others in them, quoted strings and <..>, and what is between. If
    one has no end, it raises ValueError."""
    if len(text) > LONGEST:
        raise ValueError("it is too long")
    found, begin, start, depth, is_quoted, place = [], "", 0, 0, False, 0
    while special := SPECIAL.search(text, place):
        mark, place = special[0], special.end()
        if mark == "\\":
            place += begin in ('"', "(") or is_quoted
        elif not begin:
            if mark == '"' or mark in brackets:
                found.append(Mark("", text[start : special.start()]))
                begin, start, depth, is_quoted = mark, special.start(), 1, False
        elif begin == "<" and mark == "<" and not is_quoted:
            raise ValueError("there is a < in <..>")
        else:
            if begin == "(":
                depth += (mark == "(") - (mark == ")")
            elif begin == "<":
                is_quoted ^= mark == '"'
                depth = not (mark == ">" and not is_quoted)
            else:
                depth = mark != '"'
            if not depth:
                found.append(Mark(begin, text[start:place]))
                begin, start = "", place
    if begin:
        raise ValueError(f"{begin} has no end")
    return [*found, Mark("", text[start:])]


def plain(text):
    """A field without comments, quoted strings and <..>, or None if one of them has no end."""
    try:
        return "".join(" " if each.begin else each.text for each in marks(text))
    except ValueError:
        return None


def parameters_in(text, name=TYPE):
    """What stands between the semicolons of a field of this name, without comments."""
    try:
        pieces = marks(text, "(")
    except ValueError:
        raise NotRead(IS_UNUSUAL.format(name)) from None
    found = [""]
    for begin, piece in pieces:
        first, *others = [piece] if begin == '"' else [" "] if begin else piece.split(";")
        found[-1] += first
        found += others
    return [each.strip(" \t") for each in found]


def unquoted(value):
    """A value of a parameter, which is a quoted string or one word."""
    if not value.startswith('"'):
        return value
    inner = value[1:-1]
    if len(value) < 2 or not value.endswith('"') or re.search(r'(?<!\\)(?:\\\\)*"', inner):
        raise NotRead(IS_UNUSUAL.format(TYPE))
    return re.sub(r"\\(.)", r"\1", inner, flags=re.S)


def seconds_of(date):
    """The moment of a date, or None. One with -0000 is in UTC (RFC 5322, 3.3), and one without an offset that is known
    gives no moment."""
    date = date.strip(" \t")
    if len(date) > LONGEST_DATE:
        return None
    try:
        moment = parsedate_to_datetime(date)
        if moment.tzinfo is None and date.endswith("-0000"):
            moment = moment.replace(tzinfo=timezone.utc)
        return None if moment.tzinfo is None else int(moment.timestamp())
    except Exception:  # The parser raises one or another, by the version of Python. None of them is a date.
        return None


def addresses_in(text):
    """The addresses in a field such as From, in small letters. A name beside one is none."""
    try:
        pieces = marks(text)
    except ValueError:
        return [each.lower() for each in re.split(r'[ \t<>(),;:"]+', text) if "@" in each[1:-1]]
    found = [("", False)]
    for begin, piece in pieces:
        said, is_whole = found[-1]
        if begin == "<":
            # What stands before it is a name, unless that is an address in brackets too.
            if not is_whole:
                found.pop()
            found.append((piece[1:-1], True))
        elif begin == '"' and not is_whole:
            found[-1] = said + piece, False
        elif not begin:
            first, *others = re.split("[,;:]", piece)
            if is_whole:
                found.append((first, False))
            else:
                found[-1] = said + first, False
            found += [(each, False) for each in others]
    return [each for each in map(bare_address, (said for said, _ in found)) if "@" in each]


def bare_address(text):
    """An address in small letters, without quotes, comments, blanks at its ends and about its @, and without the route
    that some programs put before one."""
    text = re.sub(r'["\\]|\([^()]*\)', "", text).lower()
    return re.sub("^@[^:]*:", "", "@".join(part.strip(" \t") for part in text.split("@")))


# Charsets.

ALIASES = {"us-ascii": "ascii", "ascii": "ascii", "utf-8": "utf-8", "utf8": "utf-8"}
# There is no ISO 8859-12.
ALIASES |= {f"{name}{number}": f"iso8859-{number}" for number in range(1, 17) if number != 12
            for name in ("iso-8859-", "iso8859-", "iso_8859-")}
ALIASES |= {f"{name}{number}": f"cp{number}" for number in range(1250, 1259) for name in ("windows-", "cp")}
LATIN = {1: 1, 2: 2, 3: 3, 4: 4, 5: 9, 6: 10, 7: 13, 8: 14, 9: 15, 10: 16}
ALIASES |= {f"latin{mark}{number}": f"iso8859-{part}" for number, part in LATIN.items() for mark in ("", "-")}


def codec_of(charset):
    """The name by which Python knows a charset. Of others than these none is read: some take minutes for a megabyte."""
    codec = ALIASES.get(charset.lower())
    if codec is None:
        raise NotRead(f"the mail is written in {quoted(charset.lower())}, which is no charset that is known here")
    return codec


def decoded(content, charset):
    """A text, without the mark U+FEFF that editors put before one."""
    return content.decode(codec_of(charset), "replace").removeprefix("\ufeff")


BASE64 = re.compile(r"[A-Za-z0-9+/]*={0,2}")
WORD = re.compile(r"=\?([^?*\s]+)(?:\*[^?\s]*)?\?([bBqQ])\?([^?\s]*)\?=(?:[ \t]+(?==\?))?")


def with_words(text):
    """A field with its encoded words (RFC 2047) as they are read. One that is not known here stays as it is."""
    return WORD.sub(word, text)


def word(found):
    charset, how, said = found.groups()
    if not said.isascii() or how in "bB" and not BASE64.fullmatch(said):
        return found[0]
    try:
        content = binascii.a2b_qp(said, header=True) if how in "qQ" else binascii.a2b_base64(f"{said}==")
        return decoded(content, charset)
    except (NotRead, ValueError):
        return found[0]
