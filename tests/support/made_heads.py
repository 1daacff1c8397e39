"""Heads of mails that are made from a seed: what must be known of each is known from how it was made. HOST is the host
of which the fields Received count."""
from dataclasses import dataclass, field
from datetime import datetime, timedelta, timezone
from typing import Optional

from tests.support.made_texts import Reason, right_form

HOST = "vote.example.org"
OTHERS = "mx.other.net", "vote.example.org.other.net", "localhost", "[192.0.2.1]", "vote.example", "by.example"
DAYS = "Mon", "Tue", "Wed", "Thu", "Fri", "Sat", "Sun"
MONTHS = "Jan", "Feb", "Mar", "Apr", "May", "Jun", "Jul", "Aug", "Sep", "Oct", "Nov", "Dec"


@dataclass
class Head:
    """The fields of a head, each with its further lines after LF, and what is known of it. `received` has the moments
    that may be taken for the one at which HOST received it, and `message_ids` the identifiers; None stands for none.
    `senders` is None if it is not known what a reader makes of them."""

    fields: list = field(default_factory=list)
    is_mail: bool = False
    received: tuple = (None,)
    has_received: bool = False
    message_ids: tuple = (None,)
    senders: Optional[tuple] = ()
    must: set = field(default_factory=set)
    may: set = field(default_factory=set)
    around: list = field(default_factory=list)


# The field Received.


def dated(luck):
    """A date as it stands in a field, and its moment, or None if it gives none."""
    moment = datetime(2026, 1, 15, tzinfo=timezone.utc) + timedelta(seconds=luck.randrange(86_400 * 7))
    hours = luck.choice([0, 0, 1, -5, 13, -11])
    local = moment + timedelta(hours=hours)
    zone = f"{hours * 100:+05d}"
    day, month, year, time = local.day, MONTHS[local.month - 1], local.year, local.strftime("%H:%M:%S")
    seconds = int(moment.timestamp())
    text = f"{day} {month} {year} {time}"
    name = DAYS[local.weekday()]
    utc = f"{moment.day} {MONTHS[moment.month - 1]} {moment.year} {moment:%H:%M:%S}"
    forms = {
        "a date": (f"{name}, {text} {zone}", seconds),
        "a date, again": (f"{name}, {text} {zone}", seconds),
        "a date with a comment": (f"{name}, {text} {zone} (so; by {HOST})", seconds),
        "a date without a day": (f"{text} {zone}", seconds),
        "a date in lines": (f"{name}, {text}\n\t{zone}", seconds),
        "a date in GMT": (f"{utc} GMT", seconds),
        "a date with -0000": (f"{utc} -0000", seconds),
        "a date with -0000 and a comment": (f"{utc} -0000 (UTC)", seconds),
        "a date without an offset": (f"{name}, {text}", None),
        "a date with another zone": (f"{name}, {text} QQQ", None),
        "a date of no day": (f"Thu, 35 Jan 2026 {time} +0000", None),
        "a date of no hour": (f"Thu, 15 Jan 2026 25:61:00 {zone}", None),
        "no date": (luck.choice(["", "soon", "0", "Thu", "-0000", ",", f"{'9' * 20} Jan 2026 00:00:00 +0000"]), None),
    }
    return luck.one(forms)


def comment(luck, depth=2):
    """A comment, in which all may stand."""
    pieces = [f"by {HOST}", "by mx.other.net", "a ; b", "x", r"\)", r"\(", r"\\", "<x>", "Postfix", "1.2.3.4"]
    words = luck.choices(pieces, k=luck.randint(0, 3))
    if depth and luck.chance(0.3):
        luck.kinds.add("Received with comments in comments")
        words.insert(luck.randint(0, len(words)), comment(luck, depth - 1))
    return f"({' '.join(words)})"


def hidden(luck):
    """What is left out of a field: comments, quoted strings, addresses."""
    kind = luck.one({"comments": 0, "quoted strings": 1, "addresses": 2}, "Received with ")
    if kind == 0:
        return comment(luck)
    by = luck.choice([HOST, "mx.other.net"])
    if kind == 1:
        return luck.choice([f'"by {by}"', f'"; by {by}"', f'"a \\" by {by}"', '"( by x )"'])
    return luck.choice([f"<by {by}>", f"<a@by> <x; by {by}>", "<d1@example.org>", f"<by@{by}>"])


def another_than_by(word):
    """A word before which no host stands."""
    return f"{word}x" if word.lower() == "by" else word


def received_field(luck):
    """The lines of a field, and the moments that may be taken from it."""
    is_host = luck.chance(0.7)
    by = luck.choice([HOST, HOST, HOST.upper(), f"{HOST}."]) if is_host else luck.choice(OTHERS)
    date, moment = dated(luck)
    helo = luck.choice(["voter.example.net", HOST, "by", "localhost", "[198.51.100.7]", "by-host"])
    if helo == "by":
        luck.kinds.add("Received with the HELO by")
    words = ["from", helo, *[hidden(luck) for _ in range(luck.randint(0, 2))]]
    if luck.chance(0.15):
        luck.kinds.add("Received with several hosts")
        words += ["by", luck.choice([HOST, "mx.other.net"]), "with", "ESMTP"]
    words += ["by", by, *[hidden(luck) for _ in range(luck.randint(0, 1))], "with", "ESMTPS", "id", luck.word(4, 12)]
    if luck.chance(0.2):
        words.append(f"; id {another_than_by(luck.word(2, 5))}")
    if luck.chance(0.5):
        luck.kinds.add("Received with for <..>")
        words += ["for", luck.choice(["<d1@example.org>", f"<by@{HOST}>", f"<x by {HOST}>", f"<by mx.other.net>"])]
    moments = (moment if is_host else None,)
    if luck.chance(0.08):
        luck.kinds.add("Received with what does not end")
        # What does not end hides what stands behind it, also the date.
        if luck.chance(0.7):
            words.insert(luck.randint(2, len(words)), luck.choice(["(", "(x", "(a (b)"]))
        else:
            words.append(luck.choice(['"', "<", '"x', "<x"]))
        moments = (None, *moments)
    text = words[0]
    for word in words[1:]:
        text += luck.choice([" ", " ", " ", "\n\t", "  ", "\n "]) + word
    text += luck.choice(["; ", ";", " ;\n\t"]) + date
    if luck.chance(0.04):
        luck.kinds.add("Received without a host")
        return luck.choice(["from x; " + date, "; " + date, date, "by ; " + date, ""]), (None,)
    return text, moments


def received_fields(luck, head):
    """The fields Received at the top: the first one decides."""
    count = luck.choice([0, 1, 1, 2, 2, 3])
    names = ["Received", "Received", "Received", "received", "RECEIVED", "Received "]
    for number in range(count):
        text, moments = received_field(luck)
        name = luck.choice(names)
        if name == "Received ":
            luck.kinds.add("Received with a blank before its colon")
        head.fields.append(f"{name}: {text}")
        if number == 0:
            head.received = moments
    head.has_received = count > 0
    if not count:
        luck.kinds.add("no Received")


# Other fields.


def senders_of(luck, head):
    login = luck.choice(["d1", "d2", "voter", "O.Reilly"])
    host = luck.choice(["example.org", "Example.ORG", "debian.org"])
    address = f"{login}@{host}"
    forms = {
        "From with an address": (address, (address,)),
        "From with a name": (f"A Voter <{address}>", (address,)),
        "From with a quoted name": (f'"Voter, A." <{address}>', (address,)),
        "From with a long name": (f'"{"A Voter " * 30}" <{address}>', (address,)),
        "From with a comment": (f"{address} (A Voter)", (address,)),
        "From with an encoded name": (f"=?utf-8?q?J=C3=BCrgen?= <{address}>", (address,)),
        "From in lines": (f"A Voter\n <{address}>", (address,)),
        "From with two addresses": (f"{address}, B <d3@example.org>", (address, "d3@example.org")),
        "From with odd bytes": (f"J\udcfcrgen <{address}>", None),
        "From with an address as a name": (f"d9@example.org <{address}>", None),
        "From with brackets that do not end": (f"A <{address}", None),
        "From with nothing": ("", None),
        "From with a group": (f"us: {address};", None),
        "From with a NUL": (f"A\0B <{address}>", None),
        "From with many brackets": ("(" * 2_000 + address, None),
    }
    text, found = luck.one(forms)
    head.fields.append(f"{luck.choice(['From', 'From', 'from', 'FROM'])}: {text}")
    head.senders = None if found is None else tuple(each.lower() for each in found)
    if luck.chance(0.05):
        luck.kinds.add("From twice")
        head.fields.append("From: d4@example.org")
        head.senders = None if found is None else (*head.senders, "d4@example.org")


def message_id(luck, head):
    said = f"<{luck.word(5, 20)}@{luck.choice(['example.org', 'x', 'mail.example.net'])}>"
    kind = luck.choice(["one"] * 8 + ["none", "twice alike", "twice", "folded", "of odd bytes", "empty"])
    luck.kinds.add(f"Message-ID, {kind}")
    name = luck.choice(["Message-ID", "Message-Id", "message-id", "MESSAGE-ID"])
    head.message_ids = (said,)
    if kind == "none":
        head.message_ids = (None,)
    elif kind == "empty":
        head.fields.append(f"{name}:{luck.choice(['', ' ', '  '])}")
        head.message_ids = (None, "")
    elif kind == "folded":
        head.fields.append(f"{name}:\n {said}")
    elif kind == "of odd bytes":
        head.fields.append(f"{name}: <\udcfc\udcff@x>")
        head.message_ids = ()
    else:
        head.fields.append(f"{name}: {said}")
    if kind == "twice alike":
        head.fields.append(f"Message-ID: {said}")
    if kind == "twice":
        head.fields.append(f"{luck.choice(['Message-ID', 'message-id', 'Message-ID '])}: <other@x>")
        head.must.add(Reason.MESSAGE_ID)
        head.message_ids = ()


# Lines of a head that are no field, or hardly one. None of them ends it, or says anything.
ODD_LINES = {
    "a blank before a colon": "Subject : A ballot",
    "an escaped From in the head": ">From voter@example.net Thu Jan 15 02:00:00 2026",
    "a broken line in the head": "this is no field at all",
    "a continuation of blanks": "X-Note: a\n \t\n b",
    "a name with an odd letter": "Sübject: x",
    "no name before a colon": ": x",
    "odd bytes in the head": "Subject: \udcff\udcfe",
    "a NUL in the head": "Subject: a\0b",
    "a long line in the head": "Subject: " + "x" * 5_000,
    "an encoded word of an odd charset": "Subject: =?punycode?q?a-b?= =?utf-8?b?///?= =?x?y?z?=",
    "a lone CR in the head": f"Subject: a\rMessage-ID: <evil@x>\rReceived: from e by {HOST}; 1 Jan 2026 00:00:00 +0000",
    "odd ends of lines in the head": "Subject: a\x0bMessage-ID: <e@x>\x0cFrom: e@x\x1c\x85Content-Type : x\u2028",
    "an empty field": "X-Empty:",
    "a Date of nothing": "Date: (((",
    "a Date": "Date: Thu, 15 Jan 2026 02:00:00 +0000",
    "a MIME version": "MIME-Version: 1.0",
    "other fields": "Return-Path: <d1@example.org>\nX-Spam-Status: No, score=-1\n\ttests=A,B",
}


def made_head(luck, form):
    """A head without the fields of its content."""
    head = Head(is_mail=True)
    received_fields(luck, head)
    top = len(head.fields)
    senders_of(luck, head)
    message_id(luck, head)
    for _ in range(luck.choice([0, 0, 1, 1, 2, 4])):
        head.fields.append(luck.one(ODD_LINES))
    if luck.chance(0.02):
        luck.kinds.add("a form in the head")
        text = right_form(luck, form)
        head.fields.append("X-Note: see\n " + "\n ".join(text.lines))
        head.around.append(text)
    rest = head.fields[top:]
    order = sorted(range(len(rest)), key=lambda _: luck.random())
    # The order of fields of one name stays.
    named = [place for place in order if rest[place].lower().startswith("from")]
    for place, right in zip(named, sorted(named)):
        order[order.index(place)] = -1 - right
    head.fields[top:] = [rest[place if place >= 0 else -1 - place] for place in order]
    return head
