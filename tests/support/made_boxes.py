"""Mboxes and Maildirs that are made from a seed, with what a reader must find in each: the bytes of every mail, in
their order, and what it passes over. It is known from how the box was made."""
import hashlib
import os
import re
import signal
import socket
from contextlib import contextmanager
from dataclasses import dataclass, field

from tests.support.made_texts import Luck

from grdesk.ballots import mail as mails  # noqa: E402

ZONES = "CET", "+0100", "-0500", "UTC"
# How long a box may take, in seconds: a FIFO that is opened waits for ever.
PATIENCE = 30
# The words for what is left out or passed over.
DELETED, DRAFT = "delete|trash", "draft"
NO_FILE = {"a FIFO": "FIFO|pipe|no file|regular", "a socket": "socket|no file|regular|device",
           "a link": "link", "a link to nothing": "link", "a link to a folder": "link", "a folder": "folder|director"}


@dataclass
class Expected:
    """What must be found: the bytes of each mail, and the end of the name of what is passed over, with a pattern that
    the reason matches."""

    mails: list = field(default_factory=list)
    passed: list = field(default_factory=list)


# Lines of an mbox.


def separator(luck):
    """A line that begins a mail, as programs write it."""
    address = luck.choice(["d1@example.org", "MAILER-DAEMON", "-", "<>", "a@b@c", "\"x\"@y", "???@???"])
    day = luck.choice(["Thu Jan 15", "Thu Jan  1", "Sat Feb 28"])
    time = "02:00:00"
    kind = luck.one({"as asctime has it": f"{day} {time} 2026",
                     "with a zone before the year": f"{day} {time} {luck.choice(ZONES)} 2026",
                     "with a zone behind the year": f"{day} {time} 2026 {luck.choice(ZONES)}"}, "a separator ")
    return f"From {address}{luck.choice([' ', ' ', '  '])}{kind}"


NO_SEPARATORS = {
    "From and words": "From my side: yes",
    "From alone": "From ",
    "From and an address": "From d1@example.org",
    "From and a day": "From d1@example.org Thu Jan 15 2026",
    "From and a date of numbers": "From d1@example.org 2026-01-15 02:00:00",
    "From, two words and a date": "From my side Thu Jan 15 02:00:00 2026",
    "From and a date of another tongue": "From d1@example.org Don Jan 15 02:00:00 2026",
    "From and a date of no month": "From d1@example.org Thu Foo 15 02:00:00 2026",
    "From, a date and words": "From d1@example.org Thu Jan 15 02:00:00 2026 I was away",
    "From behind a mark": ">From d1@example.org Thu Jan 15 02:00:00 2026",
    "From behind a blank": " From d1@example.org Thu Jan 15 02:00:00 2026",
    "from in small letters": "from d1@example.org Thu Jan 15 02:00:00 2026",
    "From and a tab": "From\td1@example.org Thu Jan 15 02:00:00 2026",
    "From without a blank": "Fromage d1@example.org Thu Jan 15 02:00:00 2026",
    "From behind a lone CR": "x\rFrom d1@example.org Thu Jan 15 02:00:00 2026",
    "From behind U+0085": "x\x85From d1@example.org Thu Jan 15 02:00:00 2026",
}
STATUS = {
    "no Status": ([], None),
    "Status, read": (["Status: RO"], None),
    "Status, deleted": (["Status: ROD"], DELETED),
    "X-Status, answered": (["X-Status: A"], None),
    "X-Status, deleted": (["Status: RO", "X-Status: D"], DELETED),
    "X-Status, deleted and answered": (["X-Status: AD"], DELETED),
    "X-Status, draft": (["X-Status: T"], DRAFT),
    "Status, T": (["Status: RT"], None),
    "Status twice": (["Status: RO", "Status: D"], DELETED),
    "X-Status with a blank before its colon": (["X-Status : D"], DELETED),
    "another field with D": (["X-Keywords: D", "Subject: D"], None),
}


def body_lines(luck):
    """Lines of a body, of which none begins a mail, and the last one is not empty."""
    lines = ["Hello,"]
    for _ in range(luck.randint(0, 6)):
        kind = luck.randrange(6)
        if luck.chance(0.02):
            luck.kinds.add("a separator at the end of a long line")
            lines += ["", "x" * luck.choice([4_096, 8_192, 65_536, 1 << 17, 1 << 20]) + separator(luck)]
        if kind == 0:
            luck.kinds.add("a separator that follows no empty line")
            lines += ["above it", separator(luck)]
        elif kind == 1:
            lines += ["", luck.one(NO_SEPARATORS)]
        elif kind == 2:
            lines += [luck.one(NO_SEPARATORS)]
        elif kind == 3:
            lines += ["", "X-Status: D", ""]
        else:
            lines += luck.choice([["some words"], ["", "more words"], [""]])
    return [*lines, "the end"]


def mail_of(luck, number):
    """The lines of a mail, and a pattern of why it is left out of an mbox, or None."""
    status, why = luck.one(STATUS)
    head = [f"Message-ID: <{number}.{luck.randrange(10 ** 9)}@example.org>", "From: d1@example.org", *status]
    luck.shuffle(head)
    return [*head, "", *body_lines(luck)], why


def made_mbox(luck, path):
    eol = luck.choice([b"\n", b"\n", b"\r\n"])
    luck.kinds.add("an mbox with CR LF" if eol == b"\r\n" else "an mbox")
    content, expected = b"", Expected()
    count = luck.choice([1, 1, 2, 3, 10])
    for number in range(1, count + 1):
        lines, why = mail_of(luck, number)
        mail = eol.join(line.encode() for line in lines) + eol
        is_last = number == count
        blank = luck.choice([0, 1, 1, 2]) if is_last else luck.choice([1, 1, 1, 2, 3])
        content += separator(luck).encode() + eol + mail + eol * blank
        # One empty line belongs to what follows it; one of CR LF stays, since mailbox.mbox keeps it.
        mail += eol * (blank if eol == b"\r\n" else max(blank - 1, 0))
        if is_last and not blank and luck.chance(0.3):
            luck.kinds.add("an mbox that ends in its last line")
            content, mail = content[: -len(eol)], mail[: -len(eol)]
        if why:
            expected.passed.append((f"mail {number}", why))
        else:
            expected.mails.append(mail)
    path.write_bytes(content)
    return expected


# Maildirs.


def file_name(luck, number):
    """A name in a Maildir, and a pattern of why that mail is left out, or None."""
    all_flags = ["", "", ":2,", ":2,S", ":2,RS", ":2,FPRS", ":2,ST", ":2,T", ":2,D", ":2,DS", ":2,DFT", ":1,T", ":2.T"]
    flags = luck.choice(all_flags)
    letters = flags[3:] if flags.startswith(":2,") else ""
    why = DELETED if "T" in letters else DRAFT if "D" in letters else None
    luck.kinds.add(f"a name with {flags or 'no flags'}")
    return f"17684{number:05}.M{luck.randrange(10 ** 6)}T2D.host{flags}", why


def made_maildir(luck, path):
    luck.kinds.add("a Maildir")
    expected, timed = Expected(), []
    for part in "new", "cur", "tmp":
        (path / part).mkdir(parents=True)
    moments = luck.sample(range(1_768_435_200, 1_768_435_200 + 1_000_000), k=12)
    for number in range(luck.choice([0, 1, 2, 3, 8])):
        name, why = file_name(luck, number)
        lines, _ = mail_of(luck, number)
        content = "\n".join([*lines, ""]).encode()
        place = path / luck.choice(["new", "cur", "cur"]) / name
        place.write_bytes(content)
        os.utime(place, (moments[number], moments[number]))
        if why:
            expected.passed.append((name, why))
        else:
            timed.append((moments[number], content))
    for number in range(luck.choice([0, 0, 1, 2])):
        put_no_file(luck, path / luck.choice(["new", "cur"]), f"17684{number}.stray.host", expected)
    if luck.chance(0.2):
        luck.kinds.add("a hidden file")
        (path / "cur" / ".hidden").write_bytes(b"From: x\n\nx\n")
        (path / "tmp" / "unfinished").write_bytes(b"From: x\n\nx\n")
        (path / ".Sent").mkdir()
    if os.geteuid() and luck.chance(0.3):
        luck.kinds.add("a file that cannot be read")
        place = path / "cur" / "17684.unreadable.host:2,S"
        place.write_bytes(b"From: x\n\nx\n")
        place.chmod(0)
        expected.passed.append((place.name, "read|denied|opened"))
    expected.mails = [content for _, content in sorted(timed)]
    return expected


def put_no_file(luck, folder, name, expected):
    """Puts what is no regular file into a folder."""
    kind = luck.choice(sorted(NO_FILE))
    luck.kinds.add(kind)
    place = folder / name
    if kind == "a FIFO":
        os.mkfifo(place)
    elif kind == "a socket":
        with socket.socket(socket.AF_UNIX) as made:
            # A path of a socket is short.
            here = os.open(folder, os.O_RDONLY)
            try:
                made.bind(f"/proc/self/fd/{here}/{name}")
            finally:
                os.close(here)
    elif kind == "a folder":
        place.mkdir()
        (place / "inner").write_bytes(b"From: x\n\nx\n")
    else:
        target = folder.parent.parent / "target"
        target.write_bytes(b"From: x\nMessage-ID: <linked@x>\n\nx\n")
        goal = {"a link": target, "a link to nothing": folder / "nowhere", "a link to a folder": folder.parent}[kind]
        place.symlink_to(goal)
    expected.passed.append((name, NO_FILE[kind]))


def made_box(seed, folder):
    """Makes the box of a seed in a new folder. Gives its path, what must be found there, and the kinds."""
    luck = Luck(f"box {seed}")
    path = folder / "box"
    expected = made_mbox(luck, path) if luck.chance(0.5) else made_maildir(luck, path)
    return path, expected, luck.kinds


@contextmanager
def no_waiting():
    """Ends what waits too long by an AssertionError. Only the main thread may use it."""

    def end(number, frame):
        raise AssertionError(f"it waits for more than {PATIENCE} seconds")

    former = signal.signal(signal.SIGALRM, end)
    signal.alarm(PATIENCE)
    try:
        yield
    finally:
        signal.alarm(0)
        signal.signal(signal.SIGALRM, former)


def box_differences(seed, folder):
    """What the reader says of the box of a seed, and is not so, as sentences; and the kinds of that box."""
    path, expected, kinds = made_box(seed, folder)
    with no_waiting():
        found = mails.mails_at(path)
    wrong = []
    digests = [each.source()["sha256"] for each in found.mails]
    wanted = [hashlib.sha256(content).hexdigest() for content in expected.mails]
    if digests != wanted:
        wrong.append(f"it has {len(digests)} mails, of {len(wanted)}; those of the places "
                     f"{[place for place, pair in enumerate(zip(digests, wanted), 1) if len(set(pair)) > 1]} differ")
    for name, pattern in expected.passed:
        why = [each.why for each in found.passed if each.name.endswith(name)]
        if len(why) != 1 or not re.search(pattern, why[0]):
            wrong.append(f"{name} is passed over by {why}, and should be by {pattern}")
    if len(found.passed) != len(expected.passed):
        named = [os.path.basename(each.name) for each in found.passed]
        wrong.append(f"passed over are {named}, and should be {[name for name, _ in expected.passed]}")
    return wrong, kinds
