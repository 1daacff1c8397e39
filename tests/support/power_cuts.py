"""What a cut of the power may leave of a desk: the calls of a run on the two files, by the record of stop_call.c, and
what the files may hold between any two of them. What was written before a sync of its file is there. Of the calls since
then there may be none, all, the first ones, one alone, or all but one; and of a write some sectors of 512 bytes alone.
After a sync that failed, no later one of its file counts.
"""
import re
import struct
from itertools import product
from typing import NamedTuple

SECTOR = 512
NOTHING = bytes(SECTOR)
DESK, LOG = "D", "L"
# An entry of a record: its kind, its file, an offset and a length.
ENTRY = struct.Struct("=ccQQ")
# What the program says where a command is accepted, or a desk is made.
ACCEPTED = re.compile(rb"^HTTP/1\.1 200 |\Aok\b", re.M)


class Call(NamedTuple):
    """A call on a file: r, w, l and s for a read, a write, a change of the length and a sync, and f for a sync that
    failed. Or a for what was said, and x for a stop that was reached."""

    kind: str
    file: str
    offset: int
    length: int
    data: bytes


def calls_of(record):
    """The entries of a record."""
    calls, at = [], 0
    while at < len(record):
        kind, file, offset, length = ENTRY.unpack_from(record, at)
        at += ENTRY.size
        has_bytes = kind in b"wa"
        calls.append(Call(kind.decode(), file.decode(), offset, length, record[at : at + length] if has_bytes else b""))
        at += length if has_bytes else 0
    return calls


def on_files(calls):
    """Those on the two files, as stop_call.c counts them."""
    return [call for call in calls if call.kind in "rwls"]


def accepted_in(calls):
    """How many commands the program had said to be accepted."""
    return len(ACCEPTED.findall(b"".join(call.data for call in calls if call.kind == "a")))


def is_copied_inside(calls):
    """Whether something is written into the desk after one response and before another."""
    order = "".join("d" if (call.kind, call.file) == ("w", DESK) else call.kind for call in calls)
    return "d" in order[: order.rindex("a")]


class Content:
    """What a file holds: the bytes that it began with, except for some sectors, up to its length."""

    def __init__(self, initial, length=None, sectors=None):
        self.initial = initial
        self.length = len(initial) if length is None else length
        self.sectors = sectors or {}

    def initial_sector(self, number):
        return self.initial[number * SECTOR : (number + 1) * SECTOR].ljust(SECTOR, b"\0")

    def sector(self, number):
        return self.sectors.get(number) or self.initial_sector(number)

    def with_sectors(self, sectors, length):
        changed = self.sectors | sectors
        others = {number: data for number, data in changed.items() if data != self.initial_sector(number)}
        return Content(self.initial, length, others)

    def after(self, call, has_sector=lambda place: True):
        """What it holds after a call, of which the sectors with these places are done."""
        if call.kind == "l":
            return self.cut(call.length)
        sectors, length = {}, self.length
        first, end = call.offset // SECTOR, call.offset + call.length
        for number in range(first, (end - 1) // SECTOR + 1):
            if has_sector(number - first):
                at = number * SECTOR
                begin, stop = max(at, call.offset), min(at + SECTOR, end)
                held = bytearray(self.sector(number))
                held[begin - at : stop - at] = call.data[begin - call.offset : stop - call.offset]
                sectors[number] = bytes(held)
                length = max(length, stop)
        return self.with_sectors(sectors, length)

    def cut(self, length):
        """What it holds after a change of its length. Bytes past the end are gone, also where it grows again."""
        last = (self.length - 1) // SECTOR
        sectors = {number: NOTHING for number in range(length // SECTOR, last + 1)}
        if length % SECTOR and length < self.length:
            sectors[length // SECTOR] = self.sector(length // SECTOR)[: length % SECTOR].ljust(SECTOR, b"\0")
        return self.with_sectors(sectors if length < self.length else {}, length)

    def key(self):
        return self.length, frozenset(self.sectors.items())

    def bytes(self):
        held = bytearray(self.initial[: self.length].ljust(self.length, b"\0"))
        for number, data in self.sectors.items():
            if number * SECTOR < self.length:
                held[number * SECTOR : (number + 1) * SECTOR] = data
        return bytes(held[: self.length])


class File:
    """A file: what it holds by its last sync, and the calls since then."""

    def __init__(self, initial):
        self.synced = Content(initial)
        self.unsynced = []
        self.has_failed = False

    def take(self, call):
        """One call more."""
        if call.kind in "wl":
            self.unsynced.append(call)
        elif call.kind == "f":
            self.has_failed = True
        elif call.kind == "s" and not self.has_failed:
            self.synced = after_all(self.synced, self.unsynced)
            self.unsynced = []


def after_all(content, calls):
    for call in calls:
        content = content.after(call)
    return content


def torn(sectors):
    """The ways of a write of so many sectors to be done in part: by the places of those that are."""
    half = sectors // 2
    return {
        "its first half": lambda place: place < half,
        "its second half": lambda place: place >= half,
        "each second sector": lambda place: place % 2 == 0,
        "each other sector": lambda place: place % 2 == 1,
    }


def sectors_of(call):
    """How many sectors a write touches."""
    return (call.offset + call.length - 1) // SECTOR - call.offset // SECTOR + 1


def left_of(synced, calls):
    """What a cut may leave of a file that holds this by its last sync, with the calls since then: each content once,
    with words for it. That none is there comes first, and that all are there second."""
    left = {}

    def add(words, content):
        left.setdefault(content.key(), (words, content))

    add("none", synced)
    add("all", after_all(synced, calls))
    for place, call in enumerate(calls):
        before, later = calls[:place], calls[place + 1 :]
        first = after_all(synced, before)
        add(f"the first {place}", first)
        add(f"number {place} alone", synced.after(call))
        add(f"all but number {place}", after_all(first, later))
        if call.kind == "w" and sectors_of(call) > 1:
            for part, has_sector in torn(sectors_of(call)).items():
                half_done = first.after(call, has_sector)
                add(f"the first {place} and {part} of the next", half_done)
                add(f"all, of number {place} {part}", after_all(half_done, later))
    return list(left.values())


def pairs_of(desks, logs):
    """Contents of the two files together: each of the one with the extremes of the other."""
    yield from product(desks, logs[:2])
    yield from product(desks[:2], logs)


class Image(NamedTuple):
    """What a cut left, and how many commands were accepted by then."""

    name: str
    what: str
    desk: Content
    log: Content
    accepted: int


def images_of(name, desk, log, calls, first=0):
    """All that cuts may leave of files with these bytes at the beginning, after so many calls or more; each once."""
    files = {DESK: File(desk), LOG: File(log)}
    for call in calls[:first]:
        take(call, files)
    seen = set()
    for number in range(first, len(calls) + 1):
        if number > first:
            take(calls[number - 1], files)
        accepted = accepted_in(calls[:number])
        desks, logs = (left_of(files[file].synced, files[file].unsynced) for file in (DESK, LOG))
        for (of_desk, held), (of_log, logged) in pairs_of(desks, logs):
            key = held.key(), logged.key(), accepted
            if key not in seen:
                seen.add(key)
                what = f"a cut after entry {number}, with unsynced calls on the desk: {of_desk}; on the log: {of_log}"
                yield Image(f"{name}{len(seen)}", what, held, logged, accepted)


def take(call, files):
    if call.file in files:
        files[call.file].take(call)


def whole(initial, file, calls):
    """What a file holds after all calls."""
    return after_all(Content(initial), [call for call in calls if call.file == file and call.kind in "wl"]).bytes()
