"""A replay: the acts of a journal that a desk lacks are entered again in a copy of it, each at its old moment, and each
answer is compared with the one that was kept."""
import os
import re
from contextlib import suppress
from dataclasses import dataclass
from typing import NamedTuple, Optional

from grdesk.desk.copy import copy_bytes, log_of, private_folder, sync
from grdesk.desk.digest import digest_of, has_frames
from grdesk.desk.file import DeskFile
from grdesk.desk.request import Response, request_of
from grdesk.desk.row import MOMENTS, VOTING, accepted_in, rows_in
from grdesk.error import Failed, Refused
from grdesk.journal.entry import ACCEPTED, Entry
from grdesk.journal.listing import running_votes, tells_of_votes
from grdesk.output import counted, note


@dataclass
class Step:
    """An act that must be entered again. Without a number it is one of which it is not known whether the desk that is
    gone had accepted it."""

    entry: Entry
    number: Optional[int] = None

    def agrees(self, answer):
        """Whether the desk has answered as it had, but that another act may have been left out before."""
        match = ACCEPTED.fullmatch(answer.body.decode(errors="replace"))
        if self.number is None:
            return bool(match) or 400 <= answer.status < 500
        if not match or int(match[1]) != self.number:
            return False
        kept = ACCEPTED.fullmatch(self.entry.answer or "")
        return not kept or kept[2] == match[2]

    def difference(self, answer, is_secret):
        """What is said where the answers differ: of a vote nothing, and without the counts where these are secret."""
        number = self.entry.number
        if self.entry.is_vote:
            return f"{number}, a vote, is answered in another way than it was"
        kept, now = (self.entry.answer or "ok").strip(), answer.body.decode(errors="replace").strip()
        if is_secret:
            kept, now = (re.sub("^ok [0-9]+", "ok", text) for text in (kept, now))
        return f"{number} ({self.entry.words()}) was answered `{kept}`, and now is answered `{now}`"


def steps_after(entries, accepted, without=None):
    """The acts that a desk lacks which accepted so many, in their order."""
    check_open(entries)
    check_whole(entries, accepted, entries.last)
    numbers = range(accepted + 1, entries.last + 1)
    steps = [Step(entries.accepted[number], number) for number in numbers]
    steps += [Step(entry) for entry in entries.waiting]
    return steps if without is None else left_out(steps, without)


def left_out(steps, without):
    """The steps but for one act, after which each has a lower number."""
    place = next((place for place, step in enumerate(steps) if step.entry.number == without), None)
    if place is None:
        message = f"nothing was entered: {without} is not one of the acts to enter"
        raise Refused(f"{message}; if the desk has it, begin with an earlier copy")
    later = [Step(step.entry, step.number and step.number - 1) for step in steps[place + 1 :]]
    return [*steps[:place], *later]


def check_open(entries):
    """Refuses where nobody knows of an act whether the desk that is gone had it. One that was sent to a file, and is
    the last, is entered at the end: a desk that lacks what came before it lacks it too."""
    unknown = [entry for entry in entries.open if entry.is_by_port or entry.below is not None]
    if unknown:
        raise Refused(f"nothing was entered: {unanswered(unknown)}; {way_to_settle(unknown)}")


def unanswered(unknown):
    names = ", ".join(entry.number for entry in unknown)
    return f"the journal has no answer to {names}, and nobody can tell which the desk has"


def way_to_settle(unknown):
    number = unknown[0].number if len(unknown) == 1 else "N"
    return f"run gr-desk journal settle {number} accepted, or settle {number} refused"


def check_whole(entries, number, last):
    """Refuses where acts after this number, up to the last, came of which the journal knows nothing."""
    if missing := entries.missing(number, last):
        raise Refused(f"nothing was entered: {missing_text(entries, missing)}")


def missing_text(entries, missing, is_secret=False):
    """That acts with these numbers are missing. The numbers are left out where they would tell of a running vote."""
    message = "acts that came by another way are missing in the journal"
    is_secret = is_secret or tells_of_votes(entries, missing[-1])
    return message if is_secret else f"{message}, with the numbers {in_ranges(missing)}"


def in_ranges(numbers):
    """Rising numbers in words, as 1, 3 to 5."""
    ranges = []
    for number in numbers:
        if ranges and ranges[-1][1] == number - 1:
            ranges[-1][1] = number
        else:
            ranges.append([number, number])
    return ", ".join(f"{first}" if first == last else f"{first} to {last}" for first, last in ranges)


def has_secret(entries, rows):
    """Whether a vote is running, by the journal or by the rows of a desk, so that no count is shown."""
    return bool(running_votes(entries)) or any(row["stage"] == VOTING for row in rows["resolution"].values())


def lacks_of(journal, desk, rows):
    """What is said where the desk with these rows has more acts than the journal, or None. How many they are would tell
    of a running vote how many ballots came."""
    entries = journal.entries
    accepted, kept = accepted_in(rows), entries.last + len(entries.waiting)
    if accepted <= kept:
        return None
    message = f"{desk} has acts that {journal.name} lacks"
    if has_secret(entries, rows):
        return message
    numbers = f"{kept + 1}" if accepted == kept + 1 else f"{kept + 1} to {accepted}"
    return f"{message}, with the numbers {numbers}: the desk has {counted(accepted, 'act')}, and the journal {kept}"


class Replay:
    """Acts of a journal that are entered in a copy, which nobody else has. `found` are the rows that should come of
    them, where these are known."""

    def __init__(self, copy, entries, found=None):
        self.copy = copy
        self.entries = entries
        self.found = found
        # The answers to those of which it was not known whether the desk had them.
        self.answers = {}

    def enter(self, step, seconds=None):
        """Enters an act at one of these seconds, or of those at which it may have come."""
        seconds = step.entry.seconds() if seconds is None else seconds
        if len(seconds) == 1:
            answer = self.ask(self.copy, step, seconds[0])
        else:
            answer = self.try_each(step, seconds)
        if not step.agrees(answer):
            is_secret = tells_of_votes(self.entries, step.number or self.entries.last + 1)
            raise Refused(f"nothing was entered: {step.difference(answer, is_secret)}")
        if step.number is None:
            self.answers[step.entry.number] = answer.body.decode()

    def ask(self, copy, step, second):
        return DeskFile(copy).enter(step.entry.again().request(), second)

    def try_each(self, step, seconds):
        """Tries the seconds one after the other, each in a further copy. The copy from then on is that with the first
        answer which is right; or where rows are known, with the second that these have. Gives its answer, or the last
        one."""
        tried = {}
        first = next((second for second in seconds if self.is_right(step, second, tried)), None)
        if first is None:
            answer = tried[seconds[-1]].answer
        else:
            second = first if self.found is None else self.second_found(step, first, seconds, tried)
            answer = tried[second].answer
            remove_log(self.copy)
            os.replace(tried.pop(second).copy, self.copy)
        for each in tried.values():
            remove_log(each.copy)
            os.unlink(each.copy)
        return answer

    def is_right(self, step, second, tried):
        """Whether the act is answered rightly at a second, in a further copy."""
        if second not in tried:
            further = f"{self.copy}.{second}"
            copy_closed(self.copy, further)
            tried[second] = Trial(further, self.ask(further, step, second))
            check_closed(further)
        return step.agrees(tried[second].answer)

    def second_found(self, step, first, seconds, tried):
        """The second at which the act came, by the rows that were found. They have it, or a later act has put its own
        moment in that place: so it is the least moment there. What an act writes is seen best at the last second, since
        the rows may have the first one already."""
        last = seconds[-1]
        shown_at = last if self.is_right(step, last, tried) else first
        old, new = (read_closed(rows_in, copy, "a copy") for copy in (self.copy, tried[shown_at].copy))
        moments = [self.found[table].get(key, {}).get(column) for table, key, column in written(old, new)]
        least = min((moment for moment in moments if moment in seconds), default=first)
        return least if self.is_right(step, least, tried) else first


class Trial(NamedTuple):
    """A further copy into which an act was entered, and what was answered."""

    copy: str
    answer: Response


def written(old, new):
    """Where an act has put its moment into rows: the table, the key and the column. The clock, which each act puts on,
    is left out."""
    for table in new.keys() - {"desk"}:
        for key, row in new[table].items():
            before = old[table].get(key, {})
            yield from ((table, key, column) for column in MOMENTS if row.get(column) != before.get(column))


def read_closed(reads, copy, name):
    """What is read in a copy of the desk under this name that nobody has open. Stock SQLite reads a further one, since
    it may write what it reads."""
    with private_folder() as folder:
        read = str(folder / "read")
        copy_closed(copy, read)
        return reads(read, name)


def copy_closed(desk, to):
    """Copies a desk that nobody has open, and whose log has nothing."""
    check_closed(desk)
    remove_log(to)
    copy_bytes(desk, to)


def check_closed(desk):
    if has_frames(log_of(desk)):
        raise Failed(f"the log of {desk} could not be copied into it; is the disk full?")


def remove_log(desk):
    with suppress(FileNotFoundError):
        os.unlink(log_of(desk))


def close_by_roll(desk, kept_open=()):
    """Has the program copy the log of a desk into its file."""
    desk.enter(request_of("GET", "/roll"), 0, kept_open)
    check_closed(desk.path)


def take_owner(copy, desk):
    """Gives the copy, and a log that root has made for the desk, the owner and the mode of the desk."""
    about = os.stat(desk)
    for path in copy, log_of(desk):
        if os.path.exists(path) and (os.stat(path).st_uid, os.stat(path).st_gid) != (about.st_uid, about.st_gid):
            os.chown(path, about.st_uid, about.st_gid)
    os.chmod(copy, about.st_mode & 0o777)


def take_place(copy, desk, journal, without, answers, count):
    """Puts the copy, which has so many acts, in the place of the desk, by one rename, and has the journal say so before
    and after it. By its inode a later tool knows the file again, whatever has come into it since."""
    desk.check_free()
    check_closed(copy)
    close_by_roll(desk, [journal.descriptor])
    take_owner(copy, desk.path)
    sync(copy)
    known = {"sha256": digest_of(copy), "inode": os.stat(copy).st_ino, "count": count}
    journal.add("replay", desk=desk.path, without=without, answers=answers, **known)
    os.replace(copy, desk.path)
    sync(os.path.dirname(desk.path))
    try:
        journal.add("replayed", is_done=True)
    except Failed as error:
        # What is missing there the next tool finds out by the file, and keeps.
        note(f"warning: the replay is done, and {desk.name} has these acts, but {error}")
