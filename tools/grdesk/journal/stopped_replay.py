"""What became of a replay that a stop has cut off, after the journal had its line: whether its copy has the place of
the desk. The rows of the desk say so. An inode does not, since a file that is put there later may get the same one."""
import os

from grdesk.desk.copy import desk_at, private_folder
from grdesk.desk.digest import digest_of
from grdesk.desk.row import accepted_in, read_from, rows_in
from grdesk.error import Refused
from grdesk.journal.comparison import Comparison
from grdesk.journal.entry import Entries, UnknownForm, line_of
from grdesk.output import note


def became_of(entries):
    """Whether the copy of the replay has the place of the desk, and what is said of that. It has if the file is the
    copy as it was, or if its rows are those of the acts that the journal has then. It has not if they are those of the
    acts that the journal has otherwise. Rows that are neither have acts that came by another way: then it has only if
    the file is the same one, and has no fewer acts than the copy."""
    replay, done = entries.replay, with_replay(entries)
    desk = replay["desk"]
    message = f"its copy is in the place of {desk}, so it is done"
    is_not_done = False, f"its copy is not in the place of {desk}, so nothing was entered"
    if done is None:
        return is_not_done
    if digest_of(desk) == replay["sha256"]:
        return True, message
    found = read_from(rows_in, desk_at(desk), desk)
    if accepted_in(found) < replay.get("count", done.last):
        return is_not_done
    note(f"a replay was stopped: what the acts of the journal make is compared with {desk}, as by a check")
    if makes(done, found):
        return True, message
    if makes(entries, found) or os.stat(desk).st_ino != replay.get("inode"):
        return is_not_done
    return True, f"{message}; acts have come by another way since"


def with_replay(entries):
    """The acts of the journal if the replay is done, or None if it cannot be, by what the journal has after it."""
    try:
        return Entries.of([*entries.lines, line_of("replayed", is_done=True)])
    except UnknownForm:
        return None


def makes(entries, found):
    """Whether the first acts of a journal make these rows, in one of the ways in which open acts may be among them."""
    with private_folder() as folder:
        try:
            made = Comparison.begin(entries, found, folder).made_desks()
        except Refused:
            return False
    return any(not each.differences for each in made)
