"""Where every account of the machine can put a ballot, or change one, by the modes of what a run reads: its folder, the
files and Maildirs in it, and the mails of these. A group is trusted, since mail is delivered by one."""
import os
import stat

from grdesk.ballots.mailbox import PARTS
from grdesk.output import counted, note, shown

# Of the places no more are named.
MOST_NAMED = 5


def writable_by_all(folder):
    """The paths in a folder of ballots, and itself, that the mode lets every account write. The folder may be named by
    a link, and no other link is followed."""
    return [path for path in paths_in(os.path.join(folder, "")) if is_writable_by_all(path)]


def paths_in(folder):
    """The folder, what is in it, and the parts of each Maildir with their mails."""
    yield folder
    for path in inside(folder):
        yield path
        for part in PARTS:
            place = os.path.join(path, part)
            yield place
            yield from inside(place)


def inside(folder):
    """The paths of what is in a folder, or none if it is no folder, or cannot be read."""
    try:
        return [] if os.path.islink(folder) else [os.path.join(folder, name) for name in sorted(os.listdir(folder))]
    except OSError:
        return []


def is_writable_by_all(path):
    try:
        mode = os.lstat(path).st_mode
    except OSError:
        return False
    is_read = stat.S_ISREG(mode) or stat.S_ISDIR(mode)
    return is_read and bool(mode & stat.S_IWOTH)


def warn_of_writable(folder):
    """Says once where other accounts can put a ballot. The Secretary may want that, so nothing is refused."""
    if places := writable_by_all(folder):
        named = ", ".join(map(shown, places[:MOST_NAMED]))
        more = f" and {counted(len(places) - MOST_NAMED, 'other place')}" if len(places) > MOST_NAMED else ""
        message = f"warning: the mode lets every account of this machine write to {named}{more}"
        note(f"{message}. A ballot there may be a stranger's: chmod o-w, and check the signatures of its mails again")
