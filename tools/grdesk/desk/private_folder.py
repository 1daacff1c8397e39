"""Folders of mode 0700 for private copies of a desk, which have all its ballots: in $XDG_RUNTIME_DIR if that is set,
is this account's alone and has room, and otherwise in gr-desk-UID of $TMPDIR or /tmp. Each is locked until its tool has
taken it away. So a later tool finds those that a killed one left, and reports them."""
import errno
import fcntl
import os
import re
import shlex
import stat
import tempfile
from contextlib import ExitStack, contextmanager
from pathlib import Path

from grdesk.error import Refused
from grdesk.interruption import undisturbed
from grdesk.new_file import Folder, write_all
from grdesk.output import note

PREFIX = ".desk-"
# Their names, as `tempfile` draws them.
NAME = re.compile(re.escape(PREFIX) + "[a-z0-9_]{8}")
# SQLite puts the index of a log beside it, which has so many bytes for up to 8,192 pages in the log.
INDEX = 1 << 16
# How many bytes must be free in memory if a tool does not say how many it will copy.
ROOM = 100_000_000
OWNER_ALONE = 0o700
# What this run has said of folders that were left.
REPORTED = set()


@contextmanager
def private_folder(beside=None, room=ROOM):
    """A folder that its owner alone may enter, and what is made in it, until the end: in this folder, or where private
    copies lie if so many bytes are needed for them."""
    os.umask(0o077)
    place = beside or place_for(room)
    report_left(place)
    with ExitStack() as stack:
        lock = stack.enter_context(Lock())
        with undisturbed():
            folder = stack.enter_context(tempfile.TemporaryDirectory(prefix=PREFIX, dir=place))
            lock.take(folder)
        yield Path(folder)


def report_left(place):
    """Says what killed tools left in a folder: each of it once."""
    for folder in left_in(place):
        if folder not in REPORTED:
            REPORTED.add(folder)
            message = f"warning: {folder} was left by a tool that was killed, and has a copy of a desk"
            note(f"{message}, with all ballots: rm -r {shlex.quote(folder)}")


class Lock:
    """The lock of a folder, which is let go once the folder is gone."""

    def __init__(self):
        self.folder = None

    def __enter__(self):
        return self

    def take(self, path):
        self.folder = Folder(path)
        try:
            fcntl.flock(self.folder.descriptor, fcntl.LOCK_EX)
        except OSError:
            # This file system locks no folder. Then nobody gets the lock, and the folder is never reported.
            pass

    def __exit__(self, *_):
        if self.folder:
            os.close(self.folder.descriptor)


def left_in(place):
    """The private folders of this account in a folder that no tool has any more, and that have something."""
    try:
        names = sorted(filter(NAME.fullmatch, os.listdir(place)))
    except OSError:
        return []
    return [path for path in (os.path.join(place, name) for name in names) if is_left(path)]


def is_left(path):
    try:
        with Folder(path) as folder:
            if folder.about().st_uid != os.geteuid():
                return False
            fcntl.flock(folder.descriptor, fcntl.LOCK_EX | fcntl.LOCK_NB)
            # One that has nothing yet was made just now, and its tool is about to take the lock.
            return bool(folder.names())
    except OSError:
        return False


def place_for(room):
    """The folder in which a private folder for so many bytes is made."""
    runtime = os.environ.get("XDG_RUNTIME_DIR", "")
    if os.path.isabs(runtime) and is_own(runtime) and has_room(runtime, room):
        return runtime
    place = os.path.join(tempfile.gettempdir(), f"gr-desk-{os.geteuid()}")
    try:
        os.mkdir(place, OWNER_ALONE)
    except FileExistsError:
        check_place(place)
    return place


def is_own(path):
    """Whether a folder is this account's, which alone may enter it."""
    try:
        with Folder(path) as folder:
            about = folder.about()
    except OSError:
        return False
    return about.st_uid == os.geteuid() and about.st_mode & 0o777 == OWNER_ALONE


def has_room(path, room):
    about = os.statvfs(path)
    return about.f_bavail * about.f_frsize >= room


def is_full(path):
    """Whether the disk of a folder has no room for the index of a log."""
    try:
        with tempfile.TemporaryFile(buffering=0, dir=path) as file:
            write_all(file.fileno(), bytes(INDEX))
    except OSError as error:
        return error.errno in (errno.ENOSPC, errno.EDQUOT)
    return False


def check_place(place):
    """Refuses a folder for private copies in which other accounts could look at them, or change them."""
    if is_own(place):
        return
    about = os.lstat(place)
    if stat.S_ISDIR(about.st_mode) and about.st_uid == os.geteuid():
        what, what_to_do = "may be entered by other accounts", f"chmod 700 {shlex.quote(place)}"
    else:
        what = "belongs to another account" if stat.S_ISDIR(about.st_mode) else "is no folder"
        what_to_do = "remove it, or set TMPDIR to a folder of your own"
    raise Refused(f"no private copy of a desk can be made: {place} {what}: {what_to_do}")
