"""Copies of a desk, file and log, as the two were at one moment, also while a program writes them.

The log is SQLite's write-ahead log. Each commit is appended to it. From time to time its pages are copied into the
file, and only then the log begins anew, by another head: 32 bytes, of which some are drawn at random. So where the file
is copied first and the log after it, and the head was one and the same from before the one until after the other,
the copied log has each page that was written into the file meanwhile, and the two are the desk of the moment at which
the log's last whole commit was copied.
"""
import fcntl
import os
import stat
import struct
import subprocess
import time
from contextlib import suppress
from typing import NamedTuple, Optional

from grdesk.desk.digest import LEAST_LOG_BYTES, check_digests, digests_at, write_digests
from grdesk.desk.private_folder import INDEX, PREFIX, private_folder
from grdesk.desk.program import program
from grdesk.error import Failed, Refused, Wrong
from grdesk.interruption import undisturbed
from grdesk.new_file import Folder, check_shared, naming, new_file, write_all
from grdesk.output import hand_on, note
from grdesk.regular_file import open_regular

# What the program says of a desk of an earlier version, and of a file that is not there.
TOO_OLD = b"fault F7 TooOld\n"
NO_FILE = b"no file\n"

PIECE = 1 << 20

HEAD_BYTES = 32

TRIES = 200
# Between two tries, in seconds.
PAUSE = 0.01
# A write that comes so soon after another one may leave the file's time as it was, in nanoseconds.
TICK = 50_000_000

# The bytes of a file that SQLite locks, as the desk does.
LOCKS_START, LOCKS_LENGTH = 1 << 30, 512


class Stamp(NamedTuple):
    """What is the same before a copy and after it where the two parts belong together."""

    head: Optional[bytes]
    # Where no log has anything that the file lacks, which file it is, its length and its time.
    file: Optional[tuple]


def log_of(file):
    return f"{file}-wal"


def journal_of(file):
    return f"{file}-journal"


def desk_at(name):
    """The file of a desk, where a link leads. Something else under the name is refused, and a file that is not all of
    its desk."""
    if not name:
        raise Wrong("a name of a desk is empty")
    file = os.path.realpath(name)
    try:
        about = os.stat(file)
    except (FileNotFoundError, NotADirectoryError):
        raise Failed(f"{name} is not there") from None
    if not stat.S_ISREG(about.st_mode):
        raise Failed(f"{name} is no file")
    if about.st_nlink != 1:
        raise Failed(f"{name} has a second name by a hard link, and so it may have another log")
    check_no_journal(file)
    return file


def check_no_journal(file):
    """Stock SQLite may have left a journal, which alone can mend the file."""
    with suppress(FileNotFoundError):
        if os.stat(journal_of(file)).st_size > 0:
            raise Failed(f"{journal_of(file)} is there: let stock SQLite open the file once, while no desk holds it")


def new_place(name):
    """The path at which a desk will be put. Whatever stands there, or at the name of its log or journal, is refused.
    """
    folder, base = os.path.split(name)
    if not base or base in (".", ".."):
        raise Wrong(f"{name!r} is no name of a file")
    folder = os.path.realpath(folder or ".")
    if not os.path.isdir(folder):
        raise Failed(f"the folder {folder} is not there")
    place = os.path.join(folder, base)
    for path in place, log_of(place), journal_of(place):
        if os.path.lexists(path):
            raise Refused(f"{path} already exists")
    return place


def head_of(log):
    """The first bytes of a log, and how many it has. None: there is no log."""
    try:
        with open_regular(log) as file:
            return file.read(HEAD_BYTES), os.fstat(file.fileno()).st_size
    except FileNotFoundError:
        return None, 0


def stamp_of(file):
    head, length = head_of(log_of(file))
    if length >= LEAST_LOG_BYTES:
        return Stamp(head, None)
    about = os.stat(file)
    return Stamp(head, (about.st_ino, about.st_size, about.st_mtime_ns))


def is_settled(moment):
    """Whether a later write changes what the moment says of the file."""
    return moment.file is None or not 0 <= time.time_ns() - moment.file[2] < TICK


class CopyTries(NamedTuple):
    """How a copy was made: at which try, and how many tries met a log that began anew."""

    tries: int
    begun_anew: int


def copy_desk(file, copy):
    """Copies file and log to where nothing is."""
    begun_anew = 0
    for number in range(1, TRIES + 1):
        before = stamp_of(file)
        if is_settled(before):
            copy_bytes(file, copy)
            with suppress(FileNotFoundError):
                copy_bytes(log_of(file), log_of(copy))
            behind = stamp_of(file)
            if head_of(log_of(copy))[0] == before.head and behind == before:
                check_no_journal(file)
                return CopyTries(number, begun_anew)
            begun_anew += behind.head != before.head
        with suppress(FileNotFoundError):
            os.unlink(log_of(copy))
        time.sleep(PAUSE)
    raise Failed(f"{file} was written anew during each of {TRIES} tries; try again when there are fewer acts")


def copy_bytes(source, target):
    """Copies a file from its beginning to its end: the first frame of a commit counts only once the others are there.
    What an earlier try left under the name is taken away first."""
    try:
        with open_regular(source) as reader, new_file(target) as writer:
            while piece := reader.read(PIECE):
                with naming(target):
                    write_all(writer.fileno(), piece)
    except FileNotFoundError:
        raise
    except OSError as error:
        into = f" into {folder_outside(target)}" if error.filename == target else ""
        raise Failed(f"{source} cannot be copied{into}: {error.strerror}") from None


def folder_outside(path):
    """The folder of a file, or the one that has the private folder in which it is."""
    folder = os.path.dirname(path)
    return os.path.dirname(folder) if os.path.basename(folder).startswith(PREFIX) else folder


def room_of(file, copies=1):
    """How many bytes so many copies of a desk need. What opens one copies its log into its file, and puts the index of
    the log beside it."""
    sizes = [0, 0]
    for place, path in enumerate((file, log_of(file))):
        with suppress(OSError):
            sizes[place] = os.stat(path).st_size
    return copies * (sizes[0] + 2 * sizes[1] + INDEX)


def check_opens(copy, why):
    """Has the program open the copy, and fails with these words where it does not. Why it does not it says itself: that
    is handed on, so that nothing is said any more once this was ended. A copy of a desk of an earlier version is taken
    too, since it is needed before a migration. Of its rows the program has looked at none."""
    quiet, pipe = subprocess.DEVNULL, subprocess.PIPE
    is_old = False
    line = [program(), "roll", copy]
    try:
        process = subprocess.Popen(line, stdin=quiet, stdout=quiet, stderr=pipe)
    except OSError as error:
        raise Failed(f"{line[0]} cannot be run: {error.strerror}") from None
    with process:
        try:
            for line in process.stderr:
                is_old |= line == TOO_OLD
                hand_on_named(line, copy)
        except BaseException:
            process.kill()
            raise
    if is_old:
        note("this desk is of an earlier version, so the rows of its copy were not checked")
    elif process.returncode != 0:
        raise Failed(why)


def hand_on_named(line, file):
    """Hands on what the program said of a file, which it does not name where there is none."""
    if line == NO_FILE:
        note(f"no file: {file}")
    else:
        hand_on(line)


def copied_again(copy, end="read"):
    """A copy of a copy, with a name of its own, for what may write in it, or put a log beside it."""
    further = f"{copy}.{end}"
    for part in parts_at(copy):
        copy_bytes(part, further + part.removeprefix(copy))
    return further


def sync(path):
    """Brings a file or a folder to the disk."""
    number = os.open(path, os.O_RDONLY)
    try:
        with naming(path):
            os.fsync(number)
    finally:
        os.close(number)


def parts_at(file):
    """What there is of the log and the digests of a file, and the file."""
    return [path for path in (log_of(file), digests_at(file), file) if os.path.exists(path)]


def odd_part(copy):
    """What there is of a copy that is no file, or None: to read a FIFO would never end, and a link leads elsewhere."""
    return next((part for part in (copy, *parts_at(copy)) if not stat.S_ISREG(os.lstat(part).st_mode)), None)


def put_in_place(copy, folder, base):
    """Gives the copy its name in a folder, the log first: at no moment a file is there without its log. What has come
    to stand there is left, since no name is ever taken from what has it."""
    given = []
    try:
        for part in parts_at(copy):
            name = base + part.removeprefix(copy)
            give_name(part, folder, name)
            given.append(name)
            folder.sync()
    except BaseException:
        for name in reversed(given):
            folder.remove(name)
        raise


def give_name(source, folder, name):
    try:
        folder.link(source, name)
    except FileExistsError:
        raise Refused(f"{folder.path_of(name)} already exists") from None
    except OSError as error:
        raise Failed(f"{folder.path_of(name)} cannot be made: {error.strerror}") from None
    os.unlink(source)


def copy_to(file, place, is_backup, is_wanted=None):
    """Copies a desk to a place where nothing is. A backup gets its digests beside it, and else those of what is copied
    are looked at. Where a look at the copy says that it is not needed, it is taken away again."""
    with Folder(os.path.dirname(place)) as target:
        check_shared(target)
        with private_folder(target.path) as folder:
            copy, base = str(folder / "desk"), os.path.basename(place)
            copied = copy_desk(file, copy)
            if not is_backup:
                check_digests(file, copy, log_of(copy))
            check_opens(copy, "the copy does not open, and is not kept")
            if is_backup:
                write_digests(copy, log_of(copy), base)
            for path in parts_at(copy):
                sync(path)
            if is_wanted is None or is_wanted(copy):
                with undisturbed():
                    put_in_place(copy, target, base)
    return copied


def is_locked(path):
    """Whether another process holds a lock on the file, as a desk and stock SQLite do. None is taken to find out."""
    request = struct.pack("hhqqi", fcntl.F_WRLCK, os.SEEK_SET, LOCKS_START, LOCKS_LENGTH, 0)
    with open(path, "rb") as file:
        answer = fcntl.fcntl(file, fcntl.F_GETLK, request)
    return struct.unpack("hhqqi", answer)[0] != fcntl.F_UNLCK


def is_open_without_name(path):
    """Whether a process that can be looked at has the file open that was under this name until it was removed."""
    gone = f"{path} (deleted)"
    for process in filter(str.isdigit, os.listdir("/proc")):
        # It may end meanwhile, or be another account's.
        with suppress(OSError):
            for number in os.listdir(f"/proc/{process}/fd"):
                with suppress(OSError):
                    if os.readlink(f"/proc/{process}/fd/{number}") == gone:
                        return True
    return False
