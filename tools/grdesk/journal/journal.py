"""A journal: a file with a line of JSON for each act before it is sent, and one for what became of it. Each line is on
the disk before the next step. A tool that has a journal open has its lock."""
import fcntl
import json
import os
import stat
from contextlib import contextmanager, suppress

from grdesk.desk.copy import desk_at, sync
from grdesk.error import Failed, Refused, Stop, Unsent, Wrong
from grdesk.journal.entry import Entries, UnknownForm, line_of
from grdesk.journal.stopped_replay import became_of
from grdesk.new_file import is_trusted, write_all
from grdesk.output import note

# What each line begins with.
HEAD = b'{"form": '

NO_JOURNAL = "no journal is given: by --journal FILE, or by the environment variable GR_DESK_JOURNAL"


class Journal:
    """A journal that is open. `length` is where its last whole line ends. `is_quiet` is whether nothing is said of the
    number of each act."""

    def __init__(self, name, descriptor):
        self.name = name
        self.is_quiet = False
        self.descriptor = descriptor
        self.entries = Entries()
        self.length = 0
        self.read()

    def read(self):
        """Reads the lines. One that a stop has cut off at the end is left out."""
        text = whole(self.descriptor)
        lines = text.split(b"\n")
        if lines[-1] == b"":
            lines.pop()
        for number, line in enumerate(lines, start=1):
            is_last = number == len(lines)
            if is_last and is_half_written(line, text.endswith(b"\n")):
                note(f"the last line of {self.name} was cut off by a stop, and is skipped")
                return
            try:
                self.entries = self.entries.after(json.loads(line))
            except (UnknownForm, ValueError):
                raise Failed(f"line {number} of {self.name} has a form that this tool does not know") from None
            self.length += len(line) + 1

    def add(self, kind, **fields):
        """Brings a line to the disk."""
        line = line_of(kind, **fields)
        text = json.dumps(line).encode() + b"\n"
        try:
            os.ftruncate(self.descriptor, self.length)
            write_all(self.descriptor, text)
            os.fsync(self.descriptor)
        except OSError as error:
            raise Failed(f"{self.name} cannot be written: {error.strerror}") from None
        self.length += len(text)
        self.entries = self.entries.after(line)

    def know(self, kind, **fields):
        """Takes a line as if it stood there."""
        self.entries = self.entries.after(line_of(kind, **fields))

    def begin(self, act, desk, number=None, source=None, moment=None, before=None, count=None):
        """Keeps an act that is about to be sent: a new one, or a held one with its number. Gives the number."""
        is_new = number is None
        number = self.entries.next_number(act.is_vote) if is_new else number
        what = {"number": number, "desk": desk, "path": act.path, "fields": act.texts(), "source": source}
        try:
            self.add("act", **what, moment=moment, before=before, count=count)
        except Failed as error:
            raise Unsent(error) from None
        if is_new and not self.is_quiet:
            note(f"{self.name} has it as {number}")
        return number

    def hold(self, act, desk, moment, until, source=None):
        """Keeps an act that waits. Gives its number."""
        number = self.entries.next_number(act.is_vote)
        what = {"number": number, "desk": desk, "path": act.path, "fields": act.texts(), "source": source}
        self.add("held", **what, moment=moment, until=until)
        return number

    def finish_replay(self, is_read):
        """Finds out whether a replay that was begun had put its copy in the place of the desk, says so, and keeps it
        where the journal is not read alone. If the desk is gone, a later tool finds it out. If it cannot be read, no
        line is written, since the next number depends on it."""
        begun = self.entries.replay
        if begun is None:
            return
        try:
            is_done, said = became_of(self.entries)
        except (OSError, Stop) as error:
            why = getattr(error, "strerror", None) or error
            message = f"a replay was stopped, and {begun['desk']} cannot be read to see whether it was done: {why}"
            if not is_read and not isinstance(error, FileNotFoundError):
                way = "put a copy of that desk in its place, or move it away"
                raise Failed(f"nothing was done: {message}; {way}") from None
            note(message)
            return
        note(f"a replay was stopped: {said}")
        keep = self.know if is_read else self.add
        keep("replayed", is_done=is_done)

    def check_desk(self, path):
        """Refuses the desk with this path where the journal is of another one."""
        desk = self.entries.desk
        if desk is not None and path is not None and desk != path:
            message = f"nothing was sent: {self.name} is the journal of the desk {desk}, and not of {path}"
            raise Refused(f"{message}; if the desk has moved, gr-desk journal replay takes the journal there")


def whole(descriptor):
    """The bytes of a file."""
    text = b""
    while piece := os.pread(descriptor, 1 << 20, len(text)):
        text += piece
    return text


def is_half_written(line, is_ended):
    """Whether a stop has cut off this last line. A crash leaves each byte of it, or a zero in its place. What begins
    otherwise is none of a journal."""
    is_cut = not is_ended or b"\0" in line
    return is_cut and all(byte in (wanted, 0) for byte, wanted in zip(line, HEAD))


@contextmanager
def journal_at(name, is_made=False, is_read=False):
    """The journal under this name, once no other tool has its lock. It may be made, or be read alone."""
    flags = os.O_RDONLY if is_read else os.O_RDWR | os.O_APPEND | (os.O_CREAT if is_made else 0)
    check_link(name)
    try:
        # What is no file is refused at once, and not waited for.
        descriptor = os.open(name, flags | os.O_NONBLOCK, 0o600)
    except OSError as error:
        raise Failed(f"{name} cannot be opened: {error.strerror}") from None
    try:
        check_private_file(name, os.fstat(descriptor))
        lock(descriptor, fcntl.LOCK_SH if is_read else fcntl.LOCK_EX, name)
        if is_made and os.fstat(descriptor).st_size == 0:
            sync(os.path.dirname(os.path.realpath(name)))
        journal = Journal(name, descriptor)
        journal.finish_replay(is_read)
        yield journal
    finally:
        os.close(descriptor)


def lock(descriptor, kind, name):
    try:
        fcntl.flock(descriptor, kind | fcntl.LOCK_NB)
    except BlockingIOError:
        note(f"waiting for another tool that has {name} open")
        fcntl.flock(descriptor, kind)


def check_link(name):
    """Refuses a link that another account made: it would say where all ballots are written."""
    with suppress(FileNotFoundError):
        about = os.lstat(name)
        if stat.S_ISLNK(about.st_mode) and not is_trusted(about):
            raise Refused(f"nothing was done: {name} is a link of another account: name the file itself")


def check_private_file(name, about):
    """Who reads a journal knows every ballot. So it is this account's alone."""
    if not stat.S_ISREG(about.st_mode):
        raise Failed(f"{name} is no file")
    if about.st_uid != os.geteuid():
        message = f"nothing was done: {name} belongs to another account, which could read every ballot there"
        raise Refused(f"{message}: take a journal of your own, or run this as that account")
    if about.st_mode & 0o077:
        raise Refused(f"nothing was done: other accounts may read {name}, which knows every ballot: chmod 600 {name}")


def journal_name(arguments):
    """The name of the journal that the words give, or the environment; None where neither does."""
    if arguments.journal == "":
        raise Wrong("--journal needs the name of a file")
    return arguments.journal or os.environ.get("GR_DESK_JOURNAL") or None


def lacks_acts(entries, accepted):
    """Whether a desk that accepted so many acts has fewer than the journal has answers of it: as where a copy was put
    back, or where a bit turned in its log, and what stands after it there is dropped."""
    return accepted < entries.last


def lacking(arguments, accepted):
    """The name of the journal of the desk that the words of a tool name, which accepted so many acts, where it lacks
    acts of that; else None. A journal of the environment that is not there, or is of another desk, is passed over."""
    name, is_meant = journal_name(arguments), arguments.journal is not None
    if name is None or not is_meant and not os.path.exists(name):
        return None
    with journal_at(name, is_read=True) as journal:
        entries = journal.entries
    if entries.desk in (None, desk_at(arguments.desk)):
        return name if lacks_acts(entries, accepted) else None
    if is_meant:
        raise Refused(f"{name} is the journal of the desk {entries.desk}, and not of {arguments.desk}")
    return None


def entries_of(arguments):
    """The acts of the journal of the desk that the words of a tool name, or None where there is none. One of the
    environment that is not there, or is of another desk, is passed over."""
    if arguments.desk is None:
        if arguments.journal is not None:
            raise Wrong("--journal needs DESK: by a port it is not known of which desk the journal is")
        return None
    name, is_meant = journal_name(arguments), arguments.journal is not None
    if name is None or not is_meant and not os.path.exists(name):
        if name is not None:
            note(f"warning: {name} of GR_DESK_JOURNAL is not there, so no held act is known")
        return None
    with journal_at(name, is_read=True) as journal:
        entries = journal.entries
    if entries.desk in (None, desk_at(arguments.desk)):
        return entries
    message = f"{name} is the journal of the desk {entries.desk}, and not of {arguments.desk}"
    if is_meant:
        raise Refused(message)
    note(f"warning: {message}, so no held act is known")
    return None
