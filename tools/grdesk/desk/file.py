"""The file of a desk, to which acts are given by `gr-desk once`. No other process may hold it meanwhile."""
import subprocess

from grdesk.desk.copy import desk_at, is_locked
from grdesk.desk.program import program
from grdesk.desk.request import answer_in
from grdesk.desk.room import why_no_room
from grdesk.desk.row import header_in, read_from, rows_in, voting_in
from grdesk.error import Failed, Unsent
from grdesk.interruption import undisturbed
from grdesk.output import hand_on


class NotOpened(Unsent):
    """The program did not open the desk, and so it read no request. What it said is in `text`."""

    def __init__(self, name, path, text):
        full = text.startswith("fault ") and why_no_room(path)
        why = f"; {full}: make room there first" if full else ""
        super().__init__(f"{name} does not open, and the program said: {text.strip()}{why}")
        self.text = text


class DeskFile:
    """A desk in a file. `called` is the name by which errors tell it, where the file is a copy."""

    def __init__(self, name, called=None):
        self.name = called or name
        self.path = desk_at(name)
        self.program = program()

    def check_free(self):
        """Fails where another process holds the file."""
        try:
            is_another = is_locked(self.path)
        except OSError as error:
            raise Unsent(f"{self.name} cannot be read: {error.strerror}") from None
        if is_another:
            stop = "`systemctl stop gr_desk.service gr_desk.socket` ends it"
            raise Unsent(f"another process holds {self.name}; if that is the service, {stop}")

    def header(self):
        return read_from(header_in, self.path, self.name)

    def rows(self):
        """The rows of the tables."""
        return read_from(rows_in, self.path, self.name)

    def in_voting(self):
        """The numbers of the resolutions in voting."""
        return read_from(voting_in, self.path, self.name)

    def enter(self, request, moment, kept_open=()):
        """The desk's answer to a request at a moment. A signal waits for it. These descriptors stay open as long as the
        program runs, so that the lock of a journal is held where this process was killed meanwhile."""
        line = [self.program, "once", self.path, "--at", str(moment)]
        with undisturbed():
            try:
                ran = subprocess.run(line, input=request, capture_output=True, check=False, pass_fds=kept_open)
            except OSError as error:
                raise NotOpened(self.name, self.path, f"{line[0]} cannot be run: {error.strerror}") from None
        if not ran.stdout and ran.returncode == 3 and ran.stderr != b"lost\n":
            raise NotOpened(self.name, self.path, ran.stderr.decode(errors="replace"))
        hand_on(ran.stderr)
        answer = answer_in(ran.stdout)
        if answer is None:
            raise Failed(f"lost: the program gave no whole answer, and ended with status {ran.returncode}")
        return answer
