"""The lines of the program that test_stops.py stops, each over a desk that was made for it."""
import http.client
import os
import subprocess

from tests.support import version_1
from tests.support.eighteen import SCRIPT
from tests.support.power_cuts import on_files
from tests.support.program import (
    PATIENCE,
    T0,
    TOP,
    Ran,
    ask,
    expect,
    free_port,
    make_desk,
    request,
    run,
    serve,
    started,
)

# What gr_desk runs: what is loaded before the C library must not be in the processes of a shell too.
BUILT = TOP / "crates" / "gr_main" / "out" / "gr_main"

# Those that are stopped: a developer, a proposal, a call, a vote, one that replaces another, and the close.
STOPPED = 1, 3, 12, 13, 16, 17
HUNDRED = "login,name,status\n" + "".join(f"e{number},A Name,current\n" for number in range(1, 101))


def form_of(number):
    """A command that gives the one developer another name."""
    return f"login=d1&name=Name+{number}&status=current"


class Line:
    """A line of the program over a desk that stands before it, or over none."""

    def __init__(self, name, before, *words, given=b""):
        self.name = name
        self.before = before
        self.words = words
        self.given = given
        self.commands = 1
        # The rows before it, and after each command of it that is accepted.
        self.rows = []
        # What it does on the files if nothing stops it, what came of that, and the file that it left.
        self.calls = []
        self.came = None
        self.left = None

    def run(self, file, env=None):
        """Runs it to its end, or to where it is stopped."""
        return run(self.words[0], file, *self.words[1:], given=self.given, env=env, executable=BUILT)

    def order(self, rows):
        """A number of the rows of a desk that each command of it makes one more."""
        return rows["desk"][0][2]

    def numbers(self, kinds="rwls", least=0):
        """The numbers of its calls of these kinds, which are of so many bytes at least."""
        calls = enumerate(on_files(self.calls), 1)
        return [number for number, call in calls if call.kind in kinds and call.length >= least]


class Migration(Line):
    """A `migrate` of a file of version 1, which makes the version one more and the count of commands none."""

    def __init__(self, before):
        super().__init__("migrate", before, "migrate")

    def order(self, rows):
        return rows["desk"][0][1]


class Served(Line):
    """A `serve`, to which commands come until one is not accepted."""

    def __init__(self, name, before, forms):
        super().__init__(name, before, "serve")
        self.forms = forms
        self.commands = len(forms)

    def run(self, file, env=None):
        pipe = subprocess.PIPE
        line = ["serve", file, "--port", free_port(), "--count", len(self.forms), "--at", T0]
        streams = {"stdin": subprocess.DEVNULL, "stdout": pipe, "stderr": pipe}
        with started(line, **streams, env=env, executable=BUILT) as process:
            said = process.stdout.readline()
            if said:
                self.send(line[3])
            out, err = process.communicate(timeout=PATIENCE)
        return Ran(process.returncode, said + out, err)

    def send(self, port):
        for form in self.forms:
            try:
                if ask(port, "POST", "/developers", form)[0] != 200:
                    return
            except (OSError, http.client.HTTPException):
                return

    def numbers(self, kinds="wls", least=0):
        """Without its many reads: a kill before one leaves what a kill before the next other call does."""
        return super().numbers(kinds, least)


def lines_of_script(place, new):
    """The commands of the script that are stopped, each over the desk before it."""
    for number, (at, path, form) in enumerate(SCRIPT, 1):
        line = Line(f"once{number}", new, "once", "--at", at, given=request("POST", path, form))
        if number in STOPPED:
            yield line
        new = place.desk(f"after{number}", new)
        expect(f"command {number}", line.run(new).status, 0)


def line_that_migrates(place):
    """A `migrate` of a file that stock SQLite made."""
    old = place.desk("old")
    version_1.make(old, version_1.OF_SCRIPT)
    return Migration(old)


def line_that_copies(place, new):
    """A `serve` whose log is full, so that it is copied into the file inside an act."""
    file = place.desk("until_copied", new)
    until = commands_until(file, lambda _: os.stat(file).st_mtime_ns)
    file = place.desk("before_copy", new)
    commands_until(file, lambda number: number == until - 2)
    return Served("serve", file, [form_of(number) for number in range(3)])


def commands_until(file, changes):
    """Has a `serve` take commands until this changes, and kills it. Gives how many."""
    with serve(file, 10_000, "--at", T0) as desk:
        first, number = changes(0), 0
        while changes(number) == first:
            number += 1
            desk.accepts("/developers", form_of(number), f"ok {number}")
        desk.kill()
    return number


def lines_to_stop(place):
    """The lines that are stopped."""
    csv = place.work / "roll.csv"
    csv.write_text(HUNDRED)
    new = place.desk("new")
    make_desk(new)
    yield Line("init", None, "init")
    yield Line("import", new, "import", csv, "--at", T0)
    yield from lines_of_script(place, new)
    given = request("POST", "/import", HUNDRED)
    yield Line("hundred", place.desk("after1"), "once", "--at", T0, given=given)
    yield line_that_migrates(place)
    yield line_that_copies(place, new)
