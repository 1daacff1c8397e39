"""Lists what the built program opens, makes and listens on, by a library that is loaded before the C library's
(list_calls.c). A line opens its FILE with its log, `import` its roll file before that, and nothing else. The program
has no call that could make, move or take away a file but the one that opens files."""
import os
import subprocess
from pathlib import Path

from tests.support.case import Case
from tests.support.preloaded import BUILT, library
from tests.support.program import LOCAL, T0, ask, build, fail, free_port, make_desk, request, run, started

# The calls of the C library by which a program may make, move or take away what is under a name, start another program,
# or reach another machine.
OTHERS = """
creat creat64 open64 openat openat64 fopen fopen64 freopen mkstemp mkostemp tmpfile mkdir mkdirat mknod rename renameat
renameat2 link linkat symlink symlinkat unlink unlinkat remove rmdir truncate truncate64 chmod fchmodat chown lchown
mount execve execv execvp execl execlp fork vfork posix_spawn posix_spawnp system popen connect sendto sendmsg syscall
dlopen
""".split()

# The folder is opened to be synced, so that a log that was made in it is there. A new file is made with the mode 0600
# in the call that makes it, and so is its log.
DESK = ["open desk.db", "open desk.db-wal", "open ."]
MADE = ["make 0600 desk.db", "open desk.db", "make 0600 desk.db-wal", "call fchmod -", "open ."]
ROLL_FILE = "login,name,status\nann,Ann,current\n"
ADD_BOB = request("POST", "/developers", "login=bob&name=Bob&status=current")

# Lines one after the other, what each reads, its status, and what it opens; twice in a row counts once.
LINES = [
    ("roll desk.db", b"", 3, []),
    ("import desk.db roll.csv", b"", 3, []),
    ("init desk.db", b"", 0, MADE),
    ("init desk.db", b"", 3, DESK),
    ("roll desk.db", b"", 0, DESK),
    (f"import desk.db roll.csv --at {T0}", b"", 0, ["open roll.csv", *DESK]),
    ("import desk.db none.csv", b"", 3, ["open none.csv"]),
    (f"once desk.db --at {T0}", ADD_BOB, 0, DESK),
    ("status desk.db 1", b"", 1, DESK),
    ("tally desk.db 1", b"", 1, DESK),
    ("result desk.db 1", b"", 1, DESK),
    ("migrate desk.db", b"", 0, DESK),
    ("once :memory:", request("GET", "/roll"), 0, []),
    ("import :memory: roll.csv", b"", 0, ["open roll.csv"]),
    ("init :memory:", b"", 3, []),
    ("frob", b"", 2, []),
    ("--help", b"", 0, []),
    ("--version", b"", 0, []),
]


class OpenedFiles(Case):
    @classmethod
    def setUpClass(cls):
        build()
        cls.library = library(Path(__file__).with_name("list_calls.c"), cls.shared_folder())

    def setUp(self):
        self.place, self.record = self.folder(), self.folder() / "record"
        own = {"LD_PRELOAD": str(self.library), "LIST_RECORD": str(self.record)}
        self.streams = {"cwd": self.place, "env": os.environ | own, "executable": BUILT}

    def listed(self):
        """What was called since the last time: paths from the folder on, and no call twice in a row."""
        text = self.record.read_text() if self.record.exists() else ""
        self.record.unlink(missing_ok=True)
        lines = text.replace(f"{self.place}/", "").replace(f" {self.place}\n", " .\n").splitlines()
        return [line for line, before in zip(lines, ["", *lines]) if line != before]

    def test_each_line_opens_its_file_with_its_log_and_nothing_else(self):
        (self.place / "roll.csv").write_text(ROLL_FILE)
        for line, given, status, opened in LINES:
            with self.subTest(line):
                ran = run(*line.split(), given=given, **self.streams)
                self.assertEqual((ran.status, self.listed()), (status, opened))

    def test_serve_opens_its_file_with_its_log_and_listens_on_the_local_address_alone(self):
        make_desk(self.place / "desk.db")
        pipe = subprocess.PIPE
        streams = {"stdin": subprocess.DEVNULL, "stdout": pipe, "stderr": pipe} | self.streams
        for _ in range(10):
            port = free_port()
            with started(["serve", "desk.db", "--port", port, "--count", 1], **streams) as process:
                if process.stdout.readline() != f"listening {LOCAL}:{port}\n".encode():
                    self.listed()
                    continue
                self.assertEqual(ask(port, "GET", "/roll")[0], 200)
                process.wait(timeout=60)
                self.assertEqual(self.listed(), [*DESK, f"bind {LOCAL}"])
                return
        fail("no port was free, of ten")

    def test_the_program_names_no_other_call_that_changes_files_starts_programs_or_reaches_machines(self):
        words = ["nm", "-D", "--undefined-only", BUILT]
        lines = subprocess.check_output(words, text=True).splitlines()
        named = {line.split()[-1].split("@")[0] for line in lines}
        self.assertIn("open", named, "no call that opens a file is named")
        self.assertEqual(sorted(named & {*OTHERS}), [])
