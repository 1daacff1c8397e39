"""Lets the disk be full, by the limit that the system holds each file of a process to. The command that is not kept has
the fault of the store as its response, and `serve` ends after that with `fault F3 Closed`, at the last of its
connections too. Opened again without the limit, the file has the rows before that command or after it, and the desk
goes on. `once`, `import` and `init` report that the disk is full, and leave a desk, or none, in the same way. Where
only the copy of the log into the file fails, at the end of a command, nothing is lost."""
import http.client
import shutil
import sqlite3
from contextlib import closing

from tests.support.case import Case
from tests.support.program import T0, Ran, ask, expect, fail, make_desk, once, request, response, run, serve

STORE = b"fault F2 Store\n"
NEW = "name=A+Name&status=current"

# How many bytes a file may have. The log begins with a quarter of a megabyte and grows by half of that at every eighth
# command, so that below the last limits eight commands are kept, or twenty-four.
LIMITS = [50_000, 270_000, 280_000, 283_000, 400_000, 600_000]
COMMANDS = 100


def form_of(number):
    return f"login=d{number:03}&{NEW}"


def roll_of(count):
    lines = "".join(f"D: d{number:03} current A Name\n" for number in range(1, count + 1))
    return Ran(0, f"Developers: {count}\nCurrent: {count}\n{lines}".encode(), b"")


def serve_until_full(file, limit, count):
    """Serves commands until one is not kept. Gives which one that was."""
    with serve(file, count, "--at", T0, limit=limit) as desk:
        for number in range(1, count + 1):
            came = desk.ask("POST", "/developers", form_of(number))
            if came != (200, f"ok {number}\n"):
                break
        else:
            fail(f"{count} commands were kept below a limit of {limit} bytes")
        expect(f"command {number} below {limit} bytes", came, (503, STORE.decode()))
        expect("the end of serve", desk.ended(), Ran(3, b"", b"fault F3 Closed\n"))
        try:
            came = ask(desk.port, "GET", "/roll")
        except (OSError, http.client.HTTPException):
            return number
        fail(f"a serve that has ended responded {came}")


class FullDisks(Case):
    def setUp(self):
        self.place = self.folder()
        self.file = self.place / "desk.db"

    def is_sound(self, file, accepted):
        with closing(sqlite3.connect(file)) as conn:
            self.assertEqual(conn.execute("PRAGMA integrity_check").fetchall(), [("ok",)])
            self.assertEqual(conn.execute("SELECT * FROM desk").fetchall(), [(1, 2, accepted, T0)])

    def goes_on(self, file, number):
        """The desk has the commands before this one, or it too, and goes on."""
        found = run("roll", file)
        accepted = number - 1 if found == roll_of(number - 1) else number
        self.assertEqual(found, roll_of(accepted), f"the roll after command {number}")
        once(file, T0, "/developers", form_of(accepted + 1), f"ok {accepted + 1}")
        self.assertEqual(run("roll", file), roll_of(accepted + 1), "the roll of a desk that goes on")
        self.is_sound(file, accepted + 1)

    def test_serve_ends_after_the_command_that_its_disk_does_not_keep_and_the_desk_goes_on(self):
        empty, numbers = self.place / "empty.db", []
        make_desk(empty)
        for limit in LIMITS:
            first, last = self.place / f"first{limit}.db", self.place / f"last{limit}.db"
            with self.subTest(limit=limit):
                number = serve_until_full(shutil.copyfile(empty, first), limit, COMMANDS)
                numbers.append(number)
                self.goes_on(first, number)
                self.assertEqual(serve_until_full(shutil.copyfile(empty, last), limit, number), number)
                self.goes_on(last, number)
        self.assertGreater(max(numbers, default=0), 1, "the first command was not kept below any limit")

    def test_once_reports_a_full_disk_and_the_desk_goes_on(self):
        make_desk(self.file)
        given = request("POST", "/developers", form_of(1))
        ran = run("once", self.file, "--at", T0, given=given, limit=5_000)
        self.assertEqual(ran, Ran(3, response(503, STORE.decode()), b""))
        self.goes_on(self.file, 1)

    def test_import_reports_a_full_disk_and_the_desk_goes_on(self):
        make_desk(self.file)
        csv = self.place / "roll.csv"
        csv.write_text("login,name,status\nd001,A Name,current\n")
        self.assertEqual(run("import", self.file, csv, "--at", T0, limit=5_000), Ran(3, b"", STORE))
        self.goes_on(self.file, 1)

    def test_init_reports_a_full_disk_and_leaves_a_desk_or_none(self):
        for limit in 0, 1, 1_000, 4_096, 10_000, 40_000:
            with self.subTest(limit=limit):
                file = self.place / f"made{limit}.db"
                self.assertEqual(run("init", file, limit=limit), Ran(3, b"", STORE))
                self.assertIn(run("init", file), (Ran(0, b"ok\n", b""), Ran(3, b"", b"fault F8 Occupied\n")))
                self.goes_on(file, 1)

    def test_a_command_in_the_log_whose_copy_into_the_file_fails_is_kept_and_the_next_one_copies_it(self):
        make_desk(self.file)
        name, text = "\U0001f600" * 80, "a" * 20_000
        csv = self.place / "large.csv"
        csv.write_text("login,name,status\n" + "".join(f"d{number},{name},current\n" for number in range(2_000)))
        imported = run("import", self.file, csv, "--at", T0)
        self.assertEqual(imported, Ran(0, b"ok 1 added 2000 changed 0 same 0\n", b""))
        limit = self.file.stat().st_size + 8_192
        given = request("POST", "/resolutions", f"author=@leader&summary=Red&text={text}&ratio=1")
        ran = run("once", self.file, "--at", T0, given=given, limit=limit)
        self.assertEqual(ran, Ran(0, response(200, "ok 2 resolution 1\n"), b""))
        self.assertGreaterEqual(self.file.with_name("desk.db-wal").stat().st_size, 20_000, "the copy did not fail")
        status = run("status", self.file, 1)
        self.assertEqual(status.status, 0)
        self.assertIn(f"| {text}\n".encode(), status.out)
        once(self.file, T0, "/resolutions", "author=@leader&summary=Green&text=b&ratio=1", "ok 3 resolution 2")
        self.is_sound(shutil.copyfile(self.file, self.place / "alone.db"), 3)
