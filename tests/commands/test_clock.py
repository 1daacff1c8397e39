"""What gr-desk clock prints of the clock of a desk beside that of the machine, and which clocks it warns of. Every text
is compared whole, except that of the machine's clock."""
import re
import sqlite3
import time
from contextlib import closing

from tests.support.case import Case
from tests.support.one_developer import ALICE, date, fails, line_of, new_desk, unchanged
from tests.support.program import DAY, T0, Ran, make_desk, request, response, run, serve, tool

OF_DESK = f"desk     2026-01-01T00:00:00Z ({T0})\n".encode()
FAR = 4102444799


def warning(text):
    return line_of("clock", f"warning: {text}")


class Clock(Case):
    def clock(self, file, at=None):
        """What came of the tool, without the line of the machine's clock, and the moment that this line has."""
        earliest = int(time.time())
        ran = tool("clock", file, *(["--at", at] if at is not None else []))
        latest = int(time.time())
        line = re.search(rb"^machine  (\S+) \((\d+)\)\n", ran.out, re.M)
        self.assertTrue(line, ran)
        machine = int(line[2])
        self.assertTrue(earliest <= machine <= latest, (earliest, machine, latest))
        self.assertEqual(line[1].decode(), date(machine))
        return ran._replace(out=ran.out.replace(line[0], b"")), machine

    def test_a_desk_that_is_not_there_yet_has_no_clock(self):
        self.assertEqual(self.clock(self.folder() / "desk.db")[0], Ran(0, b"desk     not there yet\n", b""))

    def test_a_name_that_is_too_long_is_reported(self):
        long = self.folder() / ("x" * 300)
        self.assertEqual(tool("clock", long), fails("clock", 3, f"{long}: File name too long"))

    def test_a_desk_without_an_act_has_no_clock(self):
        file = self.folder() / "desk.db"
        make_desk(file)
        self.assertEqual(self.clock(file)[0], Ran(0, b"desk     no act yet\n", b""))

    def test_a_desk_has_the_clock_of_its_last_act(self):
        file = new_desk(self.folder() / "desk.db")
        with unchanged("the clock", file.parent):
            self.assertEqual(self.clock(file)[0], Ran(0, OF_DESK, b""))

    def test_a_date_at_the_clock_of_the_desk_is_right(self):
        file = new_desk(self.folder() / "desk.db")
        line = b"--at     2026-01-01T00:00:00Z (1767225600)\n"
        with unchanged("the clock", file.parent):
            self.assertEqual(self.clock(file, T0)[0], Ran(0, OF_DESK + line, b""))

    def test_a_date_before_the_clock_of_the_desk_is_warned_of(self):
        file = new_desk(self.folder() / "desk.db")
        line = b"--at     2025-12-31T23:59:59Z (1767225599)\n"
        text = "--at is 1 second before the desk's clock: each act with that date is refused 2 ClockBack"
        with unchanged("the clock", file.parent):
            self.assertEqual(self.clock(file, T0 - 1)[0], Ran(1, OF_DESK + line, warning(text)))

    def test_a_date_later_than_the_clock_of_the_machine_is_warned_of(self):
        file = new_desk(self.folder() / "desk.db")
        with unchanged("the clock", file.parent):
            ran, machine = self.clock(file, FAR)
        line = f"--at     2099-12-31T23:59:59Z ({FAR})\n".encode()
        text = f"--at lies {FAR - machine} seconds past the machine's clock: after an act at that moment,"
        text += " each act without --at is refused 2 ClockBack until then"
        self.assertEqual(ran, Ran(1, OF_DESK + line, warning(text)))

    def test_the_clock_of_a_desk_that_a_program_holds_is_printed(self):
        file = new_desk(self.folder() / "desk.db")
        with serve(file, 1, "--at", T0 + DAY):
            self.assertEqual(self.clock(file)[0], Ran(0, OF_DESK, b""))

    def test_a_desk_whose_clock_is_later_than_that_of_the_machine_is_warned_of(self):
        file = new_desk(self.folder() / "desk.db")
        later = int(time.time()) + 10 * DAY
        with serve(file, 2, "--at", later) as desk:
            desk.accepts("/developers", ALICE, "ok 2")
            ran, machine = self.clock(file)
            text = f"the desk's clock is {later - machine} seconds later than the machine's"
            text += ": until then each act without --at is refused 2 ClockBack"
            self.assertEqual(ran, Ran(1, f"desk     {date(later)} ({later})\n".encode(), warning(text)))
            desk.ask("GET", "/roll")
            desk.ended()
        # It is as the warning says.
        refused = Ran(1, response(409, "refused 2 ClockBack\n"), b"")
        self.assertEqual(run("once", file, given=request("POST", "/developers", ALICE)), refused)

    def test_a_desk_without_its_header_cannot_be_read(self):
        file = new_desk(self.folder() / "desk.db")
        with closing(sqlite3.connect(file)) as conn:
            conn.execute("DELETE FROM desk")
            conn.commit()
        text = f"{file} cannot be read as a desk: its table desk has no row, or one that no desk has"
        self.assertEqual(tool("clock", file), fails("clock", 3, text))

    def test_a_clock_that_is_no_moment_is_reported(self):
        for clock in -1, 10_000_000_000, 1 << 62:
            with self.subTest(clock=clock):
                file = new_desk(self.folder() / "desk.db")
                with closing(sqlite3.connect(file)) as conn:
                    conn.execute("UPDATE desk SET clock = ?", [clock])
                    conn.commit()
                text = f"the clock of {file} is no moment that an act has, as if a bit had turned"
                text += ": gr-desk journal check finds such bits"
                self.assertEqual(tool("clock", file), fails("clock", 3, text))
