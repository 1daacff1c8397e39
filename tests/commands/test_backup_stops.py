"""Stops gr-desk backup, with --keep and without, restore and copy_out by the library of stop_tool.c: before each write,
sync, link, removal and start of a program, after half of each write to a file, and once a program was started, which
goes on alone. No file is left without its log then, what was there is as it was, and a whole copy stays. The next run
reports what was left, and does its work."""
import os
import shutil
import signal
import subprocess
from concurrent.futures import ThreadPoolExecutor
from pathlib import Path

from tests.commands.timed import few_programs, write_program
from tests.support.case import Case
from tests.support.journaled import environment_of
from tests.support.one_developer import ALICE, OK
from tests.support.preloaded import library
from tests.support.program import PATIENCE, T0, TOP, build, compile_tools, expect, make_desk, once, serve, tool

# At most so many tools run at one moment.
TOGETHER = 2
ENDS = "", "-wal", ".sha256"
OLD = "desk.db-20250101T000000Z"
WHOLE = 16 << 20


def desk_with_log(file):
    """A desk whose log has acts that the file lacks."""
    make_desk(file)
    once(file, T0, "/developers", ALICE, "ok 1")
    with serve(file, 9, "--at", T0) as desk:
        desk.accepts("/developers", "login=bob&name=Bob&status=current", "ok 2")
        desk.kill()
    return file


def parts(file):
    """What there is of a desk or a copy, by the ends of its names."""
    return {end: Path(f"{file}{end}").read_bytes() for end in ENDS if os.path.exists(f"{file}{end}")}


def copied(file, to):
    for end in ENDS:
        if os.path.exists(f"{file}{end}"):
            shutil.copyfile(f"{file}{end}", f"{to}{end}")


class Stopped(Case):
    """A tool over files of a folder of its own, which is stopped at each step."""

    @classmethod
    def setUpClass(cls):
        build()
        compile_tools()
        work = cls.shared_folder()
        cls.library = library(TOP / "tests" / "support" / "stop_tool.c", work)
        cls.desk = desk_with_log(work / "desk.db")
        cls.copy = work / "copy.db"
        expect("backup", tool("backup", cls.desk, cls.copy), OK)

    def run_to(self, place, line, number=0, way="", **environment):
        """Runs a line to a step, or to its end. Gives its status, and the letters of its steps."""
        temporary = place.parent / f"{place.name}.temporary"
        temporary.mkdir()
        own = {"STOP_AT": number, "STOP_WAY": way, "STOP_RECORD": temporary / "record", "STOP_REMOVALS": 1}
        own |= {"LD_PRELOAD": self.library, "TMPDIR": temporary} | environment
        words = [str(word) for word in (TOP / "tools" / "gr-desk", *line)]
        # A program that outlives the tool keeps its streams open, so nothing waits for their ends.
        quiet = dict.fromkeys(("stdin", "stdout", "stderr"), subprocess.DEVNULL)
        ran = subprocess.run(words, env=environment_of(own), timeout=PATIENCE, check=False, cwd=place, **quiet)
        return ran.returncode, (temporary / "record").read_bytes().rstrip(b"\0").decode()

    def stops_of(self, steps):
        """The steps with the ways to stop at them. Of several in a private folder, or of writes to a pipe, one after
        the other, it is the first."""
        ways = {"w": ["before", "half"], "x": ["before", "behind"]}
        for place, step in enumerate(steps):
            before = steps[place - 1] if place else ""
            if not (step.isupper() and before.isupper() or step == before == "p"):
                yield from ((place + 1, way) for way in ways.get(step.lower(), ["before"]))

    def stop_everywhere(self, required, prepare, look, **environment):
        """Stops the line that `prepare` gives of a folder at each step, and looks at what there is then."""
        work = self.folder()

        def stop(number, way):
            place = work / f"{number}{way}"
            place.mkdir()
            status, steps = self.run_to(place, prepare(place), number, way, **environment)
            self.assertEqual(status, -signal.SIGKILL if number else 0)
            look(place, number != 0)
            return steps

        steps = stop(0, "")
        self.assertEqual([letter for letter in required if letter not in steps.lower()], [], steps)
        stops = list(self.stops_of(steps))
        self.assertGreater(len(stops), len(required), steps)
        with ThreadPoolExecutor(TOGETHER) as pool:
            for outcome, (number, way) in zip([pool.submit(stop, *each) for each in stops], stops):
                with self.subTest(step=number, letter=steps[number - 1], way=way, steps=steps):
                    outcome.result()

    def is_none_or_whole(self, file, wanted):
        """Under this name there is no file, or all of it with its log and digests."""
        found = parts(file)
        self.assertEqual({end: content == wanted[end] for end, content in found.items()}, dict.fromkeys(found, True))
        if "" in found:
            self.assertEqual(sorted(found), sorted(wanted), f"what there is of {file.name}")

    def next_run(self, place, *line):
        """The next run does its work, and reports what was left in the folder, if it is a copy."""
        left = [path for path in place.glob(".desk-*") if any(path.iterdir())]
        ran = tool(*line)
        self.assertEqual((ran.status, ran.out), (0, b"ok\n"), ran)
        warned = [path for path in left if f"warning: {path} was left by a tool" in ran.err.decode()]
        self.assertEqual(warned, left, ran)


class Copies(Stopped):
    def test_a_backup_that_is_stopped_leaves_no_file_without_its_log_and_digests(self):
        wanted, before = parts(self.copy), parts(self.desk)

        def look(place, is_stopped):
            self.is_none_or_whole(place / "copy.db", wanted)
            self.assertEqual(parts(self.desk), before)
            self.next_run(place, "backup", self.desk, place / "another.db")

        self.stop_everywhere("wslux", lambda place: ["backup", self.desk, place / "copy.db"], look)

    def test_a_restore_that_is_stopped_leaves_no_desk_without_its_log(self):
        wanted, before = {end: parts(self.copy)[end] for end in ("", "-wal")}, parts(self.copy)

        def look(place, is_stopped):
            self.is_none_or_whole(place / "desk.db", wanted)
            self.assertEqual(parts(self.copy), before)
            self.next_run(place, "restore", self.copy, place / "another.db")

        self.stop_everywhere("wslux", lambda place: ["restore", self.copy, place / "desk.db"], look)

    def test_a_backup_with_keep_that_is_stopped_leaves_a_whole_copy_and_none_without_its_log(self):
        old, new = parts(self.copy), parts(self.desk)

        def prepare(place):
            copied(self.copy, place / OLD)
            return ["backup", "--keep", 1, self.desk, place]

        def look(place, is_stopped):
            names = {path.name.removesuffix("-wal").removesuffix(".sha256") for path in place.glob("desk.db-*")}
            whole = []
            for name in names:
                found = parts(place / name)
                wanted = old if name == OLD else new | {".sha256": found.get(".sha256")}
                self.is_none_or_whole(place / name, wanted)
                whole += [name] * ("" in found)
            self.assertTrue(whole, f"no copy is there, but {names}")
            if not is_stopped:
                self.assertNotIn(OLD, whole)

        self.stop_everywhere("wslux", prepare, look)

    def test_copy_out_that_is_stopped_sends_all_of_a_copy_or_nothing_and_leaves_the_copies(self):
        programs = few_programs(self.folder())
        write_program(programs, "age", "exec cat")
        before = parts(self.copy)

        def prepare(place):
            copied(self.copy, place / OLD)
            return ["copy_out", self.desk, place]

        def look(place, is_stopped):
            self.assertEqual(parts(place / OLD), before)
            # A command that was started goes on alone, and gives the file its name once all of it is there.
            sizes = {path.name: path.stat().st_size for path in place.glob("*.sent")}
            self.assertEqual(sizes, {} if is_stopped and not sizes else {"whole.sent": WHOLE})

        send = 'cp "$1" part && /bin/mv part whole.sent'
        self.stop_everywhere("pxu", prepare, look, COPY_KEY="age1key", COPY_TO=send, PATH=programs)


class Readers(Stopped):
    """Tools that read a desk from a private copy."""

    def test_the_copy_of_a_tool_that_was_killed_is_reported_by_the_next_one(self):
        work = self.folder()
        whole, place = work / "whole", work / "stopped"
        for each in whole, place:
            each.mkdir()
        line = ["agenda", self.desk, "--at", T0]
        status, steps = self.run_to(whole, line)
        self.assertEqual(status, 0)
        # The program is started over the copy.
        self.assertIn("X", steps)
        self.assertEqual(self.run_to(place, line, steps.index("X") + 1, "before")[0], -signal.SIGKILL)
        temporary = work / "stopped.temporary"
        [left] = [path.parent for path in temporary.rglob(".desk-*/desk")]
        ran = tool(*line, env=environment_of({"TMPDIR": temporary}))
        said = f"gr-desk agenda: warning: {left} was left by a tool that was killed, and has a copy of a desk,"
        self.assertEqual((ran.status, ran.err), (0, f"{said} with all ballots: rm -r {left}\n".encode()))
        self.assertEqual(left.parent, temporary / f"gr-desk-{os.geteuid()}")
        shutil.rmtree(left)
        self.assertEqual(tool(*line, env=environment_of({"TMPDIR": temporary})).err, b"")
        self.assertEqual(list(temporary.rglob(".desk-*")), [])
