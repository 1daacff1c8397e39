"""What gr-desk install puts into a folder: the program itself and the tools, which work from there and are replaced
whole, also by gr-desk; the man pages and the completion, which are those that gr-desk manual writes; and the units,
which name the folder, enable nothing, and pass `systemd-analyze verify` where the machine has it."""
import os
import re
import shutil
import stat
import subprocess
import tempfile
import time
import unittest
from pathlib import Path

from tests.commands.installed_names import (
    COMMAND,
    COMMAND_NAMES,
    COMPLETION,
    NEVER,
    PAGES,
    PROXY_FOLLOWS,
    RUNS,
    SAME,
    SAYS,
    STARTS_THE_PROXY,
    UNITS,
)
from tests.support.case import Case
from tests.support.one_developer import OK, ROLL, fails, new_desk
from tests.support.program import LOCAL, PATIENCE, T0, TOP, Ran, ask, expect, free_port, runs, tool

BEGAN = time.time()
NO_UNIT = 'PREFIX has a character that no unit can name: ", \\, $ or a line end'
NO_WORDS = b"gr-desk: the words are TOOL or SUBCOMMAND, and its own; gr-desk --help lists the tools\n"
NO_COMMAND = b"gr-desk: there is no tool or subcommand 'frob'; gr-desk --help and gr-desk help list them\n"
NO_OPTION = b"gr-desk clock: there is no option '--frob'; gr-desk clock --help says more\n"

def install(*words, **options):
    return tool("install", *words, **options)


class Installed(Case):
    """A folder in which the desk is installed, for all tests of this module. It is not changed."""

    work = place = None

    def copied(self):
        """A copy of this folder, which a test may change."""
        place = self.folder() / "for a vote"
        expect("cp", runs(["cp", "-a", self.place, place]).status, 0)
        return place


def setUpModule():
    folder = tempfile.TemporaryDirectory()
    unittest.addModuleCleanup(folder.cleanup)
    Installed.work = Path(folder.name)
    expect("install", install("for a vote", cwd=Installed.work), OK)
    Installed.place = Installed.work / "for a vote"


class Files(Installed):
    def names(self):
        return sorted(str(path.relative_to(self.place)) for path in self.place.rglob("*") if path.is_file())

    def test_what_is_installed_is_the_program_what_is_listed_the_units_and_the_pages(self):
        self.assertEqual(self.names(), sorted([*SAME, *UNITS, *PAGES.values(), COMPLETION, COMMAND]))

    def test_the_command_is_a_link_to_the_tool(self):
        self.assertEqual(os.readlink(self.place / COMMAND), "../tools/gr-desk")

    def test_programs_may_be_run_by_all_and_other_files_be_read(self):
        for name in self.names():
            with self.subTest(name=name):
                is_run = name in [*SAME, COMMAND] and not name.endswith((".py", ".md", ".png"))
                mode = stat.filemode((self.place / name).stat().st_mode)
                self.assertEqual(mode, "-rwxr-xr-x" if is_run else "-rw-r--r--")

    def test_the_program_and_what_is_listed_are_as_in_the_sources(self):
        for name in SAME:
            with self.subTest(name=name):
                source = TOP / ("crates/gr_main/out/gr_main" if name == "gr_desk" else name)
                self.assertTrue((self.place / name).read_bytes() == source.read_bytes())


class Words(Installed):
    def test_wrong_words_are_reported_and_install_nothing(self):
        work = self.folder()
        for words, expected in [
            (["--frob"], fails("install", 2, "there is no option '--frob'; gr-desk install --help says more")),
            ([TOP], fails("install", 2, "PREFIX is the folder of the sources")),
            *(([work / name], fails("install", 2, NO_UNIT)) for name in ('a "b"', "a\\b", "$HOME", "a\nb")),
        ]:
            with self.subTest(words=words):
                self.assertEqual(install(*words), expected)
        self.assertEqual([name for name in ("man", "systemd") if (TOP / name).exists()], [])
        self.assertEqual(list(work.iterdir()), [])

    def test_a_folder_whose_name_no_unit_can_have_is_refused_also_above_the_prefix(self):
        quoted = self.folder() / 'a "b"'
        quoted.mkdir()
        self.assertEqual(install("for a vote", cwd=quoted), fails("install", 2, NO_UNIT))
        self.assertEqual(list(quoted.iterdir()), [])

    def test_output_that_cannot_be_written_is_reported(self):
        place = self.folder() / "for a vote"
        ran = runs(["sh", "-c", 'exec "$@" >&-', "sh", TOP / "tools" / "gr-desk", "install", place])
        last = fails("install", 3, "lost: standard output could not be written").err
        self.assertEqual((ran.status, ran.out, ran.err[-len(last) :]), (3, b"", last))

    def test_a_file_in_the_place_of_the_folder_is_reported(self):
        place = self.folder() / "a file"
        place.write_bytes(b"")
        ran = install(place)
        last = fails("install", 3, f"{place} cannot be made").err
        self.assertEqual((ran.status, ran.out, ran.err[-len(last) :]), (3, b"", last))
        self.assertEqual(list(place.parent.iterdir()), [place])

    def test_a_folder_of_a_user_is_warned_of_as_one_that_the_units_cannot_run(self):
        home = Path.home().resolve()
        if not f"{home}/".startswith(("/home/", "/root/")) or not os.access(home, os.W_OK):
            self.skipTest("no folder of a user is there to install in")
        place = Path(self.enter(tempfile.TemporaryDirectory(prefix=".gr_desk-", dir=home))) / "vote"
        text = f"warning: the units of systemd run nothing in {place}, since they have ProtectHome=yes"
        self.assertEqual(install(place), Ran(0, b"ok\n", fails("install", 0, text).err))


class Desk(Installed):
    """A desk that is kept in the folder, by the program and the tools that are there."""

    def setUp(self):
        self.place = self.copied()

    def run_there(self, name, *words):
        return runs([self.place / name, *words], cwd=self.place)

    def test_a_desk_is_served_and_acts_are_entered_while_it_is_installed_anew(self):
        self.assertEqual(self.run_there("gr_desk", "init", "desk.db"), OK)
        port = free_port()
        line = ["./gr_desk", "serve", "desk.db", "--port", str(port), "--count", "3", "--at", str(T0)]
        with subprocess.Popen(line, cwd=self.place, stdout=subprocess.PIPE) as process:
            self.addCleanup(process.kill)
            try:
                self.assertEqual(process.stdout.readline(), f"listening {LOCAL}:{port}\n".encode())
                self.assertEqual(install(self.place), OK)
                words = ["--port", port, "developer", "login=alice", "name=Alice Adams", "status=current"]
                self.assertEqual(self.run_there("tools/gr-desk", "act", *words), Ran(0, b"ok 1\n", b""))
                self.assertEqual(self.run_there("tools/gr-desk", "backup", "desk.db", "copy.db"), OK)
                (self.place / "roll.csv").write_text("login,name,status\nbob,Bob,current\n")
                retired = b"login,name,status\nalice,Alice Adams,retired\n"
                ran = self.run_there("tools/gr-desk", "roll_diff", "--port", port, "roll.csv")
                self.assertEqual(ran[:2], (0, retired))
                self.assertEqual(ask(port, "GET", "/roll"), (200, ROLL.decode()))
                self.assertEqual(process.wait(PATIENCE), 0)
            finally:
                process.kill()

    def test_a_desk_is_restored_and_looked_at(self):
        new_desk(self.place / "desk.db")
        self.assertEqual(self.run_there("tools/gr-desk", "backup", "desk.db", "copy.db"), OK)
        for end in "", "-wal":
            (self.place / f"desk.db{end}").unlink()
        self.assertEqual(self.run_there("tools/gr-desk", "restore", "copy.db", "desk.db"), OK)
        self.assertEqual(self.run_there("gr_desk", "roll", "desk.db"), Ran(0, ROLL, b""))
        of_desk = b"desk     2026-01-01T00:00:00Z (1767225600)\n"
        self.assertEqual(self.run_there("tools/gr-desk", "clock", "desk.db").out[: len(of_desk)], of_desk)
        self.assertEqual(self.run_there("tools/gr-desk", "agenda", "desk.db").out[:9], b"Agenda of")
        text = b"gr-desk page: refused 9 NoResolution: there is no resolution"
        self.assertEqual(self.run_there("tools/gr-desk", "page", "desk.db", "1").err[: len(text)], text)


def to_nobody(*line):
    """How a program ends whose output nobody reads."""
    read, write = os.pipe()
    os.close(read)
    with os.fdopen(write, "wb") as output:
        ran = subprocess.run(line, stdin=subprocess.DEVNULL, stdout=output, stderr=subprocess.PIPE, check=False)
    return ran.returncode, ran.stderr


class Command(Installed):
    """The command hands its words on, to a tool or to the program beside it, and ends as that does. It is called by a
    link from another folder, and as it is in the sources."""

    def setUp(self):
        self.here = self.folder() / "a folder"
        self.here.mkdir()

    def linked(self, place):
        os.symlink(place / COMMAND, self.here / "gr-desk")
        return self.here / "gr-desk"

    def commands(self):
        return self.linked(self.place), TOP / COMMAND

    def test_words_are_handed_on_as_they_are(self):
        file, program = new_desk(self.here / "desk.db"), self.place / "gr_desk"
        commands = self.commands()
        for words, expected in [
            ([], Ran(2, b"", NO_WORDS)),
            ([""], Ran(2, b"", NO_WORDS)),
            (["--frob"], Ran(2, b"", NO_WORDS)),
            (["roll", file], Ran(0, ROLL, b"")),
            (["status", file, "9"], Ran(1, b"", b"refused 9 NoResolution\n")),
            (["status", file, "x y"], runs([program, "status", file, "x y"])),
            (["help"], runs([program, "--help"])),
            (["help", "init"], runs([program, "init", "--help"])),
            (["--version"], runs([program, "--version"])),
            (["frob"], Ran(2, b"", NO_COMMAND)),
            (["clock", "--frob"], Ran(2, b"", NO_OPTION)),
            (["agenda", " a  b\n"], runs([self.place / "tools" / "gr-desk", "agenda", " a  b\n"])),
        ]:
            for command in commands:
                with self.subTest(command=command, words=words):
                    self.assertEqual(runs([command, *words], cwd=self.here), expected)

    def test_its_help_lists_each_tool(self):
        for command in self.commands():
            with self.subTest(command=command):
                ran = runs([command, "--help"])
                commands = ran.out.decode().partition("\ncommands:\n")[2].partition("\n\n")[0]
                listed = re.findall(r"^  ([a-z_]+)  ", commands, re.M)
                self.assertEqual((ran.status, listed), (0, COMMAND_NAMES))

    def test_it_ends_as_the_program_does_where_nobody_reads_its_output(self):
        file = new_desk(self.here / "desk.db")
        of_program = to_nobody(self.place / "gr_desk", "roll", file)
        self.assertEqual(to_nobody(self.linked(self.place), "roll", file), of_program)

    def test_a_program_that_is_not_there_is_reported(self):
        place = self.copied()
        (place / "gr_desk").unlink()
        ran = runs([self.linked(place), "roll", "desk.db"])
        self.assertEqual((ran.status, ran.out), (3, b""))
        self.assertIn(b"the program is not there", ran.err)


class Pages(Installed):
    def test_they_and_the_completion_are_those_that_gr_desk_manual_writes(self):
        place = self.folder()
        self.assertEqual(tool("manual", place), Ran(0, b"", b""))
        for path in *PAGES.values(), COMPLETION:
            with self.subTest(path=path):
                self.assertEqual((self.place / path).read_bytes(), (place / path).read_bytes())


def settings(text):
    return [line for line in text.split("\n") if line and not line.startswith(("#", "["))]


class Units(Installed):
    """The units of the folder, and of one with another name, which is named as a unit requires it."""

    @classmethod
    def setUpClass(cls):
        work = cls.shared_folder()
        odd = work / "50% | a & b"
        cls.ran = install(odd)
        cls.places = {f"{cls.work}/for a vote": cls.place, f"{work}/50%% | a & b": odd}

    def units(self):
        """Each unit of both folders: the name of its folder, its own name, and its settings."""
        for name, place in self.places.items():
            for unit in SAYS:
                yield name, unit, settings((place / "systemd" / unit).read_text())

    def test_a_folder_of_another_name_is_installed(self):
        self.assertEqual(self.ran, OK)

    def test_the_units_are_those_of_the_sources(self):
        self.assertEqual({Path(name).name for name in UNITS}, {*SAYS})

    def test_each_unit_runs_what_lies_in_its_folder(self):
        for name, unit, said in self.units():
            with self.subTest(folder=name, unit=unit):
                found = sorted(each.partition("=")[2] for each in said if each.startswith("Exec"))
                self.assertEqual(found, sorted(each.replace("@", name) for each in RUNS.get(unit, [])))

    def test_each_unit_says_what_it_has_to(self):
        for name, unit, said in self.units():
            with self.subTest(folder=name, unit=unit):
                self.assertEqual({*SAYS[unit].split()} - {*said}, set())

    def test_no_unit_says_what_it_may_not_say(self):
        for name, unit, said in self.units():
            with self.subTest(folder=name, unit=unit):
                self.assertEqual({*NEVER.get(unit, "").split()} & {*said}, set())

    def test_the_proxy_begins_after_the_desk_and_the_socket_and_ends_with_either(self):
        proxies = {name: said for name, unit, said in self.units() if unit == "gr_desk-proxy.service"}
        self.assertEqual({*proxies}, {*self.places})
        for name, said in proxies.items():
            with self.subTest(folder=name):
                self.assertEqual({*PROXY_FOLLOWS} - {*said}, set())

    def test_the_proxy_starts_with_the_socket_and_with_each_start_of_the_desk(self):
        for name, unit, said in self.units():
            if unit in STARTS_THE_PROXY:
                with self.subTest(folder=name, unit=unit):
                    self.assertIn(STARTS_THE_PROXY[unit], said)

    def test_the_units_pass_systemd_analyze(self):
        if not shutil.which("systemd-analyze"):
            self.skipTest("systemd-analyze is not installed")
        for name, place in self.places.items():
            with self.subTest(folder=name):
                ran = runs(["systemd-analyze", "verify", *(place / each for each in UNITS)])
                # It may speak of other units of the machine.
                ours = [line for line in (ran.out + ran.err).split(b"\n") if b"gr_desk" in line]
                self.assertEqual((ran.status, ours), (0, []))

    def test_each_service_has_an_exposure_below_three_by_systemd_analyze(self):
        if not shutil.which("systemd-analyze"):
            self.skipTest("no systemd-analyze is there")
        place, services = self.places[f"{self.work}/for a vote"], [each for each in UNITS if each.endswith(".service")]
        self.assertTrue(services)
        for name in services:
            with self.subTest(name=name):
                line = ["systemd-analyze", "--offline=true", "--threshold=29", "--no-pager", "security", place / name]
                ran = runs(line)
                if b"unrecognized option" in ran.err:
                    self.skipTest("this systemd-analyze looks at no unit that is a file")
                self.assertEqual(ran.status, 0, ran.out.decode().strip().split("\n")[-1])

    def test_nothing_is_enabled(self):
        found = [path for path in Path("/etc/systemd/system").rglob("gr_desk*") if path.lstat().st_mtime > BEGAN]
        self.assertEqual(found, [])
