"""Looks at how ./gr_desk builds the program, over a tree of three crates and a toolchain that is a few lines of shell.
It says on error output which crate is being proved, how much of the work is done and how long it has taken, and again
each minute; standard output is the program's alone. The tools never build the program: they run what is there."""
import os
import re
import shutil
import signal
import subprocess
import time
from contextlib import suppress
from pathlib import Path

from tests.support.case import Case
from tests.support.program import PATIENCE, TOP, Ran, fail

CRATES = """# Crates.
gr_count:
gr_core: gr_count hex
gr_core_tests: gr_core
gr_main: gr_core sqlite
"""

# The toolchain. It notes what it was asked for, and says and does what the test requires of a crate.
RT = """#!/bin/sh
name=$(basename "$PWD")
echo "$1 $name" >>"$CALLS"
echo "the toolchain on $name"
[ "$name" != "$BROKEN" ] || { echo logic=not-proved; exit 1; }
[ "$name" != "$SLOW" ] || while ! [ -e "$GO_ON" ]; do /bin/sleep 0.05; done
case $1 in
lib) mkdir -p out && echo logic=proved functions=1 ;;
run)
    if [ -e out/gr_main ] && [ -n "${SAME:-}" ]; then
        echo "rt: nothing has changed since the last proved build, by out/gr_main.stamp, so nothing is checked now"
    else
        mkdir -p out
        printf %s "$PROGRAM" >out/gr_main
        chmod +x out/gr_main
        echo logic=proved functions=1
    fi
    cat
    # What the program ended with.
    exit 1
    ;;
esac
"""
# The program that it makes, which prints its words.
PROGRAM = """#!/bin/sh
printf "the program:"
printf " <%s>" "$@"
echo
exit 7
"""

BEGINS = "T proving and building the program, once: up to an hour from nothing, else less"
NAMES = ["gr_count", "gr_core", "gr_main"]
# The crates with the minutes that those before them take.
OVER = {"gr_count": 0, "gr_core": 1, "gr_main": 5}
PROVES = [f"T proving {name}; {over} of about 9 minutes of work are done" for name, over in OVER.items()]
CALLS = ["lib gr_count", "lib gr_core", "run gr_main"]

# What a tool says that runs the program, of one that is not there, or older than a source. This one has no help.
UNBUILT = "gr-desk manual: the program is not built; ./gr_desk builds it, by proofs that take up to an hour\n"
NEWER = "gr-desk manual: crates/gr_core/src/lib.rt is newer than the program, which runs as it stands; "
NEWER += "./gr_desk builds it anew\n"
HELPLESS = "gr-desk manual: the program --help ended with status 7\n"


def said(*lines):
    """What is said on error output, except for the times."""
    return "".join(f"gr_desk: {line}\n" for line in lines)


def without_times(text):
    return re.sub(r"^gr_desk: \d+:\d\d ", "gr_desk: T ", text.decode(), flags=re.M)


BUILT = said(BEGINS, *PROVES, "T built")
# What the program comes to with the word x, where nothing is built.
RUNS = 7, "the program: <x>\n", ""


class Tree:
    """The tree of crates, and the toolchain."""

    def __init__(self, work):
        self.top = work / "the tree"
        self.program = self.top / "gr_desk"
        self.built = self.top / "crates" / "gr_main" / "out" / "gr_main"
        self.bin = work / "bin"
        self.calls = work / "calls"
        self.go_on = work / "go on"
        self.bin.mkdir()
        self.script("rt", RT)
        for name in "gr_count", "gr_core", "gr_core_tests", "gr_main":
            (self.top / "crates" / name / "src").mkdir(parents=True)
            (self.top / "crates" / name / "src" / "lib.rt").touch()
        (self.top / "crates.txt").write_text(CRATES)
        (self.top / "HANDLES").touch()
        shutil.copy(TOP / "gr_desk", self.program)
        shutil.copytree(TOP / "tools", self.top / "tools")

    @classmethod
    def with_program(cls, work):
        """One in which the program is there, newer than each source."""
        tree = cls(work)
        tree.built.parent.mkdir()
        tree.built.write_text(PROGRAM)
        tree.built.chmod(0o755)
        return tree

    def script(self, name, text):
        (self.bin / name).write_text(text)
        (self.bin / name).chmod(0o755)

    def environment(self, more):
        path = f"{self.bin}:{os.environ['PATH']}"
        # A folder that cd would print.
        own = {"PATH": path, "CALLS": str(self.calls), "GO_ON": str(self.go_on), "CDPATH": str(self.top.parent)}
        return own | {"PROGRAM": PROGRAM} | more

    def run(self, program, *words, cwd="/", **more):
        """Runs it with these words. Gives what came of it, and what the toolchain was asked for."""
        self.calls.write_text("")
        streams = {"stdin": subprocess.DEVNULL, "capture_output": True}
        line = [program, *words]
        ran = subprocess.run(line, cwd=cwd, env=self.environment(more), timeout=PATIENCE, check=False, **streams)
        return Ran(ran.returncode, ran.stdout, ran.stderr), self.calls.read_text().splitlines()

    def edit(self, name):
        """A source that is newer than the program, however slow the machine is."""
        later = time.time() + 3600
        os.utime(self.top / "crates" / name / "src" / "lib.rt", (later, later))

    def linked(self, work):
        """A folder with two symbolic links, of which the second leads to ./gr_desk by the first."""
        links = work / "links"
        links.mkdir()
        (links / "first").symlink_to(self.program)
        (links / "second").symlink_to("first")
        return links


def comes_to(is_so, otherwise):
    """Waits until it is so, and otherwise fails with these words."""
    limit = time.monotonic() + PATIENCE
    while not is_so():
        if time.monotonic() > limit:
            fail(otherwise)
        time.sleep(0.02)


def has_processes(group):
    """Whether a process of this group goes on. One that nobody has waited for yet does not."""
    for number in filter(str.isdigit, os.listdir("/proc")):
        # It may end meanwhile.
        with suppress(OSError):
            state, _, of_group = Path(f"/proc/{number}/stat").read_text().rpartition(")")[2].split()[:3]
            if int(of_group) == group and state != "Z":
                return True
    return False


class Building(Case):
    """Runs of ./gr_desk: the status, both outputs, and what the toolchain is asked for."""

    def comes(self, tree, program, words, expected, calls, **more):
        ran, asked = tree.run(program, *words, **more)
        self.assertEqual((ran.status, ran.out.decode(), without_times(ran.err)), expected)
        self.assertEqual(asked, calls, "what the toolchain was asked for")

    def test_from_nothing_it_proves_each_crate_and_runs_the_program_with_its_words(self):
        tree = Tree(self.folder())
        self.comes(tree, tree.program, ["a b", "c"], (7, "the program: <a b> <c>\n", BUILT), CALLS)
        self.assertEqual(tree.built.read_text(), PROGRAM)
        with self.subTest("a program that it built is current"):
            self.comes(tree, tree.program, ["x"], RUNS, [])

    def test_a_program_that_is_current_runs_as_it_is_from_any_folder(self):
        tree = Tree.with_program(self.folder())
        for program, cwd in (tree.program, "/"), ("./gr_desk", tree.top):
            with self.subTest(program=program):
                self.comes(tree, program, ["x"], RUNS, [], cwd=cwd)

    def test_an_edit_of_a_crate_of_tests_builds_nothing(self):
        tree = Tree.with_program(self.folder())
        tree.edit("gr_core_tests")
        self.comes(tree, tree.program, ["x"], RUNS, [])

    def test_it_is_called_by_symbolic_links(self):
        work = self.folder()
        tree = Tree.with_program(work)
        links = tree.linked(work)
        for program, cwd in (links / "second", "/"), ("./second", links):
            with self.subTest(program=program):
                self.comes(tree, program, ["x"], RUNS, [], cwd=cwd)

    def test_an_edit_of_a_crate_builds_the_program_again_also_by_links(self):
        work = self.folder()
        tree = Tree.with_program(work)
        tree.edit("gr_core")
        self.comes(tree, tree.linked(work) / "second", ["x"], (7, "the program: <x>\n", BUILT), CALLS)

    def test_a_source_that_is_newer_and_the_same_lets_the_program_run(self):
        tree = Tree.with_program(self.folder())
        tree.edit("gr_core")
        self.comes(tree, tree.program, ["x"], (7, "the program: <x>\n", BUILT), CALLS, SAME="1")

    def test_a_program_whose_proof_fails_is_not_run_and_the_toolchain_says_why(self):
        for number, name in enumerate(NAMES, start=1):
            with self.subTest(crate=name):
                tree = Tree.with_program(self.folder())
                tree.edit("gr_core")
                text = said(BEGINS, *PROVES[:number]) + f"the toolchain on {name}\nlogic=not-proved\n"
                text += said("T the program was not built; what the toolchain said stands above")
                self.comes(tree, tree.program, ["x"], (3, "", text), CALLS[:number], BROKEN=name)

    def test_a_crate_that_takes_minutes_is_named_each_minute(self):
        """Here a second is a thousandth of one."""
        work = self.folder()
        tree, err = Tree(work), work / "err"
        tree.script("sleep", "#!/bin/sh\nexec /bin/sleep 0.001\n")
        streams = {"stdin": subprocess.DEVNULL, "stdout": subprocess.PIPE}
        environment = tree.environment({"SLOW": "gr_core"})

        def times_named():
            return without_times(err.read_bytes()).count(PROVES[1])

        line = [tree.program, "x"]
        with open(err, "wb") as file, subprocess.Popen(line, env=environment, stderr=file, **streams) as process:
            try:
                comes_to(lambda: times_named() >= 3 or process.poll() is not None, "it was not named three times")
            finally:
                tree.go_on.touch()
            out, _ = process.communicate(timeout=PATIENCE)
        self.assertGreaterEqual(times_named(), 3)
        lines = without_times(err.read_bytes()).splitlines(keepends=True)
        once = "".join(line for number, line in enumerate(lines) if number == 0 or line != lines[number - 1])
        self.assertEqual((process.returncode, out, once), (7, b"the program: <x>\n", BUILT))

    def test_a_build_that_is_ended_leaves_no_process_and_closes_its_streams_at_once(self):
        """The signal goes to all of its processes, as from a terminal, or to it alone, which looks at it when the
        toolchain has ended."""
        for kill in os.killpg, os.kill:
            with self.subTest(kill=kill.__name__):
                self.ends(Tree.with_program(self.folder()), kill)

    def ends(self, tree, kill):
        tree.edit("gr_core")
        tree.calls.write_text("")
        pipe = subprocess.PIPE
        streams = {"stdin": subprocess.DEVNULL, "stdout": pipe, "stderr": pipe}
        environment = tree.environment({"SLOW": "gr_core"})
        with subprocess.Popen([tree.program, "x"], env=environment, start_new_session=True, **streams) as process:
            comes_to(lambda: "lib gr_core" in tree.calls.read_text().splitlines(), "the build did not come to gr_core")
            kill(process.pid, signal.SIGTERM)
            tree.go_on.touch()
            began = time.monotonic()
            process.communicate(timeout=PATIENCE)
            self.assertLess(time.monotonic() - began, 5, "how long it kept the streams of its caller")
        self.assertEqual(process.returncode, 143)
        # Its sleep may outlive it for a second.
        comes_to(lambda: not has_processes(process.pid), "a build that was ended left a process")


class Tools(Case):
    """A tool runs the program as it stands, and asks the toolchain for nothing."""

    def says(self, tree, text):
        ran, asked = tree.run(tree.top / "tools" / "gr-desk", "manual", tree.top / "pages")
        err = ran.err.decode().replace(str(tree.built), "the program")
        self.assertEqual((ran.status, ran.out, err, asked), (3, b"", text, []))

    def test_a_tool_says_that_the_program_is_not_built_and_how_it_is(self):
        self.says(Tree(self.folder()), UNBUILT)

    def test_a_tool_runs_the_program_that_is_there(self):
        self.says(Tree.with_program(self.folder()), HELPLESS)

    def test_a_tool_says_nothing_of_an_edit_of_a_crate_of_tests(self):
        tree = Tree.with_program(self.folder())
        tree.edit("gr_core_tests")
        self.says(tree, HELPLESS)

    def test_a_tool_names_a_source_that_is_newer_than_the_program_and_runs_it_as_it_stands(self):
        tree = Tree.with_program(self.folder())
        tree.edit("gr_core")
        self.says(tree, NEWER + HELPLESS)
