"""Holds the built program to bounds of memory and of instructions. A body may give the right values, and keep what is
no longer needed or make anew what is kept: no contract refuses it, and a bound does. Memory is what a `roll` and a
`migrate` have resident at most. Instructions are counted by valgrind, where it is there. Of two desks one has more
ballots, and each figure is what one of these ballots adds, so what each run has is in none. The figures are printed."""
import re
import shutil
import subprocess
import sys
import unittest
from typing import NamedTuple

from tests.support.case import Case
from tests.support.eighteen import CALLED
from tests.support.preloaded import BUILT
from tests.support.program import DAY, PATIENCE, T0, build, copy_desk, expect, request, runs
from tests.support.version_1 import make

# How many ballots are on a resolution of the desks whose memory is compared, and how many resolutions these have: first
# those of a roll, then those of a migration. A list of 1,060 changes has room for 2,048. So a migration that keeps the
# list of each resolution needs more memory than its last statement, which deletes the ballots of version 1.
VOTERS, FEW_VOTES, MANY_VOTES = 2_000, 20, 40
FEWER_VOTERS, FEW_MIGRATED, MANY_MIGRATED = 1_060, 100, 200
# How many ballots the desks have whose instructions are compared, on one resolution.
FEW, MANY = 100, 400
CHOICES, RANKS = 8, "12345678-"
# Stages of a resolution.
VOTING, CLOSED = 2, 3
# The digits of a receipt. The crate `hex` reads a letter by more instructions than a numeral.
LETTERS, NUMERALS = "f" * 64, "0" * 64

# The lines whose instructions are counted, without the name of the desk, and what they are given to read.
ROLL, STATUS, RESULT = ("roll",), ("status", 1), ("result", 1)
VOTE = "once", "--at", CALLED + DAY
GIVEN = {VOTE: request("POST", "/resolutions/1/vote", f"login=d0001&ranks={RANKS}&token=tokenA01")}


# Runs a line and prints how many kilobytes it had. The system takes what the caller had for the line's, where that is
# more. So the caller is a small process of its own.
PEAK = """
import resource, subprocess, sys
subprocess.run(sys.argv[1:], check=True, stdin=subprocess.DEVNULL, stdout=subprocess.DEVNULL)
print(resource.getrusage(resource.RUSAGE_CHILDREN).ru_maxrss)
"""


class Desk(NamedTuple):
    """A desk on which so many of the developers voted on each resolution."""

    resolutions: int
    developers: int
    voters: int
    stage: int = VOTING
    digits: str = LETTERS


def rows_of(desk):
    """The rows of a desk of version 1."""
    resolutions = range(1, desk.resolutions + 1)
    poll = T0, T0, 0, CALLED, 14, desk.developers, 0
    return {
        "desk": [(1, 1, 100_000, CALLED)],
        "developer": ((f"d{number:04}", "Dora Dean", 1) for number in range(1, desk.developers + 1)),
        "resolution": ((number, desk.stage, *poll) for number in resolutions),
        "choice": (
            (number, place, 2, "", "Keep the desk as it is", "x" * 100, 1, T0, 0, place)
            for number in resolutions
            for place in range(1, CHOICES + 1)
        ),
        "ballot": (
            (number, f"d{voter:04}", RANKS, desk.digits)
            for number in resolutions
            for voter in range(1, desk.voters + 1)
        ),
    }


def made(place, desk):
    """The file of a desk in a folder, and how many bytes its migration had."""
    file = place / "desk.db"
    make(file, rows_of(desk))
    return file, peak("migrate", file)


def peak(*words):
    """How many bytes a run of the program had resident at most."""
    ran = runs([sys.executable, "-c", PEAK, BUILT, *words])
    expect(f"{words[0]}, run for its memory", (ran.status, ran.err), (0, b""))
    return 1_024 * int(ran.out)


def instructions(file, line):
    """How many instructions the program has for a line."""
    valgrind = ["valgrind", "--tool=cachegrind", "--cache-sim=no", "--cachegrind-out-file=/dev/null"]
    words = [*valgrind, BUILT, line[0], file, *map(str, line[1:])]
    ran = subprocess.run(words, input=GIVEN.get(line, b""), capture_output=True, timeout=PATIENCE, check=False)
    expect(f"the status of {line[0]}", ran.returncode, 0)
    counted = re.search(r"I\s+refs:\s+([\d,]+)", ran.stderr.decode())
    return int(counted[1].replace(",", ""))


class Bounds(Case):
    def holds(self, figure, bound, what):
        print(f"{figure:7,} {what}, at most {bound:,}", flush=True)
        self.assertLessEqual(figure, bound, what)


class Memory(Bounds):
    """What a ballot adds to the memory of a roll, and to that of a migration."""

    @classmethod
    def setUpClass(cls):
        build()
        cls.least = peak("--help")

    def of_a_ballot(self, few, many, ballots):
        # Where it is the caller that had more, so had it at the help.
        self.assertGreater(few, self.least, "a line has no more than a help has: no ballot is seen")
        return (many - few) // ballots

    def test_a_load_has_a_bounded_memory_for_a_ballot(self):
        desks = Desk(FEW_VOTES, VOTERS, VOTERS), Desk(MANY_VOTES, VOTERS, VOTERS)
        few, many = (peak("roll", made(self.folder(), desk)[0]) for desk in desks)
        figure = self.of_a_ballot(few, many, VOTERS * (MANY_VOTES - FEW_VOTES))
        self.holds(figure, 320, "bytes of memory for a ballot, by roll")

    def test_a_migration_has_a_bounded_memory_for_a_ballot(self):
        desks = Desk(FEW_MIGRATED, VOTERS, FEWER_VOTERS), Desk(MANY_MIGRATED, VOTERS, FEWER_VOTERS)
        few, many = (made(self.folder(), desk)[1] for desk in desks)
        figure = self.of_a_ballot(few, many, FEWER_VOTERS * (MANY_MIGRATED - FEW_MIGRATED))
        self.holds(figure, 540, "bytes of memory for a ballot, by migrate")


@unittest.skipUnless(shutil.which("valgrind"), "valgrind is not installed")
class Instructions(Bounds):
    """What a ballot adds to a line. What it adds to a result, and to a vote, is beyond what it adds to the status of
    the same desk."""

    @classmethod
    def setUpClass(cls):
        build()
        cls.files, cls.counted = {}, {}

    def of(self, line, desk):
        """How many instructions a line has over a copy of a desk, which is made once. The names are as long as each
        other: where a name ends in memory moves the rest, and so changes some thousands of instructions."""
        if desk not in self.files:
            self.files[desk], _ = made(self.shared_folder(), desk)
        if (line, desk) not in self.counted:
            copy = copy_desk(self.files[desk], self.shared_folder() / "desk.db")
            self.counted[line, desk] = instructions(copy, line)
        return self.counted[line, desk]

    def of_a_ballot(self, line, stage=VOTING, beyond=None):
        """What a ballot adds to a line, beyond what it adds to another one."""
        few, many = (
            self.of(line, desk) - (self.of(beyond, desk) if beyond else 0)
            for desk in (Desk(1, MANY, FEW, stage), Desk(1, MANY, MANY, stage))
        )
        return (many - few) // (MANY - FEW)

    def test_a_load_has_bounded_instructions_for_a_ballot(self):
        self.holds(self.of_a_ballot(ROLL), 40_000, "instructions for a ballot, by roll")

    def test_the_letters_of_a_receipt_have_bounded_instructions(self):
        letters, numerals = (self.of(ROLL, Desk(1, MANY, MANY, digits=digits)) for digits in (LETTERS, NUMERALS))
        what = "of them where its receipt has letters, and none where it has numerals"
        self.holds(abs(letters - numerals) // MANY, 20, what)

    def test_a_result_has_bounded_instructions_for_a_ballot(self):
        figure = self.of_a_ballot(RESULT, CLOSED, beyond=STATUS)
        self.holds(figure, 20, "instructions for a ballot, by result and not by status")

    def test_a_vote_has_bounded_instructions_for_a_ballot(self):
        figure = self.of_a_ballot(VOTE, beyond=STATUS)
        self.holds(figure, 120, "instructions for a ballot, by a vote and not by status")
