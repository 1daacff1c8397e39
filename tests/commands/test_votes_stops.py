"""Stops gr-desk votes over five ballots by the library of stop_tool.c: before each write, sync, change of a length,
rename and start of a program, after half of each write to a file, and while a program that was started goes on alone.
The next run goes on: the desk has each of the five ballots once, and each voter has a mail with a receipt that is
there."""
import json
import os
import shutil
import signal
import subprocess
from concurrent.futures import ThreadPoolExecutor

from tests.support.called import CALLED, Called
from tests.support.case import Case
from tests.support.journaled import accepted_of, environment_of
from tests.support.mailed import HOST, Folder, answers_in, ballots_in, mail_of, receipt_in, says, votes
from tests.support.program import PATIENCE, TOP, copy_desk, expect, receipt, runs

# At most so many tools run at one moment.
TOGETHER = 2
RANKS = {"d1": "123", "d2": "321", "d3": "1--", "d4": "213", "d5": "9-9"}
# Writes to a file, syncs, starts of a program, renames and changes of a length: each run has them.
REQUIRED_STEPS = "wsxnt"


def stopping_library(place):
    """The library that stops a tool, built in this folder."""
    library = place / "stop_tool.so"
    line = [os.environ.get("CC", "cc"), "-shared", "-fPIC", "-O1", "-o", library, TOP / "tests/support/stop_tool.c"]
    expect("the compiler", runs([*line, "-ldl"])[::2], (0, b""))
    return library


def five_ballots(place, desk):
    """Two voters bring their tokens, and one votes twice."""
    came = Folder(place, desk)
    for number, (login, ranks) in enumerate(RANKS.items(), start=1):
        if login == "d4":
            earlier = mail_of(came.filled("111"), 40, CALLED + 1)
            came.mbox(login, earlier, mail_of(came.filled(ranks), 41, CALLED + 2), at=CALLED + number)
        else:
            came.text(login, came.filled(ranks, f"tokenA0{number}" if number < 3 else ""), CALLED + number)
    return came


def stops_of(steps):
    """The steps at which it is stopped, with the ways. Of several in a private folder, one after the other, it is the
    first, since nobody looks there; and so it is of several writes to pipes."""
    ways = {"w": ["before", "half"], "x": ["before", "behind"], "p": ["before", "behind"]}
    for place, step in enumerate(steps):
        before = steps[place - 1] if place else ""
        if not (step.isupper() and before.isupper() or step == before == "p"):
            yield from ((place + 1, way) for way in ways.get(step.lower(), ["before"]))


class VotesStops(Case):
    @classmethod
    def setUpClass(cls):
        work = cls.shared_folder()
        cls.stops = stopping_library(work)
        cls.desk = Called.made(work, 5)
        cls.came = five_ballots(work / "came", cls.desk)
        cls.accepted = accepted_of(cls.desk.file)

    def words(self, place):
        outbox = "--outbox", place / "outbox"
        return ["--received-by", HOST, *outbox, place / "desk.db", 1, self.came.place]

    def run_to(self, place, number=0, way=""):
        """Runs the tool to a step, or to its end, over a copy of the desk in this folder. Gives its status, and the
        letters of its steps."""
        copy_desk(self.desk.file, place / "desk.db")
        # What a run that was stopped leaves among temporary files is taken away with the folder.
        temporary = place / "temporary"
        temporary.mkdir()
        own = {"STOP_AT": number, "STOP_WAY": way, "STOP_RECORD": place / "record"}
        own |= {"LD_PRELOAD": self.stops, "TMPDIR": temporary}
        line = [TOP / "tools" / "gr-desk", "votes", "--journal", place / "journal", *self.words(place)]
        # A program that outlives the tool keeps its streams open, so nothing waits for their ends.
        quiet = dict.fromkeys(("stdin", "stdout", "stderr"), subprocess.DEVNULL)
        ran = subprocess.run(list(map(str, line)), env=environment_of(own), timeout=PATIENCE, check=False, **quiet)
        return ran.returncode, (place / "record").read_bytes().rstrip(b"\0").decode()

    def check_entered(self, place):
        """The desk has each ballot once, each voter has a mail with its receipt, and the journal has the ballot that
        was replaced once."""
        lines = map(json.loads, (place / "journal").read_text().splitlines())
        replaced = [(line["login"], line["ranks"]) for line in lines if line["line"] == "replaced"]
        self.assertEqual(replaced, [("d4", "111")])
        found = ballots_in(place / "desk.db")
        self.assertEqual({login: row[0] for login, row in found.items()}, RANKS)
        self.assertEqual({row[2] for row in found.values()}, {1})
        self.assertEqual(accepted_of(place / "desk.db"), self.accepted + len(RANKS))
        mails = answers_in(place / "outbox")
        self.assertEqual({login: len(each) for login, each in mails.items()}, dict.fromkeys(RANKS, 1))
        for login, [(_, text)] in mails.items():
            digits, token = receipt_in(text)
            self.assertEqual((digits, digits), (found[login][1], receipt(1, login, token)))

    def test_a_run_that_is_not_stopped_enters_each_ballot_once_and_has_steps_of_each_kind(self):
        place = self.folder()
        status, steps = self.run_to(place)
        self.assertEqual(status, 0)
        self.check_entered(place)
        self.assertEqual([letter for letter in REQUIRED_STEPS if letter not in steps], [], steps)

    def test_a_run_after_a_stop_at_any_step_enters_each_ballot_once_and_answers_each_voter(self):
        work = self.folder()
        (work / "whole").mkdir()
        _, steps = self.run_to(work / "whole")
        stops = list(stops_of(steps))
        self.assertGreater(len(stops), len(REQUIRED_STEPS), steps)
        places = [work / f"{number}{way}" for number, way in stops]
        with ThreadPoolExecutor(TOGETHER) as pool:
            started = [pool.submit(self.stop_at, place, *stop) for place, stop in zip(places, stops)]
            for outcome, (number, way) in zip(started, stops):
                with self.subTest(step=number, letter=steps[number - 1], way=way):
                    outcome.result()

    def stop_at(self, place, number, way):
        """Stops a run at a step, runs it again, and looks at what there is."""
        place.mkdir()
        status, _ = self.run_to(place, number, way)
        self.assertEqual(status, -signal.SIGKILL)
        says("the next run", votes(*self.words(place), journal=place / "journal"), 0, "Every voter has an answer")
        self.check_entered(place)
        shutil.rmtree(place)
