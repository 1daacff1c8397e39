"""Runs examples/whole_vote, which leads a vote by curl over a desk in a file, and the steps that README.md gives for
one by hand. Every byte that the example prints is compared with what the rules make of the vote: the text below, and
the tally and the result of whole_vote in examples/votes. The steps come to the same sheets, with the receipts that they
print."""
import re
import subprocess

from tests.support.case import Case
from tests.support.journaled import environment_of
from tests.support.program import TOP, build, receipt, runs

KEPT_TALLY, KEPT_RESULT = (TOP / "examples" / "votes" / f"whole_vote.{sheet}" for sheet in ("tally", "result"))

PRINTED = """
== A new desk, with four developers
ok
ok 1 added 4 changed 0 same 0
Developers: 4
Current: 4
D: d1 current One
D: d2 current Two
D: d3 current Three
D: d4 current Four

== 1 January: d1 proposes a resolution, d2 sponsors it, and the Leader adds a choice
ok 2 resolution 1
ok 3
ok 4 choice 2
Resolution 1
Stage: Discussing
Discussion: 2026-01-01T00:00:00Z to 2026-01-15T00:00:00Z
Choice 1: Red
Ratio: 1
Proposer: developer d1
Sponsors: 1 d2
Introduced: 2026-01-01T00:00:00Z
Short since: no
Place: none
| The desk is painted red.
Choice 2: Green
Ratio: 1
Proposer: leader
Sponsors: 0
Introduced: 2026-01-01T00:00:00Z
Short since: no
Place: none
| The desk is painted green.

== 15 January: the discussion is over, the vote is called, and three developers vote, d3 twice
ok 5 places 3 until 1769040000
ok 6 receipt 900eb73ab7e42d7eb72f6524157a5dfa609a0f27b79f9c9ac235cd6931258b07
ok 7 receipt 921e9e589da0a2af233149c221978bdcc2592cd63c52284e55c350b0aac3bdfa
ok 8 receipt 6a9b7694f79df615db603850c8b0a240eb63a6beac4badef0a0d1abdf76d5d46
ok 9 receipt 0bc67ed616cd49fd22e8558b7970e6c7cb8c03787029353c747f230a0db7d208

== 22 January: the vote is closed; both choices are level, so the Leader's casting vote chooses one
ok 10
ok 11

== The ballots, each with the receipt that its voter got
"""
COUNT = "\n== And their count\n"


def recounted(tally, result):
    """The status of a recount, and the last line of what it prints."""
    ran = runs([TOP / "examples" / "recount", tally, result])
    return ran.status, ran.out.decode().splitlines()[-1:]


FOLLOWS = 0, ["the result follows from the tally"]


class Example(Case):
    @classmethod
    def setUpClass(cls):
        build()
        cls.left = cls.shared_folder()
        cls.ran = runs([TOP / "examples" / "whole_vote"], env=environment_of({"TMPDIR": cls.left}))
        cls.printed = cls.ran.out.decode()

    def sheet(self, first_line):
        """A sheet that the example printed, in a file: up to the next blank line."""
        found = re.search(rf"^{first_line}.*?(?=^$|\Z)", self.printed, re.M | re.S)
        self.assertIsNotNone(found, self.ran)
        file = self.folder() / first_line
        file.write_text(found[0])
        return file

    def test_it_prints_what_the_rules_make_of_the_vote(self):
        expected = PRINTED + KEPT_TALLY.read_text() + COUNT + KEPT_RESULT.read_text()
        self.assertEqual(self.printed, expected)
        self.assertEqual(self.ran.status, 0, self.ran.err)

    def test_it_leaves_no_file(self):
        self.assertEqual([*self.left.iterdir()], [])

    def test_its_result_follows_from_its_tally(self):
        self.assertEqual(recounted(self.sheet("Tally"), self.sheet("Result")), FOLLOWS)

    def test_a_ballot_is_found_in_the_tally_by_its_token_and_one_that_was_replaced_is_not(self):
        tally = self.sheet("Tally")
        for token, status, words in [("tokenA04", 0, "V: 113"), ("tokenA03", 1, "no ballot has the receipt")]:
            with self.subTest(token):
                line = [TOP / "examples" / "check_receipt", tally, "1", "d3"]
                ran = subprocess.run(line, input=f"{token}\n", capture_output=True, text=True, check=False)
                first_line = f"{words} {receipt(1, 'd3', token)}"
                self.assertEqual((ran.returncode, ran.stdout.splitlines()[:1]), (status, [first_line]), ran.stderr)


def steps():
    """The steps of README.md, as a user takes them by hand."""
    section = (TOP / "README.md").read_text().partition("\n## A whole vote")[2].partition("\n## The journal")[0]
    return "".join(re.findall(r"^```\n(.*?)^```$", section, re.M | re.S))


class StepsByHand(Case):
    @classmethod
    def setUpClass(cls):
        build()
        place = cls.shared_folder()
        (place / "bin").symlink_to(TOP / "bin")
        cls.ran = runs(["bash", "-euo", "pipefail", "-c", steps()], cwd=place, env=environment_of({}))
        cls.printed = cls.ran.out.decode()

    def test_they_end_well_and_error_output_has_only_what_acts_mean(self):
        errors = self.ran.err.decode()
        others = [line for line in errors.splitlines() if not line.startswith("gr-desk act: ")]
        self.assertEqual((self.ran.status, others), (0, []), errors)

    def test_they_print_the_kept_result(self):
        self.assertIn(KEPT_RESULT.read_text().rstrip("\n"), self.printed)

    def test_they_print_the_kept_tally_with_their_own_receipts_and_the_kept_result_follows_from_it(self):
        # Those of d1, of d2, and of the second ballot of d3.
        receipts = re.findall(r"^ok \d+ receipt (.*)$", self.printed, re.M)
        self.assertEqual(len(receipts), 4, self.printed)
        ballots = sorted(f"V: 113 {receipts[place]}\n" for place in (0, 1, 3))
        others = [line for line in KEPT_TALLY.read_text().splitlines(keepends=True) if not line.startswith("V: ")]
        tally = self.folder() / "tally"
        tally.write_text("".join(others + ballots))
        self.assertIn(tally.read_text().rstrip("\n"), self.printed)
        self.assertEqual(recounted(tally, KEPT_RESULT), FOLLOWS)
