"""Has examples/recount count the votes of examples/votes again, and examples/check_receipt look for ballots. Both run
as a voter would run them; what they say is compared whole, except for what is taken on trust of most. Then a vote as
large as one may be is led through the program, and its printed tally and result are counted again."""
import re
import subprocess
import tempfile
from concurrent.futures import ThreadPoolExecutor
from hashlib import sha256
from pathlib import Path

from tests.program import large_vote
from tests.program.recount_cases import MALFORMED, OTHER_CHANGES, RECEIPT, SLIPS, TRUST, TRUSTED, WRONG_LINES, says
from tests.support.case import Case
from tests.support.program import TOP, fail, receipt

VOTES = TOP / "examples" / "votes"
FOLLOWS = "the result follows from the tally"
# How many runs of recount go side by side.
TOGETHER = 4


def run(name, *words, given=""):
    """What came of a program for voters: its status, and what stood on standard output and on error output."""
    line = [TOP / "examples" / name, *words]
    ran = subprocess.run(line, input=given.encode(), capture_output=True, check=False)
    return ran.returncode, ran.stdout.decode(), ran.stderr.decode()


def recount(tally, result):
    """The exit status for two sheets, and what is said, except for what is taken on trust."""
    with tempfile.TemporaryDirectory() as folder:
        files = [Path(folder, "tally"), Path(folder, "result")]
        for file, sheet in zip(files, (tally, result)):
            file.write_bytes(sheet.encode())
        status, out, err = run("recount", *files)
    lines = [line for line in out.split("\n") if not line.startswith("on trust: ")]
    return status, "\n".join(lines) + err


def sheets_of(vote):
    """The tally and the result of a vote, byte for byte."""
    return [(VOTES / f"{vote}.{kind}").read_bytes().decode() for kind in ("tally", "result")]


def votes():
    return sorted({file.stem for file in VOTES.iterdir()})


def changed(sheet, old, new):
    """The sheet with the first one of these texts changed, which must be there."""
    if old not in sheet:
        fail(f"there is no {old} to be changed")
    return sheet.replace(old, new, 1)


def with_line(sheet, number, line):
    """The sheet with this line in the place of the one with the number."""
    lines = sheet.split("\n")
    lines[number - 1] = line
    return "\n".join(lines)


class Recounts(Case):
    """What recount says of sheets. A case has words for it, a tally, a result, and of refused sheets what is said."""

    def says_of_each(self, cases, status):
        """Of each case recount ends with this status, and says the last part of the case."""
        self.assertTrue(cases)
        words, tallies, results, texts = zip(*cases)
        with ThreadPoolExecutor(TOGETHER) as pool:
            for each, text, said in zip(words, texts, pool.map(recount, tallies, results)):
                with self.subTest(words=each):
                    self.assertEqual(said, (status, f"{text}\n"))

    def takes(self, cases):
        self.says_of_each([(*case, FOLLOWS) for case in cases], 0)

    def refuses(self, cases):
        self.says_of_each(cases, 1)

    def test_each_result_follows_from_its_tally(self):
        self.takes([(vote, *sheets_of(vote)) for vote in votes()])

    def test_a_result_without_its_votes_received_follows_as_desks_of_version_1_showed_it(self):
        cases = []
        for vote in votes():
            tally, result = sheets_of(vote)
            cases.append((vote, tally, re.sub("^Received: [0-9]+\n", "", result, flags=re.M)))
        self.takes(cases)

    def test_changes_that_no_tally_speaks_against_are_taken(self):
        tally, result = sheets_of("cycle")
        pairs = [("Received: 9", "Received: 2000000000000"), ("2026-01-29T", "2026-01-30T")]
        pairs += [("Developers: 16", "Developers: 36"), ("ratio 1", "ratio 9")]
        cases = [(new, tally, changed(result, old, new)) for old, new in pairs]
        # To other programs these two are ends of lines.
        for mark in "\u2028", "\u0085":
            summary = f"Red{mark}Winner: 2{mark}"
            cases.append((summary, changed(tally, "Red", summary), changed(result, "Red", summary)))
        tally, result = sheets_of("tie")
        for member in 1, 2, 3:
            cast = f"Winner: {member} by casting vote"
            cases.append((cast, tally, changed(result, "Casting vote needed", cast)))
        self.takes(cases)

    def test_a_wrong_line_of_a_result_is_named_with_what_it_must_say(self):
        cases = []
        for vote, right, wrong in WRONG_LINES:
            tally, result = sheets_of(vote)
            number = result.split("\n").index(right) + 1
            text = says("result", number, wrong, "must say", right)
            cases.append((f"{vote}: {wrong}", tally, with_line(result, number, wrong), text))
        self.refuses(cases)

    def test_a_line_that_has_another_form_is_named_with_the_form_it_must_have(self):
        tally, result = sheets_of("whole_vote")
        cases = []
        for kind, number, line, form in MALFORMED:
            text = says(kind, number, line.replace("\r", "\\r"), "must have the form", form)
            if kind == "tally":
                cases.append((line, with_line(tally, number, line), result, text))
            else:
                cases.append((line, tally, with_line(result, number, line), text))
        self.refuses(cases)

    def test_a_change_of_a_tally_or_a_result_is_refused_by_the_line_that_it_makes_wrong(self):
        cases = []
        for vote, of_tally, of_result, text in OTHER_CHANGES:
            tally, result = sheets_of(vote)
            words = f"{vote}: {of_tally} {of_result}"
            cases.append((words, changed(tally, *of_tally), changed(result, *of_result), text))
        self.refuses(cases)

    def test_the_sheets_of_two_votes_are_refused(self):
        text = says("result", 1, "Result of resolution 2", "must say", "Result of resolution 1")
        self.refuses([("two votes", sheets_of("cycle")[0], sheets_of("level")[1], text)])

    def test_the_sheets_in_the_wrong_order_are_refused(self):
        tally, result = sheets_of("cycle")
        text = says("tally", 1, "Result of resolution 1", "must have the form", "Tally of resolution NUMBER")
        self.refuses([("the wrong order", result, tally, text)])

    def test_what_is_not_two_files_that_can_be_read_is_status_2(self):
        tally = VOTES / "cycle.tally"
        for words in [tally], [tally, VOTES], [VOTES / "no_such.tally", tally]:
            with self.subTest(words=words):
                self.assertEqual(run("recount", *words)[:2], (2, ""))

    def test_a_closed_standard_output_is_status_2(self):
        tally = VOTES / "cycle.tally"
        line = ["sh", "-c", 'exec "$@" >&-', "sh", TOP / "examples" / "recount", tally, tally.with_suffix(".result")]
        self.assertEqual(subprocess.run(line, check=False).returncode, 2)

    def test_both_forms_of_a_result_say_what_is_taken_on_trust(self):
        for vote, trusted in TRUSTED.items():
            with self.subTest(vote=vote):
                said = run("recount", VOTES / f"{vote}.tally", VOTES / f"{vote}.result")
                self.assertEqual(said[:2], (0, f"{TRUST.format(trusted)}{FOLLOWS}\n"))

    def test_the_two_forms_of_a_result_differ_in_one_line(self):
        (tally, now), (earlier_tally, earlier) = map(sheets_of, TRUSTED)
        self.assertEqual(earlier, changed(now, "Received: 4\n", ""))
        self.assertEqual(earlier_tally, tally)


class Receipts(Case):
    """What check_receipt says of words, with the token as a word and from standard input. A tally whose lines end in CR
    LF, as by mail, has the same ballots."""

    tally, result = VOTES / "whole_vote.tally", VOTES / "whole_vote.result"

    @classmethod
    def setUpClass(cls):
        cls.by_mail = cls.shared_folder() / "tally"
        cls.by_mail.write_bytes(cls.tally.read_bytes().replace(b"\n", b"\r\n"))

    def says(self, expected, *words, given=""):
        with self.subTest(words=words, given=given):
            self.assertEqual(run("check_receipt", *words, given=given), expected)

    def test_a_ballot_is_found_by_the_token_of_its_vote(self):
        for login, token in ("d1", "tokenA01"), ("d2", "tokenA02"), ("d3", "tokenA04"):
            found = 0, f"V: 113 {receipt(1, login, token)}\n", ""
            for file in self.tally, self.by_mail:
                self.says(found, file, "1", login, token)
                for given in f"{token}\n", token, f"{token}\r\n", f"{token}\nmore\n":
                    self.says(found, file, "1", login, given=given)

    def test_a_token_that_no_ballot_has_is_said_to_have_none_and_why(self):
        last = "if {} has voted on resolution 1, the token of the last accepted vote is needed"
        is_receipt = "what stands where the token is needed is a receipt of the tally"
        for words, files, why in [
            (("1", "d3", "tokenA03"), (self.tally, self.by_mail), last.format("d3")),
            (("1", "d9", "tokenA01"), (self.tally, self.by_mail), last.format("d9")),
            (("2", "d1", "tokenA01"), (self.tally, self.by_mail), "{} is the tally of resolution 1, and not of 2"),
            (("1", "d1", RECEIPT), (self.tally, self.by_mail), is_receipt),
            (("1", "d1", "tokenA01"), (self.result,), "{} is no tally: its first line is not 'Tally of resolution 1'"),
        ]:
            digits = sha256("".join(f"{word}\n" for word in words).encode()).hexdigest()
            for file in files:
                none = 1, f"no ballot has the receipt {digits}\n{why.format(file)}\n", ""
                self.says(none, file, *words)
                self.says(none, file, *words[:2], given=f"{words[2]}\n")

    def test_words_that_no_vote_can_have_are_refused_with_what_is_wrong(self):
        for number, login, token, why in SLIPS:
            refused = 2, "", f"examples/check_receipt: {why}\n"
            self.says(refused, self.tally, number, login, token)
            self.says(refused, self.tally, number, login, given=f"{token}\n")

    def test_too_few_words_and_too_many_are_the_usage(self):
        usage = "usage: examples/check_receipt TALLY RESOLUTION LOGIN [TOKEN]\n"
        for words in [], [self.tally, "1"], [self.tally, "1", "d1", "tokenA01", "more"]:
            self.says((2, "", usage), *words)

    def test_standard_input_without_a_token_is_refused(self):
        self.says((2, "", "examples/check_receipt: standard input has no token\n"), self.tally, "1", "d1")

    def test_a_hyphen_is_no_name_of_a_tally(self):
        refused = 2, "", "examples/check_receipt: TALLY is the name of a file, and not '-'\n"
        self.says(refused, "-", "1", "d1", given="tokenA01\n")

    def test_a_tally_that_is_missing_is_named(self):
        missing = str(VOTES / "no_such.tally")
        for words, given in ([missing, "1", "d1", "tokenA01"], ""), ([missing, "1", "d1"], "tokenA01\n"):
            with self.subTest(words=words):
                status, out, err = run("check_receipt", *words, given=given)
                self.assertEqual((status, out), (2, ""))
                self.assertIn(missing, err)


class LargeVote(Case):
    """A vote as large as one may be: what is printed is held against recount, and against the count that large_vote has
    for itself."""

    @classmethod
    def setUpClass(cls):
        cls.ballots, cls.one_more, cls.tally, cls.result = large_vote.lead(cls.shared_folder())
        cls.counted = large_vote.count(cls.ballots)

    def test_a_choice_too_many_is_refused(self):
        self.assertEqual(self.one_more, (409, "refused 8 Full\n"))

    def test_its_result_follows_from_its_tally(self):
        self.assertEqual(recount(self.tally, self.result), (0, f"{FOLLOWS}\n"))

    def test_its_ballots_keep_all_options_and_come_to_many_rounds(self):
        self.assertEqual((self.counted.kept, self.counted.rounds), ([*large_vote.PLACES], large_vote.ROUNDS))

    def test_its_tally_has_the_ballots_that_were_sent(self):
        sent = [(receipt(1, f"d{number}", f"token{number:04}"), ranks) for number, ranks in enumerate(self.ballots, 1)]
        lines = [line for line in self.tally.split("\n") if line.startswith("V: ")]
        self.assertEqual(lines, [f"V: {ranks} {digits}" for digits, ranks in sorted(sent)])

    def test_its_result_has_each_vote_as_received(self):
        self.assertEqual(self.result.split("\n")[4], f"Received: {large_vote.DEVELOPERS}")

    def test_its_result_keeps_the_options_that_the_count_keeps(self):
        tests = self.lines_with("Test ")
        kept = [place for place, test in enumerate(tests, 1) if test.endswith(", kept")]
        self.assertEqual([*kept, large_vote.DEFAULT], self.counted.kept)

    def test_its_result_has_the_rounds_of_the_count(self):
        self.assertEqual(len(self.lines_with("Round ")), self.counted.rounds)

    def test_its_result_has_the_outcome_set_of_the_count(self):
        self.assertEqual(self.lines_with("Schwartz: "), [f"Schwartz: {' '.join(map(str, self.counted.members))}"])

    def lines_with(self, beginning):
        return [line for line in self.result.split("\n") if line.startswith(beginning)]
