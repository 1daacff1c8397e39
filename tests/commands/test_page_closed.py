"""What gr-desk page shows of a closed vote. The page has each number of the two sheets where it belongs, and no other:
the tests, the pairs, the defeats with their rounds, the outcome and the ballots. The pairs of options that were not
kept are counted here from the ballots. The page has no script, no address and no element but its own, its policy allows
nothing but its own style, and each summary stands by itself. No login and no token is in it. Where the machine has
Chromium, that renders the page, and no script has run."""
import re
import shutil
from decimal import Decimal
from functools import wraps
from math import ceil

from tests.commands.closed_votes import EXAMPLES, MARKED, desk_with_strange_summaries, of_desk, of_example
from tests.support.case import Case
from tests.support.html_pages import look_at_headings, look_at_safety
from tests.support.program import Ran, runs, tool
from tests.support.served_sheets import served

STRANGE = "strange summaries"
MORE = "; gr-desk page --help says more"
NO_RESOLUTION = "there is no resolution with this number; they are numbered from 1 on, as they were proposed"
NO_SUCH_OPTION = "the result names an option that it does not have, so what answers is no desk"
# What is changed in the result of examples/votes/cycle, and what is reported of it.
CHANGES = [
    (b"Ballots: 9", b"Ballots: 8", "the tally and the result are not those of one vote"),
    (b"Received: 9", b"Received: 8", "the result says that 8 votes were received, and has 9 ballots"),
    (b"Option 2: Green", b"Option 2: Grey", "the tally and the result are not those of one vote"),
    (b"drop 3>1 5:4", b"drop 3>1 6:4", "round 1 of the result has another count of 3 and 1 than their pair"),
    (b"Winner: ", b"Winner: 7", NO_SUCH_OPTION),
    (b"Pair 1 2: 6 3", b"Pair 1 9: 6 3", NO_SUCH_OPTION),
    (
        b"Pair 1 2: 6 3",
        b"Pair 1 2: 5 3",
        "of the voters who prefer option 1 to option 2 the ballots of the tally have 6, and its result has 5",
    ),
    (
        b"Pair 1 2: 6 3",
        b"Pair 1 2: 6",
        "line 13 of the result of resolution 1 does not fit such a sheet, so what answers is no desk",
    ),
]


def of_each_vote(test):
    """A test that looks at the page of each vote, as a subtest."""

    @wraps(test)
    def over_votes(self):
        for name, vote in self.votes.items():
            with self.subTest(vote=name):
                test(self, vote)

    return over_votes


def numbers_in(by_id):
    return {key: int(text) for key, (text, _) in by_id.items()}


def texts_in(by_id):
    return {key: text for key, (text, _) in by_id.items()}


class ClosedVotes(Case):
    """Pages of the votes of examples/votes, and of one with strange summaries."""

    @classmethod
    def setUpClass(cls):
        cls.votes = {file.stem: of_example(file) for file in sorted(EXAMPLES.glob("*.tally"))}
        cls.file, cls.by_port = desk_with_strange_summaries(cls.shared_folder())
        cls.votes[STRANGE] = cls.strange = of_desk(cls.file)

    def test_there_are_votes_with_pairs_rounds_and_options_that_were_not_kept(self):
        self.assertGreater(len(self.votes), 1)
        for what in "pairs", "pairs_apart", "tests", "rounds", "defeats":
            with self.subTest(what=what):
                self.assertTrue(any(getattr(vote, what)() for vote in self.votes.values()))

    @of_each_vote
    def test_a_closed_vote_has_a_page(self, vote):
        self.assertEqual((vote.ran.status, vote.ran.err), (0, b""))

    @of_each_vote
    def test_each_pair_of_kept_options_has_its_counts(self, vote):
        self.assertEqual(numbers_in(vote.seen.by_id(r"pair-(\d+)-(\d+)")), vote.pairs())

    @of_each_vote
    def test_each_pair_with_an_option_that_was_not_kept_has_the_counts_of_the_ballots(self, vote):
        self.assertEqual(numbers_in(vote.seen.by_id(r"apart-(\d+)-(\d+)")), vote.pairs_apart())

    @of_each_vote
    def test_each_option_has_its_summary_and_its_test(self, vote):
        tests = vote.tests()
        rows = {(int(place),): f"{place}{summary}{tests.get(place, 'the default option')}"
                for place, summary in vote.options.items()}
        self.assertEqual(texts_in(vote.seen.by_id(r"option-(\d+)")), rows)

    @of_each_vote
    def test_each_defeat_that_a_round_dropped_has_its_row(self, vote):
        rows = {(number, a, b): f"{number}{a} {vote.options[str(a)]}{b} {vote.options[str(b)]}{count}{other}"
                for (number, a, b), (count, other) in vote.rounds().items()}
        self.assertEqual(texts_in(vote.seen.by_id(r"round-(\d+)-(\d+)-(\d+)")), rows)

    @of_each_vote
    def test_each_defeat_has_an_arrow_with_its_counts_dashed_if_a_round_dropped_it(self, vote):
        pairs, dropped = vote.pairs(), {}
        for pair, (text, attributes) in vote.seen.by_id(r"defeat-(\d+)-(\d+)").items():
            found = re.search(r", (\d+):(\d+)(?:; dropped in round (\d+))?$", text)
            self.assertEqual((int(found[1]), int(found[2])), (pairs[pair], pairs[pair[::-1]]), pair)
            dropped[pair] = int(found[3]) if found[3] else None
            self.assertEqual("gone" in attributes["class"].split(), dropped[pair] is not None, pair)
        self.assertEqual(dropped, vote.defeats())

    @of_each_vote
    def test_the_members_of_the_outcome_are_named_and_have_rings(self, vote):
        self.assertEqual(vote.seen.texts(id="outcome"), [", ".join(vote.named(vote.outcome))])
        nodes = vote.seen.by_id(r"node-(\d+)").items()
        rings = {place for (place,), (_, attributes) in nodes if "in" in attributes["class"].split()}
        self.assertEqual(rings, {int(place) for place in vote.outcome} if vote.pairs() else set())

    @of_each_vote
    def test_the_last_line_of_the_result_stands_as_a_sentence(self, vote):
        last = vote.result.split("\n")[-2]
        if last == "Casting vote needed":
            *others, final = vote.named(vote.outcome)
            sentence = f"There is no winner yet. The casting vote chooses among {', '.join(others)} and {final}"
        else:
            [winner] = vote.named([last.split()[1]])
            sentence = f"The winner is {winner}" + (", by the casting vote" if last.endswith("vote") else "")
        self.assertEqual(vote.seen.texts(id="last"), [sentence])

    @of_each_vote
    def test_each_ballot_stands_with_its_receipt(self, vote):
        self.assertEqual(vote.seen.texts(class_="ballot"), vote.ballots)

    @of_each_vote
    def test_the_numbers_of_ballots_votes_and_developers_are_those_of_the_sheets(self, vote):
        self.assertEqual(vote.seen.texts(id="ballots"), [str(len(vote.ballots))])
        received = re.findall(r"^Received: (\d+)$", vote.result, re.M)
        self.assertEqual(vote.seen.texts(id="received"), received)
        self.assertEqual(vote.seen.texts(id="developers"), [vote.value("Developers")])

    @of_each_vote
    def test_the_quorum_is_that_of_the_developers(self, vote):
        q = Decimal(vote.value("Developers")).sqrt() / 2
        self.assertEqual(vote.seen.texts(id="q"), [f"{q:.2f}"])
        self.assertEqual(vote.seen.texts(id="three-q"), [f"{3 * q:.2f}"])
        self.assertIn(f", which {ceil(3 * q)} votes meet (", vote.text)

    @of_each_vote
    def test_nothing_on_the_page_runs_loads_or_sends_anything(self, vote):
        look_at_safety(vote.text, vote.seen)

    @of_each_vote
    def test_headings_captions_and_scopes_are_those_for_who_does_not_see_the_page(self, vote):
        look_at_headings(vote.seen)

    def test_a_page_by_a_port_is_that_of_the_file_without_when_the_ballot_was_changed(self):
        of_file = self.strange.ran
        changed = re.search(b"<p>The ballot was changed last [^<]*</p>\n", of_file.out)[0]
        self.assertEqual(self.by_port, of_file._replace(out=of_file.out.replace(changed, b"")))

    def test_each_strange_summary_stands_by_itself(self):
        for summary in MARKED:
            with self.subTest(summary=summary):
                self.assertIn(f"<td>{summary}</td>", self.strange.text)

    def test_no_login_no_token_no_script_and_no_mark_of_direction_is_on_the_page(self):
        for each in "\u202e", "\u200f", "zebra", "secret", "Name of", "<script":
            with self.subTest(each=each):
                self.assertNotIn(each, self.strange.text)

    def test_in_the_drawing_each_summary_is_isolated_and_has_no_such_character_itself(self):
        self.assertEqual(self.strange.text.count("\u2068"), self.strange.text.count("\u2069"))
        isolated = re.findall("\u2068(.*?)\u2069", self.strange.text)
        self.assertTrue(isolated)
        self.assertEqual([each for each in isolated if "\u2068" in each or "<" in each], [])

    def test_a_browser_renders_the_page_and_runs_no_script(self):
        browser = next(filter(None, map(shutil.which, ("chromium", "chromium-browser", "google-chrome"))), None)
        if not browser:
            self.skipTest("Chromium is not installed")
        work = self.folder()
        place, picture = work / "page.html", work / "page.png"
        place.write_text(self.strange.text)
        line = [browser, "--headless", "--no-sandbox", "--disable-gpu", f"--user-data-dir={work}/profile"]
        outputs = []
        for words in ["--dump-dom"], [f"--screenshot={picture}", "--window-size=1100,2000"]:
            ran = runs([*line, *words, place.as_uri()])
            self.assertEqual(ran.status, 0, words)
            outputs.append(ran.out.decode())
        title = re.search("<title>(.*?)</title>", outputs[0])[1]
        self.assertTrue(title.startswith("Resolution 1: &lt;/title"), title)
        self.assertNotIn("<script", outputs[0])
        self.assertEqual(picture.read_bytes()[:8], b"\x89PNG\r\n\x1a\n")
        self.assertGreaterEqual(picture.stat().st_size, 20_000, "there is little on the picture")

    def test_wrong_words_and_a_resolution_or_desk_that_is_not_there_are_reported(self):
        none = self.folder() / "none.db"
        for words, status, text in (
            ([], 2, f"the number of a resolution is missing{MORE}"),
            (["a", "1", "2"], 2, f"there is a word too many: '2'{MORE}"),
            (["--frob", "1"], 2, f"there is no option '--frob'{MORE}"),
            ([self.file, "0"], 2, "R is the number of a resolution, and not '0'"),
            ([self.file, "x"], 2, "R is the number of a resolution, and not 'x'"),
            ([self.file, "2"], 1, f"refused 9 NoResolution: {NO_RESOLUTION}"),
            ([none, "1"], 3, f"{none} is not there"),
        ):
            with self.subTest(words=words):
                self.assertEqual(tool("page", *words), Ran(status, b"", f"gr-desk page: {text}\n".encode()))


class OtherSheets(Case):
    def test_sheets_that_are_not_those_of_one_vote_are_reported(self):
        tally, result = ((EXAMPLES / f"cycle.{kind}").read_bytes() for kind in ("tally", "result"))
        for old, new, why in CHANGES:
            with self.subTest(old=old, new=new):
                self.assertIn(old, result)
                with served(tally, result.replace(old, new, 1)) as port:
                    ran = tool("page", "--port", port, 1)
                self.assertEqual(ran, Ran(3, b"", f"gr-desk page: {why}\n".encode()))

    def test_its_help_has_its_words(self):
        ran = tool("page", "--help")
        self.assertEqual((ran.status, ran.err), (0, b""))
        self.assertIn(b" DESK R > page.html\n", ran.out)
