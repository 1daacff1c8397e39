"""Looks at what tools print of an answer besides the desk's line, of a file and over a port. By a port the sheets are
asked for with --explain alone, by two further connections at most. What docs/examples.md shows comes so."""
import re

from tests.support.case import Case
from tests.support.explained_leads import CALLED, ENDED, MEANINGS, call, close, discuss, vote
from tests.support.program import DAY, TOP, Ran, build, compile_tools, copy_desk, make_desk, serve, tool
from tests.support.promises import Desk


def said(*sentences):
    return "".join(f"gr-desk act: {sentence}\n" for sentence in sentences).encode()


class ExplainedRuns(Case):
    """Desks with two resolutions: under discussion, in voting, and closed."""

    @classmethod
    def setUpClass(cls):
        build()
        compile_tools()
        work = cls.shared_folder()
        desk = Desk(work)
        discuss(desk)
        cls.discussed = copy_desk(desk.file, work / "discussed.db")
        call(desk)
        cls.called = copy_desk(desk.file, work / "called.db")
        vote(desk)
        close(desk)
        cls.closed = copy_desk(desk.file, work / "closed.db")

    def copy_of(self, file):
        return copy_desk(file, self.folder() / "desk.db")

    def ballot(self, text):
        """A file with the two lines of a vote, open."""
        path = self.folder() / "ballot"
        path.write_text(text)
        return self.enter(open(path, "rb"))

    def by_port(self, file, at, words, count, expected, detail, ballot=None):
        """Without --explain an act prints what is expected, by one connection. With it a detail stands there besides,
        by so many connections."""
        with_detail = expected._replace(err=expected.err + said(detail))
        for option, connections, message in ([], 1, expected), (["--explain"], count, with_detail):
            with self.subTest(option=option), serve(self.copy_of(file), connections, "--at", at) as desk:
                streams = {"stdin": self.ballot(ballot)} if ballot else {}
                ran = tool("act", "--port", desk.port, *option, *words, **streams)
                self.assertEqual(ran, message)
                self.assertEqual(desk.ended(), Ran(0, b"", b""), "serve, after its last connection")

    def test_a_refused_casting_vote_is_explained_by_a_port_with_one_further_connection(self):
        expected = Ran(1, b"refused 22 NotTied\n", said(f"NotTied: {MEANINGS['NotTied']}"))
        detail = "in resolution 1 these places are level: 1, 2"
        self.by_port(self.closed, ENDED, ["cast", 1, "place=3"], 2, expected, detail)

    def test_a_refused_vote_is_explained_by_a_port_with_two_further_connections(self):
        expected = Ran(1, b"refused 21 BadRanks\n", said(f"BadRanks: {MEANINGS['BadRanks']}"))
        detail = "the ballot of resolution 1 has 4 places, and the ranks have 2 characters"
        self.by_port(self.called, CALLED, ["vote", 1, "login=d1"], 3, expected, detail, "12\ntokenA01\n")

    def test_a_withdrawal_is_explained_by_a_port_with_two_further_connections(self):
        lapse = f"2026-01-17T00:00:00Z ({CALLED + DAY})"
        detail = f"choice 1 of resolution 1 is short now: it lapses {lapse}, unless it has a proposer (and enough "
        detail += "sponsors, if that is a developer) before then"
        self.by_port(self.discussed, CALLED, ["withdraw", 1, "choice=1"], 3, Ran(0, b"ok 10\n", b""), detail)

    def test_after_a_vote_stand_the_name_of_the_developer_and_the_summaries_and_a_rank_that_may_be_an_error(self):
        ranks = ["place 1, Red: no rank", "place 2, Red: rank 2", "place 3, Red: rank 10"]
        ranks.append("place 4, None of the above: rank 1")
        ranks.append("rank 10 is allowed, but there are only 4 places: is it a typing error? A later ballot replaces "
                     "this one")
        line = ["--desk", self.copy_of(self.called), "--at", CALLED, "--ahead", "vote", 1, "login=d4"]
        ran = tool("act", *line, stdin=self.ballot("-2a1\ntokenA01\n"))
        self.assertEqual((ran.status, ran.err), (0, said("the vote of d4, N", *ranks)))

    def test_voters_before_the_close_are_refused_with_what_that_means(self):
        message = f"gr-desk voters: refused 24 NotRevealed: {MEANINGS['NotRevealed']}\n"
        self.assertEqual(tool("voters", self.copy_of(self.called), 1), Ran(1, b"", message.encode()))

    def test_what_the_page_of_examples_shows_comes_so(self):
        file = self.folder() / "examples.db"
        make_desk(file)
        page = (TOP / "docs" / "examples.md").read_text()
        section = page.partition("\n## What answers mean\n")[2].partition("\n## ")[0]
        rows = re.findall(r"^\| ([0-9]+) \| `(.*)` \| `(.*)` \| `(.*)` \|$", section, re.M)
        self.assertTrue(rows, "rows of docs/examples.md")
        for at, words, line, sentence in rows:
            with self.subTest(at=at, words=words):
                ran = tool("act", "--desk", file, "--at", at, "--ahead", "--yes", *words.split())
                expected = f"{line}\n".encode(), said(sentence).splitlines()
                self.assertEqual((ran.out, ran.err.splitlines()[-1:]), expected)
