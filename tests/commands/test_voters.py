"""What gr-desk voters prints: nothing before the close, and after it who has a ballot, by login, and no more. It warns
where few voted, and where all ballots are alike."""
from tests.support.called import ENDED, Called
from tests.support.case import Case
from tests.support.program import Ran, serve, tool

REFUSED = "refused 24 NotRevealed: nothing of the ballots is shown before the vote is closed (Constitution, 4.2.3)"
FEW = "warning: only {} voted, so that the tally nearly tells who voted how"
ALIKE = "warning: all ballots are alike, so that this list tells who voted how"
MORE = "; gr-desk voters --help says more"


def lines_of(*texts):
    """The lines of the tool on error output."""
    return "".join(f"gr-desk voters: {text}\n" for text in texts).encode()


def listed(*logins):
    lines = ["Voters on resolution 1", f"Developers: 12 current at the call, {len(logins)} voted"]
    lines += [f"{login} The Name of {login[1:]}" for login in logins]
    return "".join(f"{line}\n" for line in lines).encode()


# The ballots of each vote in their order, and what is printed of it after the close.
VOTES = {
    "five voters": (
        [("d9", "123"), ("d10", "321"), ("d2", "1--"), ("d9", "213"), ("d1", "--1"), ("d12", "123")],
        Ran(0, listed("d1", "d10", "d12", "d2", "d9"), b""),
    ),
    "four voters": (
        [("d4", "123"), ("d2", "213"), ("d3", "12-"), ("d1", "321")],
        Ran(0, listed("d1", "d2", "d3", "d4"), lines_of(FEW.format("4 developers"))),
    ),
    "two voters": (
        [("d3", "123"), ("d2", "213")],
        Ran(0, listed("d2", "d3"), lines_of(FEW.format("2 developers"))),
    ),
    "one voter": ([("d3", "123")], Ran(0, listed("d3"), lines_of(FEW.format("1 developer"), ALIKE))),
    "ballots that are alike": (
        [(f"d{number}", "12-") for number in range(1, 6)],
        Ran(0, listed("d1", "d2", "d3", "d4", "d5"), lines_of(ALIKE)),
    ),
    "ballots of one order in other ranks": (
        [("d1", "12-"), ("d2", "249"), ("d3", "1z-"), ("d4", "12z"), ("d5", "359")],
        Ran(0, listed("d1", "d2", "d3", "d4", "d5"), lines_of(ALIKE)),
    ),
    "nobody": ([], Ran(0, listed(), b"")),
}


class Voters(Case):
    """Desks with these votes, which are closed."""

    @classmethod
    def setUpClass(cls):
        cls.files, cls.before = {}, {}
        for name, (ballots, _) in VOTES.items():
            desk = Called.made(cls.shared_folder(), 12)
            for number, (login, ranks) in enumerate(ballots, start=1):
                desk.vote(number, login, ranks, f"tokenOf{login}")
            cls.before[name] = tool("voters", desk.file, 1)
            desk.enter(ENDED, ("/resolutions/1/close", "", ""))
            cls.files[name] = desk.file

    def test_before_the_close_nothing_is_listed_whatever_the_ballots(self):
        for name in VOTES:
            with self.subTest(name=name):
                self.assertEqual(self.before[name], Ran(1, b"", lines_of(REFUSED)))

    def test_after_the_close_voters_are_listed_by_login_with_a_warning_where_that_reveals_ballots(self):
        for name, (_, expected) in VOTES.items():
            with self.subTest(name=name):
                self.assertEqual(tool("voters", self.files[name], 1), expected)

    def test_the_list_is_the_same_while_a_program_holds_the_desk(self):
        file = self.files["five voters"]
        with serve(file, 1, "--at", ENDED):
            self.assertEqual(tool("voters", file, 1), VOTES["five voters"][1])

    def test_wrong_words_a_resolution_that_is_not_closed_and_a_desk_that_is_not_there_are_reported(self):
        file, gone = self.files["five voters"], self.folder() / "gone.db"
        for words, status, text in (
            ([], 2, f"the following arguments are required: DESK, R{MORE}"),
            ([file, "x"], 2, "R is the number of a resolution, and not 'x'"),
            ([file, 2], 1, REFUSED),
            ([gone, 1], 3, f"{gone} is not there"),
        ):
            with self.subTest(words=words):
                self.assertEqual(tool("voters", *words), Ran(status, b"", lines_of(text)))
