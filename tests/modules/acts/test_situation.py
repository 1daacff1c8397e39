"""An act as it is explained, and the desk by which that is looked at: what an act names, which dates could still do,
and that each sheet is asked for once, and only its own."""
from tests.support.case import Case
from tests.support.hand_made import case, choice, status
from tests.support.program import T0
from grdesk.acts.act import Act
from grdesk.acts.situation import DeskView
from grdesk.desk.sheet import NotGiven


class Desk:
    """A desk whose sheets are their words, but for a tally, which it refuses. It keeps what it was asked for."""

    def __init__(self):
        self.asked = []

    def sheet(self, *words):
        self.asked.append(words)
        if words[0] == "tally":
            raise NotGiven("refused 24 NotRevealed")
        return " ".join(map(str, words))

    def rows(self):
        self.asked.append("rows")
        return {"desk": {(1,): {"accepted": 3, "clock": T0}}, "resolution": {}}


class Sheets(Case):
    def setUp(self):
        self.desk, self.opened = Desk(), 0
        self.seen = DeskView(self.open, {})

    def open(self):
        self.opened += 1
        return self.desk

    def test_a_desk_is_opened_once_something_is_asked_of_it_and_once_alone(self):
        self.assertEqual(self.opened, 0)
        self.seen.sheet(str, "status", 1)
        self.seen.sheet(str, "roll")
        self.assertEqual(self.opened, 1)

    def test_each_sheet_is_asked_for_once_and_is_that_of_its_own_resolution(self):
        found = [self.seen.sheet(str, "status", number) for number in (1, 2, 1, 2)]
        self.assertEqual(found, ["status 1", "status 2", "status 1", "status 2"])
        self.assertEqual(self.desk.asked, [("status", 1), ("status", 2)])

    def test_a_sheet_that_is_refused_is_none_and_is_not_asked_for_again(self):
        self.assertEqual([self.seen.sheet(str, "tally", 1) for _ in range(2)], [None, None])
        self.assertEqual(self.desk.asked, [("tally", 1)])

    def test_rows_are_read_once_for_all_tables_and_the_clock(self):
        self.assertEqual((self.seen.rows("resolution"), self.seen.clock()), ({}, T0))
        self.assertEqual(self.desk.asked, ["rows"])

    def test_a_status_a_roll_and_an_outcome_are_read_of_their_sheets(self):
        sheets = {
            ("status", 12): "Resolution 12\nStage: Cancelled\n",
            ("roll",): "Developers: 1\nCurrent: 1\nD: eve current Eve\n",
            ("result", 12): "Result of resolution 12\nSchwartz: 1 2\nCasting vote needed\n",
        }
        self.desk.sheet = lambda *words: sheets[words]
        self.assertEqual((self.seen.status(12).number, self.seen.status(12).stage), (12, "Cancelled"))
        self.assertEqual(self.seen.roll()["eve"].name, "Eve")
        self.assertEqual(self.seen.outcome(12), ([1, 2], True))

    def test_an_act_is_tried_by_its_request_at_its_moment(self):
        self.desk.tried = lambda request, at: (request.split(b"\r\n")[0], at)
        found = self.seen.tried(Act("/resolutions/1/close", {}), T0)
        self.assertEqual(found, (b"POST /resolutions/1/close HTTP/1.1", T0))

    def test_a_port_has_neither_rows_nor_a_clock(self):
        self.desk.rows = lambda: None
        self.assertIsNone(self.seen.rows("resolution"))
        self.assertIsNone(self.seen.clock())


class Acts(Case):
    def test_an_act_names_its_choice_by_its_number_and_its_developer_as_login_or_author(self):
        of = status(choices=[choice(1), choice(2), choice(3)], number=12)
        act = case("sponsor", {"choice": "2", "login": "bob"}, of=of, resolution=12)
        self.assertEqual((act.choice().number, act.login()), (2, "bob"))
        self.assertEqual((act.named(), act.named_choice()), ("resolution 12", "choice 2 of resolution 12"))
        self.assertEqual(case("adopt", {"choice": "2", "author": "@leader"}).login(), "@leader")

    def test_the_act_itself_is_that_of_its_resolution_with_its_fields(self):
        act = case("sponsor", {"choice": "2", "login": "b&b"}, resolution=12).act()
        self.assertEqual((act.path, act.body()), ("/resolutions/12/sponsor", b"choice=2&login=b%26b"))

    def test_the_same_act_at_another_moment_is_another_case(self):
        act = case("close", at=T0)
        self.assertEqual((act.at_moment(T0 + 1).at, act.at), (T0 + 1, T0))


class EarlierDates(Case):
    """What is said if only a date before an end could do, by the desk's clock."""

    END = T0 + 60

    def sentences(self, clock):
        rows = None if clock is None else {"desk": {(1,): {"clock": clock}}}
        return case("vary", of=status(), rows=rows).earlier(self.END)

    def test_from_the_clock_to_the_last_second_before_the_end(self):
        self.assertEqual(self.sentences(T0), "only a date from 2026-01-01T00:00:00Z (1767225600) to "
                                        "2026-01-01T00:00:59Z (1767225659) would do")
        self.assertEqual(self.sentences(self.END - 1), "only a date from 2026-01-01T00:00:59Z (1767225659) to "
                                                  "2026-01-01T00:00:59Z (1767225659) would do")

    def test_none_any_more_from_the_end_on(self):
        message = "no date would do any more: the desk's clock is at 2026-01-01T00:01:0{}Z ({})"
        for clock, digit in (self.END, 0), (self.END + 1, 1):
            with self.subTest(clock=clock):
                self.assertEqual(self.sentences(clock), message.format(digit, clock))

    def test_any_before_the_end_if_the_clock_is_not_known(self):
        self.assertEqual(self.sentences(None), "only a date before 2026-01-01T00:01:00Z (1767225660) would do")
