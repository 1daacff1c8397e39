"""What a journal has of an act that goes to a port: the act before it is sent, and after it the answer, or that it was
never sent. What listens there is made by hand."""
import json
from unittest import mock

from tests.support.case import Case
from tests.support.in_process import said, stopped
from grdesk.acts.act import Act
from grdesk.desk.address import Port
from grdesk.desk.request import NoResponse, Response
from grdesk.error import Failed
from grdesk.journal import delivery
from grdesk.journal.entry import Fate
from grdesk.journal.journal import journal_at

CLOSE = Act("/resolutions/1/close", {})
BEFORE = 1_768_435_200


class Sent(Case):
    def setUp(self):
        self.name = str(self.folder() / "journal")

    def sent(self, journal, answer):
        """Sends a close, which gets this answer, or meets this error."""
        with mock.patch.object(delivery, "exchange", side_effect=[answer]), said() as message:
            try:
                return delivery.send_kept(journal, Port(1), CLOSE, BEFORE)
            finally:
                self.lines_said = message.lines()

    def lines(self):
        with open(self.name, encoding="utf-8") as file:
            return [json.loads(line) for line in file]

    def test_the_answer_follows_the_act(self):
        with journal_at(self.name, is_made=True) as journal:
            answer, lacked_acts = self.sent(journal, Response(200, b"ok 7\n"))
            self.assertEqual((answer.body, lacked_acts), (b"ok 7\n", False))
            self.assertEqual(journal.entries.all["1"].fate, Fate.ACCEPTED)
        act, after = self.lines()
        self.assertEqual((act["line"], act["before"], act["moment"], act["desk"]), ("act", BEFORE, None, None))
        self.assertEqual((after["line"], after["text"]), ("answer", "ok 7\n"))
        self.assertGreaterEqual(after["after"], BEFORE)

    def test_the_act_is_in_the_journal_before_it_is_sent(self):
        found = []
        with journal_at(self.name, is_made=True) as journal, said():
            looks = mock.patch.object(delivery, "exchange", side_effect=lambda *_: found.extend(self.lines()))
            with looks, self.assertRaises(AttributeError):
                delivery.send_kept(journal, Port(1), CLOSE, BEFORE)
        self.assertEqual([line["line"] for line in found], ["act"])

    def test_an_act_that_nobody_took_is_not_open(self):
        with journal_at(self.name, is_made=True) as journal:
            refused = NoResponse("Connection refused", was_connected=False)
            message = stopped(Failed, self.sent, journal, refused)
            self.assertTrue(message.startswith("nothing was sent: port 1"), message)
            self.assertEqual((journal.entries.all["1"].fate, journal.entries.open), (Fate.NOT_ACCEPTED, []))
        self.assertEqual([(line["line"], line.get("count")) for line in self.lines()], [("act", None), ("found", None)])

    def test_an_act_whose_answer_is_lost_is_open(self):
        with journal_at(self.name, is_made=True) as journal:
            lost = NoResponse("the answer did not come whole", was_connected=True)
            self.assertTrue(stopped(Failed, self.sent, journal, lost).startswith("lost: "))
            self.assertEqual(journal.entries.all["1"].fate, Fate.OPEN)

    def test_a_count_that_was_given_before_says_that_the_desk_lacked_acts(self):
        with journal_at(self.name, is_made=True) as journal:
            self.sent(journal, Response(200, b"ok 7\n"))
            for count, is_behind in (8, False), (8, True), (3, True), (4, False):
                with self.subTest(count=count):
                    _, lacked_acts = self.sent(journal, Response(200, b"ok %d\n" % count))
                    self.assertEqual(lacked_acts, is_behind)
                    self.assertEqual(any("lacks acts" in line for line in self.lines_said), is_behind)

    def test_a_refusal_says_nothing_of_what_the_desk_has(self):
        with journal_at(self.name, is_made=True) as journal:
            self.sent(journal, Response(200, b"ok 7\n"))
            _, lacked_acts = self.sent(journal, Response(409, b"refused 11 WrongStage\n"))
            self.assertFalse(lacked_acts)
