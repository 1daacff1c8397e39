"""Which open acts a desk has that is to get further ones of its journal. One way to place them must be left by the rows
of the desk. If several are, nobody can tell, and nothing is entered; nor is anything if none is."""
import sys

from tests.support.case import Case
from tests.support.in_process import stopped
from tests.support.program import T0, TOP

sys.path.insert(0, str(TOP / "tools"))
from grdesk.error import Refused  # noqa: E402
from grdesk.journal.comparison import MOST_WAYS, Comparison, MadeDesk, taken_of  # noqa: E402
from grdesk.journal.entry import Entries, line_of  # noqa: E402

ROWS = {"desk": {(1,): {"accepted": 4, "clock": T0}}, "resolution": {}, "ballot2": {}}
UNSETTLED = "nothing was entered: the journal has no answer to 1, 2, and nobody can tell which the desk has"


class Compared(Comparison):
    """A comparison in which each way makes a desk with these differences, in their order."""

    differences = ()

    def made_desks(self):
        return [MadeDesk(taken, "made", lines) for taken, lines in zip(self.ways(), self.differences)]


def sent(count):
    """A journal with so many acts that went to a port, and of which no answer is kept."""
    entries = Entries()
    for number in range(1, count + 1):
        fields = {"login": f"d{number}", "name": "One", "status": "current"}
        what = {"number": str(number), "desk": None, "path": "/developers", "fields": fields, "source": None}
        entries.take(line_of("act", **what, moment=None, before=T0, count=None))
    return entries


class Ways(Case):
    def compared(self, *differences, count=2, first=3):
        """Two open acts, one of which may have the number 4, beside a desk that has four acts."""
        compared = Compared(sent(count), ROWS, "made", first, [4])
        compared.differences = differences
        return compared

    def taken(self, *differences, **more):
        taken = taken_of(self.compared(*differences, **more), "JOURNAL", "DESK", None)
        return {number: entry.number for number, entry in taken.items()}

    def refused(self, *differences, **more):
        return stopped(Refused, taken_of, self.compared(*differences, **more), "JOURNAL", "DESK", None)

    def test_the_one_way_whose_rows_are_those_of_the_desk_is_taken(self):
        self.assertEqual(self.taken([], ["developer login d1: name"]), {4: "1"})
        self.assertEqual(self.taken(["developer login d2: name"], []), {4: "2"})

    def test_of_several_ways_with_the_rows_of_the_desk_none_is_taken(self):
        self.assertIn(UNSETTLED, self.refused([], []))

    def test_if_no_way_has_the_rows_of_the_desk_the_differences_of_the_first_are_named(self):
        why = self.refused(["developer login d1: name"], ["developer login d2: name"])
        self.assertIn("nothing was entered: DESK is no copy of the desk of JOURNAL, since the first acts", why)
        self.assertIn("make other rows: developer login d1: name. Put a copy", why)

    def test_if_no_way_is_left_by_the_answers_nobody_can_tell(self):
        self.assertIn(UNSETTLED, self.refused())

    def test_more_ways_than_are_tried_are_not_tried_in_part(self):
        compared = Comparison(sent(MOST_WAYS + 1), ROWS, "made", 3, [4])
        self.assertEqual(len(compared.ways()), MOST_WAYS + 1)
        self.assertEqual(compared.made_desks(), [])

    def test_a_copy_with_more_acts_than_the_desk_is_refused(self):
        why = stopped(Refused, taken_of, self.compared([], first=5), "JOURNAL", "DESK", "COPY")
        self.assertEqual(why, "nothing was entered: COPY has more acts than DESK; give an earlier copy of it")
