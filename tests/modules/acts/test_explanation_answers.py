"""Holds each sentence of tools/grdesk/acts/explanation.py and tools/grdesk/acts/refusal.py against the desk's own
answers. Desks are led by random acts, right ones and wrong ones, at random moments, and by hand (explained_leads.py).
Where a sentence says from when on an act is possible, it is refused so a second before, and not so then; and where it
says that the desk's clock alone does not make it possible, it is refused then, as is said. Where it names dates, days,
choices, places, sponsors or acts, each of these is taken, and those beside them are refused so (promises.py). The end
of a discussion and of a voting is right by a second, and so is the moment at which a choice lapses that has lost its
proposer or a sponsor. Each refusal is met."""
import random

from tests.support.case import Case
from tests.support.explained_leads import MEANINGS, OTHERS, lead_a_discussion, lead_at_random, lead_votes, led
from tests.support.program import build, compile_tools

SEED = 54
# How many developers each desk has that is led at random.
SIZES = [1, 4, 6, 17]


class Explanations(Case):
    @classmethod
    def setUpClass(cls):
        build()
        compile_tools()
        chance = random.Random(SEED)
        cls.at_random = {size: led(cls.shared_folder(), lead_at_random, chance, size) for size in SIZES}
        cls.discussion = led(cls.shared_folder(), lead_a_discussion)
        cls.votes = led(cls.shared_folder(), lead_votes)

    def all_held(self, lead):
        """Each sentence of a lead held, and there were some."""
        for what, failure in lead.failures:
            with self.subTest(what=what):
                self.fail(failure)
        self.assertTrue(lead.met and lead.desk.probes, "what was met, and by how many further answers")

    def test_each_sentence_holds_on_desks_that_are_led_at_random(self):
        for size, lead in self.at_random.items():
            with self.subTest(developers=size):
                self.all_held(lead)

    def test_each_sentence_holds_in_a_discussion_whose_end_moves(self):
        self.all_held(self.discussion)

    def test_each_sentence_holds_in_votes_that_are_level_or_won_and_on_a_desk_that_is_full(self):
        self.all_held(self.votes)

    def test_each_refusal_is_met_and_each_kind_of_choice_that_is_short_or_not(self):
        leads = [*self.at_random.values(), self.discussion, self.votes]
        met = {name for lead in leads for name in lead.met}
        # Only gr-desk voters is refused so, which test_act_explained has.
        self.assertEqual({*MEANINGS, *OTHERS} - {"NotRevealed"} - met, set(), "what was not met")
