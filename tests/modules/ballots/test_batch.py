"""What becomes of ballots that came, judged in process: which are sent, at which moments, and which are left to the
Secretary, as docs/formats.md ("Ballots in mails") says it."""
from unittest import TestCase

from tests.modules.ballots.judged import (
    CALLED,
    ENDED,
    HOUR,
    By,
    CameMail,
    Journaled,
    Standing,
    arrived,
    cases_of,
    ends_in,
    judged,
    mail_came,
    text_came,
)
from grdesk.ballots.mail import Mail

IN_ADVANCE = 5 * HOUR


def stands(test, arrivals, expected, journal=None, **more):
    """Each arrival stands as expected, in their order."""
    names = [each.mail.name for each in arrivals]
    batch = judged(arrivals, journal, **more)
    found = cases_of(batch)
    test.assertEqual([(name, found[name]) for name in names], list(zip(names, expected)))
    return batch


def file_came(ranks, hours, **more):
    """A mail of d1 that has the time of its file."""
    mail = CameMail(f"came/{ranks}-{hours}", f"{ranks} {hours}", f"<{ranks}@example.net>", **more)
    return arrived("d1", ranks, hours, None, mail, By.FILE)


def why_of(batch, arrival):
    return next(each.why for each in batch.ballots if each.arrival is arrival)


class TimeOfVotes(TestCase):
    def test_a_ballot_at_the_end_is_late_and_the_one_a_second_before_it_is_sent(self):
        hours = (ENDED - CALLED) / HOUR
        before, at = text_came("d1", "123", hours - 1 / HOUR, name="d1"), text_came("d1", "321", hours, name="d1b")
        batch = stands(self, [before, at], [Standing.TO_SEND, Standing.REFUSED])
        self.assertIn("it is late, since votes were taken until 2026-01-22T00:00:00Z", why_of(batch, at))

    def test_a_ballot_at_the_clock_of_the_machine_is_sent_and_one_a_second_later_is_not(self):
        at, later = mail_came("d1", "123", 5), mail_came("d2", "123", 5 + 1 / HOUR)
        stands(self, [at, later], [Standing.TO_SEND, Standing.AHEAD], now=CALLED + IN_ADVANCE)

    def test_a_ballot_in_time_is_not_sent_from_the_second_on_at_which_the_clock_of_the_desk_is_at_the_end(self):
        came = mail_came("d1", "123", 5)
        stands(self, [came], [Standing.TO_SEND], clock=ENDED - 1)
        stands(self, [came], [Standing.LATE], clock=ENDED)


class Moments(TestCase):
    """At which moments the ballots of a run are entered."""

    def moments(self, hours, **more):
        batch = judged([mail_came(f"d{number}", "123", hour) for number, hour in enumerate(hours, start=1)], **more)
        return [(moment - CALLED) / HOUR for moment in batch.moments(batch.to_send())]

    def test_all_that_came_in_time_get_the_moment_of_the_last_one(self):
        self.assertEqual(self.moments([1, 2, 2, 7]), [7, 7, 7, 7])

    def test_what_came_after_the_end_of_another_vote_that_is_open_waits(self):
        ends = [CALLED + 2 * HOUR, CALLED + 6 * HOUR, ENDED]
        self.assertEqual(self.moments([1, 1.5, 3, 5, 7, 8], ends=ends), [1.5, 1.5])
        arrivals = [mail_came("d1", "123", 1), mail_came("d2", "123", 3), mail_came("d3", "123", 7)]
        batch = stands(self, arrivals, [Standing.TO_SEND, Standing.BEHIND, Standing.BEHIND], ends=ends)
        self.assertFalse(batch.is_done())
        self.assertEqual(batch.ends_before(arrivals[1].moment), ends[:1])
        self.assertEqual(batch.ends_before(arrivals[2].moment), ends[:2])

    def test_one_that_came_at_the_end_of_another_vote_is_past_it(self):
        last = 2 - 1 / HOUR
        self.assertEqual(self.moments([1, last, 2], ends=[CALLED + 2 * HOUR, ENDED]), [last, last])

    def test_nothing_waits_for_a_vote_whose_end_the_clock_of_the_desk_has_passed(self):
        for clock in CALLED + 2 * HOUR, CALLED + 3 * HOUR:
            self.assertEqual(self.moments([1, 5], ends=[CALLED + 2 * HOUR, ENDED], clock=clock), [5, 5])

    def test_an_earlier_ballot_of_a_voter_is_replaced_by_one_that_waits(self):
        arrivals = [mail_came("d1", "123", 1), mail_came("d1", "321", 3)]
        stands(self, arrivals, [Standing.REPLACED, Standing.BEHIND], ends=[CALLED + 2 * HOUR, ENDED])

    def test_the_votes_that_are_open_end_after_the_days_of_their_calls(self):
        stages = {1: (2, 1_000, 7), 2: (1, 0, 0), 3: (2, 500, 7), 4: (3, 10, 7), 5: (2, 2_000, 21)}
        rows = {(number,): {"stage": stage, "called": called, "days": days}
                for number, (stage, called, days) in stages.items()}
        self.assertEqual(ends_in({"resolution": rows}), [605_300, 605_800, 1_816_400])

    def test_what_came_before_the_clock_of_the_desk_is_entered_at_that_clock(self):
        self.assertEqual(self.moments([1, 2], clock=CALLED + 4 * HOUR), [4, 4])
        self.assertEqual(self.moments([1, 5], clock=CALLED + 4 * HOUR), [5, 5])

    def test_a_batch_of_nothing_has_no_moment_and_leaves_the_clock(self):
        batch = judged([])
        self.assertEqual((batch.moments([]), batch.clock_behind()), ([], CALLED))

    def test_the_clock_behind_a_run_is_the_moment_of_its_last_ballot(self):
        batch = judged([mail_came("d1", "123", 2), mail_came("d2", "123", 3)])
        self.assertEqual(batch.clock_behind(), CALLED + 3 * HOUR)


class PassingRefusals(TestCase):
    """A vote of the journal that was refused."""

    FINAL = "BadToken", "BadRanks", "WrongStage"
    PASSING = ("ClockBack", "Full", "NoDeveloper", "NotCurrent", "BadMoment", "BadLogin", "NoResolution", "Ended")

    def refused(self, name, came, **more):
        journal = Journaled()
        journal.vote(came, "tokenA01", f"refused 7 {name}\n", status=409)
        return judged([came], journal, **more)

    def test_a_passing_one_is_sent_again_with_its_token_also_if_an_earlier_program_took_it_for_final(self):
        for name in self.PASSING:
            with self.subTest(name=name):
                [ballot] = self.refused(name, mail_came("d1", "123", 5)).ballots
                self.assertEqual((ballot.standing, ballot.token), (Standing.TO_SEND, "tokenA01"))

    def test_a_final_one_is_not_sent_again(self):
        for name in self.FINAL:
            with self.subTest(name=name):
                [ballot] = self.refused(name, mail_came("d1", "123", 5)).ballots
                self.assertEqual((ballot.standing, ballot.why), (Standing.REFUSED, f"refused 7 {name}\n"))

    def test_that_the_time_was_over_is_final_for_what_came_at_the_end_alone(self):
        hours = (ENDED - CALLED) / HOUR
        for at, case in (hours - 1 / HOUR, Standing.TO_SEND), (hours, Standing.REFUSED):
            with self.subTest(at=at):
                [ballot] = self.refused("Ended", mail_came("d1", "123", at)).ballots
                self.assertEqual(ballot.standing, case)

    def test_what_is_no_refusal_of_a_desk_is_passing(self):
        journal, came = Journaled(), mail_came("d1", "123", 5)
        journal.vote(came, "tokenA01", "bad field ranks\n", status=400)
        stands(self, [came], [Standing.TO_SEND], journal)

    def test_a_ballot_of_a_retired_developer_is_neither_sent_nor_answered_nor_refused(self):
        came, unread = mail_came("d9", "123", 5), mail_came("d9", None, 6)
        stands(self, [came, unread], [Standing.RETIRED, Standing.RETIRED])

    def test_one_that_was_entered_before_its_developer_retired_stays_entered(self):
        journal, came = Journaled(), mail_came("d9", "123", 5)
        journal.vote(came, "tokenA01")
        stands(self, [came], [Standing.COUNTED], journal)


class SentAgain(TestCase):
    """An old ballot that came once more. A said 123 and B 321, and B is the last one."""

    def setUp(self):
        self.first = mail_came("d1", "123", 1, "tokenA01")
        self.last = mail_came("d1", "321", 2, "tokenB02")
        self.journal = Journaled()

    def both_entered(self):
        self.journal.vote(self.first, "tokenA01")
        self.journal.vote(self.last, "tokenB02")

    def again(self, ranks, token, case, others=(), **more):
        again = mail_came("d1", ranks, 3, token, **more)
        batch = judged([*others, again], self.journal)
        self.assertEqual(next(each.standing for each in batch.ballots if each.arrival is again), case)
        return batch, again

    def test_the_ranks_of_an_earlier_one_without_a_token_are_undecided(self):
        self.both_entered()
        batch, again = self.again("123", None, Standing.UNDECIDED)
        self.assertIn("the ranks of the ballot that arrived 2026-01-15T01:00:00Z", why_of(batch, again))

    def test_the_token_of_an_earlier_one_is_undecided_whatever_the_ranks(self):
        self.both_entered()
        for ranks in "123", "213", "321":
            with self.subTest(ranks=ranks):
                batch, again = self.again(ranks, "tokenA01", Standing.UNDECIDED)
                self.assertIn("the token of the ballot that arrived 2026-01-15T01:00:00Z", why_of(batch, again))

    def test_a_fresh_token_makes_a_new_ballot_also_with_the_ranks_of_an_earlier_one(self):
        self.both_entered()
        self.again("123", "tokenC03", Standing.TO_SEND)

    def test_what_says_the_same_as_the_last_one_is_answered_and_is_no_new_ballot(self):
        self.both_entered()
        self.again("321", None, Standing.COUNTED)
        self.again("321", "tokenB02", Standing.COUNTED)

    def test_the_token_of_the_last_one_with_other_ranks_is_a_new_ballot(self):
        self.both_entered()
        self.again("213", "tokenB02", Standing.TO_SEND)

    def test_in_one_run_the_last_one_is_sent_and_what_was_sent_again_is_not(self):
        for token in None, "tokenA01":
            with self.subTest(token=token):
                batch, _ = self.again("123", token, Standing.UNDECIDED, others=[self.first, self.last])
                self.assertEqual([each.arrival for each in batch.to_send()], [self.last])

    def test_between_a_run_and_the_next_the_earlier_one_is_of_the_journal_and_the_last_one_of_the_run(self):
        self.journal.vote(self.first, "tokenA01")
        batch, _ = self.again("123", "tokenA01", Standing.UNDECIDED, others=[self.first, self.last])
        self.assertEqual([each.arrival for each in batch.to_send()], [self.last])

    def test_two_that_were_sent_again_are_both_undecided(self):
        self.both_entered()
        twice = [mail_came("d1", "123", hours, "tokenA01", number=hours) for hours in (3, 4)]
        stands(self, twice, [Standing.UNDECIDED] * 2, self.journal)

    def test_ballots_of_other_voters_do_not_matter(self):
        self.both_entered()
        stands(self, [mail_came("d2", "123", 3)], [Standing.TO_SEND], self.journal)

    def test_one_that_came_before_the_last_one_is_replaced_as_ever(self):
        self.both_entered()
        stands(self, [mail_came("d1", "123", 1.5)], [Standing.REPLACED], self.journal)

    def test_a_vote_that_was_refused_is_no_earlier_ballot(self):
        self.journal.vote(self.first, "tokenA01", "refused 22 BadRanks\n", status=409)
        self.journal.vote(self.last, "tokenB02")
        self.again("123", None, Standing.TO_SEND)


class ReplacedBeforeTheyWereSent(TestCase):
    """A said 123 and B 321, and both came in one run: B was sent, and of A the journal has that B replaced it."""

    def setUp(self):
        self.first = mail_came("d1", "123", 1, "tokenA01")
        self.last = mail_came("d1", "321", 2, "tokenB02")
        self.journal = Journaled()
        self.journal.replaced(self.first)

    def test_its_token_or_its_ranks_without_a_token_are_undecided_under_another_message_id(self):
        self.journal.vote(self.last, "tokenB02")
        for ranks, token, what in ("123", "tokenA01", "token"), ("213", "tokenA01", "token"), ("123", None, "ranks"):
            with self.subTest(ranks=ranks, token=token):
                again = mail_came("d1", ranks, 3, token, number=7)
                batch = stands(self, [again], [Standing.UNDECIDED], self.journal)
                message = f"the {what} of the ballot that arrived 2026-01-15T01:00:00Z, before the last one"
                self.assertIn(message, why_of(batch, again))

    def test_a_form_without_a_token_is_known_by_its_ranks(self):
        journal = Journaled()
        journal.replaced(mail_came("d1", "123", 1))
        journal.vote(self.last, "tokenB02")
        stands(self, [mail_came("d1", "123", 3, number=7)], [Standing.UNDECIDED], journal)
        stands(self, [mail_came("d1", "123", 3, "tokenC03")], [Standing.TO_SEND], journal)

    def test_the_mail_itself_stays_replaced_and_the_journal_has_it_once(self):
        self.journal.vote(self.last, "tokenB02")
        batch = stands(self, [self.first, self.last], [Standing.REPLACED, Standing.COUNTED], self.journal)
        self.assertEqual(batch.replaced_now(), [])

    def test_each_that_is_replaced_is_to_be_kept_and_none_that_is_sent_refused_or_undecided(self):
        came = [self.first, mail_came("d1", "213", 1.5), self.last, mail_came("d2", None, 3), mail_came("d3", "1--", 4)]
        twice = [mail_came("d4", ranks, 5) for ranks in ("1--", "2--")]
        batch = judged([*came, *twice])
        self.assertEqual([each.arrival for each in batch.replaced_now()], came[:2])

    def test_one_that_came_before_what_was_entered_is_to_be_kept_too(self):
        journal = Journaled()
        journal.vote(self.last, "tokenB02")
        batch = stands(self, [self.first], [Standing.REPLACED], journal)
        self.assertEqual([each.arrival for each in batch.replaced_now()], [self.first])

    def test_two_that_were_replaced_are_both_known(self):
        self.journal.replaced(mail_came("d1", "213", 1.5, "tokenC03"))
        self.journal.vote(self.last, "tokenB02")
        for ranks, token in ("123", "tokenA01"), ("213", "tokenC03"):
            with self.subTest(ranks=ranks):
                stands(self, [mail_came("d1", ranks, 3, token, number=7)], [Standing.UNDECIDED], self.journal)

    def test_after_a_run_that_was_cut_before_the_last_one_was_sent_that_is_sent_now(self):
        again = mail_came("d1", "123", 3, "tokenA01", number=7)
        stands(self, [self.first, self.last], [Standing.REPLACED, Standing.TO_SEND], self.journal)
        stands(self, [self.last, again], [Standing.TO_SEND, Standing.UNDECIDED], self.journal)

    def test_where_the_last_one_was_refused_its_text_and_the_mail_itself_are_sent(self):
        self.journal.vote(self.last, "tokenB02", "refused 22 BadRanks\n", status=409)
        again = mail_came("d1", "123", 3, "tokenA01", number=7)
        stands(self, [again], [Standing.TO_SEND], self.journal)
        stands(self, [self.first, self.last], [Standing.TO_SEND, Standing.REFUSED], self.journal)

    def test_where_a_vote_before_it_is_the_last_one_what_says_the_same_is_answered(self):
        self.journal.vote(mail_came("d1", "213", 0.5, "tokenC03"), "tokenC03")
        self.journal.vote(self.last, "tokenB02", "refused 22 BadRanks\n", status=409)
        stands(self, [mail_came("d1", "213", 3, "tokenC03", number=7)], [Standing.COUNTED], self.journal)

    def test_it_overtakes_nothing(self):
        stands(self, [mail_came("d1", "213", 0.5)], [Standing.TO_SEND], self.journal)

    def test_those_of_other_resolutions_and_voters_do_not_matter(self):
        journal = Journaled()
        journal.replaced(self.first, resolution=2)
        journal.replaced(mail_came("d2", "123", 1))
        journal.vote(self.last, "tokenB02")
        stands(self, [mail_came("d1", "123", 3, number=7)], [Standing.TO_SEND], journal)

    def test_a_file_with_another_time_has_that_of_the_journal(self):
        journal = Journaled()
        journal.replaced(file_came("123", 1))
        journal.vote(file_came("321", 2), "tokenB02")
        batch = stands(self, [file_came("123", 9)], [Standing.REPLACED], journal)
        self.assertEqual([(each.is_moved, each.moment) for each in batch.ballots], [(True, CALLED + HOUR)])

    def test_so_has_a_mail_that_the_host_got_again(self):
        self.journal.vote(self.last, "tokenB02")
        again = mail_came("d1", "123", 3, "tokenA01")
        again.mail = self.first.mail
        batch = stands(self, [again], [Standing.REPLACED], self.journal)
        self.assertEqual([each.moment for each in batch.ballots], [CALLED + HOUR])

    def test_a_time_that_the_host_gives_is_better_than_that_of_a_file_but_after_a_vote_it_is_undecided(self):
        for entered, case in (True, Standing.UNDECIDED), (False, Standing.TO_SEND):
            with self.subTest(entered=entered):
                journal = Journaled()
                journal.replaced(file_came("123", 1))
                if entered:
                    journal.vote(file_came("321", 2), "tokenB02")
                mail = CameMail("came/123", "123 1", "<123@example.net>")
                batch = stands(self, [arrived("d1", "123", 3, None, mail, By.HOST)], [case], journal)
                self.assertEqual([each.moment for each in batch.ballots], [CALLED + 3 * HOUR])

    def test_of_one_whose_time_tells_nothing_none_is_kept(self):
        journal, moved = Journaled(), file_came("123", 8)
        journal.vote(file_came("321", 2), "tokenB02")
        [known] = judged([moved]).ballots
        batch = stands(self, [moved, file_came("321", 7)], [Standing.REPLACED, Standing.COUNTED], journal,
                       reported={known.digest()})
        self.assertEqual(batch.replaced_now(), [])

    def test_another_text_of_its_message_id_is_undecided(self):
        journal = Journaled()
        journal.replaced(mail_came("d1", "123", 1, number=8))
        journal.vote(self.last, "tokenB02")
        other = mail_came("d1", "213", 3, number=8)
        batch = stands(self, [other], [Standing.UNDECIDED], journal)
        self.assertIn("the same Message-ID, and says something else", why_of(batch, other))

    def test_it_is_no_ballot_of_another_login(self):
        other = mail_came("d8", "123", 3, "tokenA01", number=7)
        batch = stands(self, [other], [Standing.WHOSE], self.journal)
        self.assertEqual(why_of(batch, other), "the same text with its token is also that of d1 (by the journal)")


class OtherTexts(TestCase):
    """Two texts of one Message-ID."""

    def test_none_of_two_is_sent_and_neither_is_refused(self):
        two = [mail_came("d1", ranks, hours, number=8) for ranks, hours in (("123", 1), ("321", 2))]
        batch = stands(self, two, [Standing.UNDECIDED] * 2)
        self.assertIn("the same Message-ID, and says something else", why_of(batch, two[0]))

    def test_none_is_sent_if_one_is_not_read(self):
        two = [mail_came("d1", "123", 1, number=8), mail_came("d1", None, 2, number=8)]
        stands(self, two, [Standing.UNDECIDED] * 2)

    def test_another_ballot_of_the_voter_is_sent_beside_them(self):
        two = [mail_came("d1", ranks, hours, number=8) for ranks, hours in (("123", 2), ("321", 3))]
        stands(self, [mail_came("d1", "213", 1), *two], [Standing.TO_SEND, Standing.UNDECIDED, Standing.UNDECIDED])

    def test_the_one_that_the_journal_has_stays_as_it_is(self):
        journal, entered = Journaled(), mail_came("d1", "123", 1, number=8)
        journal.vote(entered, "tokenA01")
        other = mail_came("d1", "321", 2, number=8)
        stands(self, [entered, other], [Standing.COUNTED, Standing.UNDECIDED], journal)
        stands(self, [other], [Standing.UNDECIDED], journal)

    def test_each_of_two_that_were_both_entered_by_hand_stays(self):
        journal = Journaled()
        two = [mail_came("d1", ranks, hours, number=8) for ranks, hours in (("123", 1), ("321", 2))]
        for arrival, token in zip(two, ("tokenA01", "tokenB02")):
            journal.vote(arrival, token, source={"text": "8@example.net"})
        stands(self, two, [Standing.COUNTED] * 2, journal)

    def test_a_mail_that_came_twice_is_one_ballot(self):
        batch = judged([mail_came("d1", "123", hours, number=8) for hours in (2, 1)])
        self.assertEqual([(each.standing, each.moment) for each in batch.ballots], [(Standing.TO_SEND, CALLED + HOUR)])


class TwoLogins(TestCase):
    """One mail, or one text with its token, under two logins."""

    def test_one_mail_under_two_logins_is_sent_for_neither_and_both_are_named(self):
        two = [mail_came(login, "123", 1, number=8) for login in ("d1", "d8")]
        batch = stands(self, two, [Standing.WHOSE] * 2)
        self.assertEqual(why_of(batch, two[0]), f"the same mail is also that of d8 ({two[1].mail.name})")
        self.assertEqual(why_of(batch, two[1]), f"the same mail is also that of d1 ({two[0].mail.name})")

    def test_a_mail_without_a_message_id_is_known_by_its_bytes(self):
        two = [arrived(login, "123", 1, None, CameMail(f"{login}.eml", "the same"), By.FILE) for login in ("d1", "d8")]
        stands(self, two, [Standing.WHOSE] * 2)

    def test_one_text_with_its_token_under_two_logins_is_sent_for_neither(self):
        two = text_came("d1", "123", 1, "tokenA01"), mail_came("d8", "123", 2, "tokenA01")
        batch = stands(self, two, [Standing.WHOSE] * 2)
        self.assertIn("the same text with its token is also that of d8", why_of(batch, two[0]))

    def test_texts_without_a_token_may_be_the_same(self):
        stands(self, [text_came(login, "123", 1) for login in ("d1", "d8")], [Standing.TO_SEND] * 2)

    def test_the_ranks_of_others_may_be_the_same_with_other_tokens(self):
        two = text_came("d1", "123", 1, "tokenA01"), text_came("d8", "123", 1, "tokenB02")
        stands(self, two, [Standing.TO_SEND] * 2)

    def test_one_that_was_entered_before_stays_as_it_is(self):
        journal, entered = Journaled(), mail_came("d1", "123", 1, number=8)
        journal.vote(entered, "tokenA01")
        other = mail_came("d8", "123", 1, number=8)
        stands(self, [entered, other], [Standing.COUNTED, Standing.WHOSE], journal)
        batch = stands(self, [other], [Standing.WHOSE], journal)
        self.assertEqual(why_of(batch, other), "the same mail is also that of d1 (by the journal)")

    def test_the_text_of_one_that_was_entered_before_is_not_sent_for_another_login(self):
        journal = Journaled()
        journal.vote(text_came("d1", "123", 1, "tokenA01"), "tokenA01")
        stands(self, [mail_came("d8", "123", 2, "tokenA01")], [Standing.WHOSE], journal)

    def test_a_vote_that_was_refused_or_is_of_the_same_login_keeps_none_from_being_sent(self):
        journal = Journaled()
        journal.vote(mail_came("d8", "123", 1, number=8), "tokenA01", "refused 2 ClockBack\n", status=409)
        stands(self, [mail_came("d1", "123", 1, number=8)], [Standing.TO_SEND], journal)

    def test_a_form_that_is_not_read_is_answered_to_neither(self):
        stands(self, [mail_came(login, None, 1, number=8) for login in ("d1", "d8")], [Standing.WHOSE] * 2)

    def test_one_that_is_late_is_answered_to_neither(self):
        hours = (ENDED - CALLED) / HOUR
        stands(self, [mail_came(login, "123", hours, number=8) for login in ("d1", "d8")], [Standing.WHOSE] * 2)

    def test_a_mail_from_another_developer_is_not_sent(self):
        cases = {"d8@example.org": Standing.WHOSE, "D8@Example.ORG": Standing.WHOSE, "d1@example.org": Standing.TO_SEND,
                 "d8@example.net": Standing.TO_SEND, "d88@example.org": Standing.TO_SEND, "": Standing.TO_SEND}
        for sender, case in cases.items():
            with self.subTest(sender=sender):
                came = mail_came("d1", "123", 1, sender=sender)
                batch = stands(self, [came], [case], domain="Example.org")
                if case is Standing.WHOSE:
                    self.assertEqual(why_of(batch, came), "its From is that of d8")

    def test_of_several_addresses_in_a_from_each_is_looked_at(self):
        for head, case in {
            "From: d1@example.org, d8@example.org": Standing.WHOSE,
            "From: d1@example.org\nSubject: x\nFrom: The Eighth <d8@example.org>": Standing.WHOSE,
            "From: x@example.net\nFrom: y@example.net\nFrom: d8@EXAMPLE.org": Standing.WHOSE,
            "From: All: d1@example.org, d8@example.org;": Standing.WHOSE,
            "From: (d1@example.org) d8 (X) @example.org": Standing.WHOSE,
            "From: <d1@example.org> <d8@example.org>": Standing.WHOSE,
            "From: <@relay.example.net:d8@example.org>": Standing.WHOSE,
            "From: The First <d1@example.org>, x@example.net": Standing.TO_SEND,
            "From: (d8@example.org) d1@example.org": Standing.TO_SEND,
            'From: "d8@example.org" <d1@example.org>': Standing.TO_SEND,
            "From: d8@example.org <d1@example.org>": Standing.TO_SEND,
            "From: =?utf-8?q?d8=40example.org?= <d1@example.org>": Standing.TO_SEND,
            "From: =?utf-8?q?=3Cd8=40example.org=3E?= <d1@example.org>": Standing.TO_SEND,
            "From: d1@example.org\nReply-To: d8@example.org\nSender: d8@example.org": Standing.TO_SEND,
        }.items():
            with self.subTest(head=head):
                mail = Mail("came/d1.eml", f"{head}\nMessage-ID: <1@example.net>\n\nx\n".encode(), CALLED)
                came = arrived("d1", "123", 1, None, mail, By.HOST)
                batch = stands(self, [came], [case], domain="example.org")
                if case is Standing.WHOSE:
                    self.assertEqual(why_of(batch, came), "its From is that of d8")

    def test_without_a_domain_nothing_is_known_of_a_from(self):
        stands(self, [mail_came("d1", "123", 1, sender="d8@example.org")], [Standing.TO_SEND])


class OneMailOnTwoVotes(TestCase):
    def test_that_it_is_replaced_on_one_vote_says_nothing_of_the_other(self):
        digests = {judged([mail_came("d1", "123", 1)], number=number).ballots[0].digest() for number in (1, 2)}
        self.assertEqual(len(digests), 2)


class Gone(TestCase):
    """Votes of a journal whose desk went back to a copy from before them, and was given up."""

    def setUp(self):
        self.journal = Journaled()
        self.gone = mail_came("d1", "321", 5, number=5)
        self.journal.vote(mail_came("d2", "123", 1), "tokenX01")
        before = self.journal.count
        self.journal.vote(self.gone, "tokenB02")
        del self.journal.held["d1"]
        self.journal.count = before
        self.journal.vote(mail_came("d3", "123", 6), "tokenX03")

    def test_one_that_is_gone_is_not_sent_again(self):
        batch = stands(self, [self.gone], [Standing.GONE], self.journal)
        self.assertFalse(batch.is_done())

    def test_it_overtakes_nothing_and_its_voter_has_no_answer(self):
        batch = stands(self, [mail_came("d1", "123", 1)], [Standing.TO_SEND], self.journal)
        self.assertEqual(list(batch.gone()), ["d1"])

    def test_its_voter_has_no_answer_also_if_no_mail_is_there(self):
        batch = judged([], self.journal)
        self.assertEqual((list(batch.gone()), batch.is_done()), (["d1"], False))

    def test_it_is_no_earlier_ballot(self):
        self.journal.vote(mail_came("d1", "213", 7, number=7), "tokenC03")
        stands(self, [mail_came("d1", "321", 8)], [Standing.TO_SEND], self.journal)

    def test_a_later_vote_that_the_desk_has_replaces_it(self):
        later = mail_came("d1", "213", 7, number=7)
        self.journal.vote(later, "tokenC03")
        batch = stands(self, [self.gone, later], [Standing.REPLACED, Standing.COUNTED], self.journal)
        self.assertEqual((list(batch.gone()), batch.is_done()), ([], True))

    def test_a_later_one_of_the_run_replaces_it(self):
        stands(self, [self.gone, mail_came("d1", "213", 7)], [Standing.REPLACED, Standing.TO_SEND], self.journal)


class Clocks(TestCase):
    """Ballots of one voter whose times are those of different clocks. The time of a file may be long after its mail
    came, and that of an mbox is when any mail was put there."""

    def entered(self, arrival):
        journal = Journaled()
        journal.vote(arrival, "tokenA01")
        return journal

    def test_a_file_with_a_later_time_than_a_mail_of_the_host_is_left_to_the_secretary_and_so_is_that(self):
        stands(self, [mail_came("d1", "321", 2), file_came("123", 3)], 2 * [Standing.UNDECIDED])

    def test_a_file_with_an_earlier_time_is_replaced_by_a_mail_of_the_host(self):
        stands(self, [file_came("123", 1), mail_came("d1", "321", 2)], [Standing.REPLACED, Standing.TO_SEND])

    def test_of_two_files_the_later_one_is_sent(self):
        stands(self, [file_came("123", 1), file_came("321", 2)], [Standing.REPLACED, Standing.TO_SEND])

    def test_what_is_in_an_mbox_does_not_replace_what_was_entered(self):
        came = file_came("123", 9, is_in_box=True)
        for first in mail_came("d1", "321", 2), file_came("321", 2), file_came("321", 2, is_in_box=True):
            with self.subTest(by=first.clock):
                stands(self, [came], [Standing.UNDECIDED], self.entered(first))

    def test_without_a_host_an_old_mail_does_not_replace_one_whose_time_the_host_gave(self):
        stands(self, [file_came("123", 9)], [Standing.UNDECIDED], self.entered(mail_came("d1", "321", 2)))

    def test_a_mail_of_the_host_is_not_passed_over_for_a_file_with_a_later_time(self):
        stands(self, [mail_came("d1", "321", 2)], [Standing.UNDECIDED], self.entered(file_came("123", 9)))

    def test_the_same_ballot_by_two_clocks_is_one(self):
        stands(self, [file_came("321", 9)], [Standing.COUNTED], self.entered(mail_came("d1", "321", 2)))

    def test_the_journal_keeps_whose_time_it_is(self):
        kinds = [mail_came("d1", "1--", 1), file_came("1--", 1), file_came("1--", 1, is_in_box=True)]
        self.assertEqual([each.source["clock"] for each in kinds], ["host", "file", "box"])

    def test_a_mail_with_a_field_received_is_not_late_by_its_file(self):
        late = file_came("123", (ENDED - CALLED) / HOUR, has_received=True)
        batch = stands(self, [late], [Standing.UNDECIDED])
        self.assertIn("its field Received is not taken", why_of(batch, late))
