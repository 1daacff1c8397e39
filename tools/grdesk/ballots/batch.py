"""What becomes of the ballots that came: which are sent, and which are not, by the journal and the desk as it is."""
import hashlib
from dataclasses import dataclass, field
from enum import Enum
from itertools import chain
from typing import Optional

from grdesk.acts.act import Act
from grdesk.ballots.arrival import Arrival, By, Clock
from grdesk.ballots.doubt import MOVED, OTHER_CLOCK, SAME_ID, SAME_MOMENT, UNTAKEN, KnownBallot, Sharing, why_again
from grdesk.ballots.finality import is_final
from grdesk.dates import date_of
from grdesk.desk.limit import DAY
from grdesk.desk.receipt import receipt_of
from grdesk.desk.row import VOTING
from grdesk.journal.entry import Entries, Entry, Fate, Replaced, arrived
from grdesk.journal.source import bare_message_id


class Standing(Enum):
    """How it stands with a ballot."""

    TO_SEND = "to be sent"
    # It may be there already, and a port cannot tell.
    DOUBTFUL = "to be sent again, with the same token"
    # The table says what the Secretary may do with these two, since nothing is guessed.
    UNDECIDED = "not sent: nothing says which ballot of this voter is the last one"
    WHOSE = "not sent: nothing says whose ballot it is"
    LATE = "not sent: it arrived in time, but could only be entered after the end of the vote"
    AHEAD = "not sent: its time is later than the machine's clock"
    BEHIND = "not sent yet: another vote ended before it arrived, and is not closed"
    RETIRED = "not sent: this developer is retired on the roll; it is taken once the roll says current"
    GONE = "not sent again: it was entered, but the desk no longer has it"
    # The desk may take it later, so the next run sends it again.
    PASSING = "refused for now, and sent again by the next run"
    # The desk or the form says why.
    REFUSED = "refused"
    REPLACED = "not sent: a later ballot of the same voter counts"
    COUNTED = "entered before, and answered now"


SENT = Standing.TO_SEND, Standing.DOUBTFUL
# The Secretary may enter these by hand.
LEFT = Standing.UNDECIDED, Standing.WHOSE, Standing.GONE
# Those to which the voter has no answer yet.
UNANSWERED = *SENT, *LEFT, Standing.LATE, Standing.AHEAD, Standing.BEHIND, Standing.RETIRED, Standing.PASSING


@dataclass
class Ballot:
    """A ballot that came. `entry` is the act of the journal that has it, and `why` says why it is not taken, or not
    sent. `replaced` is what the journal has of it if it was replaced before it was sent. `is_other_text` is whether the
    journal has another text of the same mail. `is_moved` is whether its file has another time than it had when it came
    first. `is_unsure` is whether its time tells nothing, and the outbox alone says that it is replaced. `is_told` is
    whether its voter was answered before, or the Secretary was told that it is replaced."""

    arrival: Arrival
    standing: Standing
    entry: Optional[Entry] = None
    why: Optional[str] = None
    replaced: Optional[Replaced] = None
    token: Optional[str] = None
    votes_again: bool = False
    is_other_text: bool = False
    is_moved: bool = False
    is_unsure: bool = False
    is_reported: bool = False
    # The resolution. A mail may have a ballot on another one too.
    number: int = 0

    @property
    def login(self):
        return self.arrival.login

    @property
    def moment(self):
        return self.arrival.moment

    @property
    def ranks(self):
        return self.arrival.filled.ranks

    @property
    def is_new(self):
        return self.entry is None

    def put(self, standing, why):
        self.standing, self.why = standing, why

    def digest(self):
        """The digest by which an outbox keeps that a table reported it."""
        return hashlib.sha256(f"{self.number}\n{self.login}\n{self.arrival.mail.key()}\n".encode()).hexdigest()

    def act(self, number):
        values = {"login": self.login, "ranks": self.ranks, "token": self.token}
        return Act(f"/resolutions/{number}/vote", {name: value.encode() for name, value in values.items()})


@dataclass
class Batch:
    """The ballots on a resolution that came. `ends` are those of all votes that are open on the desk, as far as is
    known. `stored` are the ranks and receipts that the desk has by login, or None by a port; `clock` is the desk's, and
    the machine's by a port. `reported` are the digests of ballots that a table has shown as replaced, and `roll` has
    the developers by their logins."""

    number: int
    end: int
    ends: list
    now: int
    clock: int
    stored: Optional[dict]
    entries: Entries
    reported: set
    roll: dict
    domain: Optional[str] = None
    ballots: list = field(default_factory=list)

    def __post_init__(self):
        self.votes = votes_in(self.entries, self.number)
        self.replaced = replaced_in(self.entries, self.number)

    def take(self, arrivals):
        """Puts each arrival, and finds out how it stands with it."""
        self.ballots = [self.met(each) for each in each_once(arrivals)]
        for each in self.ballots:
            each.standing = self.standing_alone(each)
        self.look_whose()
        for ballots in self.of_voters().values():
            self.judge(ballots)
        self.ballots.sort(key=lambda each: each.moment)

    def met(self, arrival):
        """A ballot. Where the journal has its mail, it arrived when the journal says, whatever its file says now. If it
        was never sent, and the journal has the time of a file, a time that a host gives is the better one."""
        votes = self.votes.get(arrival.login, [])
        own, same = those_by(arrival, votes)
        own_replaced, same_replaced = those_by(arrival, self.replaced.get(arrival.login, []))
        # One that was sent again has a later act.
        entry = next(filter(self.has, same), same[-1] if same else None)
        replaced = same_replaced[0] if same_replaced else None
        ballot = Ballot(arrival, Standing.REFUSED, entry, arrival.why, replaced, number=self.number)
        ballot.is_other_text = bool(own or own_replaced) and not (same or same_replaced)
        ballot.votes_again = arrival.login in (self.stored or ()) or any(map(self.has, votes))
        is_better = arrival.by is By.HOST and replaced and clock_of(replaced) is not Clock.HOST
        known = entry or (None if is_better else replaced)
        if known and arrived(known) != arrival.moment:
            ballot.is_moved = arrival.by is By.FILE and not arrival.mail.is_in_box and "arrived" in known.source
            arrival.moment, arrival.by, arrival.kept_clock = arrived(known), By.JOURNAL, clock_of(known)
        return ballot

    def has(self, entry):
        """Whether the desk has accepted a vote of the journal, by the journal or by its ranks and its receipt."""
        login, ranks, token = (entry.fields[name] for name in ("login", "ranks", "token"))
        ballot = ranks, receipt_of(self.number, login, token)
        return entry.fate is Fate.ACCEPTED or self.stored is not None and self.stored.get(login) == ballot

    def may_have(self, entry):
        """Whether the desk has accepted it, or may have. It has not what is gone with a desk, or was refused."""
        return entry.fate is Fate.OPEN or self.has(entry)

    def votes_there(self, login):
        """The votes of the journal that the desk has of a login, or may have, in the order of their arrivals."""
        return sorted(filter(self.may_have, self.votes.get(login, [])), key=arrived)

    def standing_alone(self, ballot):
        """How it stands with a ballot by itself: that it was answered, or is not taken, or else should be sent."""
        entry = ballot.entry
        if entry and self.has(entry):
            return Standing.COUNTED
        if entry and entry.fate is Fate.GONE:
            return Standing.REPLACED if self.is_overtaken(ballot) else Standing.GONE
        if entry and entry.fate is Fate.NOT_ACCEPTED and entry.answer and self.is_final(ballot, entry.answer):
            ballot.why = entry.answer
            return Standing.REFUSED
        if not self.roll[ballot.login].is_current:
            return Standing.RETIRED
        if ballot.moment > self.now:
            return Standing.AHEAD
        return Standing.TO_SEND if ballot.arrival.is_taken else Standing.REFUSED

    def is_final(self, ballot, answer):
        """Whether the desk would never take the ballot after this answer."""
        return is_final(answer, is_late=ballot.moment >= self.end)

    # Whose a ballot is.

    def look_whose(self):
        """Finds the ballots of which a mail is there under another login too, or is from another developer."""
        entries = (entry for votes in self.votes.values() for entry in filter(self.may_have, votes))
        sharing = Sharing(self.ballots, chain(entries, *self.replaced.values()))
        for each in filter(self.is_open, self.ballots):
            if why := sharing.why(each) or self.why_of_another(each):
                each.put(Standing.WHOSE, why)

    def is_open(self, ballot):
        """Whether nothing that was done before says how it stands with a ballot. One that may be there stays as it is.
        """
        may_be_there = self.stored is None and ballot.entry is not None and ballot.entry.fate is Fate.OPEN
        is_answered = ballot.standing is Standing.REFUSED and not ballot.is_new
        return ballot.standing in (Standing.TO_SEND, Standing.REFUSED) and not may_be_there and not is_answered

    def why_of_another(self, ballot):
        """Why a mail is none of this voter's, by its From, or None. It tells something only where the domain is known.
        """
        for sender in ballot.arrival.mail.senders() if self.domain else ():
            login, _, domain = sender.rpartition("@")
            if domain == self.domain.lower() and login in self.roll and login != ballot.login:
                return f"its From is that of {login}"
        return None

    # Which ballot of a voter is the last one.

    def judge(self, ballots):
        """Finds out how it stands with the ballots of one voter."""
        self.look_for_other_texts(ballots)
        self.look_for_earlier_ones(ballots)
        coming = Standing.TO_SEND, Standing.AHEAD
        rivals = [each for each in ballots if each.arrival.is_taken and each.standing in coming]
        is_moved = any(each.is_moved for each in ballots)
        for each in ballots:
            if each.standing is Standing.TO_SEND:
                each.standing = self.standing_beside_others(each, rivals, is_moved)
                each.token = each.entry.fields["token"] if each.entry else each.arrival.filled.token
        sent = [each.moment for each in ballots if each.standing in SENT]
        for each in ballots:
            if each.standing is Standing.GONE and any(moment > each.moment for moment in sent):
                each.standing = Standing.REPLACED

    def look_for_other_texts(self, ballots):
        """Leaves undecided what has the Message-ID of another text, but the one that the journal has."""
        said = {}
        for each in ballots:
            said.setdefault(each.arrival.mail.key(), set()).add(each.arrival.filled)
        for each in ballots:
            is_one_of_two = each.is_new and len(said[each.arrival.mail.key()]) > 1
            if self.is_open(each) and (is_one_of_two or each.is_other_text):
                each.put(Standing.UNDECIDED, SAME_ID)

    def look_for_earlier_ones(self, ballots):
        """Leaves undecided each new ballot that says what an earlier one of this voter said, which is not the last one:
        somebody may have sent that again. The earlier one may have been replaced before it was sent."""
        votes = self.votes_there(ballots[0].login)
        known = [known_of(each) for each in votes]
        replaced = [known_of(each) for each in self.replaced.get(ballots[0].login, [])]
        coming = (each for each in ballots if each.standing is Standing.TO_SEND and each.moment < self.end)
        for each in sorted(coming, key=lambda each: each.moment):
            said = KnownBallot(each.moment, *each.arrival.filled)
            is_overtaken = any(other.moment > each.moment for other in known)
            if each.is_new and not is_overtaken and (why := why_again(said, known, replaced)):
                each.put(Standing.UNDECIDED, why)
            elif each.entry not in votes:
                known = sorted([*known, said], key=lambda other: other.moment)

    def standing_beside_others(self, ballot, rivals, is_moved):
        """How it stands with a ballot of which no answer is known, beside others of its voter. `is_moved` is whether a
        file of one that came before has another time than it had."""
        votes = self.votes_there(ballot.login)
        others = [each for each in rivals if each is not ballot and each.moment < self.end]
        moment = ballot.moment
        is_unsure = ballot.is_new and is_moved and ballot.arrival.by is By.FILE
        if moment >= self.end and not is_unsure:
            if ballot.is_new and ballot.arrival.by is By.FILE and ballot.arrival.mail.has_received:
                ballot.why = UNTAKEN
                return Standing.UNDECIDED
            ballot.why = f"it is late, since votes were taken until {date_of(self.end)}"
            return Standing.REFUSED
        later = [each for each in votes if arrived(each) > moment]
        if any(surely_after(each, ballot) or says(each, ballot.arrival.filled) for each in later):
            return Standing.REPLACED
        if ballot.is_new and self.stands(ballot, votes, others):
            ballot.entry = votes[-1]
            return Standing.COUNTED
        if is_unsure:
            # A text may have been sent again. A mail would have another Message-ID then.
            if "message_id" in ballot.arrival.source and ballot.digest() in self.reported:
                ballot.is_unsure = True
                return Standing.REPLACED
            ballot.why = MOVED
            return Standing.UNDECIDED
        rivals_later = [each for each in others if each.moment > moment]
        if any(surely_after(each, ballot) or each.arrival.filled == ballot.arrival.filled for each in rivals_later):
            return Standing.REPLACED
        if later or rivals_later or ballot.is_new and self.may_be_earlier(ballot, votes, others):
            ballot.why = OTHER_CLOCK
            return Standing.UNDECIDED
        if max(moment, self.clock) >= self.end:
            return Standing.LATE
        if ballot.is_new and (known := at_once(ballot, votes, rivals)):
            return known
        if self.ends_before(moment):
            return Standing.BEHIND
        is_doubtful = self.stored is None and ballot.entry is not None and ballot.entry.fate is Fate.OPEN
        return Standing.DOUBTFUL if is_doubtful else Standing.TO_SEND

    def ends_before(self, moment):
        """The ends of other votes that are open on the desk, and that its clock would pass by a ballot with this
        moment: then no ballot on those could be entered any more."""
        return [end for end in self.ends if self.clock < end <= moment]

    def may_be_earlier(self, ballot, votes, others):
        """Whether another ballot of the voter has an earlier time by another clock, and says something else."""
        filled = ballot.arrival.filled
        before = [each for each in votes if arrived(each) < ballot.moment and not says(each, filled)]
        before += [each for each in others if each.moment < ballot.moment and each.arrival.filled != filled]
        return not all(surely_after(ballot, each) for each in before)

    def stands(self, ballot, votes, others):
        """Whether the last vote of the voter, which the desk has, says the same, and so does each other ballot."""
        last = votes[-1] if votes else None
        return last and self.has(last) and all(says(last, each.arrival.filled) for each in [ballot, *others])

    def is_overtaken(self, ballot):
        """Whether a later vote of the same voter is in the journal, which the desk has, or may have."""
        return any(arrived(each) > ballot.moment for each in self.votes_there(ballot.login))

    # What is done with them.

    def of_voters(self):
        """The ballots of each voter, by login."""
        found = {}
        for each in self.ballots:
            found.setdefault(each.login, []).append(each)
        return found

    def to_send(self):
        return [each for each in self.ballots if each.standing in SENT]

    def replaced_now(self):
        """The ballots that are replaced before they were sent, and of which the journal does not say so yet."""
        return [each for each in self.ballots if each.standing is Standing.REPLACED and each.arrival.is_taken
                and each.is_new and each.replaced is None and not each.is_unsure]

    def moments(self, ballots):
        """The moments at which these are entered, which are in the order of their arrivals. The moment is a word that
        other accounts can see, so all have that of the last one. No end of a vote is between, since what came after one
        waits."""
        return [max([self.clock, *(each.moment for each in ballots)])] * len(ballots)

    def clock_behind(self):
        """The desk's clock once all is sent."""
        return max([self.clock, *self.moments(self.to_send())])

    def unknown(self):
        """The ballots to be sent of voters of whom the desk has one that the journal does not have."""
        return [each for each in self.to_send()
                if each.login in (self.stored or ()) and not any(map(self.has, self.votes.get(each.login, [])))]

    def gone(self):
        """The logins of which the last vote of the journal is gone with the desk that had it, also if no mail of it is
        there."""
        for login, votes in votes_in(self.entries, self.number).items():
            left = [each for each in votes if each.fate is Fate.GONE or self.may_have(each)]
            if left and not self.may_have(sorted(left, key=arrived)[-1]):
                yield login

    def is_done(self):
        """Whether each voter has an answer, and each ballot was entered, or replaced by one that was."""
        cases = {each.standing for each in self.ballots}
        return cases <= {Standing.COUNTED, Standing.REPLACED} and not any(self.gone())


def ends_in(rows):
    """When the votes end that are open on the desk with these rows, in their order."""
    return sorted(open_votes_in(rows).values())


def open_votes_in(rows):
    """When each vote ends that is open on the desk with these rows, by the numbers of the resolutions."""
    resolutions = rows["resolution"].items()
    return {number: row["called"] + row["days"] * DAY for (number,), row in resolutions if row["stage"] == VOTING}


def votes_in(entries, number):
    """The votes on a resolution that a journal has of each login, but those that were never sent."""
    found = {}
    for each in entries.all.values():
        if each.is_vote and each.resolution == str(number) and each.fate not in (Fate.HELD, Fate.DROPPED):
            found.setdefault(each.fields["login"], []).append(each)
    return found


def replaced_in(entries, number):
    """The ballots on a resolution that a journal has of each login, and that were replaced before they were sent."""
    found = {}
    for each in entries.replaced:
        if each.resolution == number:
            found.setdefault(each.fields["login"], []).append(each)
    return found


def those_by(arrival, kept):
    """Those of the journal that came by a mail, and of these the ones that say the same."""
    own = [each for each in kept if is_by(each, arrival.mail)]
    return own, [each for each in own if arrival.filled is None or says(each, arrival.filled)]


def known_of(kept):
    """What a vote of the journal says, or a ballot there that was replaced, and when it arrived."""
    return KnownBallot(arrived(kept), kept.fields["ranks"], kept.fields["token"])


def each_once(arrivals):
    """Each mail once, as it arrived first. One that came twice says the same both times."""
    kept = {}
    for each in arrivals:
        kept.setdefault((each.login, each.mail.key(), each.filled), each)
    return list(kept.values())


def at_once(ballot, votes, rivals):
    """How it stands with a new ballot where others arrived at the same moment, or None. Of some that say the same the
    first is sent."""
    moment, filled = ballot.moment, ballot.arrival.filled
    votes = [each for each in votes if arrived(each) == moment]
    rivals = [each for each in rivals if each.moment == moment]
    if not all(says(each, filled) for each in votes) or any(each.arrival.filled != filled for each in rivals):
        ballot.why = SAME_MOMENT
        return Standing.UNDECIDED
    return Standing.REPLACED if votes or rivals[0] is not ballot else None


def surely_after(later, earlier):
    """Whether a ballot or a vote of the journal came after another one, which has an earlier time."""
    clock = clock_of(later)
    return clock is None or clock.is_surely_after(clock_of(earlier))


def clock_of(vote):
    """Whose time a ballot has, or a vote of the journal. None: what the Secretary said, or nobody knows any more."""
    if isinstance(vote, Ballot) and vote.is_new:
        return vote.arrival.clock
    entry = vote.entry if isinstance(vote, Ballot) else vote
    clock = (entry.source or {}).get("clock")
    return Clock(clock) if clock in {each.value for each in Clock} else None


def is_by(entry, mail):
    """Whether a vote of the journal came by this mail. gr-desk act may have been given a Message-ID or a SHA-256 as a
    text."""
    its, own = entry.source or {}, mail.source()
    if own["sha256"] in (its.get("sha256"), its.get("text")):
        return True
    known = its.get("message_id") or its.get("text")
    return bool(known) and "message_id" in own and bare_message_id(known) == bare_message_id(own["message_id"])


def says(entry, filled):
    """Whether a vote of the journal says what is filled in. Where that has no token, one was made for it."""
    return entry.fields["ranks"] == filled.ranks and filled.token in (None, entry.fields["token"])
