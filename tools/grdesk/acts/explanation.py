"""What the answer to an act means, and what would be possible, in sentences on error output. They are made from the
sheets of the desk, and are advice: nothing of the rules is decided here, and the desk judges each act when it comes."""
import re
import time
from contextlib import ExitStack, contextmanager

from grdesk.acts.act import act_at
from grdesk.acts.refusal import REFUSED, refusal, wrong_request
from grdesk.acts.situation import DeskView, Situation
from grdesk.dates import dated
from grdesk.desk.limit import LATEST
from grdesk.desk.rank import DEFAULT_OPTION, rank_number
from grdesk.desk.room import why_no_room
from grdesk.desk.sheet import sheets_of
from grdesk.output import confirm, is_at_terminal, note, shown

# The acts after which a discussion may have another end than before.
MOVING = ["choice", "sponsor", "adopt", "amend", "vary"]
# Those that take its proposer or a sponsor from a choice, and those that give it one.
TAKING = ["unsponsor", "withdraw"]
GIVING = ["sponsor", "adopt"]


def fault(desk):
    """What a fault means, of the desk in this file, or of one by a port."""
    if full := desk and why_no_room(desk):
        yield f"{full}: make room there first; nothing that the desk has accepted is lost"
    yield "the desk failed, and may have this act or not: look before you send it again"


def accepted(situation, line, before):
    """The sentences of an act that was accepted."""
    if situation.name == "call":
        yield from called(situation, line)
    elif situation.view and situation.name == "vote":
        yield from ballot_sentences(situation)
    elif situation.view and situation.name == "propose":
        yield proposed(situation, line)
    elif situation.view and before and situation.name in MOVING:
        yield from moved(situation, before.discussion, situation.status().discussion)
        if situation.name in GIVING and was_short(situation, before):
            yield from remedied(situation, before)
    elif situation.view and before and situation.name in TAKING:
        yield from shortened(situation, before)


def moved(situation, before, discussion):
    """The end of a discussion, where an act has moved it. Each is a beginning and an end, or None."""
    if before is None and discussion is not None:
        yield f"the discussion of {situation.named()} has begun, and ends {dated(discussion[1])}"
    elif before != discussion:
        yield f"the discussion of {situation.named()} now ends {dated(discussion[1])}, and no longer {dated(before[1])}"


def was_short(situation, before):
    """Whether the choice that an act names was short before."""
    return next(each for each in before.choices if each.number == situation.choice().number).short is not None


def remedied(situation, before):
    """What becomes of a choice that was short, and got a proposer or a sponsor (Constitution, A.2.3)."""
    if situation.choice().short is None:
        yield f"{situation.named_choice()} is not short any more"
    else:
        yield from shortened(situation, before)


def shortened(situation, before):
    """What becomes of a choice that has lost its proposer or a sponsor (Constitution, A.2.3)."""
    choice, name = situation.choice(), situation.named_choice()
    is_orphan = choice.proposer == "none"
    lacks = "a proposer (and enough sponsors, if that is a developer)" if is_orphan else "enough sponsors"
    if choice.short is not None:
        since = f"is short since {dated(choice.short)}" if was_short(situation, before) else "is short now"
        yield f"{name} {since}: it lapses {dated(choice.lapse)}, unless it has {lacks} before then"
    elif choice.introduced is None:
        yield f"{name} was never introduced, so it does not lapse"
    else:
        yield f"{name} is not short of sponsors"


def proposed(situation, line):
    number = int(line.split()[-1])
    discussion = situation.view.status(number).discussion
    if discussion:
        return f"the discussion of resolution {number} has begun, and ends {dated(discussion[1])}"
    return f"resolution {number} is a draft until its choice has enough sponsors (Constitution, 4.2.1)"


def called(situation, line):
    until = re.fullmatch("ok [0-9]+ places [0-9]+ until ([0-9]+)\n", line)
    if until:
        end = int(until[1])
        what = "a close is possible from then on" if end <= LATEST else "it can never be closed"
        yield f"the voting on {situation.named()} ends {dated(end)}; {what}"
    elif line.endswith(" cancelled\n"):
        yield f"no choice was live, so {situation.named()} is cancelled (Constitution, A.2.4)"


def rank_lines(ranks, names):
    """The rank of each place in words, and what the place is called, where that is known."""
    for place, rank in enumerate(ranks, start=1):
        name = f", {names[place]}" if place in names else ""
        number = rank_number(rank)
        yield f"place {place}{name}: {f'rank {number}' if number else 'no rank'}"


def ballot_sentences(situation):
    """Whose vote it is, and how it ranks each option, with the names that are known."""
    ranks, login = situation.text("ranks"), shown(situation.login())
    names = {}
    if situation.view is None:
        yield f"the vote of {login}"
    else:
        developer, status = situation.view.roll().get(situation.login()), situation.status()
        yield f"the vote of {login}, {shown(developer.name) if developer else 'who is not on the roll'}"
        names = {choice.place: shown(choice.summary) for choice in status.choices if choice.place} if status else {}
    names[len(names) + 1 if names else len(ranks)] = DEFAULT_OPTION
    yield from rank_lines(ranks, names)
    greatest = max(map(rank_number, ranks), default=0)
    if greatest > len(ranks):
        message = f"rank {greatest} is allowed, but there are only {len(ranks)} places"
        yield f"{message}: is it a typing error? A later ballot replaces this one"


@contextmanager
def forgiving():
    """Goes on where something cannot be explained: what the desk did stands, and so does what it answered."""
    try:
        yield
    except Exception as error:
        note(f"not explained: {error}")


class Explanation:
    """What is said of one act, before it is sent and after its answer."""

    def __init__(self, act, arguments):
        self.arguments = arguments
        self.act = act
        self.answers = {}
        self.before_it = None

    @contextmanager
    def situation(self):
        """The act, with the desk where that may be looked at: its file, or by a port where that was asked for."""
        name, number = act_at(self.act.path)
        at = int(time.time()) if self.arguments.at is None else self.arguments.at
        with ExitStack() as stack:
            is_seen = self.arguments.desk is not None or self.arguments.explain
            seen = DeskView(lambda: stack.enter_context(sheets_of(self.arguments)), self.answers) if is_seen else None
            yield Situation(name, number and int(number), self.act.values, at, seen)

    def before(self):
        """Looks at what the act may change. At a terminal a vote is shown, and sent only where that is confirmed."""
        is_vote = self.act.is_vote
        is_asked = is_vote and is_at_terminal()
        with forgiving(), self.situation() as situation:
            if situation.view and situation.name in (*MOVING, *TAKING) and (status := situation.status()):
                self.before_it = status
            if is_asked:
                for line in ballot_sentences(situation):
                    note(line)
            elif situation.view and is_vote:
                situation.view.roll(), situation.status()
        if is_asked:
            confirm("Send this vote?", "vote")

    def waits(self):
        """Says of an act that is held what the desk would refuse in it as it is now, in a copy."""
        with forgiving(), self.situation() as situation:
            answer = situation.view and situation.view.tried(self.act, situation.at)
            if answer and answer.status != 200:
                line = answer.body.decode(errors="replace")
                note(f"warning: as the desk is now, it would refuse this act: {line.strip()}")
                for sentence in sentences(situation, answer.status, line):
                    note(sentence)

    def after(self, answer):
        """Says what the answer means."""
        line = answer.body.decode(errors="replace")
        # A vote changes none of what was looked at for it, and what is refused changes nothing.
        if answer.status == 200 and not self.act.is_vote:
            self.answers = {}
        with forgiving(), self.situation() as situation:
            for sentence in sentences(situation, answer.status, line, self.before_it, self.arguments.desk):
                note(sentence)


def sentences(situation, status, line, before=None, desk=None):
    """What an answer means. `before` is the status of the resolution before the act, as far as that is known, and
    `desk` is the file that was sent the act, if it was one."""
    if status == 200:
        return accepted(situation, line, before)
    if found := REFUSED.fullmatch(line):
        return refusal(situation, *found.groups())
    return fault(desk) if status == 503 else wrong_request(situation, line)
