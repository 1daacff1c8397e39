"""Why a ballot is left undecided: an earlier one that was sent again, another text of the same mail, or a mail that is
there under two logins. Nothing is guessed: the Secretary asks the voter."""
from typing import NamedTuple, Optional

from grdesk.dates import date_of
from grdesk.journal.source import bare_message_id
from grdesk.output import shown

SAME_MOMENT = "another one of this voter arrived at the same moment, and says something else"
MOVED = "a file of this voter has another time than before, so the time of this one proves nothing"
OTHER_CLOCK = ("another ballot of this voter says something else, and one of the two has the time of its file or mbox, "
               "which may be long after it came")
UNTAKEN = "its file is later than the end of the vote, and its field Received is not taken"
SAME_ID = "another mail of this voter has the same Message-ID, and says something else"


class KnownBallot(NamedTuple):
    """What a ballot says, and when it arrived. The token is None where a form has none, so that one is made for it."""

    moment: int
    ranks: str
    token: Optional[str]

    def is_same(self, later):
        """Whether a later form says nothing new."""
        return self.ranks == later.ranks and later.token in (None, self.token)

    def may_be(self, later):
        """Whether a later form may be this one, which somebody sent again: a token is a voter's own, and is in no other
        form unless that has been read."""
        return self.ranks == later.ranks if later.token is None else self.token == later.token


def why_again(said, known, replaced):
    """Why a new form may be an earlier ballot of this voter, but not the last one; else None. `known` are those that
    the desk has, or may have, or gets now. `replaced` are others, which were never sent, and are none of these."""
    earlier = [each for each in known if each.moment < said.moment]
    last = max((each.moment for each in earlier), default=None)
    if last is None or any(each.is_same(said) for each in earlier if each.moment == last):
        return None
    for each in [*earlier, *replaced]:
        if each.moment < last and each.may_be(said):
            what = "ranks" if said.token is None else "token"
            message = f"it has the {what} of the ballot that arrived {date_of(each.moment)}, before the last one"
            return f"{message}: somebody may have sent that again"
    return None


class Sharing:
    """By what mails and texts are known under the logins that have them: those of the ballots that came, and of votes
    and replaced ballots of the journal."""

    def __init__(self, ballots, entries):
        self.places = {}
        for each in entries:
            self.put(marks_of_entry(each), each.fields["login"], "by the journal")
        for each in ballots:
            self.put(marks_of_ballot(each), each.login, shown(each.arrival.mail.name))

    def put(self, marks, login, place):
        for mark in marks:
            self.places.setdefault(mark, {})[login] = place

    def why(self, ballot):
        """Why it is not known whose a ballot is, or None."""
        for mark in marks_of_ballot(ballot):
            others = {login: place for login, place in self.places[mark].items() if login != ballot.login}
            if others:
                message = ", ".join(f"{login} ({place})" for login, place in sorted(others.items()))
                return f"the same {mark[0]} is also that of {message}"
        return None


MAIL, TEXT = "mail", "text with its token"


def marks_of_ballot(ballot):
    mail, filled = ballot.arrival.mail, ballot.arrival.filled
    if mail.is_mail:
        yield MAIL, bare_message_id(mail.key())
    if filled and filled.token:
        yield TEXT, *filled


def marks_of_entry(entry):
    source = entry.source or {}
    if known := source.get("message_id") or source.get("text") or source.get("sha256"):
        yield MAIL, bare_message_id(known)
    yield TEXT, entry.fields["ranks"], entry.fields["token"]
