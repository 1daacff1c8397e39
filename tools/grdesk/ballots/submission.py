"""The way of ballots to a desk, one after the other: to its file, or by a port. Each is in the journal before it is
sent, and its answer after it. After a refusal that is not final, or a fault, none is sent any more."""
import sys
import time
from dataclasses import dataclass
from typing import Optional

from grdesk.ballots.batch import Batch, Standing
from grdesk.ballots.finality import remedy
from grdesk.desk.address import Address
from grdesk.desk.file import DeskFile
from grdesk.desk.room import why_no_room
from grdesk.desk.token import new_token
from grdesk.error import Failed, Refused, Unsent
from grdesk.journal.delivery import enter_kept, send_kept, unsent
from grdesk.journal.journal import Journal
from grdesk.output import counted, note, shown


@dataclass
class Submission:
    """Where ballots go."""

    batch: Batch
    journal: Journal
    desk: Optional[DeskFile]
    address: Optional[Address]

    def keep_replaced(self):
        """Has the journal keep the ballots that are replaced before they were sent, so that each is known if somebody
        sends it again."""
        for each in self.batch.replaced_now():
            ranks, token = each.arrival.filled
            what = {"login": each.login, "ranks": ranks, "token": token, "source": each.arrival.source}
            with unsent():
                self.journal.add("replaced", resolution=self.batch.number, **what)

    def send(self, ballots, accepted):
        """Sends ballots, to the file of a desk that has accepted so many acts before."""
        for done, (ballot, moment) in enumerate(zip(ballots, self.batch.moments(ballots))):
            tell_progress(done, len(ballots))
            if ballot.token is None:
                ballot.token = new_token()
            try:
                answer = self.enter(ballot, moment, accepted) if self.desk else self.hand_in(ballot)
            except Unsent as error:
                raise stopped(ballots, done, error) from None
            if answer.status == 503:
                raise Failed(self.fault(ballot, answer))
            if ballot.standing is Standing.PASSING:
                message = f"nothing more was sent: the desk refused the vote of {ballot.login}"
                mail = shown(ballot.arrival.mail.name)
                raise Refused(f"{message} ({mail}) for now. {remedy(ballot.why, is_port=self.desk is None)}")
            if answer.status == 200:
                accepted = accepted and accepted + 1
        tell_progress(len(ballots), len(ballots))

    def fault(self, ballot, answer):
        """What is said of a fault of the desk: at whose vote, that its disk is full if it is, and what to do."""
        path = self.desk.path if self.desk else self.journal.entries.desk
        full = path and why_no_room(path)
        message = f"the desk failed at the vote of {ballot.login} ({shown(ballot.arrival.mail.name)})"
        message = f"{message}, by {answer.body.decode(errors='replace').strip()}"
        first = f": {full}. Make room there, and then" if full else ";"
        return f"{message}{first} run this again. Nothing is lost"

    def enter(self, ballot, moment, accepted):
        """Sends a ballot to the file of the desk."""
        act, number = ballot.act(self.batch.number), self.journal.entries.next_number(is_vote=True)
        answer = enter_kept(self.journal, self.desk, act, moment, accepted, ballot.arrival.source)
        self.take_answer(ballot, number, answer)
        return answer

    def hand_in(self, ballot):
        """Sends a ballot to the port."""
        if ballot.standing is Standing.DOUBTFUL:
            note(f"the vote of {ballot.login} is sent again with the same token; `Received` may be one higher for it")
        act, number = ballot.act(self.batch.number), self.journal.entries.next_number(is_vote=True)
        answer, lacked_acts = send_kept(self.journal, self.address, act, int(time.time()), ballot.arrival.source)
        self.take_answer(ballot, number, answer)
        if lacked_acts:
            raise Refused(f"nothing more was sent: the desk lacked acts when it took the vote of {ballot.login}")
        return answer

    def take_answer(self, ballot, number, answer):
        """Puts what the answer to the act of this number in the journal says of a ballot."""
        ballot.entry = self.journal.entries.all[number]
        line = answer.body.decode(errors="replace")
        if answer.status == 200:
            ballot.standing = Standing.COUNTED
        elif answer.status != 503:
            ballot.put(Standing.REFUSED if self.batch.is_final(ballot, line) else Standing.PASSING, line)


def stopped(ballots, done, error):
    """The error of a ballot that could not be sent, after so many that were."""
    if done == 0:
        return error
    count, following = len(ballots), ballots[done]
    message = f"{counted(done, 'vote')} of {count} {'was' if done == 1 else 'were'} sent, and no more: {error.why}"
    whose = f"the next one is that of {following.login} ({shown(following.arrival.mail.name)})"
    return Failed(f"{message}; {whose}. Nothing is lost: mend that, and run this again, which sends the rest")


def tell_progress(done, count):
    """How far it is, at a terminal."""
    if sys.stderr and sys.stderr.isatty():
        print(f"\r{done} of {count} sent", end="\n" if done == count else "", file=sys.stderr, flush=True)
