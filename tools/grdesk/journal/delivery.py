"""The delivery of an act to a desk: by the `serve` that holds it, or to its file and at a date of its own.
Where a journal is given, the act is in it before it is sent, and its answer before it is printed."""
import time
from contextlib import contextmanager, nullcontext
from dataclasses import dataclass
from typing import Callable, Optional

from grdesk.acts.act import EXITS, Act
from grdesk.acts.moment import check_clocks, check_seconds, late_call, until_of
from grdesk.dates import dated
from grdesk.desk.address import address_of, given_address
from grdesk.desk.file import DeskFile, NotOpened
from grdesk.desk.request import NoResponse, exchange
from grdesk.error import Failed, Refused, Unsent, Wrong
from grdesk.interruption import undisturbed
from grdesk.journal.entry import Fate
from grdesk.journal.journal import Journal, journal_at, journal_name, lacks_acts
from grdesk.journal.open_act import report_open_acts, settle_open_acts
from grdesk.journal.source import FATES, acts_from, source_of
from grdesk.output import confirm, is_at_terminal, note, say


def check_words(arguments):
    """Refuses words that do not go together."""
    address = given_address(arguments)
    if arguments.desk is not None and address is not None:
        raise Wrong(f"a --desk and a {address.option} are given: one of them says which desk")
    if not arguments.ahead:
        check_seconds("--at", arguments.at)
        check_seconds("--hold-until", arguments.hold_until)
    if arguments.hold is not None and arguments.hold_until is not None:
        raise Wrong("--hold and --hold-until are given: one of them says until when")
    holds = arguments.hold is not None or arguments.hold_until is not None
    for option, is_given in (("--at", arguments.at is not None), ("--ahead", arguments.ahead), ("--hold", holds)):
        if is_given and arguments.desk is None:
            raise Wrong(f"{option} needs --desk: an act for a port gets the moment at which it arrives there")
    for option, is_given in (("--source", arguments.source is not None), ("--hold", holds)):
        if is_given and journal_name(arguments) is None:
            raise Wrong(f"{option} needs a journal, which keeps it: --journal FILE, or GR_DESK_JOURNAL")
    if arguments.give_up and (arguments.desk is None or journal_name(arguments) is None):
        raise Wrong("--give-up needs --desk and a journal, which show what the desk lacks")
    if arguments.give_up and holds:
        raise Wrong("--give-up and --hold are given: an act on hold gives up no other")


@contextmanager
def unsent():
    """Says of what fails meanwhile that nothing was sent."""
    try:
        yield
    except Failed as error:
        raise Unsent(error) from None


def desk_of(name):
    with unsent():
        return DeskFile(name)


def deliver(act, arguments, announce):
    """Gives the answer to an act, or None where it is held. `announce` is called just before it is sent."""
    source = source_of(arguments.source)
    address = address_of(arguments) if arguments.desk is None else None
    desk = None if arguments.desk is None else desk_of(arguments.desk)
    name = journal_name(arguments)
    with journal_at(name, is_made=True) if name else nullcontext() as journal:
        delivery = Delivery(act, source, arguments.yes, announce, journal)
        return delivery.to_file(desk, arguments) if desk else delivery.to_port(address)


@dataclass
class Delivery:
    """An act on its way. `is_sure` is whether it should be sent although something speaks against it."""

    act: Act
    source: Optional[dict]
    is_sure: bool
    announce: Callable
    journal: Optional[Journal]
    # Whether acts of the same source were met. What confirms the act is said of these then, and gives up no held act.
    is_again: bool = False

    def to_port(self, address):
        before = int(time.time())
        if self.journal is None:
            self.announce()
            return send_act(address, self.act)
        entries = self.journal.entries
        report_open_acts(entries)
        self.check_source()
        if self.is_behind_held(before):
            return self.hold(entries.desk, before, None)
        lost = self.lost_by(before)
        self.announce()
        answer, _ = send_kept(self.journal, address, self.act, before, self.source)
        self.drop(lost, answer)
        return answer

    def to_file(self, desk, arguments):
        # A program that a killed tool had started has the lock until it ends, and no other has the desk then.
        desk.check_free()
        now = int(time.time())
        moment = now if arguments.at is None else arguments.at
        with unsent():
            header = desk.header()
        if not arguments.ahead:
            check_clocks(moment, header.clock, now)
        until = until_of(arguments, moment)
        is_late_call = self.check_call(moment, now if until is None else max(now, until))
        if self.journal is None:
            # A rehearsal needs none.
            if not arguments.ahead:
                note("no journal keeps this act; --journal FILE does, or GR_DESK_JOURNAL")
            self.announce()
            return desk.enter(self.act.request(), moment)
        self.check_journal(desk, header, moment, arguments.give_up)
        if until is not None or self.is_behind_held(moment):
            if arguments.give_up:
                self.check_none_held(moment)
            self.check_hold(desk, header, moment, until)
            return self.hold(desk.path, moment, until)
        if is_late_call:
            self.check_none_held(moment)
        lost = self.lost_by(moment)
        self.announce()
        answer = enter_kept(self.journal, desk, self.act, moment, header.accepted, self.source)
        self.drop(lost, answer)
        return answer

    def check_journal(self, desk, header, moment, gives_up):
        """Looks whether the journal goes with the desk, and what it says of this act."""
        self.journal.check_desk(desk.path)
        if gives_up and self.is_behind_held(moment):
            self.check_none_held(moment)
        check_has_all(self.journal, desk, header, gives_up)
        settle_open_acts(self.journal, header, desk)
        self.check_source()

    def check_source(self):
        """Asks where the journal has acts of the same source, one of which may be this one."""
        known = acts_from(self.journal.entries, self.source)
        for entry in known:
            note(f"{entry.number} ({entry.words()}) has the same source, and {FATES[entry.fate]}")
        self.is_again = bool(known)
        if not known or self.is_sure:
            return
        if is_at_terminal():
            confirm("Send this act all the same?", "act")
        else:
            numbers = ", ".join(entry.number for entry in known)
            message = f"nothing was sent: the journal has {numbers} from the same source"
            raise Refused(f"{message}; with --yes this act is sent all the same")

    def check_call(self, moment, coming):
        """Whether this is a call that comes after its date, dated back or held. It leaves the voters less time."""
        if not self.act.path.endswith("/call") or moment >= coming:
            return False
        message = late_call(self.act, moment, coming)
        if not self.is_sure:
            raise Refused(f"nothing was sent: {message}; with --yes it is sent all the same")
        note(f"warning: {message}")
        return True

    def check_none_held(self, moment):
        """The --yes of a call is for its date, and gives up no held act. Nor does an act with --give-up wait."""
        if held := self.held_before(moment):
            numbers = ", ".join(each.number for each in held)
            message = f"nothing was sent: acts with an earlier date are on hold, {numbers}"
            raise Refused(f"{message}: first run gr-desk journal due, or gr-desk journal drop")

    def held_before(self, moment):
        """The held acts with an earlier date, which the desk takes no more after this one."""
        return [entry for entry in self.journal.entries.held() if entry.moment < moment]

    def is_behind_held(self, moment):
        overtakes = self.is_sure and not self.is_again
        return not overtakes and bool(self.held_before(moment))

    def check_hold(self, desk, header, moment, until):
        """Refuses an act that would wait in vain, and says where one that is to wait has ballots wait too."""
        if moment < header.clock:
            message = f"nothing was sent: the desk's clock is {dated(header.clock)}"
            raise Refused(f"{message}, so an act with an earlier date would wait in vain")
        if until is not None and (running := desk.in_voting()):
            names = ", ".join(f"resolution {number}" for number in running)
            note(f"warning: in voting: {names}; ballots with a later date wait until this act is sent")

    def hold(self, desk, moment, until):
        """Has the act wait in the journal."""
        self.announce()
        before = self.held_before(moment)
        number = self.journal.hold(self.act, desk, moment, until, self.source)
        waits = f"until {dated(until)}" if until is not None else f"behind {', '.join(each.number for each in before)}"
        say(f"held {number} {waits}\n".encode())
        note(f"gr-desk journal due enters {number} then, and gr-desk journal drop {number} takes it back")

    def lost_by(self, moment):
        """The held acts that are lost if this one is accepted."""
        lost = self.held_before(moment)
        for entry in lost:
            message = f"{entry.number} ({entry.words()}) is on hold with an earlier date"
            note(f"warning: {message}, and is lost if this act is accepted")
        return lost

    def drop(self, lost, answer):
        """Drops what an accepted act has lost. Where the journal cannot take that, the answer is printed anyway."""
        if answer.status == 200:
            try:
                for entry in lost:
                    self.journal.add("dropped", number=entry.number, source=None)
            except Failed as error:
                note(f"the lost acts stay on hold in the journal: {error}")


def tell_gone(journal):
    """Says that the desk lacked acts of the journal, which by a port its answer alone reports."""
    message = f"warning: the desk lacks acts that {journal.name} has, for example after a restore, or is another desk"
    note(f"{message}; this act gives them up")
    message = "to get them back, end `serve`, restore the copy again, remove the last two lines of the journal"
    note(f"{message}, run gr-desk journal replay, and send this act again")


def check_has_all(journal, desk, header, gives_up=False):
    """Looks whether the desk has what the journal has, as it has not where a copy was put back."""
    entries = journal.entries
    if lacks_acts(entries, header.accepted):
        message = f"{desk.name} lacks acts that {journal.name} has"
        if not gives_up:
            done = f"gr-desk journal replay {journal.name} {desk.name} enters them"
            raise Refused(f"nothing was sent: {message}; {done}, and gr-desk act gives them up with --give-up")
        note(f"warning: {message}, and they are given up")
    elif entries.accepted and not entries.waiting and header.accepted > entries.last:
        note(f"warning: {desk.name} has acts that came by another way, so a replay cannot go past them")


class NotTaken(Unsent):
    """Nobody takes the connection. A proxy takes each one, and then what it has not answered is lost."""


def send_act(address, act):
    """The answer to the one request to the desk that is reached there."""
    try:
        answer = exchange(address, act.request())
    except NoResponse as error:
        if not error.was_connected:
            raise NotTaken(f"{address}: {error}") from None
        raise Failed(f"lost: the answer did not come whole; {act.when_lost()}") from None
    if answer.status not in EXITS:
        raise Failed(f"lost: what listens on {address.name} is no desk, and answered status {answer.status}")
    return answer


def send_kept(journal, address, act, before, source=None):
    """Sends an act to the desk that is reached there, and keeps both it and its answer. `before` is a moment before it
    is sent. Gives the answer, and whether the desk lacked acts of the journal, which that alone reports."""
    last = journal.entries.last
    number = journal.begin(act, None, source=source, before=before)
    try:
        answer = send_act(address, act)
    except NotTaken:
        journal.add("found", number=number, count=None)
        raise
    keep(journal, number, answer, after=int(time.time()))
    lacked_acts = journal.entries.all[number].fate is Fate.ACCEPTED and journal.entries.last <= last
    if lacked_acts:
        tell_gone(journal)
    return answer, lacked_acts


def enter_kept(journal, desk, act, moment, count, source=None, number=None):
    """Enters an act into the file of a desk, which has accepted so many before, and keeps both it and its answer."""
    with undisturbed():
        number = journal.begin(act, desk.path, number, source, moment=moment, count=count)
        try:
            answer = desk.enter(act.request(), moment, [journal.descriptor])
        except NotOpened:
            journal.add("found", number=number, count=None)
            raise
        keep(journal, number, answer)
    return answer


def keep(journal, number, answer, after=None):
    """Keeps an answer. That it could not be kept changes nothing of what the desk has done."""
    try:
        journal.add("answer", number=number, status=answer.status, text=answer.body.decode(), after=after)
    except Failed as error:
        note(f"the answer to {number} is not kept: {error}")
