"""The held acts of a journal: they are entered in the order of their dates, or taken back."""
import time
from types import SimpleNamespace

from grdesk.acts.act import EXITS
from grdesk.acts.explanation import Explanation
from grdesk.acts.moment import is_voting_over, late_call
from grdesk.dates import dated
from grdesk.desk.file import DeskFile
from grdesk.error import Failed, Refused, Unsent
from grdesk.journal.delivery import check_has_all, enter_kept
from grdesk.journal.entry import Fate
from grdesk.journal.open_act import settle_open_acts
from grdesk.output import note, say_line


def is_waiting(entry):
    """Whether an act is held, or was until it was sent, with no answer that is kept."""
    return entry.is_held and entry.fate in (Fate.HELD, Fate.OPEN)


def enter_due(journal, is_sure):
    """Enters those whose time has come, and gives the exit status. `is_sure` is whether a call is entered too of which
    all of the time for votes is over."""
    entries = journal.entries
    if not any(map(is_waiting, entries.all.values())):
        say_line("nothing is held")
        return 0
    desk = DeskFile(entries.desk)
    desk.check_free()
    header = desk.header()
    check_has_all(journal, desk, header)
    settle_open_acts(journal, header, desk)
    check_settled(entries)
    sent = []
    for earliest, entry in list(entries.coming()):
        if earliest > time.time():
            say_line(f"{entry.number} ({entry.words()}) is held until {dated(earliest)}")
            return 0
        if entry.act == "call":
            check_call(entry, is_sure, sent)
        try:
            status = enter_held(journal, desk, entry)
        except Unsent as error:
            raise Failed(f"{unsent_after(sent)}: {error.why}{still_held(sent, entry)}") from None
        if status != 0:
            return status
        sent.append(entry.number)
    return 0


def unsent_after(sent):
    """That an act was not sent, after those with these numbers, or as the first one."""
    return f"nothing more was sent after {', '.join(sent)}" if sent else "nothing was sent"


def still_held(sent, entry):
    """What is said of an act that could not be sent after others."""
    return f"; {entry.number} is still on hold: mend that, and run gr-desk journal due" if sent else ""


def check_settled(entries):
    """Refuses to go on where it is not known of a held act whether the desk has it."""
    for entry in entries.open:
        if entry.is_held:
            number = entry.number
            message = f"nothing was sent: find out whether the desk accepted {number}, and run gr-desk journal settle"
            raise Refused(f"{message} {number} accepted, or settle {number} refused: then it is on hold again")


def enter_held(journal, desk, entry):
    """Enters a held act, says what its answer means, and gives the exit status. Of a vote that is accepted nothing more
    is said, since that would be its ranks."""
    act = entry.again()
    words = SimpleNamespace(desk=desk.path, port=None, socket=None, at=entry.moment, explain=False)
    explained = Explanation(act, words)
    if not act.is_vote:
        explained.before()
    answer = enter_kept(journal, desk, act, entry.moment, desk.header().accepted, entry.source, entry.number)
    say_line(f"{entry.number}: {answer.body.decode().strip()}")
    if not act.is_vote or answer.status != 200:
        explained.after(answer)
    return EXITS[answer.status]


def check_call(entry, is_sure, sent):
    """Says how late a call comes, and refuses one for which nobody could vote any more, unless that is intended. `sent`
    are the numbers of the acts that were sent before it."""
    call, now = entry.again(), int(time.time())
    message = late_call(call, entry.moment, now)
    if is_voting_over(call, entry.moment, now) and not is_sure:
        number = entry.number
        way = f"with --yes {number} is entered all the same, and gr-desk journal drop {number} takes it back"
        raise Refused(f"{unsent_after(sent)}: {message}; {way}")
    note(f"warning: {message}")


def take_back(journal, number, source):
    """Drops a held act, and keeps where the objection came from."""
    entry = journal.entries.all.get(number)
    if entry is None or not is_waiting(entry):
        raise Refused(f"{number} is not an act on hold")
    journal.add("dropped", number=number, source=source)
    say_line("ok")
    held = journal.entries.held()
    if held and held[0].until is None:
        note(f"no act is before {held[0].number} any more: gr-desk journal due enters it")
