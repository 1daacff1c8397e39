"""The open acts of a journal: those that were sent, and of which no answer is kept. That the desk has accepted one that
was sent to a port is known by the rows of the desk, or from the Secretary, and never by a count."""
from grdesk.dates import dated
from grdesk.desk.copy import private_folder
from grdesk.error import Failed, Refused
from grdesk.journal.comparison import Comparison
from grdesk.journal.entry import Fate, UnknownForm, line_of
from grdesk.journal.listing import tells_of_votes
from grdesk.journal.replay import way_to_settle
from grdesk.output import note


def settle_open_acts(journal, header, desk):
    """Finds out by the file of the desk, or by the copy whose sheets are read, whether it has accepted them, keeps that
    and says so. Else it says how to find out."""
    entries = journal.entries
    if not entries.open:
        return
    taken = taken_by_header(entries, header)
    if taken is None:
        taken = taken_by_rows(entries, desk)
    if taken is None:
        taken = taken_by_moment(entries, header)
    if taken is None:
        report_open_acts(entries)
        return
    keep_accepted(taken, journal.add)
    for entry in list(entries.open):
        # The number of another one may have left none for it.
        if entry.fate is Fate.OPEN:
            note(f"{without_answer(entry)}: the desk has not accepted it")
            journal.add("found", number=entry.number, count=None)


def taken_by_header(entries, header):
    """No act, if the header tells that the desk has none of the open ones: all were sent to the file, and the desk has
    accepted as many as before the first of them. Otherwise None."""
    return {} if are_by_file(entries) and header.accepted == entries.open[0].count else None


def taken_by_moment(entries, header):
    """The one open act, by number, if the desk has accepted one more than before it, at its very moment. That is only
    believed if the journal lacks earlier acts, so that no rows can be compared. Otherwise None."""
    first = entries.open[0]
    if len(entries.open) > 1 or not are_by_file(entries) or not entries.missing(0, first.count):
        return None
    is_its = header.accepted == first.count + 1 and header.clock == first.moment
    return {header.accepted: first} if is_its else None


def are_by_file(entries):
    """Whether all open acts were sent to the file, after the last one that the desk has for sure."""
    return not any(entry.is_by_port or entry.below is not None or entry.count is None for entry in entries.open)


def taken_by_rows(entries, desk):
    """The open acts that the desk has, by number, or None where its rows do not tell: those of no desk that the acts of
    the journal make are the same, or those of several."""
    try:
        found = desk.rows()
        with private_folder() as folder:
            made = Comparison.begin(entries, found, folder).made_desks()
    except Refused:
        return None
    except Failed as error:
        note(f"the rows of {desk.name} cannot be compared: {error}")
        return None
    same = [each.taken for each in made if not each.differences]
    return same[0] if len(same) == 1 else None


def keep_accepted(taken, keep):
    """Keeps which open acts the desk has, by number, as lines of a journal, and says so."""
    for number, entry in sorted(taken.items(), key=lambda each: each[0]):
        note(f"{without_answer(entry)}: the desk has accepted it")
        keep("found", number=entry.number, count=number)


def without_answer(entry):
    return f"the journal has no answer to {entry.number} ({entry.words()})"


def report_open_acts(entries):
    """Says which acts are open, and how to find out what became of them."""
    for entry in entries.open:
        when = dated(entry.seconds()[0])
        note(f"{without_answer(entry)}, sent {when}: the desk may have accepted it")
    if entries.open:
        note(f"how to find out: {where_seen(entries.open)}; then {way_to_settle(entries.open)}")


def where_seen(unknown):
    """Where it can be seen what became of these acts. No sheet has a vote before the close."""
    if all(entry.is_vote for entry in unknown):
        return "gr-desk journal check compares the file of the desk"
    return "look at the status of its resolution, or at the roll"


def say_settled(journal, number, is_accepted, count):
    """Keeps what the Secretary says of an open act: whether the desk has accepted it, and by which number. It may be
    said again of one that was open, as long as no replay has entered what was said."""
    entries = journal.entries
    entry = entries.all.get(number)
    if entry is None or entry.fate is not Fate.OPEN and number not in entries.settled:
        raise Refused(f"nothing was changed: {number} is not an act whose answer is missing")
    count = number_said(entries, number, count) if is_accepted else None
    check_settles(entries, entry, count)
    journal.add("found", number=number, count=count)
    entry = journal.entries.all[number]
    if not is_accepted:
        held = ", and is on hold" if entry.fate is Fate.HELD else ""
        note(f"{number} ({entry.words()}) counts as not accepted{held}")
        return
    message = "" if tells_of_votes(journal.entries, count) else f", as act {count} of the desk"
    note(f"{number} ({entry.words()}) counts as accepted{message}")


def number_said(entries, number, count):
    """The number that the desk gave an act, by what is known of it where nothing says what became of it."""
    entries = entries.unsettled(number)
    entry = entries.all[number]
    if entry.fate is not Fate.OPEN:
        raise Refused(f"nothing was changed: by what the journal has after {number}, the desk has not accepted it")
    return number_of(entries, entry, count)


def check_settles(entries, entry, count):
    """Refuses what was said of an act before, and what does not go with later lines of the journal."""
    if entry.fate is Fate.OPEN:
        return
    if entry.fate is not Fate.GONE and entries.number_of(entry) == count:
        message = "not accepted" if count is None else "accepted"
        raise Refused(f"nothing was changed: {entry.number} counts as {message} already")
    try:
        entries.after(line_of("found", number=entry.number, count=count))
    except UnknownForm:
        message = "nothing was changed: the journal has lines after it that do not go with that"
        raise Refused(f"{message}; gr-desk journal list shows what became of {entry.number}") from None


def number_of(entries, entry, count):
    """The number that the desk gave an open act: this one, or else the only one that it may have."""
    free = entries.numbers_for(entry)
    if count is None:
        if free is None or len(free) != 1:
            message = "nothing was changed: it may have one of several numbers"
            raise Refused(f"{message}; say which the desk gave it, by --as COUNT: its answer began with `ok COUNT`")
        return free[0]
    if not entries.may_have(entry, count):
        message = f"nothing was changed: {entry.number} cannot be act {count} of the desk"
        why = "another act has that number, or acts that were sent before it or after it have others"
        raise Refused(f"{message}: {why}")
    return count
