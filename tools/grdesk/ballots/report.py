"""The tables that a Secretary is shown of the ballots that came. They name voters, so they are for nobody else."""
from collections import Counter

from grdesk.ballots.answer import why_refused
from grdesk.ballots.batch import LEFT, SENT, UNANSWERED, Standing
from grdesk.dates import date_of
from grdesk.output import counted, shown

# What the Secretary can do if nothing says which ballot is the last one.
ADVICE = [
    "    Ask the voter which ballot counts, and then do what the table says below it. The next run shows it again,",
    "    until it was entered or taken out of FOLDER.",
]
# A host settles only what the time of a file or an mbox leaves open, and only if none was given.
HOST_ADVICE = "    If your own server received these mails, name it by --received-by HOST: it may show the order."
UNWRITTEN = "Not every answer was written: run this again, which writes the missing ones\n"
OVERTAKEN = "a later one was entered; if the voter sent this one again since, the line below enters it"


def when(arrival, *more):
    """When a mail arrived, by what that is known, what the voter says, and from whom it is. No signature is checked,
    and a From is what its sender wrote there, so it stands at the end."""
    date, sender = arrival.mail.date(), arrival.mail.sender_text()
    facts = [f"arrived {date_of(arrival.moment)}, {arrival.by.value}"]
    facts += [f"dated {date_of(date)}"] if date is not None else []
    facts += ["signature not checked" if arrival.is_signed else "unsigned"] if arrival.is_signed is not None else []
    return "; ".join([*facts, *more, *([f"From: {shown(sender)}"] if sender else [])])


def heading(text, ballots):
    return f"{text[0].upper()}{text[1:]}: {counted(len(ballots), 'ballot')}"


class Table:
    """The table of all that came, by what becomes of it. `places` are where votes and mails are, and `remedy` has what
    the Secretary types for what is left undecided. `host` is the server whose times count, or None."""

    def __init__(self, batch, form, roll, places, remedy, host=None):
        self.batch, self.form, self.roll, self.places, self.remedy = batch, form, roll, places, remedy
        self.advice = ADVICE if host else [*ADVICE, HOST_ADVICE]

    def text(self, strays):
        lines = [self.form.title, "", *lines_of_strays(strays), *self.answered_before()]
        for standing in Standing:
            new = [each for each in self.batch.ballots if each.standing is standing and not each.is_reported]
            if new:
                lines.append(heading(standing.value, new))
                lines += self.advice if standing is Standing.UNDECIDED else []
                for each in new:
                    lines += self.lines_of(each)
        return "\n".join([*lines, "", ""])

    def answered_before(self):
        """How many ballots were answered before, and of these what was refused or is not as it was."""
        if before := [each for each in self.batch.ballots if each.is_reported]:
            counts = Counter(each.standing for each in before)
            message = f"{counts[Standing.COUNTED]} entered, {counts[Standing.REFUSED]} refused"
            message += f", {counts[Standing.REPLACED]} replaced"
            places = f"the journal is {self.places[0]}, and the mails went to {self.places[1]}"
            yield f"{heading('answered before', before)}, {message}; {places}"
            refused = (each for each in before if each.standing is Standing.REFUSED)
            yield from (self.line_of(each, why_refused(each.why)) for each in refused)
        if moved := [each for each in self.batch.ballots if each.is_moved]:
            yield f"{heading('came before, and the file has another time now', moved)}; the time in the journal counts"
            for each in moved:
                # A text may have been sent again. A mail would have another Message-ID then.
                if self.batch.is_overtaken(each) and "message_id" not in each.arrival.source:
                    yield self.line_of(each, OVERTAKEN)
                    yield from self.lines_to_type(each)

    def lines_of(self, ballot):
        """What is reported of a ballot: of one that is entered no more than whose it is."""
        if ballot.standing in (Standing.COUNTED, Standing.REPLACED):
            yield self.line_of(ballot, when(ballot.arrival))
            return
        yield self.line_of(ballot)
        is_sent = ballot.standing in SENT
        yield f"        {when(ballot.arrival, *(['votes again'] if ballot.votes_again and is_sent else []))}"
        if is_sent:
            yield from (f"        {line}" for line in self.form.filled(ballot.ranks))
        elif ballot.why:
            yield f"        {why_refused(ballot.why)}"
        if ballot.standing in LEFT:
            yield from self.lines_to_type(ballot)

    def lines_to_type(self, ballot):
        yield from (f"        {line}" for line in self.remedy.lines(ballot))

    def line_of(self, ballot, *more):
        return "    " + ": ".join([self.name_of(ballot.login), shown(ballot.arrival.mail.name), *more])

    def name_of(self, login):
        # A desk that was put back may not have a developer of its journal.
        return f"{login}, {shown(self.roll[login].name)}" if login in self.roll else login

    def unanswered(self, is_written=True):
        """The voters to whom there is no answer yet, and that answers are missing if they could not be written."""
        left = [(each.login, each.standing) for each in self.batch.ballots if each.standing in UNANSWERED]
        left += [(login, Standing.GONE) for login in self.batch.gone()]
        unwritten = "" if is_written else UNWRITTEN
        if not left:
            return unwritten or "Every voter has an answer\n"
        lines = (f"    {self.name_of(login)}: {standing.value}" for login, standing in dict.fromkeys(left))
        return "\n".join(["Without an answer:", *lines, unwritten])


def lines_of_strays(strays):
    """What is left out: what is no voter's, and trashed mails and drafts. A misspelt login is among these, so they come
    first."""
    if strays:
        yield f"Left out, and why: {counted(len(strays), 'name')} in FOLDER"
    for each in strays:
        yield f"    {shown(each.name)}: {each.why}" + ("; a form is filled in there" if each.is_filled else "")


def end_of_strays(strays):
    """What is said at the end of what is left out."""
    return f"{counted(len(strays), 'name')} in FOLDER left out: see the top of the table\n" if strays else ""


def summary(sent, numbers, journal):
    """What came of the ballots that were sent, with their numbers in the journal."""
    if not sent:
        return "There was no vote to send\n"
    counts = Counter(each.standing for each in sent)
    message = f"{counted(counts[Standing.COUNTED], 'vote')} of {len(sent)} entered, {counts[Standing.REFUSED]} refused"
    if not numbers:
        return f"{message}\n"
    span = numbers[0] if len(numbers) == 1 else f"{numbers[0]} to {numbers[-1]}, in the order of the table"
    return f"{message}; in {journal} as {span}\n"
