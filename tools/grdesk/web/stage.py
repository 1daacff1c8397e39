"""The part of a page that describes a resolution whatever its stage: its times, its choices with their texts, and what
was amended. Nothing of a ballot is in it, nor the desk's clock, nor how many acts it has accepted."""
from dataclasses import dataclass
from typing import Optional

from grdesk.ballots.form import placed_in, title_of
from grdesk.dates import date_of
from grdesk.desk.quorum import sponsors_wanted
from grdesk.desk.rank import DEFAULT_OPTION
from grdesk.desk.sheet import Status
from grdesk.journal.listing import choice_in, moment_text
from grdesk.output import counted
from grdesk.web.html import cell, document, isolated, paragraph, table, text_block

# What is said of a stage, and once its time is over.
STAGES = {
    "Draft": ("A draft: no choice is introduced yet.", ""),
    "Discussing": ("Under discussion.", "The discussion is over, and the call for votes comes next."),
    "Voting": ("In voting.", "The time for votes is over, and the close comes next."),
    "Closed": ("The vote is closed.", ""),
    "Cancelled": ("Cancelled: it was called while no choice was live.", ""),
}


@dataclass
class Stage:
    """A resolution at a moment. `row` is that of the file, or None by a port; `roll` has the developers by login,
    and `entries` are the acts of a journal, or None."""

    status: Status
    roll: dict
    at: int
    row: Optional[dict] = None
    entries: Optional[object] = None

    @property
    def summary(self):
        """The first summary, of those on the ballot where it was called."""
        return [*placed_in(self.status), *self.status.choices][0].summary

    def page(self, before=(), behind=()):
        """The whole page, with what stands before the times, and after all."""
        number, parts = self.status.number, [self.head(), *before, *self.parts(), *behind]
        return document(title_of(number, self.summary), title_of(number, isolated(self.summary)), parts)

    def parts(self):
        """The sections of every stage."""
        return ["<h2>Times</h2>", self.times(), "<h2>Choices</h2>", *self.choices(), *self.amendments()]

    def head(self):
        description, over = STAGES[self.status.stage]
        span = self.status.voting or self.status.discussion
        description = over if over and self.at >= span[1] else description
        as_of = "" if self.status.stage in ("Closed", "Cancelled") else f" As of {date_of(self.at)}."
        return paragraph(f'<span id="stage">{description}</span>{as_of}')

    def times(self):
        rows = []
        for name, span in ("Discussion", self.status.discussion), ("Voting", self.status.voting):
            if span:
                begin, end = map(date_of, span)
                rows.append(cell(cell(name, "th", scope="row") + cell(begin) + cell(end), "tr", id=name.lower()))
        if not rows:
            return paragraph("A discussion begins once a choice is introduced (Constitution, A.1.1).")
        return "\n".join([table("All times are in UTC", ["", "Begins", "Ends"], rows), *self.moved()])

    def moved(self):
        """What moved the end of the discussion, as far as the file says."""
        if self.row is None:
            return
        if self.row["changed"]:
            yield paragraph(f"The ballot was changed last {date_of(self.row['changed'])} (Constitution, A.1.4).")
        if self.row["shift"]:
            days = f"{counted(abs(self.row['shift']), 'day')} {'more' if self.row['shift'] > 0 else 'less'}"
            yield paragraph(f"The Leader has varied the discussion by {days} (Constitution, A.1.6).")

    def choices(self):
        """Those on the ballot by their places, where it was called, and the others after them."""
        if self.status.voting is None:
            for choice in self.status.choices:
                yield from self.choice(choice)
            return
        placed = placed_in(self.status)
        for choice in placed:
            yield from self.choice(choice)
        yield cell(f"Choice {len(placed) + 1}: {DEFAULT_OPTION}", "h3")
        yield paragraph("The default option (Constitution, 4.2.4).")
        for choice in self.status.choices:
            if not choice.place:
                yield from self.choice(choice)

    def choice(self, choice):
        yield cell(f"{self.name(choice)}: {isolated(choice.summary)}", "h3", id=f"choice-{choice.number}")
        yield paragraph(" ".join(self.facts(choice)))
        yield text_block(choice.text)

    def name(self, choice):
        """What a choice is called: by its number, and once it was called by its place on the ballot."""
        if self.status.voting is None:
            return f"Choice {choice.number}"
        return f"Choice {choice.place}" if choice.place else "Not on the ballot"

    def named(self, login):
        return f"{isolated(self.roll[login].name)} ({isolated(login)})" if login in self.roll else isolated(login)

    def facts(self, choice):
        """Who stands behind a choice, and whether it is live."""
        if choice.developer is not None:
            yield f"Proposed by {self.named(choice.developer)}."
        else:
            yield "Nobody proposes it." if choice.proposer == "none" else f"Proposed by the {choice.proposer}."
        if choice.sponsors:
            yield f"Sponsored by {', '.join(map(self.named, choice.sponsors))}."
        if self.status.stage in ("Draft", "Discussing"):
            yield self.wants(choice)
        if choice.ratio > 1:
            yield f"It needs a majority of {choice.ratio}:1."
        if choice.introduced is None:
            yield "It is not introduced."
        else:
            yield f"Introduced {date_of(choice.introduced)}."
        if choice.short is not None and not choice.place:
            lapse = choice.lapse
            end = f"has lapsed {date_of(lapse)}" if self.at >= lapse else f"lapses {date_of(lapse)} if that stays so"
            since = date_of(choice.short)
            yield f"It is short of a proposer or of sponsors since {since}, and {end} (Constitution, A.2.3)."

    def wants(self, choice):
        """How many sponsors a choice has and needs, by the roll as it is now."""
        has = f"It has {counted(len(choice.sponsors), 'sponsor')}"
        if choice.proposer in ("leader", "committee"):
            return f"{has}; none is needed (Constitution, 4.2.1)."
        wanted = sponsors_wanted(sum(developer.is_current for developer in self.roll.values()))
        verb = "is" if wanted == 1 and choice.proposer != "none" else "are"
        proposer = "a proposer and " if choice.proposer == "none" else ""
        return f"{has}; {proposer}{wanted} {verb} needed (Constitution, 4.2.1 and 4.2.7)."

    def amendments(self):
        """What each accepted amendment took away, by the journal."""
        if self.entries is None:
            return
        summaries, lines = {}, []
        for _, entry in sorted(self.entries.accepted.items()):
            if entry.resolution == str(self.status.number):
                choice = choice_in(entry)
                if entry.act == "amend" and choice in summaries:
                    lines += [self.amended(entry, choice), text_block(text_lines(summaries[choice]))]
                if choice is not None:
                    summaries[choice] = entry.fields
        yield "<h2>Amendments</h2>"
        yield from lines or [paragraph("Nothing was amended.")]

    def amended(self, entry, choice):
        kind = "a minor" if entry.fields["minor"] == "1" else "a substantial"
        paragraphs = "A.1.5" if kind == "a minor" else "A.1.3"
        name = self.name(self.status.choices[int(choice) - 1])
        message = f"{name} got {kind} amendment {moment_text(entry).split(' (')[0]} (Constitution, {paragraphs})"
        return paragraph(f"{message}, and is now {isolated(entry.fields['summary'])}. Before, it was:")


def text_lines(fields):
    """A wording as lines, its summary first."""
    return [fields["summary"], "", *fields["text"].removesuffix("\n").split("\n")]
