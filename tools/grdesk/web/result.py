"""The part of a page that reports a closed vote: who has won and how, each ballot, and by which sheets that is
reported."""
import hashlib

from grdesk.desk.quorum import quorum_of
from grdesk.desk.rank import LETTERS
from grdesk.web.graph import drawing
from grdesk.web.html import cell, isolated, paragraph, table
from grdesk.web.matrix import matrix


def outcome_parts(vote):
    """What a page of a closed vote begins with."""
    return [winner(vote), facts(vote)]


def count_parts(vote, tally, result):
    """The sections of a closed vote, from its two sheets."""
    return [
        "<h2>Options and tests</h2>", options(vote), "<h2>Preferences</h2>", matrix(vote),
        "<h2>Defeats</h2>", drawing(vote), "<h2>Rounds</h2>", rounds(vote), "<h2>Ballots</h2>", ballots(vote),
        "<h2>Counting again</h2>", digests(tally, result),
    ]


def option(vote, place):
    return f"choice {place}, {isolated(vote.options[place])}"


def winner(vote):
    """The last line of the result, as a sentence."""
    members = [option(vote, place) for place in vote.outcome]
    if vote.winner is None:
        message = f"There is no winner yet. The casting vote chooses among {', '.join(members[:-1])} and {members[-1]}"
    else:
        message = f"The winner is {option(vote, vote.winner)}"
        message += ", by the casting vote" if vote.last.endswith("by casting vote") else ""
    set_of = f'Outcome (the Schwartz set after the last round): <span id="outcome">{", ".join(members)}</span>.'
    return paragraph(f'<span id="last">{message}</span>.', class_="winner") + "\n" + paragraph(set_of)


def facts(vote):
    quorum = quorum_of(vote.developers)
    message = f'Ballots: <span id="ballots">{len(vote.ballots)}</span>.'
    if vote.received is not None:
        message += f' Received, with those that were replaced: <span id="received">{vote.received}</span>.'
    message += f' Developers who were current at the call: <span id="developers">{vote.developers}</span>, so that Q'
    message += f' is <span id="q">{quorum.q}</span> and the quorum 3Q is <span id="three-q">{quorum.three_q}</span>, '
    return paragraph(f"{message}which {quorum.votes} votes meet (Constitution, 4.2.4 and 4.2.7).")


def options(vote):
    """Each option with its test; the default option, which has the last place, has none."""
    rows = []
    for place, summary in vote.options.items():
        name = cell(place, "th", scope="row") + cell(isolated(summary))
        test = vote.tests.get(place)
        if test:
            counts = "".join(cell(count, class_="number") for count in (test.above, test.below, test.ratio))
            name += counts + "".join(map(cell, (test.quorum, test.majority, test.verdict)))
        else:
            name += cell("the default option", colspan=6)
        kind = "dropped" if test and test.verdict == "dropped" else "member" if place in vote.outcome else None
        rows.append(cell(name, "tr", id=f"option-{place}", class_=kind))
    head = ["Place", "Option", "Above the default", "Below it", "Ratio", "Quorum", "Majority", "Test"]
    return table("The options, and how many voters ranked them above and below the default option", head, rows)


def rounds(vote):
    """What each round dropped."""
    if not vote.rounds:
        return paragraph("No round dropped anything: no member of the Schwartz set defeats another.")
    rows = []
    for number, defeats in vote.rounds.items():
        for a, b in defeats:
            names = cell(f"{a} {isolated(vote.options[a])}") + cell(f"{b} {isolated(vote.options[b])}")
            counts = "".join(cell(vote.preferred[pair], class_="number") for pair in ((a, b), (b, a)))
            rows.append(cell(cell(number, "th", scope="row") + names + counts, "tr", id=f"round-{number}-{a}-{b}"))
    head = ["Round", "Winner of the defeat", "Loser", "For it", "Against it"]
    return table("The weakest defeats, which the rounds dropped (Constitution, A.5.7)", head, rows)


def ballots(vote):
    rows = [cell(cell(ranks) + cell(receipt), "tr", class_="ballot") for ranks, receipt in vote.ballots]
    caption = "Each ballot: a rank for each place, - for none, and the receipt by which its voter finds it"
    message = "A voter makes the receipt again from the resolution, the login and the token, and so finds the ballot."
    message += f" In the ranks {LETTERS}."
    return "\n".join([table(caption, ["Ranks", "Receipt"], rows, "ballots"), paragraph(message)])


def digests(tally, result):
    rows = []
    for name, text in ("tally", tally), ("result", result):
        digest = hashlib.sha256(text.encode()).hexdigest()
        rows.append(cell(cell(name, "th", scope="row") + cell(digest, class_="digest"), "tr", id=f"sha256-{name}"))
    message = "Whoever has the tally and the result can count again. All numbers of this page are theirs, or made of"
    message += " them."
    return "\n".join([paragraph(message), table("The SHA-256 of both sheets", ["Sheet", "SHA-256"], rows)])
