"""The call for votes on a resolution (Constitution, A.3.1): what is voted on, how it is counted, and how to vote."""
from grdesk.ballots.form import folded, placed_in
from grdesk.desk.quorum import quorum_of
from grdesk.desk.rank import LETTERS
from grdesk.desk.sheet import proposer_of
from grdesk.output import counted, shown

HOW_COUNTED = """\
An option is dropped where fewer voters than 3Q prefer it to "None of the above" (Constitution, A.5.2). It is dropped
too unless more voters prefer it to "None of the above" than the other way round, and at least its ratio times as many
(A.5.3). Of two options that are left, one defeats the other where more voters prefer it (A.5.4), and does so
transitively where a path of defeats leads to the other (A.5.5). The Schwartz set has each option that transitively
defeats whichever option transitively defeats it; as long as there are defeats between its members, the weakest of these
are dropped, and it is found anew (A.5.6 and A.5.7). Where one option is left it has won, and among several the Project
Leader chooses one by the casting vote (A.5.8 and 4.2.4)."""

HOW_FOUND = """\
Once the vote is closed, the tally with all ballots is published, each with its receipt and without a name (4.2.3). A
receipt is the SHA-256 of three lines, each with its line end: the number of the resolution, your login, and your token.
So with these in the place of LOGIN and TOKEN

    printf '{number}\\nLOGIN\\nTOKEN\\n' | sha256sum

prints the receipt, beside which your ranks stand in the tally; there {letters}. Do this on your own machine, where
nobody else sees it."""


def call_of(status, form, roll):
    """The whole call."""
    names = {developer.login: developer.name for developer in roll}
    parts = [f"Call for votes\n{form.title}", folded(form.times()), "The options, by their places on the ballot:"]
    parts += ["\n".join(option(choice, names)) for choice in placed_in(status)]
    parts.append(f"{form.option(len(form.summaries))}\n\n    The default option (Constitution, 4.2.4).")
    parts += [folded(quorum_text(form.developers)), folded(f"How votes are counted: {HOW_COUNTED}")]
    parts += [folded("How you find your ballot in the tally: " + HOW_FOUND.format(number=form.number, letters=LETTERS))]
    return "\n\n".join([*parts, "How you vote:", form.text()])


def named(login, names):
    return f"{shown(names[login])} ({login})" if login in names else shown(login)


def proposer_text(choice, names):
    """Who proposes a choice, by name."""
    if choice.developer is not None:
        return f"proposed by {named(choice.developer, names)}"
    return proposer_of(choice)


def ratio_text(ratio):
    return "a simple majority" if ratio == 1 else f"a majority of {ratio}:1"


def option(choice, names):
    """The lines of an option."""
    sponsors = ", ".join(named(login, names) for login in choice.sponsors)
    message = proposer_text(choice, names) + (f", and sponsored by {sponsors}" if sponsors else "")
    yield f"Choice {choice.place}: {shown(choice.summary)}"
    yield ""
    for line in folded(f"{message[0].upper()}{message[1:]}. It needs {ratio_text(choice.ratio)}.").split("\n"):
        yield f"    {line}"
    yield ""
    for line in choice.text:
        yield f"    | {shown(line)}".rstrip()


def quorum_text(developers):
    """The quorum of a call, in sentences."""
    quorum = quorum_of(developers)
    current = f"{counted(developers, 'developer')} {'was' if developers == 1 else 'were'} current"
    message = f"At the call {current}, so that Q is "
    message += f"{quorum.q} and the quorum 3Q is {quorum.three_q}, each to two digits (Constitution, 4.2.4 and 4.2.7). "
    return f"{message}An option needs {counted(quorum.votes, 'vote')} above \"None of the above\" to meet it."
