"""Which refusals of a vote are final. Only these are answered to the voter; after any other one nothing is lost, and
the next run sends the ballot again."""
from grdesk.acts.refusal import MEANINGS, REFUSED

# The refusals that can never become acceptance, and why.
FINAL = {
    "BadToken": "the token of the form stays as it is",
    "BadRanks": "the ranks of the form stay as they are, and so does the ballot of a vote that was called",
    "WrongStage": "the vote is closed, and no vote is opened again",
}
# It is final too, but only for a mail that came at the end or later: one that came in time can be entered at that time.
ENDED = "Ended"

RUN_AGAIN = "look at what has changed on the desk, and run this again"
# What the Secretary does after another refusal: by the file of a desk, and by a port.
ROLL_CHANGED = "the roll has changed since the table was made: run this again"
REMEDIES = {
    "ClockBack": (
        "the desk has got an act with a later date since the table was made: run this again",
        "the desk's clock is later than the machine's: run this again once the machine's clock has passed it",
    ),
    "Ended": (
        RUN_AGAIN,
        "it arrived in time, and the vote is over by the desk's clock: end `serve`, and before any other act run this "
        "again with DESK, which enters it at its arrival",
    ),
    "NoDeveloper": (ROLL_CHANGED, ROLL_CHANGED),
    "NotCurrent": (ROLL_CHANGED, ROLL_CHANGED),
    "BadMoment": 2 * ("look at the machine's clock, and run this again",),
    "NoResolution": 2 * ("check that this is the desk of the vote, and run this again",),
}


def name_of(answer):
    """The name of a refusal, from the line that answers an act; None for another answer."""
    found = REFUSED.fullmatch(answer)
    return found and found[1]


def is_final(answer, is_late):
    """Whether no later answer to the same vote can be another one. `is_late` is whether its mail came at the end or
    later."""
    name = name_of(answer)
    return name in FINAL or name == ENDED and is_late


def remedy(answer, is_port):
    """What a passing refusal means, and what to do now."""
    name = name_of(answer)
    message = f"{name}: {MEANINGS[name]}" if name in MEANINGS else "the desk gave an answer that no vote gets"
    return f"{message}. Nothing is lost; {REMEDIES.get(name, 2 * (RUN_AGAIN,))[is_port]}"
