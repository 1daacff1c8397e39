"""What a refusal means, in sentences: whatever the desk has, and on the desk as it is."""
import csv
import io
import re
from itertools import islice

from grdesk.acts.act import ROLL
from grdesk.dates import dated
from grdesk.desk.limit import CHANGE, DAY, EARLIEST, LATEST, LONGEST, NOTICE, SHORTEST, VARIATIONS
from grdesk.desk.sheet import proposer_of
from grdesk.output import counted, shown

# What is said of a stage, and the acts that are taken in it.
STAGE_TEXTS = {
    "Draft": ("is a draft", ["sponsor", "unsponsor", "withdraw", "adopt", "amend"]),
    "Discussing": (
        "is under discussion",
        ["choice", "sponsor", "unsponsor", "withdraw", "adopt", "amend", "vary", "call"],
    ),
    "Voting": ("is in voting", ["vote", "close"]),
    "Closed": ("is closed", ["cast"]),
    "Cancelled": ("is cancelled", []),
}

# What each refusal means, whatever the desk has.
MEANINGS = {
    "BadMoment": f"a desk takes acts that are dated from {dated(EARLIEST)} to {dated(LATEST)}",
    "ClockBack": "a desk takes no act that is dated before its last one",
    "BadLogin": "a login has 1 to 32 of the characters a to z, 0 to 9, '.', '_' and '-', and begins with a letter or a "
                "digit",
    "BadText": "a name or a summary has 1 to 80 characters, a text 1 to 20,000 bytes; none has a control "
               "character, except tabs and line ends in a text",
    "BadRatio": "a ratio is 1 to 9",
    "BadDays": "the days of vary are -7 to 7, and those of call 7 to 21",
    "BadToken": "a token has 8 to 64 characters, each of them a letter of A to Z or a to z, or a digit",
    "Full": "a desk has 2,000 developers at most, 200 resolutions, 34 choices of each, and 1,000,000,000 acts; an "
            "import has 2,000 rows at most",
    "NoResolution": "there is no resolution with this number; they are numbered from 1 on, as they were proposed",
    "NoChoice": "there is no choice with this number, or for cast no place",
    "WrongStage": "the stage of the resolution, which its status shows, does not allow this act",
    "Ended": "the time for this act was over at its date; only an earlier date would do, but none before the desk's "
             "clock",
    "TooEarly": "a call waits for the end of the discussion, and a close for that of the time for votes",
    "NoDeveloper": "nobody on the roll has this login",
    "NotCurrent": "this developer is retired on the roll",
    "Lapsed": "the choice was short for 24 hours, and no act names it any more (Constitution, A.2.3)",
    "Already": "the developer sponsors the choice already, or proposes it; or the casting vote was used before",
    "NotSponsor": "this developer is no sponsor of the choice",
    "HasProposer": "the choice has a proposer; others who step forward are entered by sponsor (Constitution, A.2.1)",
    "NoProposer": "nobody proposes the choice, so nobody can withdraw from it",
    "EndsTooSoon": "by these days the discussion would end within 48 hours (Constitution, A.1.6)",
    "BadRanks": "the ranks are a character for each place of the ballot: 1 to 9, then a to z, or - for no rank",
    "NotTied": "the casting vote chooses among several options that are level in the end (Constitution, A.5.8)",
    "BadRoll": "the row of this record has a login or a name that is not well formed, a status that is neither current "
               "nor retired, or the login of an earlier row",
    "NotRevealed": "nothing of the ballots is shown before the vote is closed (Constitution, 4.2.3)",
}
REFUSED = re.compile(r"refused [0-9]+ ([A-Za-z]+)(?: ([0-9]+))?\n")

# Of a record that is longer no more characters are reported. One may have all of an import.
MOST_OF_A_RECORD = 200

NUMBER_FORM = "a whole number in decimal, with no zero in front"
# What a field has to be that the desk takes for none of its form.
FIELD_FORMS = {
    "choice": NUMBER_FORM,
    "place": NUMBER_FORM,
    "ratio": NUMBER_FORM,
    "days": f"{NUMBER_FORM}, or one after a hyphen",
    "status": "current or retired",
    "minor": "0 for a substantial amendment, or 1 for a minor one",
}


# What a refusal means for an act as it is.


def login_given(situation):
    return f"the login is {shown(situation.login())!r}"


def texts_given(situation):
    texts = [f"the {field} has {counted(len(situation.text(field)), 'character')}"
             for field in ("name", "summary") if field in situation.values]
    if "text" in situation.values:
        texts.append(f"the text has {counted(len(situation.values['text']), 'byte')}")
    return ", and ".join(texts)


# What it means on the desk as it is: a sentence, or None where that says no more.


def clock_back(situation):
    """The desk itself says, in a copy, whether it would take the act at its clock."""
    clock = situation.view.clock()
    answer = None if clock is None else situation.view.tried(situation.act(), clock)
    if answer is None:
        return None
    if answer.status == 200:
        return f"possible from {dated(clock)} on"
    if refused := REFUSED.fullmatch(answer.body.decode(errors="replace")):
        why = "; ".join(refusal(situation.at_moment(clock), *refused.groups()))
        return f"at the desk's clock, {dated(clock)}, it would be refused too: {why}"
    return None


def no_choice(situation):
    status = situation.status()
    if situation.name == "cast":
        return f"the ballot of {situation.named()} has the places 1 to {places_of(status)}"
    count = len(status.choices)
    return f"{situation.named()} has {f'the choices 1 to {count}' if count > 1 else 'choice 1 alone'}"


def places_of(status):
    """How many places a ballot has, that of the default option among them."""
    return sum(choice.place is not None for choice in status.choices) + 1


def wrong_stage(situation):
    description, acts = STAGE_TEXTS[situation.status().stage]
    return f"{situation.named()} {description}, which takes {', '.join(acts) if acts else 'no act any more'}"


def ended(situation):
    status = situation.status()
    is_vote = situation.name == "vote"
    what, (_, end) = ("voting on", status.voting) if is_vote else ("discussion of", status.discussion)
    return f"the {what} {situation.named()} ended {dated(end)}; {situation.earlier(end)}"


def too_early(situation):
    status = situation.status()
    is_close = situation.name == "close"
    what, (_, end) = ("voting on", status.voting) if is_close else ("discussion of", status.discussion)
    if end > LATEST:
        return f"the {what} {situation.named()} ends {dated(end)}, and a desk takes no act that late"
    return f"the {what} {situation.named()} ends {dated(end)}; possible from then on"


def not_current(situation):
    developer = situation.view.roll()[situation.login()]
    return f"it is {developer.login}, {shown(developer.name)}; developer with status=current changes that"


def lapsed(situation):
    choice = situation.choice()
    short, end = dated(choice.short), choice.lapse
    return f"choice {choice.number} is short since {short}, and lapsed {dated(end)}; {situation.earlier(end)}"


def already(situation):
    if situation.name == "cast":
        return f"the last line of the result of {situation.named()} has the place that was chosen"
    choice, login = situation.choice(), situation.login()
    if login in choice.sponsors:
        return f"{login} sponsors choice {choice.number}"
    return f"{login} proposes choice {choice.number}"


def not_sponsor(situation):
    choice = situation.choice()
    return f"the sponsors of choice {choice.number} are: {', '.join(choice.sponsors) or 'none'}"


def has_proposer(situation):
    choice = situation.choice()
    return f"choice {choice.number} is {proposer_of(choice)}"


def ends_too_soon(situation):
    start = situation.status().discussion[0]
    rows = situation.view.rows("resolution")
    changed = 0 if rows is None else rows[situation.resolution,]["changed"]
    fit = [days for days in VARIATIONS if end_with(start, changed, days) >= situation.at + NOTICE]
    if rows is not None:
        return f"{days_text(fit)} would do at this date" if fit else "no days would do at this date"
    # A change that no sheet reports can only put the end off.
    return f"by the machine's clock {days_text(fit)} would do, and maybe fewer" if fit else None


def days_text(days):
    return f"days={days[0]} to {days[-1]}" if len(days) > 1 else f"days={days[0]}"


def end_with(start, changed, days):
    """When a discussion would end that has such a variation, and was changed last at this moment, or never
    (Constitution, A.1.1, A.1.4 and A.1.6)."""
    earliest, latest = (start + length + days * DAY for length in (SHORTEST, LONGEST))
    return sorted([earliest, changed + CHANGE, latest])[1] if changed else earliest


def bad_ranks(situation):
    given = counted(len(situation.text("ranks")), "character")
    return f"the ballot of {situation.named()} has {places_of(situation.status())} places, and the ranks have {given}"


def not_tied(situation):
    places = situation.view.outcome(situation.resolution).places
    if len(places) == 1:
        return f"place {places[0]} has won {situation.named()}"
    return f"in {situation.named()} these places are level: {', '.join(map(str, places))}"


OF_ACT = {"BadLogin": login_given, "BadText": texts_given, "NoDeveloper": login_given}
OF_DESK = {
    "ClockBack": clock_back,
    "NoChoice": no_choice,
    "WrongStage": wrong_stage,
    "Ended": ended,
    "TooEarly": too_early,
    "NotCurrent": not_current,
    "Lapsed": lapsed,
    "Already": already,
    "NotSponsor": not_sponsor,
    "HasProposer": has_proposer,
    "EndsTooSoon": ends_too_soon,
    "BadRanks": bad_ranks,
    "NotTied": not_tied,
}


def record_text(roll, number):
    """A record of a roll file, as it stands there, or as much of it as is well read in a line."""
    csv.field_size_limit(len(roll) + 1)
    text = io.StringIO(roll.decode("utf-8-sig", errors="replace"), newline="")
    try:
        records = (record for record in csv.reader(text) if record)
        record = next(islice(records, number - 1, None), None)
    except csv.Error:
        record = None
    if record is None:
        return f"there is no record {number}"
    text = ",".join(record)
    excerpt = text if len(text) <= MOST_OF_A_RECORD else f"{text[:MOST_OF_A_RECORD]}.."
    return f"record {number} is {shown(excerpt)!r}"


def refusal(situation, name, record):
    """The sentences of a refusal; that of a row has the number of its record."""
    yield f"{name}: {MEANINGS[name]}"
    if record:
        yield record_text(situation.values[ROLL], int(record))
    if name in OF_ACT:
        yield OF_ACT[name](situation)
    if situation.view and name in OF_DESK and (detail := OF_DESK[name](situation)):
        yield detail


def wrong_request(situation, line):
    """The sentences of what is no refusal of the desk's, as it was not asked yet."""
    if field := re.fullmatch("bad field ([a-z]+)\n", line):
        yield f"{field[1]}= must be {FIELD_FORMS[field[1]]}"
    if record := re.fullmatch("bad roll ([0-9]+)\n", line):
        yield "the first record of a roll file is login,name,status, and each further one has three fields in UTF-8"
        yield record_text(situation.values[ROLL], int(record[1]))
    if line == "too large\n":
        yield "an import has 1,048,576 bytes at most; import the roll in parts, since an import removes nobody"
