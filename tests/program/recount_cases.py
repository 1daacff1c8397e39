"""Changes of the sheets of examples/votes with what examples/recount says of each, and words of a voter with what
examples/check_receipt says of them, for test_recounts.py."""

KEPT = "above 9, below 0, ratio 1, quorum met, majority met, kept"


def says(sheet, number, line, must, text):
    """What is said of a line that must be another one: that it must say a text, have a form, or not be there."""
    said = f"Line {number} of the {sheet} says\n    {line}\nand {must}"
    return said if text is None else f"{said}\n    {text}"


# A line of a result, and what stands there instead: it is named, and so is what it must say.
WRONG_LINES = [
    ("cycle", "Result of resolution 1", "Result of resolution 2"),
    ("cycle", "Ballots: 9", "Ballots: 10"),
    ("cycle", "Option 2: Green", "Option 2: Grey"),
    ("cycle", "Option 4: None of the above", "Option 4: Further discussion"),
    ("cycle", f"Test 1: {KEPT}", f"Test 1: {KEPT}".replace("above 9", "above 8")),
    ("cycle", f"Test 3: {KEPT}", f"Test 3: {KEPT}".replace("below 0", "below 1")),
    ("cycle", f"Test 2: {KEPT}", f"Test 2: {KEPT}".replace("quorum met", "quorum failed")),
    ("cycle", f"Test 2: {KEPT}", f"Test 2: {KEPT}".replace("majority met", "majority failed")),
    ("cycle", f"Test 2: {KEPT}", f"Test 2: {KEPT}".replace("kept", "dropped")),
    ("cycle", "Pair 1 3: 4 5", "Pair 1 3: 5 4"),
    ("cycle", "Pair 3 4: 9 0", "Pair 3 4: 9 1"),
    ("cycle", "Round 1: drop 3>1 5:4", "Round 1: drop 1>2 6:3"),
    ("cycle", "Round 1: drop 3>1 5:4", "Round 1: drop 3>1 5:4, 1>2 6:3"),
    ("cycle", "Schwartz: 1", "Schwartz: 1 2"),
    ("cycle", "Winner: 1", "Winner: 2"),
    ("cycle", "Winner: 1", "Winner: 1 by casting vote"),
    ("cycle", "Winner: 1", "Casting vote needed"),
    ("cycle", "Winner: 1", "Winner: 1 "),
    ("opposition", "Round 1: drop 3>1 6:4", "Round 1: drop 2>3 6:3, 3>1 6:4"),
    ("outside", "Round 1: drop 3>1 5:4", "Round 1: drop 1>4 2:0"),
    ("tie", "Schwartz: 1 2 3", "Schwartz: 1 2"),
    ("tie", "Schwartz: 1 2 3", "Schwartz: 3 2 1"),
    ("tie", "Round 1: drop 1>2 2:1, 2>3 2:1, 3>1 2:1", "Round 1: drop 2>3 2:1, 1>2 2:1, 3>1 2:1"),
    ("tie", "Casting vote needed", "Winner: 1"),
    ("tie", "Casting vote needed", "Winner: 4 by casting vote"),
    ("long_cycle", "Schwartz: 1 2 3 4", "Schwartz: 1"),
    ("two_rounds", "Round 2: drop 1>2 7:4, 4>1 7:4", "Round 2: drop 1>2 7:4"),
    ("two_rounds", "Schwartz: 1 2", "Schwartz: 1 2 3"),
    ("no_ballot", "Winner: 2", "Winner: 1"),
    (
        "three_to_two",
        "Test 2: above 3, below 2, ratio 3, quorum met, majority failed, dropped",
        "Test 2: above 3, below 2, ratio 3, quorum met, majority met, kept",
    ),
    ("eleven_options", "Pair 10 11: 6 0", "Pair 10 11: 0 6"),
    ("eleven_options", "Winner: 1", "Winner: 11"),
    ("letters", "Pair 1 2: 4 1", "Pair 1 2: 5 0"),
]

# A line of a sheet that has not the form that is named after it.
TEST_1 = "Test 1: above COUNT, below COUNT, ratio RATIO, quorum ANSWER, majority ANSWER, VERDICT"
RECEIPT = "900eb73ab7e42d7eb72f6524157a5dfa609a0f27b79f9c9ac235cd6931258b07"
MALFORMED = [
    ("result", 2, "Voting: 2026-01-15T00:00:00Z to 2026-01-22", "Voting: TIME to TIME"),
    ("result", 3, "Developers: 04", "Developers: COUNT"),
    ("result", 3, "Developers: COUNT", "Developers: COUNT"),
    ("result", 9, "Test 1: above 3, below 0, ratio 0, quorum met, majority met, kept", TEST_1),
    ("tally", 1, "Tally of resolution 01", "Tally of resolution NUMBER"),
    ("tally", 2, "Option 2: Red", "Option 1: SUMMARY"),
    ("tally", 5, "Ballots: three", "Ballots: COUNT"),
    ("tally", 7, f"V: 103 {RECEIPT}", "V: RANKS RECEIPT"),
    ("tally", 7, f"V: 11A {RECEIPT}", "V: RANKS RECEIPT"),
    ("tally", 7, f"V: 113 {RECEIPT.upper()}", "V: RANKS RECEIPT"),
    ("tally", 7, f"V: 113 {RECEIPT}\r", "V: RANKS RECEIPT"),
]

# A vote, a text of its tally and one of its result with what stands there instead, and what is said of that. Nothing is
# changed where the text is empty.
AS_IT_IS = "", ""
OTHER_CHANGES = [
    # Ballots.
    (
        "cycle",
        ("V: 1234 ", "V: 1243 "),
        AS_IT_IS,
        says("result", 12, "Test 3: " + KEPT, "must say", "Test 3: " + KEPT.replace("9, below 0", "8, below 1")),
    ),
    ("cycle", ("V: 2314 ", "V: 2134 "), AS_IT_IS, says("result", 13, "Pair 1 2: 6 3", "must say", "Pair 1 2: 5 4")),
    (
        "cycle",
        ("Ballots: 9", "Ballots: 8"),
        ("Ballots: 9", "Ballots: 8"),
        "The tally says that it has 8 ballots, and has 9.",
    ),
    (
        "no_ballot",
        ("Ballots: 0", "Ballots: 2"),
        ("Ballots: 0", "Ballots: 2"),
        "The tally says that it has 2 ballots, and has 0.",
    ),
    ("level", ("V: 111 ", "V: 11 "), AS_IT_IS, "Line 6 of the tally must have 3 marks, and has\n    11"),
    (
        "letters",
        ("V: z9 ", "V: 9z "),
        AS_IT_IS,
        says(
            "result",
            8,
            "Test 1: above 4, below 1, ratio 1, quorum met, majority met, kept",
            "must say",
            "Test 1: above 5, below 0, ratio 1, quorum met, majority met, kept",
        ),
    ),
    (
        "eleven_options",
        ("V: 123456789ab ", "V: 123456789ba "),
        AS_IT_IS,
        says(
            "result",
            26,
            "Test 10: above 6, below 0, ratio 1, quorum met, majority met, kept",
            "must say",
            "Test 10: above 5, below 1, ratio 1, quorum failed, majority met, dropped",
        ),
    ),
    ("whole_vote", (f"V: 113 {RECEIPT}\n", ""), AS_IT_IS, "The tally says that it has 3 ballots, and has 2."),
    (
        "whole_vote",
        (RECEIPT, "f" * 64),
        AS_IT_IS,
        "The ballots of the tally do not stand in the order of their receipts.",
    ),
    # Other sheets.
    (
        "cycle",
        ("Tally of resolution 1", "Tally of resolution 2"),
        AS_IT_IS,
        says("result", 1, "Result of resolution 1", "must say", "Result of resolution 2"),
    ),
    (
        "cycle",
        ("Option 3: Blue\nOption 4", "Option 3"),
        AS_IT_IS,
        "Line 6 of the tally must have 3 marks, and has\n    3124",
    ),
    (
        "no_ballot",
        ("Option 2: None", "Option 2: Some"),
        ("Option 2: None", "Option 2: Some"),
        "The tally must have 2 to 35 options, and the last one must be None of the above.",
    ),
    (
        "no_ballot",
        ("Option 2: ", "".join(f"Option {place}: C{place}\n" for place in range(2, 36)) + "Option 36: "),
        AS_IT_IS,
        "The tally must have 2 to 35 options, and the last one must be None of the above.",
    ),
    (
        "no_ballot",
        ("Option 2: ", "Option 2: Red\nOption 3: "),
        AS_IT_IS,
        says("result", 7, "Option 2: None of the above", "must say", "Option 2: Red"),
    ),
    # Votes that were received: too few, too many for no ballot, in another form, twice, and at another place.
    (
        "cycle",
        AS_IT_IS,
        ("Received: 9", "Received: 8"),
        says("result", 5, "Received: 8", "must say at least", "Received: 9"),
    ),
    (
        "no_ballot",
        AS_IT_IS,
        ("Received: 0", "Received: 1"),
        says("result", 5, "Received: 1", "must say", "Received: 0"),
    ),
    (
        "cycle",
        AS_IT_IS,
        ("Received: 9", "Received: 09"),
        says("result", 5, "Received: 09", "must have the form", "Received: VOTES"),
    ),
    (
        "cycle",
        AS_IT_IS,
        ("Received: 9\n", "Received: 9\nReceived: 9\n"),
        says("result", 6, "Received: 9", "must say", "Option 1: Red"),
    ),
    (
        "cycle",
        AS_IT_IS,
        ("Ballots: 9\nReceived: 9\n", "Received: 9\nBallots: 9\n"),
        says("result", 4, "Received: 9", "must say", "Ballots: 9"),
    ),
    # What is on trust: with another number of developers or another ratio the verdict is another one.
    (
        "cycle",
        AS_IT_IS,
        ("Developers: 16", "Developers: 37"),
        says(
            "result",
            10,
            "Test 1: " + KEPT,
            "must say",
            "Test 1: above 9, below 0, ratio 1, quorum failed, majority met, dropped",
        ),
    ),
    (
        "three_to_one",
        AS_IT_IS,
        ("ratio 3", "ratio 4"),
        says(
            "result",
            10,
            "Test 2: above 3, below 1, ratio 4, quorum met, majority met, kept",
            "must say",
            "Test 2: above 3, below 1, ratio 4, quorum met, majority failed, dropped",
        ),
    ),
    # Lines too many, and too few.
    ("cycle", AS_IT_IS, ("Winner: 1\n", "Winner: 1\n\n"), says("result", 22, "", "must not be there", None)),
    (
        "cycle",
        AS_IT_IS,
        ("Winner: 1\n", "Winner: 1\nWinner: 1\n"),
        says("result", 22, "Winner: 1", "must not be there", None),
    ),
    ("cycle", AS_IT_IS, ("Winner: 1\n", ""), "Line 21 of the result is missing\nand must say\n    Winner: 1"),
    ("cycle", AS_IT_IS, ("Winner: 1\n", "Winner: 1"), "The last line of the result has no line feed after it."),
    ("cycle", AS_IT_IS, ("Pair 2 3: 7 2\n", ""), says("result", 16, "Pair 2 4: 9 0", "must say", "Pair 2 3: 7 2")),
    (
        "cycle",
        AS_IT_IS,
        ("Round 1: drop 3>1 5:4\n", ""),
        says("result", 19, "Schwartz: 1", "must say", "Round 1: drop 3>1 5:4"),
    ),
    (
        "three_to_two",
        AS_IT_IS,
        ("Pair 1 3: 5 0\n", "Pair 1 2: 2 3\nPair 1 3: 5 0\n"),
        says("result", 11, "Pair 1 2: 2 3", "must say", "Pair 1 3: 5 0"),
    ),
]

# What recount takes on trust of the two forms of one result: of a desk of today, and of one of version 1.
TRUST = """on trust: votes were taken from 2026-01-15T00:00:00Z to 2026-01-22T00:00:00Z
on trust: 4 developers were current at the call
on trust: the ballots of the tally, 3 in number, are those that were cast
on trust: {}
on trust: option 1 is Red, with the majority ratio 1
on trust: option 2 is Green, with the majority ratio 1
on trust: the casting vote chose option 1
"""
TRUSTED = {
    "whole_vote": "4 votes were received, with those that a later one replaced",
    "earlier_form": "the result is of a desk of version 1, which did not count the votes that were replaced",
}

# Words for a voter's ballot that no vote can have, or a line in the place of the token, and what is said of that.
LETTERS = "a token has letters and digits alone, and this one has something else, as a space"
IS_RECEIPT = "a receipt stands where the token is needed, of which it was made"
LOGIN = "LOGIN has a..z, 0..9, '.', '_' and '-' alone, and begins with a letter or a digit; '{}' does not"
NUMBER = "RESOLUTION is a number with no zero in front, and not '{}'"
SLIPS = [
    ("1", "d1", "token tokenA01", "the token is what stands behind the word 'token': leave that word out"),
    ("1", "d1", f"ok 5 receipt {RECEIPT}", IS_RECEIPT),
    ("1", "d1", f"receipt {RECEIPT}", IS_RECEIPT),
    ("1", "d1", f"V: 113 {RECEIPT}", IS_RECEIPT),
    ("1", "d1", "tokenA01 ", LETTERS),
    ("1", "d1", "tokenA0.", LETTERS),
    ("1", "d1", "tökenA01", LETTERS),
    ("1", "d1", "tokenA0", "a token has 8 to 64 letters and digits, and this one has 7"),
    ("1", "d1", "t" * 65, "a token has 8 to 64 letters and digits, and this one has 65"),
    ("1", "", "tokenA01", LOGIN.format("")),
    ("1", "D1", "tokenA01", LOGIN.format("D1")),
    ("1", "d1@debian.org", "tokenA01", LOGIN.format("d1@debian.org")),
    ("1", "-d1", "tokenA01", LOGIN.format("-d1")),
    ("", "d1", "tokenA01", NUMBER.format("")),
    ("01", "d1", "tokenA01", NUMBER.format("01")),
    ("one", "d1", "tokenA01", NUMBER.format("one")),
]
