"""The ranks of a ballot, as the desk writes them: a character for each place, last that of the default option."""
RANKS = "123456789abcdefghijklmnopqrstuvwxyz"
NO_RANK = "-"
# What a reader of a tally needs to know of those above 9.
LETTERS = "a stands for 10, b for 11, and so on up to z for 35"
DEFAULT_OPTION = "None of the above"


def rank_number(mark):
    """The rank that a character stands for: 1 to 35, or 0 for none."""
    return RANKS.find(mark) + 1


def preference_of(mark):
    """How far behind the first rank a character is: 0 to 34, and after all of them what has no rank."""
    return (RANKS + NO_RANK).index(mark)
