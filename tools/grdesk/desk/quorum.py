"""The numbers of sponsors and of votes that the Constitution requires (4.2.4 and 4.2.7). Q is half the square root of
the number of current developers, and is not rounded; here it is given to two digits after the point."""
from math import isqrt
from typing import NamedTuple


def sponsors_wanted(developers):
    """The least number of sponsors that reaches K, which is Q, and 5 at most."""
    return next(count for count in range(6) if count >= 5 or 4 * count * count >= developers)


class Quorum(NamedTuple):
    """Q and 3Q, each to two digits, and the least number of votes that is no less than 3Q."""

    q: str
    three_q: str
    votes: int


def quorum_of(developers):
    below = isqrt(9 * developers // 4)
    votes = below if 4 * below**2 >= 9 * developers else below + 1
    return Quorum(hundredths(2_500 * developers), hundredths(22_500 * developers), votes)


def hundredths(square):
    """A number that is given by the square of its hundredths, rounded to these."""
    whole, rest = divmod((isqrt(4 * square) + 1) // 2, 100)
    return f"{whole}.{rest:02}"
