"""Counts the instructions of a vote, a load, a result and a casting vote, by valgrind: count.py PROGRAM. What a run does
before them is counted in a run without them, and is not in the figures; nor is what it takes to make the commands."""
import re
import subprocess
import sys
import tempfile

VOTERS = 500


def instructions(*words):
    """How many instructions a run of the program has."""
    with tempfile.NamedTemporaryFile() as out:
        tool = ["valgrind", "--tool=cachegrind", "--cache-sim=no", f"--cachegrind-out-file={out.name}"]
        said = subprocess.run([*tool, sys.argv[1], *words], check=True, stderr=subprocess.PIPE, text=True).stderr
    return int(re.search(r"I\s+refs:\s+([\d,]+)", said)[1].replace(",", ""))


def votes(first, last):
    """How many a vote has, of those from the first to the last turn."""
    both = [instructions(word, str(last)) - instructions(word, str(first)) for word in ("votes", "commands")]
    return (both[0] - both[1]) // (last - first)


def more(*words):
    """How many one more of these has, after the first run's preparations."""
    return instructions(*words, "1") - instructions(*words, "0")


def later(*words):
    """How many a later one has, after the first, for which the heap is sorted."""
    return (instructions(*words, "11") - instructions(*words, "1")) // 10


def compare(name, word, count):
    """Prints how many it has after a vote with many ballots and one with few, and the ratio."""
    many, few = (count(word, ballots) for ballots in ("2000", "100"))
    print(f"{name:29} {many:12,} with 2,000 ballots")
    print(f"{'':29} {few:12,} with 100, ratio {many / few:.3f}")


print(f"a vote, planned and applied   {votes(0, VOTERS):12,} instructions")
print(f"  a vote again                {votes(VOTERS, 2 * VOTERS):12,}")
print(f"a load of 2,000 ballots       {more('loads'):12,}")
compare("a result, after the first", "results", later)
compare("a casting vote", "casts", more)
