"""Times `gr_desk roll` of a file beside the engine's own opening of it and its scan of the ballots: roll.py PROGRAM BENCH
FILE, where PROGRAM is gr_desk and BENCH is gr_store_bench. Each is timed from its start to its end, by turns."""
import subprocess
import sys
from statistics import median
from time import perf_counter_ns

program, bench, file = sys.argv[1:]
TURNS = 9


def time_start(*words):
    """How many nanoseconds the command takes, which must end well."""
    start = perf_counter_ns()
    ran = subprocess.run(words, stdout=subprocess.DEVNULL)
    took = perf_counter_ns() - start
    if ran.returncode != 0:
        sys.exit(f"bench: there are no times: {words[0]} ended with status {ran.returncode}")
    return took


turns = [(time_start(program, "roll", file), time_start(bench, "scan", file)) for _ in range(TURNS)]
roll, scan = (median(times) / 1000 for times in zip(*turns))
print(f"\n{'':32}{'turns':>6}{'roll':>14}{'scan':>14}{'ratio':>8}{'limit':>8}")
print(f"{'gr_desk roll, open and scan':32}{TURNS:>6}{roll:>14.2f}{scan:>14.2f}{roll / scan:>8.2f}{'2.00':>8}")
