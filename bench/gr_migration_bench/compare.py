"""Times the migration of a file of version 1 beside the load of the file that comes of it and the statements without the
store: compare.py PROGRAM OLD FOLDER N, where the file has N resolutions. Each run has a process and a file of its own."""
import shutil
import subprocess
import sys
from pathlib import Path
from statistics import median

program, old, folder, resolutions = sys.argv[1], sys.argv[2], Path(sys.argv[3]), sys.argv[4]
TURNS = 5


def figures(*words):
    """How many nanoseconds a run took, and how many bytes were resident at most."""
    said = subprocess.run([program, *words], check=True, stdout=subprocess.PIPE).stdout.split()
    return int(said[0]), int(said[1])


def turn():
    """A migration, the load of the migrated file, and the bare statements, on copies of the file."""
    migrated, bare = shutil.copy(old, folder / "migrated.db"), shutil.copy(old, folder / "bare.db")
    found = [figures("migrate", migrated), figures("load", migrated), figures("bare", bare, resolutions)]
    for path in [*folder.glob("migrated.db*"), *folder.glob("bare.db*")]:
        path.unlink()
    return found


turns = [turn() for _ in range(TURNS)]
times, peaks = ([[run[which] for run in runs] for runs in zip(*turns)] for which in (0, 1))
ratios = [migration[0] / (load[0] + bare[0]) for migration, load, bare in turns]
names = "a migration", "  a load of the migrated file", "  its statements, bare"
print(f"{2000 * int(resolutions)} ballots, medians of {TURNS} runs\n\n{'':32}{'milliseconds':>14}{'MB at most':>14}")
for name, of_time, of_peak in zip(names, times, peaks):
    print(f"{name:32}{median(of_time) / 1e6:14.0f}{median(of_peak) / 1e6:14.0f}")
print(f"the migration by the other two{median(ratios):16.2f}, at most 1.30")
print(f"its memory by that of the load{median(peaks[0]) / median(peaks[1]):16.2f}, at most 2.00")
