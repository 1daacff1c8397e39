"""A check of a desk: all acts of its journal are entered into a new desk, or into a copy, and each row is compared."""
import subprocess

from grdesk.desk.copy import copy_desk, desk_at
from grdesk.desk.program import program
from grdesk.desk.row import accepted_in, faults_in, rows_in
from grdesk.journal.comparison import Comparison, MadeDesk
from grdesk.journal.journal import lacks_acts
from grdesk.journal.open_act import keep_accepted, where_seen
from grdesk.journal.replay import check_whole, lacks_of, unanswered, way_to_settle
from grdesk.output import note, say, say_line, shown


def print_differences(journal, desk, from_copy, folder):
    """Prints each difference between a desk and what the acts of its journal make, in a folder of its own, and gives
    the exit status."""
    copy = str(folder / "found")
    copy_desk(desk_at(desk), copy)
    found = rows_in(copy, desk)
    comparison = Comparison.begin(journal.entries, found, folder, from_copy)
    made = made_desk(comparison)
    faults, is_prefix = faults_in(copy, desk), not made.differences
    lacks = lacks_of(journal, desk, found)
    is_behind = lacks_acts(journal.entries, accepted_in(found))
    if is_behind:
        note(f"{desk} lacks acts that {journal.name} has")
        made = with_all(comparison, made)
    lines = [*faults, *made.differences] or unopened(copy)
    for line in lines:
        say_line(shown(line))
    if comparison.first > accepted_in(found):
        note(f"{from_copy} has more acts than {desk}: it is a copy of another desk, or {desk} has lost acts")
    if is_behind and is_prefix and not faults:
        message = f"{desk} has just what the first acts of {journal.name} make"
        note(f"{message}: gr-desk journal replay enters the others")
    elif lines:
        tell_difference(journal, desk, lacks)
    elif lacks:
        note(f"{lacks}; these were not checked, since {from_copy} has them already")
    else:
        say(b"ok\n")
    return 1 if lines or lacks or is_behind else 0


def tell_difference(journal, desk, lacks):
    """Says what a difference may come from, and what to do then. A replay would undo an act that came by another way.
    """
    message = f"{desk} differs from what the acts of {journal.name} make, in the lines above"
    if lacks:
        note(f"{message}; {lacks}, so a replay does not mend it")
        return
    note(f"{message}; one of the two is wrong: gr-desk roll, gr-desk status and gr-desk journal list show which")
    note("if an act came by another way, the desk is right: a replay would undo that act, so leave the desk as it is")
    note("only if a bit turned, and a value is one that no act gave, can an earlier copy and a replay mend it")


def made_desk(comparison):
    """The desk that is compared, of the acts up to the number of the desk's last one. Where open acts may be among
    them, it is the one that is the same, and it is said which of them the desk has; else, that nobody can tell."""
    entries = comparison.entries
    made = comparison.made_desks()
    same = [each for each in made if not each.differences]
    if len(same) == 1:
        # The journal is read alone here, so no line keeps that.
        keep_accepted(same[0].taken, lambda *_, **__: None)
        return same[0]
    if entries.open:
        note(f"{unanswered(entries.open)}: {where_seen(entries.open)}; then {way_to_settle(entries.open)}")
    if made:
        return made[0]
    if comparison.missing and comparison.missing[0] < entries.last:
        check_whole(entries, comparison.first, entries.last)
    comparison.enter_known()
    return MadeDesk({}, comparison.begun, comparison.differences_to(comparison.begun))


def with_all(comparison, made):
    """That desk with the acts after these too, where each of them is known."""
    entries, after = comparison.entries, max(comparison.first, comparison.accepted)
    if entries.missing(after):
        return made
    comparison.enter(made.file, {}, after, entries.last)
    return made._replace(differences=comparison.differences_to(made.file))


def unopened(copy):
    """What the program says of a copy of a desk that it does not open, in a list."""
    line = [program(), "roll", copy]
    ran = subprocess.run(line, stdin=subprocess.DEVNULL, capture_output=True, check=False)
    return [] if ran.returncode == 0 else [f"the program says: {ran.stderr.decode(errors='replace').strip()}"]
