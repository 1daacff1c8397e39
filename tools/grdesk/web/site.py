"""A folder that is put on a web server as it is: an index, and of each resolution its page, sheets, form and, if they
are asked for, voters. It has nothing else. No file says when it was written: all have the moment of the pages."""
import os
import re
from contextlib import contextmanager

from grdesk.ballots.electorate import electorate_of
from grdesk.ballots.form import form_of
from grdesk.ballots.outbox import check_apart
from grdesk.dates import date_of
from grdesk.error import Failed, Refused
from grdesk.new_file import Folder, Readers, check_unshared, is_trusted, make_folder
from grdesk.output import counted, note, shown
from grdesk.web.html import cell, document, isolated, paragraph, table
from grdesk.web.stage import STAGES

# The names that are written, and what one of them has until it is whole.
WRITTEN = re.compile("(index[.]html|resolution-[0-9]+[.](html|(form|result|status|tally|voters)[.]txt))([.]new)?")

NOTHING = "nothing was written"


def publish(pages, folder, has_voters):
    """Writes the folder, in the order of the resolutions and the index last. `has_voters` is whether lists of voters
    are asked for. Gives whether all that was asked for is there. Refuses a folder that others can write, or that has
    anything else."""
    check_apart(folder)
    try:
        with public_folder(folder) as place:
            written, is_whole = {}, True
            for status in pages.statuses():
                files = files_of(pages, status)
                if has_voters and status.stage == "Closed":
                    is_whole &= take_voters(files, pages, status.number)
                written[status.number] = files
                for name, text in files.items():
                    place.put(name, text.encode(), pages.at)
            place.put("index.html", index(pages, written).encode(), pages.at)
            take_away_others(place, {"index.html"}.union(*written.values()))
            os.utime(place.descriptor, (pages.at, pages.at))
    except OSError as error:
        raise Failed(f"{error.filename or folder} cannot be written: {error.strerror}") from None
    note(f"{counted(sum(map(len, written.values())) + 1, 'file')} written to {folder}")
    return is_whole


@contextmanager
def public_folder(folder):
    """The folder under this name, which is made if it is not there. A link is followed if this account or root made it.
    One that others can write is refused: they would say what is published, or where it is written."""
    path = os.path.abspath(folder)
    if os.path.islink(path) and not is_trusted(os.lstat(path)):
        raise Refused(f"{NOTHING}: {folder} is a link of another account: name the folder itself")
    place = os.path.realpath(path)
    make_folder(place, Readers.ALL)
    with Folder(place, Readers.ALL) as made:
        # Messages have the name that was given.
        made.path = folder
        check_unshared(made, NOTHING, "where all is published")
        check_alone(made)
        yield made


def check_alone(place):
    """Refuses a folder that has what no run wrote: the folder is published whole, and that may be a desk or a journal.
    """
    others = sorted(name for name in place.names() if not WRITTEN.fullmatch(name))
    if others:
        why = f"{place.path} has {others[0]}, which would be published too"
        raise Refused(f"{NOTHING}: {why}; name a folder of its own")


def take_away_others(place, names):
    """Takes away what an earlier run wrote and this one did not, as the sheets of a close that was taken back."""
    for name in place.names():
        if name not in names and WRITTEN.fullmatch(name):
            place.remove(name)


def files_of(pages, status):
    """The files of a resolution, by their names, the page first."""
    number, name = status.number, f"resolution-{status.number}"
    files = {f"{name}.html": pages.page(number, status), f"{name}.status.txt": pages.desk.sheet("status", number)}
    if status.voting:
        files[f"{name}.form.txt"] = form_of(status).text()
    if status.stage == "Closed":
        files[f"{name}.tally.txt"], files[f"{name}.result.txt"] = pages.sheets(number)
    return files


def take_voters(files, pages, number):
    """Adds the list of voters to the files of a resolution, unless the tally beside it would show how somebody voted.
    Gives whether it did."""
    name, electorate = f"resolution-{number}.voters.txt", electorate_of(pages.desk, number)
    if why := electorate.reveals():
        note(f"the list of voters of resolution {number} was not written: {why}")
        return False
    for warning in electorate.warnings():
        note(f"warning: {name}: {warning}")
    files[name] = electorate.text()
    return True


def index(pages, written):
    """The page that leads to the others."""
    rows = []
    for status in pages.statuses():
        span = status.voting or status.discussion
        ends = date_of(span[1]) if span else ""
        links = ", ".join(link(name) for name in written[status.number])
        cells = cell(status.number, "th", scope="row") + cell(isolated(pages.stage(status).summary))
        rows.append(cell(cells + cell(STAGES[status.stage][0]) + cell(ends) + cell(links), "tr"))
    message = f"As of {date_of(pages.at)}. All times are in UTC."
    head = ["Resolution", "First choice", "Stage", "Discussion or voting ends", "Files"]
    body = table("The resolutions", head, rows) if rows else paragraph("There is no resolution yet.")
    return document("Resolutions", "Resolutions", [paragraph(message), body])


def link(name):
    """A link to a file beside the index, by what it has."""
    parts = name.split(".")
    return cell(shown(parts[-2] if len(parts) > 2 else "page"), "a", href=name)
