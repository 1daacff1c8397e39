"""Write the rows that retire whoever is not in a roll file any more"""
import csv
import io
import sys

from grdesk.desk.request import MOST_BYTES
from grdesk.desk.sheet import add_desk, roll_of, sheets_of
from grdesk.error import Failed, Wrong
from grdesk.output import note, say, shown
from grdesk.parser import ADDRESS, COPIES, Parser

HEADER = ["login", "name", "status"]


def text_of(name):
    try:
        with open(name, "rb") as file:
            data = file.read(MOST_BYTES + 1)
    except OSError as error:
        raise Failed(f"{name} cannot be read: {error.strerror}") from None
    if len(data) > MOST_BYTES:
        raise Wrong(f"{name} has more than {MOST_BYTES} bytes, which no import takes")
    try:
        return data.decode("utf-8-sig")
    except UnicodeDecodeError:
        raise Wrong(f"{name} is not UTF-8") from None


def logins_in(name):
    """The logins of a roll file. A record of another form is named by its number, as an import does."""
    csv.field_size_limit(MOST_BYTES)
    try:
        records = [record for record in csv.reader(io.StringIO(text_of(name), newline="")) if record]
    except csv.Error as error:
        raise Wrong(f"{name} is no roll file: {error}") from None
    if records[:1] != [HEADER]:
        raise Wrong(f"{name} is no roll file: its first record must be {','.join(HEADER)}")
    for number, record in enumerate(records, start=1):
        if len(record) != len(HEADER):
            raise Wrong(f"{name} is no roll file: record {number} has {len(record)} fields, and not {len(HEADER)}")
        if number > 1 and record[2] not in ("current", "retired"):
            raise Wrong(f"{name}: the status of record {number} is neither current nor retired")
    return {record[0] for record in records[1:]}


def rows_of(developers):
    text = io.StringIO()
    writer = csv.writer(text, lineterminator="\n")
    writer.writerow(HEADER)
    writer.writerows([developer.login, developer.name, "retired"] for developer in developers)
    return text.getvalue()


def parser():
    command = Parser(
        "roll_diff",
        __doc__,
        ["DESK ROLL.csv > retired.csv", "[--port P | --socket PATH] ROLL.csv > retired.csv"],
        examples=["gr-desk roll_diff desk.db roll.csv > retired.csv"],
        statuses=[
            (0, "written, even if nobody is missing"),
            (2, "wrong words, or a wrong roll file"),
            (3, "the roll or the file could not be read; a line says why"),
        ],
        environment=ADDRESS + COPIES,
    )
    add_desk(command)
    command.add_argument("roll", metavar="ROLL.csv", help="the roll as it should be, as for an import")
    return command


def run(arguments):
    name = arguments.roll
    with sheets_of(arguments) as desk:
        there = logins_in(name)
        roll = roll_of(desk.sheet("roll"))
    current = [developer for developer in roll if developer.is_current]
    missing = [developer for developer in current if developer.login not in there]
    for developer in missing:
        note(f"{shown(developer.login)} is current and not in {name}: {shown(developer.name)}")
    note(f"{len(missing)} of {len(current)} current developers are not in {name}")
    text = rows_of(missing)
    if sys.stdout and sys.stdout.isatty():
        text = "".join(f"{shown(line)}\n" for line in text.removesuffix("\n").split("\n"))
    say(text.encode())
    return 0
