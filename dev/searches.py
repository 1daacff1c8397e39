"""How `dev/where` finds the files that speak of a thing of the desk: by which spellings a name is known, and in which
files one of these stands."""

import pathlib
import re
import subprocess

from subjects import LIMITS, SUBJECTS

TOP = pathlib.Path(__file__).resolve().parent.parent
CRATES = re.findall(r"^(gr_\w+):", (TOP / "crates.txt").read_text(), re.M)
CORE = "crates/gr_core"
# A file belongs to the first group whose pattern it meets; the groups are printed in the order of their numbers.
GROUPS = (
    (4, "wrong bodies", r"crates/\w+/(must-fail|wrong-bodies)/"),
    (6, "pages", r".*\.md$"),
    (3, "tests", r"crates/\w+_tests/|crates/\w+/(src|proofs)/tests|tests/"),
    (0, "code", r"crates/\w+/(src/|\w+$)"),
    (1, "definitions", r"crates/\w+/specs/"),
    (2, "proofs", r"crates/\w+/proofs/"),
    (5, "tools", r""),
)


def read(path):
    # Where a patch changes a file is no number of the desk's.
    return re.sub(r"^@@ .*$", "", (TOP / path).read_text(errors="replace"), flags=re.M)


def files():
    """The files by group and crate, each with its text after its path; without what searches, its test, and
    pictures."""
    said = subprocess.run(["git", "ls-files", "-co", "--exclude-standard"], cwd=TOP, capture_output=True, text=True)
    for path in said.stdout.splitlines():
        if (TOP / path).is_file() and not re.match(r"dev/|tests/pages/(test_where\.py|\w+\.txt)|\.git|.*\.(png|gz)$", path):
            order, group, _ = next(it for it in GROUPS if re.match(it[2], path))
            crate = CRATES.index(path.split("/")[1]) if path.startswith("crates/") else len(CRATES)
            yield order, crate, path, group, f"/{path}\n{read(path)}"


def variants(path, name):
    body = re.search(rf"^pub enum {name} {{\n(.*?)^}}", read(path), re.M | re.S)[1]
    return re.findall(r"^    ([A-Z]\w*)", body, re.M)


def whole(word):
    """A pattern for the word, or for words that may stand on two lines, with the marks of a comment between. It begins
    with the letters of the first word, so that a search is fast."""
    first, *more = map(re.escape, word.split())
    begins = rf"{first}(?:(?<![A-Za-z0-9]{first})|(?<=\\[nrt]{first}))"
    return r"[\s/!#-]+".join([begins, *more]) + r"(?![A-Za-z0-9])"


def snake(name):
    return re.sub(r"(?<=[a-z0-9])(?=[A-Z])|(?<=[A-Z])(?=[A-Z][a-z])", "_", name).lower()


def in_code(word):
    """One lower-case word where it is no word of a sentence; several words anywhere."""
    return whole(word) if "_" in word else rf"{word}(?<=[/\"`:.]{word})(?![A-Za-z0-9])|fn {word}\b"


def of_refusal(name):
    conditions = re.findall(rf"(?m)^Applies \(?{name}\b[^=]*= ([A-Z]\w+)", read(f"{CORE}/specs/Machine/Refusal.antt"))
    return [whole(name), in_code(snake(name)), *(whole(word) for it in conditions for word in (it, snake(it)))]


def of_fault(name):
    line = re.findall(rf"fault (F\d) {name}\b", read("crates/gr_http/src/response.rt"))[:1]
    words = re.findall(rf'Fault::{name} => f.write_str\("(.*)"\)', read("crates/gr_store/src/fault.rt"))
    known = whole(name) if "_" in snake(name) else rf"[Ff]ault.*\b{name}\b|\b{name}\b.*[Ff]ault"
    return [known, in_code(snake(name)), *map(whole, line + words)]


def of_command(name):
    path = re.search(rf"^\| `(\S+)` \|.*\| `{name}` \|$", read("docs/formats.md"), re.M)[1]
    act = re.search(rf'"(\w+)": \("{re.escape(path)}"', read("tools/grdesk/acts/act.py"))[1]
    steps = re.findall(rf"(?ms)^fn (\w+)\((?:(?!^}}).)*Command::{name}\b", read(f"{CORE}_tests/src/tests/command.rt"))
    asked = re.escape(path).replace(r"\{r\}", "[^/ ]+") + r"(?=[ \"'`&?]|$)"
    lines = [rf"^ *[+\-\w]\S* {word}(?: \S+\||(?: [^|\n]*)? ->)" for word in (act, *steps)]
    # The act `choice` adds one, and other things have its word.
    return [whole(name), asked, *lines, *(in_code(it) for it in {snake(name), act} if it != "choice")]


def of_column(name):
    rows = [line.split("|")[4:7] for line in read("docs/terms.md").splitlines() if line.count("|") == 7]
    form, code = ({w for it in rows if f"`{name}`" in it[1] for w in re.findall(r"`(\w+)`", it[n])} for n in (0, 2))
    words = {name, *(it for it in code if it.islower() and "_" not in it)}
    marks = r"{0}(?:(?<=[.\"`']{0})\b|(?<!\w{0})(?=:|=| =| INTEGER| TEXT|,))"
    holders = re.findall(rf"(?ms)^pub struct (\w+)Row {{\n(?:(?!^}}).)*^    pub {name}:", read(f"{CORE}/src/rows.rt"))
    tables = [rf"\b{it}_(?:kinds|text)\b|/(?:tables|rows)/{it}[/.]" for it in map(str.lower, holders)]
    fields = [rf"[\"`'&]{it}\b|\b{it}=(?!=)" for it in form - words]
    return [*(marks.format(it) for it in words), *map(whole, code - words), *fields, *tables]


def of_problem(name):
    """A problem of a request, with its line."""
    line = re.findall(rf'Problem::{name}\b.*=> "([a-z ]+?) ?"', read("crates/gr_http/src/problem.rt"))[:1]
    return [whole(name), in_code(snake(name)), *map(whole, line)]


def stands_on(tool):
    """The modules that a tool stands on, at any depth."""
    found, todo = set(), [tool]
    while todo:
        names = re.findall(r"^ *from (grdesk[\w.]*) import\b", read(todo.pop()), re.M)
        new = {f"tools/{name.replace('.', '/')}.py" for name in names} - found
        found |= new
        todo += new
    return found


def of_tool(path):
    """A tool by its path, by its words, and by a test that runs it; and the modules on which it stands. A module by
    those that use it."""
    name = pathlib.Path(path).stem
    modules = [rf"\A/{re.escape(it)}$" for it in stands_on(path)]
    module = path.removeprefix("tools/").removesuffix(".py").replace("/", ".")
    is_run = "/commands/" in path or not path.endswith(".py")
    run = rf"\btool\w*\(\s*\"{name}\"|(?:gr-desk\"?|\"\$\$0\") {name}\b"
    used = run if is_run else rf"^ *from {re.escape(module)} import\b"
    return [whole(path), used, *modules]


def of_limit(name):
    """The limits that begin so, with their values; None for a character, whose number nobody writes. Some are made of
    others, also of a crate below."""
    known, shown = {}, {}
    for path in (it for crate in CRATES for it in TOP.glob(f"crates/{crate}/src/limits.rt")):
        for limit, value in re.findall(r"const (\w+): \w+ = (.*);", read(path)):
            number = re.sub(r"b'(.)'", lambda it: str(ord(it[1])), value)
            known[limit] = eval(number, {"__builtins__": {}}, known)
            shown[limit] = None if value.startswith("b'") else known[limit]
    return {limit: value for limit, value in shown.items() if limit.startswith(name)}


def known_as(name, limits):
    """The spellings of a name, as patterns."""
    if name in SUBJECTS:
        return [whole(word) for word in SUBJECTS[name].split(", ")]
    if name.startswith(("tools/", "examples/")) and (TOP / name).is_file():
        return of_tool(name)
    kinds = (
        (variants(f"{CORE}/src/refusal.rt", "Refusal"), of_refusal),
        (variants("crates/gr_store/src/fault.rt", "Fault"), of_fault),
        (variants("crates/gr_http/src/problem.rt", "Problem"), of_problem),
        (variants(f"{CORE}/src/command.rt", "Command"), of_command),
        (re.findall(r"^    pub (\w+): (?:i64|String),", read(f"{CORE}/src/rows.rt"), re.M), of_column),
    )
    found = [it for names, of in kinds if name in names for it in of(name)]
    words = [word for limit in limits for word in (limit, *LIMITS.get(limit, limit).split(", "))]
    return found or [whole(it) for it in words or {name, snake(name), name.title().replace("_", "")}]


def numbers_of(limits):
    """A pattern for the numbers of limits that are above 9, and the next ones; None where there are none."""
    numbers = {more for it in limits.values() if isinstance(it, int) and it > 9 for more in (it, it + 1)}
    shown = "|".join(f"{it:,}".replace(",", "[,_]?") for it in sorted(numbers))
    return re.compile(rf"(?<![\w.,%-])(?<!port )(?:{shown})(?!\w|,\d|\.\d)") if shown else None


def where(name, among):
    """The files that speak of it, each after its group. Numbers are looked for where nothing is proved."""
    limits = {} if name in SUBJECTS else of_limit(name)
    known, number = [re.compile(it, re.M) for it in known_as(name, limits)], numbers_of(limits)

    def speaks(order, text):
        by_number = number is not None and order > 2 and number.search(text) is not None
        return by_number or any(it.search(text) for it in known)

    return [(group, path) for order, _, path, group, text in among if speaks(order, text)]
