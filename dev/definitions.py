"""How `dev/closure` reads the definitions of specs/: which names each of them uses, and for what a name stands. Of the
language it knows the forms that are in use there, and fails at any other one."""

import pathlib
import re

TOP = pathlib.Path(__file__).resolve().parent.parent
CRATES = re.findall(r"^(gr_\w+):", (TOP / "crates.txt").read_text(), re.M)
# The files of definitions by their paths, as `gr_office.specs.Crash`.
MODULES = {}

# A comment, a text, a bracket, or a name, which may have a path before it and fields after it.
NAME = r'(?:«[^»]*»|[^\s(){}.;,@"«»]+)'
TOKEN = re.compile(rf'--.*|"(?:[^"\\]|\\.)*"|[(){{}};,@]|\.?{NAME}(?:\.{NAME})*|\.')
CLOSING = {"(": ")", "{": "}", "[": "]"}
BUILT_IN = set("→ × = | : λ let in record do ← _ @ ; , . ℓ Type infixl infixr ⊥ ¬ Unit tt absurd ∥ ∥₁ Prim".split())
# The head of a definition: marks, the kind, and the name.
HEAD = re.compile(rf"(?:(?:pattern|unfoldable|abbrev|pub) )*(?:(record|data) )?({NAME})(?=\s)")


class Unclear(Exception):
    """What is not there, or cannot be read."""


# ==== terms


def tree(tokens, closing=None):
    """The tokens up to a closing bracket, each group of brackets as a pair: its bracket, and what stands in it."""
    found = []
    for token in tokens:
        if token == closing:
            return found
        if token in CLOSING:
            found.append((token, tree(tokens, CLOSING[token])))
        elif not token.startswith(("--", '"')):
            found.append(token)
    if closing:
        raise Unclear(f"there is no {closing}")
    return found


def terms_of(text):
    return tree(iter(TOKEN.findall(text)))


def parts(terms, *ends):
    """What stands between such tokens."""
    at = [-1, *(n for n, it in enumerate(terms) if it in ends), len(terms)]
    return [terms[a + 1 : b] for a, b in zip(at, at[1:])]


def flat(terms):
    """The names of a pattern, without the labels of implicit ones."""
    for it in terms:
        if isinstance(it, tuple):
            yield from flat(parts(it[1], "=")[-1])
        else:
            yield it


def binders(pattern, names):
    """What a pattern binds, and the constructors that it uses."""
    used = {it for it in flat(pattern) if names.is_constructor(it)}
    return {*flat(pattern)} - used, used


def uses(terms, bound, names):
    """The names that a term uses: not those that are bound before it or in it, nor labels."""
    bound = set(bound)
    for at, it in enumerate(terms):
        if it in ("λ", "let"):
            end = next(n for n in range(at, len(terms)) if terms[n] in (".", "=", ":"))
            bound.update(flat(one for one in terms[at + 1 : end] if not (isinstance(one, tuple) and ":" in one[1])))
        elif isinstance(it, tuple):
            for part in parts(it[1], ",", ";", "|"):
                cut = next((n for n, one in enumerate(part) if one in (":", "=", "λ", "let")), None)
                is_named = cut is not None and part[cut] in (":", "=")
                yield from uses(part[cut + 1 :] if is_named else part, bound, names)
                if is_named and part[cut] == ":":
                    bound.update(part[:cut])
        elif terms[at + 1 : at + 2] == ["←"]:
            bound.add(it)
        elif it == "do":
            yield "◌>>=◌"
        elif it.split(".")[0] not in bound:
            yield it
        elif names.is_in_a_module(it):
            raise Unclear(f"`{it}` may be of a variable or of a module")


# ==== names


class Names:
    """The names of a file, or of a part of one, and of the modules that it calls by a name of their own."""

    def __init__(self, above=None):
        self.known = dict(above.known) if above else {}
        self.operators = dict(above.operators) if above else {}
        self.modules = dict(above.modules) if above else {}

    def put(self, name, target):
        """A name with its definition, or with the path of its module and its name there."""
        self.known[name] = target
        self.operators.update({part: name for part in name.split("◌") if part and "◌" in name})

    def use(self, line):
        """Takes in what a line with `use` names."""
        path, items, alias = re.fullmatch(r"(?:Rattle\.)?([^\s{]+?)(?:\.\{(.*)\})?(?: as (\S+))?", line, re.S).groups()
        if items is None:
            self.modules[alias or path.split(".")[-1]] = path
        for item in re.findall(r"[^,\s][^,]*", items or ""):
            name, _, alias = item.strip().partition(" as ")
            *inner, last = name.split(".")
            self.put(alias or last, (".".join([path, *inner]), last))

    def is_constructor(self, name):
        """Whether it is one in a pattern: of the names from elsewhere, those of definitions are bound there."""
        try:
            target = self.find(name)
        except Unclear:
            return False
        brought = self.known.get(self.operators.get(name, name))
        own = brought[1] if isinstance(brought, tuple) else name
        return target is not None and (isinstance(target, tuple) or "." in name or own in target.constructors)

    def is_in_a_module(self, name):
        """Whether a module that has a name of its own here has this."""
        head, *more = name.split(".")
        if not more or head not in self.modules:
            return False
        try:
            found(self.modules[head], ".".join(more))
        except Unclear:
            return False
        return True

    def find(self, name):
        """For what it stands: a definition; a place and a name, where it is not opened; None, if it is built in."""
        head, *more = name.split(".")
        if head in BUILT_IN or not head or head[0].isdigit():
            return None
        if head == "Rattle":
            return found(".".join(more[:-1]), more[-1])
        if more and head in self.modules:
            return found(self.modules[head], ".".join(more))
        target = self.known.get(head) or self.known.get(self.operators.get(head))
        if target is None:
            raise Unclear(f"`{name}` is not known")
        return found(*target) if isinstance(target, tuple) else target


def found(path, name):
    """For what it stands in the module with this path."""
    crate, _, rest = path.partition(".specs.")
    head, _, more = name.partition(".")
    if more and f"{path}.{head}" in MODULES:
        return found(f"{path}.{head}", more)
    if path in MODULES and head in MODULES[path].names.known:
        return MODULES[path].names.find(head)
    if crate not in CRATES:
        return path, head
    if not rest.startswith("declared."):
        raise Unclear(f"there is no {head} in {path}")
    # What is generated from a file of code: a type, for which its variants stand too, or a constant.
    *place, last = rest.removeprefix("declared.").split(".TheVariants")[0].split(".")
    return "/".join(["crates", crate, "src", *place]) + ".rt", head if last == "TheConstants" else last


# ==== definitions


class Definition:
    """A definition, with the numbers of the lines of its sentences, of its comments, and of the head of its section."""

    def __init__(self, module, head, sentence, section):
        self.module, self.kind, self.name, self.section = module, head[1], head[2], section
        self.full = f"{module.crate}:{module.rest}.{self.name}"
        self.sentences, self.comments = [sentence], []
        self.constructors = set()
        if self.kind == "data":
            self.constructors = {name for one in self.members() for name in parts(one, ":")[0]}

    def __lt__(self, other):
        return self.full < other.full

    def lines(self):
        return [number for sentence in self.sentences for number in sentence]

    def members(self):
        """The fields of a record, or the constructors of a data type."""
        text = self.module.text(self.sentences[0]).partition(" where\n")[2]
        begin = re.compile(rf"^ {{{len(text) - len(text.lstrip())}}}(?:pub )?(?=\S)", re.M)
        return [terms_of(it) for it in begin.split(text)[1:]]

    def said(self):
        """The names that it uses."""
        names, section = self.module.names, []
        if self.section is not None:
            section = terms_of(self.module.text(self.module.head_of(self.section)))[2:-1]
        head, *clauses = (terms_of(self.module.text(it)) for it in self.sentences)
        head = head[head.index(self.name) + 1 :]
        if self.kind:
            # A field is known in the later ones, and a constructor in the whole file.
            members = (it if self.kind == "record" else ["_", *it[it.index(":") :]] for it in self.members())
            head = [*head[: head.index("where")], *(("(", it) for it in members)]
        yield from uses([*section, *head], (), names)
        above = {name for _, it in section for name in it[: it.index(":")]}
        for clause in clauses:
            cut = clause.index("=")
            bound, used = binders([it for it in clause[:cut] if it != self.name], names)
            yield from used
            yield from uses(clause[cut + 1 :], above | bound, names)

    def named(self):
        """What it uses."""
        try:
            return {self.module.names.find(it) for it in self.said()} - {None}
        except (Unclear, ValueError, StopIteration) as wrong:
            why = wrong if isinstance(wrong, Unclear) else "it is in a form that is not known here"
            raise Unclear(f"{self.module.path}:{self.lines()[0] + 1}: {self.name}: {why}") from wrong


def sentences(lines):
    """The sentences of a file: the numbers of their lines, of the comments on and in them, and of their section."""
    here, comments, section, base, is_head = [], [], None, 0, False
    for number, line in enumerate([*lines, "end"]):
        indent = len(line) - len(line.lstrip())
        if is_head:
            is_head = not line.endswith(" where")
        elif not line or line[indent:].startswith("--"):
            comments = [*comments, number] if line and "-- ====" not in line else []
        elif here and (indent > base or line[indent] in ")}]"):
            here[0].append(number)
            here[1].extend(comments)
            comments = []
        else:
            if here:
                yield here
            base, section = indent, section if indent else None
            here, comments = [[number], comments, section], []
            if line.startswith("module "):
                here, section, is_head = [], number, not line.endswith(" where")


class Module:
    """A file of definitions."""

    def __init__(self, crate, file):
        self.crate, self.path = crate, str(file.relative_to(TOP))
        self.rest = self.path.split("/specs/")[1].removesuffix(".antt").replace("/", ".")
        self.lines = file.read_text().splitlines()
        self.names, self.definitions = Names(), []
        fixity = []
        for numbers, comments, section in sentences(self.lines):
            text = self.text(numbers).strip()
            head, used = HEAD.match(text), re.fullmatch(r"(?:pub )?use (.*)", text, re.S)
            if used:
                self.names.use(used[1])
            elif text.startswith("infix"):
                fixity = numbers
            elif not re.match(r"(?:pub )?mod ", text):
                if head and (head.start(2) or re.match(r"(?: \{\S+\})? : ", text[head.end() :])):
                    self.begin(Definition(self, head, numbers + fixity, section))
                    fixity = []
                else:
                    self.definitions[-1].sentences.append(numbers)
                self.definitions[-1].comments += comments

    def begin(self, definition):
        self.definitions.append(definition)
        for name in (definition.name, *definition.constructors):
            self.names.put(name, definition)

    def text(self, numbers):
        return "\n".join(self.lines[it] for it in numbers)

    def head_of(self, section):
        """The lines of the head of a section, which begins with this one."""
        last = next(it for it in range(section, len(self.lines)) if self.lines[it].endswith(" where"))
        return range(section, last + 1)

    def below(self):
        """The files of this repository that it uses."""
        paths = [it[0] for it in self.names.known.values() if isinstance(it, tuple)]
        return [MODULES[it] for it in (*paths, *self.names.modules.values()) if it in MODULES]


for crate in CRATES:
    for file in sorted((TOP / "crates" / crate / "specs").rglob("*.antt")):
        module = Module(crate, file)
        MODULES[f"{crate}.specs.{module.rest}"] = module
