"""How `dev/closure` reads the contracts of src/: which definitions the clauses of each function name, and what these
lead to. Definitions are read by definitions.py.
"""

import re

from definitions import CRATES, MODULES, TOP, Definition, Names, Unclear, terms_of, uses

# The types and the constants of the code, each with its files.
DECLARED = {}
# Comments, texts and characters of the code, and how a clause writes a type.
MASKED = re.compile(
    r"""//[^\n]*|/\*.*?\*/|\bb?r(#*)".*?"\1|"(?:[^"\\]|\\.)*"|'(?:\\[^'\n]+|[^\\'\n])'|⟦[^⟧]*⟧""", re.S
)
EVENT = re.compile(
    r"""\bghost\ use\ (?P<use>[^;]*);
    | \b(?P<clause>requires|ensures)\b\*?(?:\s\w+)?\s*(?=\{)
    | \bghost\ (?P<ghost>\w+)(?::|\ =)\s*(?=\{)
    | (?P<pub>\bpub\ )?(?:\b(?:const|unsafe)\ )*\bfn\ (?P<fn>\w+)
      (?P<signature>(?:(?!\b(?:requires|ensures|ghost)\b|;$)[^{])*)
    | ^(?:pub(?:\(\w+\))?\ )?(?P<kind>impl|trait|struct|enum|const|static)\ ?(?P<head>[^{};=]*)
    | ^\ *\{\}?$ | ^\}""",
    re.X | re.M,
)


class Contract:
    """A function with the terms of its clauses, or a ghost member or field."""

    def __init__(self, path, is_public, names, bound):
        self.full, self.is_public, self.names = "::".join(path), is_public, names
        self.bound, self.terms = {*bound, "result", "self", "Self"}, []

    def named(self):
        """What the clauses name: besides what lines with `use` bring, types and constants of the code."""
        named = set()
        for name in (name for term in self.terms for name in uses(term, self.bound, self.names)):
            try:
                named.add(self.names.find(name))
            except Unclear as wrong:
                if "is not known" not in str(wrong):
                    raise Unclear(f"{self.full}: {wrong}") from wrong
                files = DECLARED.get(name.split(".")[0], [])
                own = [it for it in files if it.split("/")[1] == self.full.split("::")[0]]
                named.update((it, name.split(".")[0]) for it in (own or files)[:1])
        return named - {None}


def group_at(text, start):
    """Where the group of braces ends that begins here."""
    depth = 0
    for at in range(start, len(text)):
        depth += {"{": 1, "}": -1}.get(text[at], 0)
        if depth == 0:
            return at + 1
    raise Unclear("a brace is open")


def bound_in(text):
    return set(re.findall(r"\b(\w+)\s*:(?!:)", text))


def without_parameters(text):
    while text != (text := re.sub(r"<[^<>]*>", "", text.replace("->", ""))):
        pass
    return text


def contracts_of(path):
    """The contracts of a file of code, in the layout that `rt fmt` gives it."""
    text = MASKED.sub(lambda it: {"⟦": "_", '"': '""'}.get(it[0][0], " "), (TOP / path).read_text())
    place = [it for it in path.removesuffix(".rt").split("/")[1:] if it not in ("src", "lib", "main")]
    whole = (place, Names(), set(), False)
    inside, function, found, at = whole, None, [], 0
    while event := EVENT.search(text, at):
        at = event.end()
        here, names, bound, is_open = inside
        if event["use"]:
            names.use(" ".join(event["use"].split()))
        elif event["fn"]:
            is_public = is_open or event["pub"] is not None
            function = Contract([*here, event["fn"]], is_public, names, bound | bound_in(event["signature"]))
            found.append(function)
            # After the body's brace stand clauses of closures alone.
            function = None if text[at : at + 1] == "{" else function
        elif event["kind"]:
            head = without_parameters(event["head"])
            own = [*re.findall(r"\w+", re.split(r"\bwhere\b|[(:]", head.split(" for ")[-1])[0]), ""][0]
            if event["kind"] not in ("impl", "trait"):
                DECLARED.setdefault(own, []).append(path)
            if event["kind"] in ("impl", "trait", "struct") and text[at] == "{" and text[at + 1] != "}":
                fields = text[at : group_at(text, at)] if event["kind"] == "struct" else ""
                is_open = event["kind"] == "trait" or " for " in head
                inside = ([*place, own], Names(whole[1]), bound_in(event["head"] + fields), is_open)
        elif event["clause"] or event["ghost"]:
            owner = function
            if owner is None:
                # A clause of a closure stands after its arguments.
                line = text[text.rfind("\n", 0, text.rfind("|", 0, event.start())) : event.start()]
                owner = Contract([*here, event["ghost"] or "closure"], False, names, bound | bound_in(line))
                found.append(owner)
            owner.bound.add(event["ghost"] or "")
            more = event
            while more and "by" not in more[0].split():
                end = group_at(text, at)
                owner.terms.append(terms_of(text[at + 1 : end - 1]))
                more = re.compile(r"\s*(?:=|by)\s*(?=\{)").match(text, end)
                at = more.end() if more else end
        else:
            function = None
            inside = whole if event[0] == "}" else inside
    return [it for it in found if it.terms]


# ==== what is reached


def reached(contracts, words=()):
    """What these lead to: the definitions, the words, and what is not opened."""
    todo, opened, taken, beside = list(contracts), set(), set(), set()
    while todo:
        for it in todo.pop().named():
            if it in words:
                taken.add(it)
            elif not isinstance(it, Definition):
                beside.add(it)
            elif it not in opened:
                opened.add(it)
                todo.append(it)
    return opened, taken, beside


def called(name, among):
    """Those that have this name, or this end of their path; of functions the public ones, where there are any."""
    crate, _, rest = name.rpartition(":") if "::" not in name else ("", "", name)
    found = [it for it in among if re.search(rf"(^|\W){re.escape(rest)}$", it.full) and it.full.startswith(crate)]
    return [it for it in found if isinstance(it, Definition) or it.is_public] or found


def only(found, name):
    if len(found) != 1:
        lines = [f"several are called {name}:", *(f"    {it}" for it in sorted(it.full for it in found))]
        raise Unclear("\n".join(lines) if found else f"there is no {name}")
    return found[0]


def closure(name, *words):
    """What a function or a definition leads to, but for these words."""
    start = only(called(name, [*DEFINITIONS, *CONTRACTS]), name)
    meant = {word: called(word, DEFINITIONS) for word in words}
    opened, taken, beside = reached([start], {it for found in meant.values() for it in found})
    for word, found in meant.items():
        if found and not taken & {*found}:
            raise Unclear(f"{word} is not reached")
        only([it for it in found if it in taken], word)
    return start, opened | ({start} & {*DEFINITIONS}), taken, beside


def lines_of(definitions):
    """How many lines these have, without and with their comments."""
    sections = {(it.module, it.section) for it in definitions if it.section is not None}
    lines = sum(len(it.lines()) for it in definitions) + sum(len(module.head_of(it)) for module, it in sections)
    return lines, lines + sum(len(it.comments) for it in definitions)


def by_file(definitions):
    """The files with those that they have of them, each after those that it uses."""
    order = []

    def visit(module):
        if module not in order:
            for it in module.below():
                visit(it)
            order.append(module)

    for module in MODULES.values():
        visit(module)
    return [(module, found) for module in order if (found := [it for it in module.definitions if it in definitions])]


def unreached():
    """The definitions that no contract reaches."""
    return {*DEFINITIONS} - reached(CONTRACTS)[0]


DEFINITIONS = [it for module in MODULES.values() for it in module.definitions]
CONTRACTS = [it for crate in CRATES for file in sorted((TOP / "crates" / crate / "src").rglob("*.rt"))
             for it in contracts_of(str(file.relative_to(TOP)))]
