"""How a command reads its words, and its help.

A command has a `Parser`, and so has each of its subcommands: a line of help for each argument and each option, examples
to type, and exit statuses. Help, man pages and the completion of words are made of it."""
import argparse

from grdesk.error import Wrong
from grdesk.output import say

# The help fits this width, however wide a terminal is. The help of an option begins after so many columns at most.
WIDTH, INDENT = 80, 24
# Variables of the environment that several commands read.
ADDRESS, JOURNAL = ["GR_DESK_PORT", "GR_DESK_SOCKET"], ["GR_DESK_JOURNAL"]
# Where the private copies lie that a command reads a desk from.
COPIES = ["XDG_RUNTIME_DIR", "TMPDIR"]
STATUSES = ((0, "done"), (1, "refused"), (2, "wrong arguments"), (3, "a fault; a line on error output says which"))


class Once(argparse.Action):
    """Keeps the value of an option, or that a flag is given. An option that is given twice is wrong."""

    def __call__(self, parser, words, value, option=None):
        if getattr(words, self.dest) != self.default:
            raise Wrong(f"{option} is given twice")
        setattr(words, self.dest, True if self.nargs == 0 else value)


class ShowHelp(argparse.Action):
    """Prints the help of a command, or of the subcommand that is among its words."""

    def __init__(self, option_strings, dest, parser):
        super().__init__(option_strings, dest, nargs=0, default=argparse.SUPPRESS)
        self.parser = parser

    def __call__(self, *_):
        say(self.parser.of_words().format_help().encode())
        raise SystemExit(0)


class Reader(argparse.ArgumentParser):
    """A parser that reports wrong words in one line."""

    def __init__(self, prog):
        super().__init__(prog=prog, allow_abbrev=False, add_help=False)
        self.register("action", None, Once)

    def error(self, message):
        raise Wrong(f"{message}; {self.prog} --help says more")


class Parser(Reader):
    """The parser of a command, or of one of its subcommands.

    Options come anywhere, each once, and are never shortened. No word after `--` is an option, even if it begins with a
    hyphen. `usages` are the ways in which words follow the name of the command. `examples` are lines to type, and
    `statuses` pairs of an exit status and what it means. `environment` names the variables that the command reads."""

    def __init__(
        self, called, purpose, usages=("",), *, examples=(), statuses=STATUSES, environment=(), parent=None, **_
    ):
        super().__init__(f"gr-desk {called}".rstrip())
        self.purpose, self.usages, self.examples, self.statuses = purpose, usages, examples, statuses
        self.environment, self.parent, self.subcommands, self.children = environment, parent, {}, None
        # Options are read first, wherever they are; those of subcommands too. What is left are the arguments.
        self.options = parent.options if parent else Reader(self.prog)
        self.arguments = Reader(self.prog)
        # The words that are read.
        self.words = []
        super().add_argument("-h", "--help", nargs=0, default=False, help="show this help")
        if not parent:
            self.options.add_argument("-h", "--help", action=ShowHelp, parser=self)

    def add_argument(self, *names, **how):
        """Takes an argument, or an option with a value."""
        read = {key: value for key, value in how.items() if key != "help"}
        if not names[0].startswith("-"):
            self.arguments.add_argument(*names, **read)
        elif names[0] not in self.options._option_string_actions:
            self.options.add_argument(*names, **read)
        return super().add_argument(*names, **how)

    def add_flag(self, name, **how):
        """Takes an option without a value."""
        return self.add_argument(name, nargs=0, default=False, **how)

    def add_words(self, *pairs):
        """Takes any number of words as `rest`, which the command looks at itself. Each pair is the name of one of these
        words, and its help."""
        self.arguments.add_argument("rest", nargs="*")
        for name, text in pairs:
            super().add_argument(name, nargs="?", help=text)

    def add_command(self, name, purpose, usages=("",), **how):
        """Takes a subcommand, and gives its parser."""
        if self.children is None:
            self.children = self.add_subparsers(parser_class=Parser)
        how.setdefault("statuses", self.statuses)
        words = self.prog.split()[1:]
        parser = self.children.add_parser(
            name, help=purpose, called=" ".join([*words, name]), purpose=purpose, usages=usages, parent=self, **how
        )
        self.subcommands[name] = parser
        return parser

    def read(self, words):
        """What the words say. The name of a subcommand is `command`."""
        self.words = words
        end = words.index("--") if "--" in words else len(words)
        found, others = self.options.parse_known_args(words[:end])
        for word in others:
            if word.startswith("-") and word != "-":
                self.error(f"there is no option {word!r}")
        others += words[end + 1 :]
        parser = self
        if self.subcommands:
            parser = self.subcommand(others)
            found.command = others[0]
            self.check_options(parser, found)
            others = others[1:]
        found, more = parser.arguments.parse_known_args(["--", *others], found)
        if surplus := [word for word in more if word != "--"]:
            parser.error(f"there is a word too many: {surplus[0]!r}")
        return found

    def subcommand(self, words):
        """The parser of the subcommand that is named first."""
        name = words[0] if words else ""
        if name not in self.subcommands:
            raise Wrong(f"there is no command {name!r}; the commands are {', '.join(self.subcommands)}")
        return self.subcommands[name]

    def check_options(self, parser, found):
        """Refuses an option of another subcommand."""
        known = {*self._option_string_actions, *parser._option_string_actions}
        for name, action in self.options._option_string_actions.items():
            if name not in known and getattr(found, action.dest) != action.default:
                raise Wrong(f"{found.command} has no option {name}; {parser.prog} --help says more")

    def of_words(self):
        """The parser whose help is asked for: that of the subcommand that is among the words, if there is one."""
        words = iter(self.words)
        for word in words:
            if word in self.subcommands:
                return self.subcommands[word]
            option = self.options._option_string_actions.get(word)
            if option and option.nargs != 0:
                # The value of an option may be the name of a subcommand too.
                next(words, None)
        return self

    def own_actions(self):
        """The arguments and options of this parser, as its help lists them, without those of its command."""
        arguments = [each for each in self._positionals._group_actions if each is not self.children]
        return [*arguments, *self._optionals._group_actions]

    def sections(self):
        """The parts of the help that list words: the title of each, and its actions. A subcommand takes the options of
        its command too."""
        arguments = [each for each in self.own_actions() if not each.option_strings]
        options = [each for each in self.own_actions() if each.option_strings]
        if self.parent:
            options += [each for each in self.parent._optionals._group_actions if each.dest != "help"]
        commands = [*self.children._get_subactions()] if self.children else []
        found = (("arguments", arguments), ("commands", commands), ("options", options))
        return [(title, actions) for title, actions in found if actions]

    def format_help(self):
        lines = [f"{self.prog} {usage}".rstrip() for usage in self.usages]
        head = "\n".join(f"{'or:   ' if number else 'usage:'} {line}" for number, line in enumerate(lines))
        formatter = argparse.HelpFormatter(self.prog, max_help_position=INDENT, width=WIDTH)
        for title, actions in self.sections():
            formatter.start_section(title)
            formatter.add_arguments(actions)
            formatter.end_section()
        purpose = f"{self.purpose[0].upper()}{self.purpose[1:]}."
        purpose = "\n".join([purpose, *(f"Example: {line}" for line in self.examples)])
        lines = [f"{number}  {text}" for number, text in self.statuses]
        statuses = "\n".join(["exit status:  " + lines[0], *(f"{'':14}{line}" for line in lines[1:])])
        parts = [head, purpose, formatter.format_help().strip("\n"), statuses]
        return "\n\n".join(parts) + "\n"
