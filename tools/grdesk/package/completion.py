"""What completes the words of gr-desk in bash, made of the parsers of its tools."""

SCRIPT = """\
# Completes the words of gr-desk in bash. It is made of the parsers of the tools, and of the help of the program.
_gr_desk() {
    local current=${COMP_WORDS[COMP_CWORD]} before=${COMP_WORDS[COMP_CWORD-1]} tool=${COMP_WORDS[1]} words= word
    COMPREPLY=()
    if [ "$COMP_CWORD" -eq 1 ]; then
        words="NAMES"
    else
        # After an option with a value comes that, which may be a file.
        case "$tool $before" in
VALUES
        esac
        case $tool in
TOOLS
        esac
        for word in "${COMP_WORDS[@]:2:COMP_CWORD-2}"; do
            case "$tool $word" in
COMMANDS
            esac
        done
    fi
    COMPREPLY=($(compgen -W "$words" -- "$current"))
    [[ ${COMPREPLY[0]-} != *= ]] || compopt -o nospace 2>/dev/null
}
complete -o default -F _gr_desk gr-desk
"""


def options_of(parser):
    return [name for each in parser.own_actions() for name in each.option_strings if name.startswith("--")]


def fields_of(parser):
    """The arguments that begin with what is typed, such as `login=`."""
    return [each.dest for each in parser.own_actions() if each.dest.endswith("=")]


def arm(indent, what, words):
    """A line of a `case` in the language of the shell."""
    return f'{" " * indent}"{what}") words="{" ".join(words)}" ;;'


def name_of(parser):
    return parser.prog.split()[-1]


def values_of(parsers):
    """The lines for options with a value: bash completes the name of a file there."""
    for parser in parsers:
        for each in (parser, *parser.subcommands.values()):
            for action in each.own_actions():
                if action.option_strings and action.nargs != 0:
                    yield f'            "{name_of(parser)} {action.option_strings[-1]}") return ;;'


def completion(program, examples, parsers):
    """The script by which bash completes the words of gr-desk: the name of a tool or subcommand, its options, its
    commands, and the options and fields of these. Where none of them fits, bash completes the name of a file. `program`
    and `examples` are the help of the program's subcommands and of the examples, which have no parser."""
    tools = [arm(8, name_of(each), [*options_of(each), *each.subcommands]) for each in parsers]
    tools += [arm(8, each.words[-1], sorted({*each.options(), "--help"})) for each in (*program, *examples)]
    called = [*map(name_of, parsers), *(each.words[-1] for each in (*program, *examples))]
    tools.append(arm(8, "help", called))
    commands = [
        arm(12, f"{name_of(each)} {name}", [*options_of(each), *options_of(command)[1:], *fields_of(command)])
        for each in parsers
        for name, command in each.subcommands.items()
    ]
    names = " ".join(sorted([*called, "help"]))
    values = "\n".join(sorted(set(values_of(parsers))))
    script = SCRIPT.replace("NAMES", names).replace("VALUES", values)
    return script.replace("TOOLS", "\n".join(tools)).replace("COMMANDS", "\n".join(commands))
