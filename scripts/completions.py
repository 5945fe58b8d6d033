"""Makes completions for shells from what the program's help says of its command line."""
import collections
import re

SECTION = re.compile(r"^(\w+):\n((?:  .*\n?)+)", re.MULTILINE)
OPTION = re.compile(r"^  (?:(-\w), |    )(--[\w-]+)(?: <([^>]+)>)? +(.*)$")
ARGUMENT = re.compile(r"^  [<\[](\w+)[>\]](\.\.\.)? +(.*)$")
MADE = "made by scripts/documents.py from what the program says"


class Option(collections.namedtuple("Option", "short long value about")):
    def is_file(self):
        return self.value == "FILE"


class Argument(collections.namedtuple("Argument", "name many about")):
    def is_file(self):
        return self.name in ("SCHEMA", "FEED")


class Command:
    """A command with its options and its words."""

    def __init__(self, about, text):
        sections = dict(SECTION.findall(text))
        self.about = about
        self.options = [Option(*found.groups()) for found in map(OPTION.match, lines(sections, "Options")) if found]
        self.arguments = [Argument(*found.groups()) for found in map(ARGUMENT.match, lines(sections, "Arguments")) if found]

    def flags(self):
        return [flag for it in self.options for flag in (it.short, it.long) if flag]


class CommandLine:
    """The program's own options, its commands by their names, and the codes that `explain` knows."""

    def __init__(self, text, texts, codes):
        self.top = Command("", text)
        self.commands = {name: Command(about, texts[name]) for name, about in commands_of(text)}
        self.codes = codes


def lines(sections, name):
    return sections.get(name, "").splitlines()


def commands_of(text):
    """The commands that a help lists, each with what it is for."""
    return [tuple(re.split(r"\s{2,}", it.strip(), maxsplit=1)) for it in lines(dict(SECTION.findall(text)), "Commands")]


def made_of(line):
    """The completions, by the names of their files."""
    return {"datacube.bash": bash_of(line), "_datacube": zsh_of(line), "datacube.fish": fish_of(line)}


def bash_of(line):
    cases = "".join(f"    {name}) words='{' '.join(it.flags())}' ;;\n" for name, it in line.commands.items())
    takes = "|".join(sorted({it.long for command in line.commands.values() for it in command.options if it.value and not it.is_file()}))
    codes = "\n".join(line.codes)
    return f"""# Completion of datacube for bash, {MADE}.
_datacube_codes='{codes}'

_datacube() {{
    local word=${{COMP_WORDS[COMP_CWORD]}} command=${{COMP_WORDS[1]}} words IFS=$' \\t\\n'
    COMPREPLY=()
    case $command in
{cases}    *) words= ;;
    esac
    if [ "$COMP_CWORD" -eq 1 ]; then
        COMPREPLY=($(compgen -W '{" ".join([*line.commands, *line.top.flags()])}' -- "$word"))
    elif [[ ${{COMP_WORDS[COMP_CWORD - 1]}} == @({takes}) ]]; then
        compopt +o default
    elif [[ $word == -* ]]; then
        COMPREPLY=($(compgen -W "$words" -- "$word"))
    elif [ "$command" = explain ]; then
        IFS=$'\\n'
        COMPREPLY=($(compgen -W "$_datacube_codes" -- "$word"))
        COMPREPLY=("${{COMPREPLY[@]// /\\\\ }}")
        compopt +o default
    fi
}}
complete -o default -F _datacube datacube
"""


def zsh_of(line):
    described = "".join(f"        '{name}:{quoted(it.about, ':')}'\n" for name, it in line.commands.items())
    cases = "".join(f"        {name})\n            {zsh_arguments(it, line.codes)}\n            ;;\n" for name, it in line.commands.items())
    return f"""#compdef datacube
# Completion of datacube for zsh, {MADE}.
_datacube() {{
    local context state state_descr curcontext=$curcontext
    local -a line commands
    typeset -A opt_args
    commands=(
{described}    )
    {zsh_words(["-C", *zsh_options(line.top.options), "'1:command:->command'", "'*::word:->word'"])}
    case $state in
    command)
        _describe -t commands command commands
        ;;
    word)
        case $line[1] in
{cases}        esac
        ;;
    esac
}}
_datacube "$@"
"""


def zsh_arguments(command, codes):
    words = zsh_options(command.options)
    for at, it in enumerate(command.arguments, 1):
        place = "*" if it.many else at
        choice = "_files" if it.is_file() else " "
        if it.name == "CODE":
            choice = "(" + " ".join(code.replace(" ", "\\ ") for code in codes) + ")"
        words.append(f"'{place}:{it.name}:{choice}'")
    return zsh_words(words)


def zsh_options(options):
    made = []
    for it in options:
        about = f"[{quoted(it.about, '[]')}]"
        if it.value:
            made.append(f"'{it.long}={about}:{it.value}:{'_files' if it.is_file() else ' '}'")
        elif not it.short:
            made.append(f"'{it.long}{about}'")
        else:
            made.append(f"'(- *)'{{{it.short},{it.long}}}'{about}'")
    return made


def zsh_words(words):
    return "_arguments " + " ".join(words)


def fish_of(line):
    rows = [f"# Completion of datacube for fish, {MADE}.", "complete -c datacube -f"]
    rows += [f"complete -c datacube -n __fish_use_subcommand {fish_option(it)}" for it in line.top.options]
    for name, it in line.commands.items():
        rows.append(f"complete -c datacube -n __fish_use_subcommand -a {name} -d '{quoted(it.about, '')}'")
    for name, it in line.commands.items():
        seen = f"complete -c datacube -n '__fish_seen_subcommand_from {name}'"
        rows += [f"{seen} {fish_option(option)}" for option in it.options]
        if any(argument.is_file() for argument in it.arguments):
            rows.append(f"{seen} -F")
        if any(argument.name == "CODE" for argument in it.arguments):
            rows.append(f"{seen} -a '" + " ".join('"' + code + '"' for code in line.codes) + "'")
    return "\n".join(rows) + "\n"


def fish_option(option):
    words = [f"-s {option.short[1:]}"] if option.short else []
    takes = ["-r -F"] if option.is_file() else ["-x"] if option.value else []
    words += [f"-l {option.long[2:]}", *takes, f"-d '{quoted(option.about, '')}'"]
    return " ".join(words)


def quoted(text, marks):
    """A text for single quotes, with a backslash before each of the marks."""
    for mark in marks:
        text = text.replace(mark, "\\" + mark)
    return text.replace("'", "'\\''" if marks else "\\'")
