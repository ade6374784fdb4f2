"""Completions of the command line for bash, zsh and fish, made of the help of the program and its commands."""

from __future__ import annotations

import re
import tempfile
from dataclasses import dataclass
from pathlib import Path
from typing import Callable, Dict, Iterator, List

from .helps import Argument, Help, Option, Unreadable, ask

# The least scenario and trace of which `summary` prints which events never came: all.
SCENARIO = 'slots = 1\narbiter = "sgl"\n[[board]]\nslot = 1\n'
TRACE = "vme 2\n"

# The letters of the codes that `rule` explains, and how many codes a letter has at most.
LETTERS, MOST_CODES = "EFLPQX", 20

# What a file's name ends in, by what is said of it.
SUFFIX = re.compile(r"\ba (\w+) file$")

MADE = "# Completions of vmebus {version} for {shell}, made by tools/manual of what its help says."


def rules(program: Path) -> List[str]:
    """The names of the rules, which begin the lines of `rule`."""
    return [it.split(" ", 1)[0] for it in ask(program, "rule")[1].splitlines()]


def explained(program: Path) -> List[str]:
    """What `rule` explains: the rules, and the codes of refusals and faults. It lists no codes, so that it is asked for each."""
    listed = rules(program)
    candidates = (f"{letter}{number}" for letter in LETTERS for number in range(1, MOST_CODES + 1))
    return [*listed, *(it for it in candidates if it not in listed and ask(program, "rule", it)[0] == 0)]


def events(program: Path) -> List[str]:
    """The names of the events, and of the rules whose conditions end a trace of `drive --until`, too."""
    with tempfile.TemporaryDirectory(prefix="vmebus-manual-") as room:
        for name, text in (("scenario", SCENARIO), ("trace", TRACE)):
            Path(room, name).write_text(text)
        said = ask(program, "summary", f"{room}/scenario", f"{room}/trace")[1]
    found = re.search(r"^never met (.*)$", said, re.M)
    if not found:
        raise Unreadable(f"{program} summary does not list the events that never came")
    return [*found[1].split(), *(it for it in rules(program) if it[0] in "GS")]


def drivers(_: Path) -> List[str]:
    return ["c", *map(str, range(1, 22))]


# Values that the program knows, by the name that stands for one in its help.
KNOWN: Dict[str, Callable[[Path], List[str]]] = {"NAME": explained, "EVENT": events, "D": drivers}


@dataclass(frozen=True)
class Value:
    """What may stand for an option's value or an argument: some words, or a file's name, perhaps with an ending."""

    words: List[str]
    is_file: bool
    suffix: str


@dataclass(frozen=True)
class Command:
    """A command as it is completed: the values are those of its options that take one, and of its arguments in order."""

    help: Help
    of_options: Dict[str, Value]
    of_arguments: List[Value]

    @property
    def name(self) -> str:
        return self.help.words[-1]

    @property
    def is_repeated(self) -> bool:
        """Whether its last argument may be given several times."""
        return any(it.is_repeated for it in self.help.arguments)

    @property
    def longs(self) -> List[str]:
        return [it.long for it in self.help.options]


def value_of_option(option: Option, known: Dict[str, List[str]]) -> Value:
    """A value that is neither listed nor known is a number, or a text that nobody can guess."""
    return Value(option.row.values or known.get(option.value or "", []), False, "")


def value_of_argument(argument: Argument, known: Dict[str, List[str]]) -> Value:
    words = argument.row.values or known.get(argument.name, [])
    suffix = SUFFIX.search(argument.row.text)
    return Value(words, not words, suffix[1].lower() if suffix else "")


def commands_of(program: Path, helps: List[Help]) -> List[Command]:
    """The commands, whose help stands behind that of the program."""
    known = {name: words(program) for name, words in KNOWN.items()}
    return [
        Command(it, {option.long: value_of_option(option, known) for option in it.options if option.value},
                [value_of_argument(argument, known) for argument in it.arguments])
        for it in helps[1:]
    ]


def quoted(text: str) -> str:
    """A text in single quotes of a shell of the Bourne family."""
    return "'" + text.replace("'", "'\\''") + "'"


# bash, also without the package bash-completion.

BASH = """
_vmebus() {{
    local current=${{COMP_WORDS[COMP_CWORD]}} before=${{COMP_WORDS[COMP_CWORD - 1]}} command=${{COMP_WORDS[1]}}
    local options= valued= arguments=() repeated= words= at=2 place=0 given=' ' is_behind= word
    COMPREPLY=()
    if ((COMP_CWORD == 1)); then
        COMPREPLY=($(compgen -W {first} -- "$current"))
        return
    fi
    case $command in
{commands}
        help) if ((COMP_CWORD == 2)); then COMPREPLY=($(compgen -W {names} -- "$current")); fi; return ;;
        *) return ;;
    esac
    # Where the word stands: behind how many arguments, and which options. bash takes `=` for a word.
    while ((at < COMP_CWORD)); do
        word=${{COMP_WORDS[at]}}
        at=$((at + 1))
        if [[ -z $is_behind && $word == -- ]]; then
            is_behind=1
        elif [[ -n $is_behind || $word != -* ]]; then
            place=$((place + 1))
        else
            given+="$word "
            if [[ ${{COMP_WORDS[at]}} == = ]]; then at=$((at + 1)); fi
            if [[ $valued == *" $word "* ]]; then at=$((at + 1)); fi
            while [[ ${{COMP_WORDS[at]:-}} == = ]]; do at=$((at + 2)); done
        fi
    done
    if [[ $current == = ]]; then
        current=
    elif [[ $before == = ]]; then
        before=${{COMP_WORDS[COMP_CWORD - 2]}}
    fi
    if ((at > COMP_CWORD)); then
        case "$command $before" in
{values}
        esac
        COMPREPLY=($(compgen -W "$words" -- "$current"))
        return
    fi
    if [[ -z $is_behind && $current == -* ]]; then
        for word in $options; do
            if [[ $given != *" $word "* ]]; then COMPREPLY+=($(compgen -W "$word" -- "$current")); fi
        done
        return
    fi
    if [[ -n $repeated ]] && ((place >= ${{#arguments[@]}})); then place=$((${{#arguments[@]}} - 1)); fi
    word=${{arguments[place]:-}}
    case $word in
        '') if [[ -z $is_behind ]]; then COMPREPLY=($(compgen -W "$options" -- "$current")); fi ;;
        file*)
            compopt -o filenames 2>/dev/null
            mapfile -t COMPREPLY < <(compgen -f -X "!*${{word#file}}" -- "$current"; compgen -d -- "$current")
            if ((${{#COMPREPLY[@]}} == 0)); then mapfile -t COMPREPLY < <(compgen -f -- "$current"); fi
            ;;
        *) COMPREPLY=($(compgen -W "${{word#words }}" -- "$current")) ;;
    esac
}}
complete -F _vmebus vmebus
"""


def bash_argument(value: Value) -> str:
    if not value.is_file:
        return quoted(f"words {' '.join(value.words)}")
    return f"file.{value.suffix}" if value.suffix else "file"


def bash_command(command: Command) -> str:
    options = f"options={quoted(' '.join(command.longs))}"
    valued = f"valued={quoted(' ' + ' '.join(command.of_options) + ' ')}"
    arguments = f"arguments=({' '.join(map(bash_argument, command.of_arguments))})"
    repeated = ["repeated=1"] * command.is_repeated
    body = "".join(f"            {it}\n" for it in [options, valued, arguments, *repeated])
    return f"        {command.name})\n{body}            ;;"


def bash_values(commands: List[Command]) -> Iterator[str]:
    for command in commands:
        for option, value in command.of_options.items():
            if value.words:
                yield f"            {quoted(f'{command.name} {option}')}) words={quoted(' '.join(value.words))} ;;"


def bash(whole: Help, commands: List[Command]) -> str:
    names = [it.term for it in whole.commands]
    return BASH.format(
        first=quoted(" ".join([*names, *(it.long for it in whole.options)])),
        names=quoted(" ".join(it.name for it in commands)),
        commands="\n".join(map(bash_command, commands)),
        values="\n".join(bash_values(commands)),
    )


# zsh.

ZSH = """
_vmebus() {{
    local context state state_descr line curcontext=$curcontext
    typeset -A opt_args
    local -a commands=(
{rows}
    )
    _arguments -C {options} '1: :->command' '*:: :->rest'
    case $state in
        command) _describe -t commands command commands ;;
        rest)
            curcontext=${{curcontext%:*:*}}:vmebus-$line[1]:
            case $line[1] in
{commands}
                help) if ((CURRENT == 2)); then _describe -t commands command commands; fi ;;
            esac
            ;;
    esac
}}

_vmebus "$@"
"""


def zsh_text(text: str) -> str:
    """A text between brackets or colons of `_arguments`."""
    return re.sub(r"([][:\\])", r"\\\1", text)


def zsh_value(value: Value) -> str:
    if value.is_file:
        return f'_files -g "*.{value.suffix}"' if value.suffix else "_files"
    return f"({' '.join(value.words)})" if value.words else " "


def zsh_option(option: Option, values: Dict[str, Value]) -> str:
    told = f"[{zsh_text(option.row.text)}]"
    if option.short:
        return f"'(- *)'{{{option.short},{option.long}}}{quoted(told)}"
    value = f"={told}:{zsh_text(option.value)}:{zsh_value(values[option.long])}" if option.value else told
    return quoted(f"{option.long}{value}")


def zsh_command(command: Command) -> str:
    specs = [zsh_option(it, command.of_options) for it in command.help.options]
    for at, (argument, value) in enumerate(zip(command.help.arguments, command.of_arguments)):
        place = "*" if argument.is_repeated else str(at + 1)
        specs.append(quoted(f"{place}:{argument.name}:{zsh_value(value)}"))
    body = "".join(f" \\\n                        {it}" for it in specs)
    return f"                {command.name}) _arguments{body} ;;"


def zsh(whole: Help, commands: List[Command]) -> str:
    return ZSH.format(
        rows="\n".join(f"        {quoted(zsh_text(it.term) + ':' + it.text)}" for it in whole.commands),
        options=" ".join(zsh_option(it, {}) for it in whole.options),
        commands="\n".join(map(zsh_command, commands)),
    )


# fish.

FISH = """
function __vmebus_is -d 'Whether the command is one of these'
    set -l words (commandline -opc)
    set -q words[2]; and contains -- $words[2] $argv
end

function __vmebus_is_none -d 'Whether there is no command yet'
    set -l words (commandline -opc)
    not set -q words[2]
end

function __vmebus_place -d 'How many arguments stand between the command and the cursor: OPTION.. are those with a value'
    set -l place 0
    set -l skips 0
    set -l is_behind 0
    for word in (commandline -opc)[3..-1]
        if test $skips = 1
            set skips 0
        else if test $is_behind = 0; and test "$word" = --
            set is_behind 1
        else if test $is_behind = 0; and string match -q -- '-*' $word
            contains -- $word $argv; and set skips 1
        else
            set place (math $place + 1)
        end
    end
    echo $place
end

complete -c vmebus -f
{lines}
"""


def fish_quoted(text: str) -> str:
    return "'" + text.replace("\\", "\\\\").replace("'", "\\'") + "'"


def fish_option(condition: str, option: Option, values: Dict[str, Value]) -> str:
    words = values[option.long].words if option.value else []
    value = " -x" * bool(option.value) + (f" -a {fish_quoted(' '.join(words))}" if words else "")
    short = f" -s {option.short[1:]}" if option.short else ""
    names = f"{short} -l {option.long[2:]}{value}"
    return f"complete -c vmebus -n {fish_quoted(condition)}{names} -d {fish_quoted(option.row.text)}"


def fish_values(value: Value) -> str:
    if not value.is_file:
        return f"-a {fish_quoted(' '.join(value.words))}"
    return f"-k -a '(__fish_complete_suffix .{value.suffix})'" if value.suffix else "-F"


def fish_command(command: Command) -> Iterator[str]:
    condition = f"__vmebus_is {command.name}"
    for option in command.help.options:
        yield fish_option(condition, option, command.of_options)
    for at, (argument, value) in enumerate(zip(command.help.arguments, command.of_arguments)):
        place = " ".join(["__vmebus_place", *command.of_options])
        test = f"test ({place}) {'-ge' if argument.is_repeated else '='} {at}"
        at_place = fish_quoted(f"{condition}; and {test}")
        yield f"complete -c vmebus -n {at_place} {fish_values(value)} -d {fish_quoted(argument.name)}"


def fish(whole: Help, commands: List[Command]) -> str:
    lines = [fish_option("__vmebus_is_none", it, {}) for it in whole.options]
    for row in whole.commands:
        lines.append(f"complete -c vmebus -n __vmebus_is_none -a {fish_quoted(row.term)} -d {fish_quoted(row.text)}")
    lines.append(f"complete -c vmebus -n '__vmebus_is help; and test (__vmebus_place) = 0' -a {fish_quoted(' '.join(it.name for it in commands))}")
    for command in commands:
        lines += fish_command(command)
    return FISH.format(lines="\n".join(lines))


# The shells: where each looks for completions below a prefix, and what makes them.
SHELLS = {
    "bash": ("share/bash-completion/completions/vmebus", "", bash),
    "zsh": ("share/zsh/site-functions/_vmebus", "#compdef vmebus\n", zsh),
    "fish": ("share/fish/vendor_completions.d/vmebus.fish", "", fish),
}


def made_for(program: Path, helps: List[Help], version: str) -> Dict[str, str]:
    """The file of each shell, by its path below a prefix."""
    commands = commands_of(program, helps)
    return {
        path: f"{head}{MADE.format(version=version, shell=shell)}\n{made(helps[0], commands)}"
        for shell, (path, head, made) in SHELLS.items()
    }
