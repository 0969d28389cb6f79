"""`legacy complete`: a shell's completions of the command's arguments, made of its parser."""
import argparse
import re
from typing import Any, Dict, Iterator, List

from legacy.rules.names import NAMES

ABOUT = ("Print what makes a shell complete the words of legacy: for bash, to be sourced or put into ~/.local/share/bash-completion/completions/legacy;"
         " for zsh, as _legacy in a folder of fpath; for fish, as ~/.config/fish/completions/legacy.fish.")

SHELLS = ("bash", "zsh", "fish")
# What the values of an option are, by what stands for them in the help.
LABELS, FOLDERS = ("LABEL",), ("DIR", "MOUNTPOINT", "OUT")
NO_FILES = ("N", "MIB", "KIND", "GLOB=LABEL", "OLD=NEW", "SCHEDULER", "EXPRESSION")

Parsers = Dict[str, argparse.ArgumentParser]


def options(parser: argparse.ArgumentParser) -> List[argparse.Action]:
    """The options of a subcommand."""
    return [it for it in parser._actions if it.option_strings]


def choices(action: argparse.Action) -> List[str]:
    """The values that an option may have, if they are few."""
    return list(map(str, action.choices or (NAMES if action.metavar in LABELS else ())))


def about(action: argparse.Action) -> str:
    """What an option is for, in one line without quotes."""
    said = re.sub(r"[][:'\"`\\%$]", " ", action.help or "")
    return re.split(r"[;,(]", " ".join(said.split()))[0].strip()


def bash(parsers: Parsers) -> Iterator[str]:
    """The script for bash."""
    yield "# bash completion for legacy\n_legacy() {\n    local word=${COMP_WORDS[COMP_CWORD]} before=${COMP_WORDS[COMP_CWORD-1]}\n"
    first = f'COMPREPLY=($(compgen -W "{" ".join(parsers)} --help --version" -- "$word"))'
    yield f'    if [ "$COMP_CWORD" -eq 1 ]; then\n        {first}\n        return\n    fi\n'
    yield '    case ${COMP_WORDS[1]} in\n'
    for name, parser in parsers.items():
        yield f"    {name})\n        case $before in\n"
        for it in options(parser):
            if it.nargs != 0:
                yield f"        {'|'.join(it.option_strings)}) {_bash_values(it)}; return ;;\n"
        words = " ".join(word for it in options(parser) for word in it.option_strings)
        yield f'        esac\n        [ "${{word:0:1}}" = - ] && COMPREPLY=($(compgen -W "{words}" -- "$word")) && return\n        ;;\n'
    yield '    esac\n    COMPREPLY=($(compgen -f -- "$word"))\n}\ncomplete -o filenames -F _legacy legacy\n'


def _bash_values(action: argparse.Action) -> str:
    if choices(action):
        return f'COMPREPLY=($(compgen -W "{" ".join(choices(action))}" -- "$word"))'
    if action.metavar in NO_FILES:
        return "COMPREPLY=()"
    return f'COMPREPLY=($(compgen -{"d" if action.metavar in FOLDERS else "f"} -- "$word"))'


def zsh(parsers: Parsers) -> Iterator[str]:
    """The script for zsh."""
    yield "#compdef legacy\n_legacy() {\n    if (( CURRENT == 2 )); then\n"
    yield f"        compadd {' '.join(parsers)} --help --version\n        return\n    fi\n"
    yield "    local name=$words[2]\n    shift words\n    (( CURRENT-- ))\n    case $name in\n"
    for name, parser in parsers.items():
        yield f"    {name}) _arguments -s"
        for it in options(parser):
            values = "" if it.nargs == 0 else f":{str(it.metavar or it.dest).lower().replace('=', ' ')}:{_zsh_values(it)}"
            for word in it.option_strings:
                yield f" \\\n        '*{word}[{about(it)}]{values}'"
        yield " \\\n        '*:file:_files' ;;\n"
    yield '    esac\n}\n_legacy "$@"\n'


def _zsh_values(action: argparse.Action) -> str:
    if choices(action):
        return f"({' '.join(choices(action))})"
    return " " if action.metavar in NO_FILES else "_files -/" if action.metavar in FOLDERS else "_files"


def fish(parsers: Parsers) -> Iterator[str]:
    """The script for fish."""
    yield f"# fish completion for legacy\ncomplete -c legacy -n __fish_use_subcommand -f -a '{' '.join(parsers)}'\n"
    for name, parser in parsers.items():
        for it in options(parser):
            words = " ".join(f"-{'l' if word.startswith('--') else 's'} {word.lstrip('-')}" for word in it.option_strings)
            values = "" if it.nargs == 0 else f" -x -a '{' '.join(choices(it))}'" if choices(it) else " -x" if it.metavar in NO_FILES else " -r"
            yield f"complete -c legacy -n '__fish_seen_subcommand_from {name}' {words}{values} -d '{about(it)}'\n"


def parsers_of(parser: argparse.ArgumentParser) -> Parsers:
    """The parser of each subcommand, in the order of the help."""
    return next(dict(it.choices or {}) for it in parser._actions if isinstance(it, argparse._SubParsersAction))


def add_to(commands: "argparse._SubParsersAction[Any]") -> None:
    """Adds the parser of this subcommand."""
    parser = commands.add_parser("complete", help="print what makes a shell complete words", description=ABOUT)
    parser.add_argument("shell", metavar="SHELL", choices=SHELLS, help="bash, zsh or fish")
    parser.set_defaults(run=run)


def run(words: argparse.Namespace) -> int:
    """Prints the script of a shell."""
    from legacy.__main__ import parser

    made = {"bash": bash, "zsh": zsh, "fish": fish}[words.shell](parsers_of(parser()))
    print(*made, sep="", end="")
    return 0
