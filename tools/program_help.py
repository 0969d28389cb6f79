"""What `gate --help` prints: the commands of the program, and the arguments and options of each."""
import os
import pathlib
import re
import subprocess
from typing import List, NamedTuple, Optional

from crates import TOP

OUT = TOP / "crates" / "gate" / "out"


class Option(NamedTuple):
    """An option or an argument: its flag, empty for an argument, what stands for its value, and what it is for."""

    flag: str
    value: str
    text: str


class Command(NamedTuple):
    """A command: its name, empty for the program without one, what it does, its options, and the usage line's required parts."""

    name: str
    text: str
    options: List[Option]
    required: str


def program() -> Optional[pathlib.Path]:
    """The program whose help is read: what GATE names, the proved one, or the one without a proof."""
    named = [pathlib.Path(os.environ["GATE"])] if "GATE" in os.environ else [OUT / "gate", OUT / "unproved" / "gate"]
    return next((path for path in named if os.access(path, os.X_OK)), None)


def run(*words: object) -> str:
    return subprocess.run([*map(str, words), "--help"], stdout=subprocess.PIPE, check=True).stdout.decode()


def parse(name: str, printed: str) -> Command:
    """The command of a help text."""
    options = []
    for short, flag, value, text in re.findall(r"^ +(?:(-\w), )?(--[\w-]+)?(?: ?<(\w+)>)?  +(\S.*)$", printed, re.MULTILINE):
        if flag or value:
            options.append(Option(f"{flag[1:]}{f' , Fl {short[1:]}' * bool(short)}", value, text))
    usage = re.search(r"^Usage: gate ?(?:\w+ )?(?:\[OPTIONS\])? ?(.*)$", printed, re.MULTILINE)
    return Command(name, printed.partition("\n")[0], options, usage[1] if usage else "")


def commands(path: pathlib.Path) -> List[Command]:
    """The program without a command, and each of its commands."""
    head = run(path)
    names = re.findall(r"^  (\w+) +\S", head.partition("Commands:\n")[2].partition("\n\n")[0], re.MULTILINE)
    return [parse("", head), *(parse(name, run(path, name)) for name in names if name != "help")]
