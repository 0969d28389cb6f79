"""`legacy verify`: whether files are as a manifest has them, which `legacy convert --manifest` wrote: a line for each file, its SHA-256
and its path, as sha256sum has them and bags of BagIt.

    for it in verify("manifest"):
        print(it.path, it.reason)"""
import argparse
import hashlib
import os
import re
import stat
import sys
from typing import Any, Iterator, NamedTuple

from legacy.finding import Missing
from legacy.terminals import quantity, quote_path, visible_text
from legacy.work.walk import reason

ABOUT = ("Look whether the files of a manifest, which legacy convert --manifest wrote, still have the SHA-256 that it says, and print those that"
         " don't. The status is 0 where all do, 1 where some don't, 2 where FILE is no manifest.")

LINE = re.compile("(\\\\?)([0-9a-f]{64}) [ *](.+)")
# What stands for characters in a path that a line can't have; such a line begins with a backslash.
ESCAPES = str.maketrans({"\\": "\\\\", "\n": "\\n", "\r": "\\r"})
BLOCK = 1 << 20


class Verified(NamedTuple):
    """A file of a manifest, and why it isn't as the manifest has it, if it isn't."""

    path: str
    reason: str


def line_of(sha256: str, path: str) -> str:
    """The line of a file."""
    escaped = path.translate(ESCAPES)
    return f"{'' if escaped == path else chr(92)}{sha256}  {escaped}\n"


def verify(path: str) -> Iterator[Verified]:
    """The files of a manifest. Raises `Missing` if it isn't one."""
    try:
        with open(path, encoding="utf-8", errors="surrogateescape", newline="\n") as file:
            lines = [LINE.fullmatch(line.rstrip("\n")) for line in file]
    except OSError as fault:
        raise Missing(f"{quote_path(path)}: {fault.strerror}") from fault
    if not lines or None in lines:
        number = lines.index(None) + 1 if lines else 1
        raise Missing(f"{quote_path(path)}, line {number} isn't a SHA-256 and a path")
    for it in lines:
        assert it
        name = re.sub(r"\\([\\nr])", lambda found: {"n": "\n", "r": "\r"}.get(found[1], "\\"), it[3]) if it[1] else it[3]
        yield Verified(name, _fault(name, it[2]))


def _fault(path: str, sha256: str) -> str:
    """Why a file doesn't have a SHA-256, if it doesn't."""
    try:
        number = os.open(path, os.O_RDONLY | os.O_NONBLOCK | os.O_NOCTTY | os.O_CLOEXEC)
        with open(number, "rb", buffering=0) as file:
            if not stat.S_ISREG(os.fstat(number).st_mode):
                return "no file any more"
            known = hashlib.sha256()
            for block in iter(lambda: file.read(BLOCK), b""):
                known.update(block or b"")
    except OSError as fault:
        return reason(fault)
    return "" if known.hexdigest() == sha256 else "it has other bytes"


def add_to(commands: "argparse._SubParsersAction[Any]") -> None:
    """Adds the parser of this subcommand."""
    parser = commands.add_parser("verify", help="look whether files are as a manifest has them", description=ABOUT)
    parser.add_argument("file", metavar="FILE", help="the manifest")
    parser.set_defaults(run=run)


def run(words: argparse.Namespace) -> int:
    """Prints what isn't as it was, and returns the status."""
    right = wrong = 0
    for it in verify(words.file):
        right, wrong = right + (not it.reason), wrong + bool(it.reason)
        if it.reason:
            print(f"{quote_path(it.path)}: {visible_text(it.reason)}")
    sys.stdout.flush()
    print(f"{quantity(right, 'files')} as the manifest has them; {wrong} not", file=sys.stderr)
    return 1 if wrong else 0
