"""`legacy lsp`: the language server, over standard streams."""
import argparse
import os
import sys
from typing import Any

from legacy import finding
from legacy.lsp.server import DEBOUNCE, Server
from legacy.rules import add_words as add_rules

ABOUT = ("Serve an editor over standard streams, by the Language Server Protocol 3.17: diagnostics for bytes that don't decode, and for"
         " characters that a legacy encoding lacks, while they are typed. No file is changed, unless the editor asks for it by legacy/write.")


def add_to(commands: "argparse._SubParsersAction[Any]") -> None:
    """Adds the parser of this subcommand."""
    parser = commands.add_parser("lsp", help="serve an editor by the Language Server Protocol", description=ABOUT)
    add_rules(parser)
    finding.add_words(parser)
    parser.add_argument(
        "--debounce", metavar="SECONDS", type=_seconds, default=DEBOUNCE,
        help=f"how long an edit may wait until damage is shown again (default: {DEBOUNCE:g}); refused characters are shown at once")
    parser.set_defaults(run=run)


def _seconds(word: str) -> float:
    try:
        seconds = float(word)
    except ValueError:
        seconds = -1.0
    if not 0 <= seconds <= 60:
        raise argparse.ArgumentTypeError(f"{word} isn't a number of seconds from 0 to 60")
    return seconds


def run(words: argparse.Namespace) -> int:
    """Serves until the editor ends the server."""
    found = finding.find(words)
    # (a thread may still read from it when the server ends, and then Python can't close it)
    reading = open(os.dup(sys.stdin.fileno()), "rb")
    with open(os.dup(sys.stdout.fileno()), "wb") as writing:
        # (what a library prints would be read as a message)
        sys.stdout = sys.stderr
        return Server(words, found, reading, writing).serve()
