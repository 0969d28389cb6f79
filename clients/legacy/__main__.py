"""The command `legacy`: a subcommand for each job over trees of legacy files.

Each subcommand is a module of this package, with `add_to(commands)`, which adds its parser and names its function as
`run`. That function takes the parsed arguments and returns the status. `legacy SUBCOMMAND --help` lists its options."""
import argparse
import codecs
import importlib
import io
import os
import sys
from typing import Any, List, NoReturn, Optional, Sequence, Tuple, Union

from legacy import __version__, terminals
from legacy.finding import Missing

# The subcommands, in the order of the help, each of which is a module.
SUBCOMMANDS: Tuple[str, ...] = (
    "mount",
    "umount",
    "mounts",
    "rules",
    "encodings",
    "check",
    "search",
    "convert",
    "verify",
    "mend",
    "review",
    "diff",
    "textconv",
    "lsp",
    "complete",
)
# The packages of Debian that have the libraries that some subcommands need.
PACKAGES = {"pyfuse3": "python3-pyfuse3", "distributed": "python3-distributed"}

# Statuses: 2 for words, files and libraries that are wrong or missing, and as a shell has it for a signal.
USAGE, INTERRUPTED, CLOSED = 2, 130, 141


class Parser(argparse.ArgumentParser):
    """A parser whose faults repeat words in a form that no terminal obeys, and come with the usage of the subcommand that they are
    of."""

    # The parsers of the subcommands, if it has any.
    commands: "Optional[argparse._SubParsersAction[Any]]" = None

    def parse_args(self, args: Any = None, namespace: Any = None) -> Any:
        found, rest = self.parse_known_args(args, namespace)
        if rest:
            (self.commands.choices[found.subcommand] if self.commands else self).error(f"unrecognized arguments: {' '.join(rest)}")
        return found

    def error(self, message: str) -> NoReturn:
        self.print_usage(sys.stderr)
        self.exit(USAGE, f"{self.prog} --help says what each word is\n{self.prog}: error: {message}\n")

    def exit(self, status: int = 0, message: Optional[str] = None) -> NoReturn:
        super().exit(status, message and terminals.message(message))


def parser(words: Sequence[str] = ()) -> argparse.ArgumentParser:
    """The parser of these arguments, with one of its own for the subcommand that they begin with, or otherwise for each. (Only
    what that one needs is imported.)"""
    made = Parser(
        prog="legacy", epilog="Each subcommand has a --help of its own.",
        description="Work on trees of files in legacy encodings, which stay bytes: no byte changes that nobody edits.")
    made.add_argument("--version", action="version", version=f"legacy {__version__}")
    made.commands = commands = made.add_subparsers(title="subcommands", dest="subcommand", metavar="SUBCOMMAND", required=True)
    for name in words[:1] if words[:1] and words[0] in SUBCOMMANDS else SUBCOMMANDS:
        importlib.import_module(f"legacy.{name}").add_to(commands)
    return made


def library(fault: ModuleNotFoundError) -> str:
    """The message for a missing library."""
    name = (fault.name or "").partition(".")[0]
    hint = f", Debian's {PACKAGES[name]}," if name in PACKAGES else ""
    return f"the library {name}{hint} isn't installed for {sys.executable}"


def as_it_can(fault: UnicodeError) -> Tuple[Union[str, bytes], int]:
    """Takes what a stream's encoding lacks: names that aren't text as their bytes, other characters as an escape."""
    assert isinstance(fault, UnicodeEncodeError)
    try:
        return codecs.lookup_error("surrogateescape")(fault)
    except UnicodeEncodeError:
        return codecs.lookup_error("backslashreplace")(fault)


def fault_of(fault: OSError) -> str:
    """What to say of a file or a stream that fails."""
    return f"{os.fsdecode(fault.filename)}: {fault.strerror}" if fault.filename else str(fault.strerror or fault)


def end_output() -> None:
    """Writes what is left of the output, or sees that it doesn't fail again at the end."""
    try:
        sys.stdout.flush()
    except OSError:
        os.dup2(os.open(os.devnull, os.O_WRONLY), sys.stdout.fileno())


def main(words: Optional[List[str]] = None) -> int:
    """Runs the subcommand that the words name, by default those of the command line, and returns its status."""
    is_program = words is None
    codecs.register_error("as-it-can", as_it_can)
    if sys.stdout is None:  # (it was closed, as of a service)
        sys.stdout = open(os.devnull, "w")
    for stream in sys.stdout, sys.stderr:
        if isinstance(stream, io.TextIOWrapper):
            stream.reconfigure(errors="as-it-can")
    words = sys.argv[1:] if words is None else words
    found = parser(words).parse_args(words)
    try:
        status: int = found.run(found)
        sys.stdout.flush()
        return status
    except Missing as fault:
        said, status = str(fault), USAGE
    except ModuleNotFoundError as fault:
        said, status = library(fault), USAGE
    except KeyboardInterrupt:
        said, status = "interrupted", INTERRUPTED
    except BrokenPipeError:  # Whoever read the output, such as head, has enough.
        end_output()
        return CLOSED
    except OSError as fault:
        said, status = fault_of(fault), USAGE
    end_output()
    print(terminals.message(f"legacy {found.subcommand}: {said}"), file=sys.stderr)
    if is_program and status == INTERRUPTED:
        # (Python would wait for threads, and these for processes that were killed in the middle of something)
        sys.stderr.flush()
        os._exit(status)
    return status


if __name__ == "__main__":
    sys.exit(main())
