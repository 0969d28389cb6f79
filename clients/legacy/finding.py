"""What is found without arguments: the program `gate`, and the Standard's index files and labels.

The program is the one that `--gate` names. Otherwise it is the variable GATE, then `gate` on PATH, then the repository's
`./gate` if this package lies in a checkout. The index files are in the folder that `--indexes` names, then GATE_INDEXES.
By default they are in the folder into which `tools/standard` puts them: `$XDG_DATA_HOME/gate/standard`, or
`~/.local/share/gate/standard`. The labels are the file that `--labels` names, or `encodings.json` in that folder;
without it the Standard's 40 names are the only labels."""
import argparse
import contextlib
import hashlib
import os
import pathlib
import shutil
from typing import List, NamedTuple, Optional

from gate import Fault, Gate, Gone

CHECKOUT = pathlib.Path(__file__).resolve().parent.parent.parent / "gate"
# A file that each folder of the Standard's index files has.
AN_INDEX = "index-jis0208.txt"
# The files that the program reads there.
FILES = ("index-*.txt", "gb18030-exceptions.txt")
# What a shell does that takes KiB and the words of a program. (What isn't limited is no number.)
BOUND = '[ "$(ulimit -v)" -le "$0" ] 2>/dev/null || ulimit -v "$0" && exec "$@"'


class Missing(Exception):
    """A missing or unsuitable thing that a subcommand needs: one line that says what."""


class Found(NamedTuple):
    """The program, the folder of the index files, and the label file, if there is one. It has the MiB of memory that each
    program may use with its documents, if that is bounded."""

    gate: str
    indexes: pathlib.Path
    labels: Optional[pathlib.Path]
    memory: Optional[int] = None

    def words(self) -> List[str]:
        """The command line that serves standard input. If memory is bounded, a shell bounds its own, unless that is lower
        already, and becomes the program."""
        labels = ["--labels", str(self.labels)] if self.labels else []
        bound = ["/bin/sh", "-c", BOUND, str(self.memory << 10)] if self.memory else []
        return [*bound, self.gate, "stdio", "--indexes", str(self.indexes), *labels]

    def digest(self) -> str:
        """What the index files and the labels are known again by, since by others a file may say something else."""
        known = hashlib.sha256()
        try:
            found = sorted(path for form in FILES for path in self.indexes.glob(form))
            for path in [*found, *([self.labels] if self.labels else [])]:
                content = path.read_bytes()
                known.update(b"%s %d\n%s" % (os.fsencode(path.name), len(content), content))
        except OSError as fault:
            raise Missing(f"{fault.filename}: {fault.strerror}") from fault
        return known.hexdigest()[:16]

    def start(self) -> Gate:
        """Starts the program, which has read its files once this returns."""
        try:
            started = Gate.start(*self.words())
        except OSError as fault:
            raise Missing(f"{self.gate} can't be run: {fault.strerror}") from fault
        try:
            # Any command will do: it replies, if only with a refusal, once its files are read.
            started.ask("stat", doc="-")
        except Fault:
            return started
        except (Gone, ValueError) as fault:
            started.close()
            words = self.words()
            raise Missing(f"{self.gate} ended before it replied; its words were {' '.join(words[words.index('stdio'):])}") from fault
        return started

    def look_for_encoder(self, word: str, label: str) -> None:
        """Raises `Missing` if the program doesn't encode to the label that an argument of a command line names."""
        reasons = {"UnknownLabel": "no encoding", "NoIndex": "an encoding without its index file", "NoEncoder": "no encoding to write"}
        with contextlib.closing(self.start()) as gate, gate.open("target", "utf-8", b"") as document:
            try:
                document.encode(label, end=0)
            except Fault as fault:
                raise Missing(f"{word}: {label} is {reasons.get(fault.name, fault.name)}") from fault


def add_words(parser: argparse.ArgumentParser) -> None:
    """Adds the words that name what else is found."""
    group = parser.add_argument_group("what is found without words")
    group.add_argument(
        "--gate", metavar="GATE",
        help="the program (default: the variable GATE, else gate on PATH, else ./gate of the repository that this is run from)")
    group.add_argument(
        "--indexes", metavar="DIR", type=pathlib.Path,
        help="the folder of the Standard's index files (default: GATE_INDEXES, else where tools/standard puts them)")
    add_labels(group)
    group.add_argument(
        "--memory", metavar="MIB", type=_memory,
        help="the most memory that each gate has, with all its documents (default: GATE_MEMORY, where gate is as tools/install put it)")


def _memory(word: str) -> int:
    if not word.isdecimal() or not 1 <= int(word) < 10**9:
        raise argparse.ArgumentTypeError(f"{word} is no number of MiB from 1 on")
    return int(word)


def add_labels(parser: "argparse._ActionsContainer") -> None:
    """Adds the word that names the label file, the only one for what needs no program."""
    parser.add_argument(
        "--labels", metavar="FILE", type=pathlib.Path,
        help="the label file (default: encodings.json in the folder of the index files)")


def standard(named: Optional[pathlib.Path] = None) -> pathlib.Path:
    """The folder of the index files and the labels: the one that is named, or else is given, or where `tools/standard`
    puts them."""
    given = named or os.environ.get("GATE_INDEXES")
    data = os.environ.get("XDG_DATA_HOME") or os.path.expanduser("~/.local/share")
    return pathlib.Path(given) if given else pathlib.Path(data, "gate", "standard")


def program(named: Optional[str] = None) -> str:
    """The program `gate`. Raises `Missing` if there is none."""
    named = named or os.environ.get("GATE")
    if named:
        if not shutil.which(named):
            raise Missing(f"the program {named} isn't there, or can't be run")
        return named
    found = shutil.which("gate") or (str(CHECKOUT) if os.access(CHECKOUT, os.X_OK) else None)
    if not found:
        raise Missing("the program gate isn't on PATH; --gate or the variable GATE names it")
    return found


def index_files(named: Optional[pathlib.Path] = None) -> pathlib.Path:
    """The folder of the index files. Raises `Missing` if it has none."""
    folder = standard(named)
    if not (folder / AN_INDEX).is_file():
        given = named or os.environ.get("GATE_INDEXES")
        hint = "" if given else "; tools/standard fetches them, or --indexes or the variable GATE_INDEXES names their folder"
        raise Missing(f"{folder} has no index files, as {AN_INDEX}{hint}")
    return folder


def label_file(named: Optional[pathlib.Path], indexes: pathlib.Path) -> Optional[pathlib.Path]:
    """The label file, or None if none is named and none lies next to the index files."""
    if named and not named.is_file():
        raise Missing(f"the label file {named} isn't there")
    beside = indexes / "encodings.json"
    return named or (beside if beside.is_file() else None)


def find(words: argparse.Namespace = argparse.Namespace(gate=None, indexes=None, labels=None, memory=None)) -> Found:
    """All that `add_words` names, from the parsed arguments; or what is found without any."""
    indexes = index_files(words.indexes)
    return Found(program(words.gate), indexes, label_file(words.labels, indexes), words.memory)
