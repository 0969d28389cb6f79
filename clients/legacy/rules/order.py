"""The order in which rules count, and the words of a command line that say or ask for some."""
import argparse
import os
import pathlib
import re
import sys
import time
from typing import Callable, Dict, List, NamedTuple, Optional, Sequence, Set, Tuple, Union

from legacy.finding import Missing
from legacy.rules.attributes import Matches, Pattern
from legacy.rules.declared import Declared
from legacy.rules.editorconfig import EditorConfigs
from legacy.rules.files import Named, Tree
from legacy.rules.names import encoding_of, labels_in
from legacy.rules.repositories import Repositories
from legacy.terminals import message

# Names that programs give to files of their own: hidden ones, backups, swap and lock files, and refused texts of the
# mount. A pattern counts for them if it is such a name itself, for example `.*.txt`.
SPECIAL = re.compile(r"^\.|^#.*#$|^4913$|~$|\.rejected$")
# How such a name begins or ends. (An LF may follow.)
FIRST, LAST = b".#4", b"~d\n"
# How the origin of a rule of the command line begins.
OF_WORDS = "-e "
# What a word has in place of a label to say that files are bytes.
BYTES = "bytes"

Path = Union[str, bytes, "os.PathLike[str]"]


class Rule(NamedTuple):
    """A file's encoding: a label of the Encoding Standard, if that is said, and the byte order mark that the file gets if
    it is made again."""

    label: str
    origin: str
    mark: bytes = b""

    @property
    def is_constant(self) -> bool:
        """Whether it is one of a command line: these come first, whatever files of rules say."""
        return self.origin.startswith(OF_WORDS)


def is_special(path: bytes) -> bool:
    """Whether a path ends in a name that programs give to files of their own."""
    name = path.rpartition(b"/")[2]
    return (name[:1] in FIRST or name[-1:] in LAST) and SPECIAL.search(os.fsdecode(name)) is not None


def to_stderr(text: str) -> None:
    """Prints a line on standard error."""
    print(message(f"legacy: {text}"), file=sys.stderr)


class Rules:
    """The rules of the tree `source`, a path or a folder's descriptor. `words` are patterns, as gitattributes(5) has
    them, each with a label; the last that matches counts. `report` is called once with each fault of a file of rules, for
    example an encoding that the Standard doesn't have. Files of rules are looked at again after `patience` seconds.

    Raises `Missing` if a word's label isn't one, and `OSError` if the tree doesn't exist."""

    def __init__(
        self, source: Union[Path, int], words: Sequence[Tuple[str, str]] = (), attributes: bool = True,
        editorconfig: bool = False, default: Optional[str] = None, labels: Optional[pathlib.Path] = None,
        report: Callable[[str], None] = to_stderr, patience: float = 1.0, declared: bool = False,
    ):
        self._labels = labels_in(labels) if labels else None
        self._report: Callable[[str], None] = report
        self._reported: Set[str] = set()
        self._kept: Dict[Named, Optional[Rule]] = {}
        self._patience, self._turn, self._until = patience, 0, 0.0
        named_by = [Named(None if label == BYTES else label, f"{OF_WORDS}{glob}={label}", glob) for glob, label in reversed(words)]
        self._words = Matches((Pattern(os.fsencode(it.glob).decode("latin-1")), it) for it in named_by)
        self._default = Named(default, "--default", "*") if default else None
        for named in [*named_by, self._default]:
            if named and named.name and not encoding_of(named.name, self._labels):
                raise Missing(f"{named.origin}: {named.name} is no encoding of the Encoding Standard")
        tree = Tree(source)
        self._sources: List[Callable[[bytes, int], Optional[Named]]] = [self._by_words]
        self._sources += [Repositories(tree, self._once).find_encoding] if attributes else []
        self._sources += [EditorConfigs(tree, self._once).find_encoding] if editorconfig else []
        self._sources += [Declared(tree).find_encoding] if declared else []

    def rule_of(self, path: Path) -> Optional[Rule]:
        """The rule of a file, by its path from the tree's top; None if it has none."""
        raw = os.fsencode(path)
        if time.monotonic() >= self._until:
            self.refresh()
        special = is_special(raw)
        for source in self._sources:
            named = source(raw, self._turn)
            if named and (not special or SPECIAL.search(named.glob.rpartition("/")[2])):
                return self._rule(named)
        return self._rule(self._default) if self._default and not special else None

    def refresh(self) -> None:
        """Looks at the files of rules again, from now."""
        self._turn += 1
        self._until = time.monotonic() + self._patience

    def _by_words(self, path: bytes, _: int) -> Optional[Named]:
        return self._words.first(path.decode("latin-1"))

    def _rule(self, named: Named) -> Optional[Rule]:
        if named not in self._kept:
            found = encoding_of(named.name, self._labels) if named.name else None
            if named.name and not found:
                self._once(f"{named.origin}: {named.name} is no encoding of the Encoding Standard; its files pass as bytes")
            self._kept[named] = Rule(found.label, named.origin, found.mark) if found else None
        return self._kept[named]

    def _once(self, text: str) -> None:
        if text not in self._reported:
            self._reported.add(text)
            self._report(text)


def word(text: str) -> Tuple[str, str]:
    """A pattern and a label, from what a command line has."""
    glob, _, label = text.rpartition("=")
    if not glob or not label:
        raise argparse.ArgumentTypeError(f"{text} isn't GLOB=LABEL, as '*.txt=shift_jis'")
    if glob.endswith("/"):
        raise argparse.ArgumentTypeError(f"{glob} is the pattern of a folder; {glob}** is that of the files in it")
    if glob.startswith("!"):
        raise argparse.ArgumentTypeError(f"{glob} isn't negated; {glob[1:]}={BYTES} says that such files are no text")
    return glob, label


def add_words(parser: argparse.ArgumentParser) -> None:
    """Adds the words that say rules, or where they are looked for."""
    group = parser.add_argument_group("which file is in which encoding")
    group.add_argument(
        "-e", "--encoding", metavar="GLOB=LABEL", type=word, action="append", default=[],
        help="files that the pattern matches, as in .gitattributes, are in this encoding, or are no text where it is the word"
             " bytes; of several, the last that matches counts, before any file of rules")
    group.add_argument("--default", metavar="LABEL", help="files that no other rule names are in this encoding")
    group.add_argument(
        "--editorconfig", action="store_true", help="look for the property charset of .editorconfig too, behind the attributes")
    group.add_argument(
        "--no-attributes", dest="attributes", action="store_false", help="don't look for the attribute working-tree-encoding")
    group.add_argument(
        "--declared", action="store_true", help="look in files for the encoding that they name themselves, behind the files of rules: coding: of Emacs"
        " and PEP 263, modelines, XML, HTML, CSS, PO and MIME headers, and hunspell's SET")


def rules_from(
    words: argparse.Namespace, source: Union[Path, int], labels: Optional[pathlib.Path] = None,
    report: Callable[[str], None] = to_stderr, patience: float = 1.0,
) -> Rules:
    """The rules of a tree by the words that `add_words` adds."""
    return Rules(
        source, words.encoding, words.attributes, words.editorconfig, words.default, labels, report, patience, words.declared)
