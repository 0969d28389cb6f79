"""`legacy encodings`: what a file would be in each encoding of the Encoding Standard: the errors that it would have, and what its
characters would be. It is evidence for a person; none of them is called the right one.

    for it in encodings("letter.txt", finding.find()):
        print(it.encoding, it.errors, it.kinds)"""
import argparse
import collections
import dataclasses
import functools
import json
import os
import re
import sys
import unicodedata
from typing import Any, Counter, Dict, Iterator, List, NamedTuple, Optional

from gate import Fault, Gate

from legacy import finding
from legacy.controls import CONTROL
from legacy.ends import LINE_END
from legacy.finding import Found
from legacy.rules.names import NAMES
from legacy.terminals import quantity, quote_path, visible_text
from legacy.work import Item, Program, Refusal, read, refusals
from legacy.work.walk import entry_of

ABOUT = ("Say of each file what it would be in each encoding: how many errors it would have and where the first one is, and how many of its"
         " characters would be of which script or kind. The encodings with the fewest errors come first; a file is consistent with all that have"
         " none, and which of them is right only its text says. The status is 0, or 2 where a file couldn't be looked at.")

BAD = "\ufffd"
# The kinds of characters that aren't letters of a script, by their general category.
CATEGORIES = {"Co": "private use", "Cn": "unassigned", "Nd": "digits", "Sm": "symbols", "Sc": "symbols", "Sk": "symbols", "So": "symbols"}


@dataclasses.dataclass
class Consistent:
    """A file in an encoding: the file, the encoding's name, and the number of errors that it would have. It has the place of the
    first error (its byte, its line and its character, counted from 1), its characters, and how many of these are of each kind."""

    path: str
    encoding: str
    errors: int
    first: Optional[List[int]]
    characters: int
    kinds: Dict[str, int]


@functools.lru_cache(maxsize=1 << 16)
def kind_of(letter: str) -> str:
    """What a character is: of ASCII, of a script, or of another kind."""
    if CONTROL.match(letter):
        return "controls"
    if letter < "\x80":
        return "ASCII"
    if "\uff61" <= letter <= "\uff9f":
        return "half-width katakana"
    category = unicodedata.category(letter)
    name = unicodedata.name(letter, "").split(" ")[0].split("-")[0]
    if category[0] in "LM" and name:
        return name.capitalize() if name != "CJK" else "Han"
    return "box drawing" if "\u2500" <= letter <= "\u259f" else CATEGORIES.get(category, "punctuation")


def kinds_of(letters: Counter[str]) -> Dict[str, int]:
    """The number of characters of each kind, most first; errors aren't counted."""
    found: Counter[str] = collections.Counter()
    for letter, count in letters.items():
        if letter != BAD:
            found[kind_of(letter)] += count
    return dict(found.most_common())


class Tables:
    """What each byte is in the encodings of single bytes, by the program."""

    def __init__(self) -> None:
        self._known: Dict[str, str] = {}

    def of(self, gate: Gate, label: str) -> str:
        """The characters of all bytes."""
        if label not in self._known:
            with gate.open("table", label, bytes(range(256)), "keep") as document:
                self._known[label] = document.text()
        return self._known[label]


TABLES = Tables()


def encodings(path: str, found: Found) -> Iterator[Consistent]:
    """What a file would be in each encoding, the one with the fewest errors first. Raises `Refusal` if it can't be read."""
    with Program(found) as program:
        yield from _all(path, program)


def _all(path: str, program: Program) -> List[Consistent]:
    entry = entry_of(path)
    if entry.fault:
        raise Refusal(entry.fault)
    with refusals(""):
        content = read(Item(path, entry.size, entry.time, ""))
    found = Content(path, content, collections.Counter(content))
    made = program.ask(lambda gate: [it for label in NAMES for it in _one(gate, label, found)])
    return sorted(made, key=lambda it: it.errors)


class Content(NamedTuple):
    """A file's path, its bytes, and the number of times that each byte occurs."""

    path: str
    content: bytes
    counts: Counter[int]


def _one(gate: Gate, label: str, of: Content) -> Iterator[Consistent]:
    """What a file would be in an encoding, unless its index file is missing."""
    try:
        with gate.open("encoding", label, b"") as document:
            name = document.encoding
        yield _by_table(TABLES.of(gate, label), name, of) if NAMES[label].most == 1 else _by_text(gate, label, name, of)
    except Fault as fault:
        if fault.name != "NoIndex":
            raise


def _by_table(table: str, name: str, of: Content) -> Consistent:
    """A file in an encoding of single bytes, by the number of times that each byte occurs, since each is a
    character."""
    letters: Counter[str] = collections.Counter()
    for byte, count in of.counts.items():
        letters[table[byte]] += count
    wrong = bytes(it for it, letter in enumerate(table) if letter == BAD)
    at = re.search(b"[%b]" % re.escape(wrong), of.content) if letters[BAD] else None
    first = _place(of.content[: at.start()].decode("latin-1"), at.start()) if at else None
    return Consistent(of.path, name, letters[BAD], first, len(of.content), kinds_of(letters))


def _by_text(gate: Gate, label: str, name: str, of: Content) -> Consistent:
    with gate.open("text", label, of.content, "keep") as document:
        stat, text = document.stat(), document.text()
        errors, first = stat["errors"], None
        if errors:
            (begin, _), (line, character), _ = document.diagnostics(unit="utf-32", most=1)[0]
            first = [begin, line + 1, character + 1]
    return Consistent(of.path, name, errors, first, stat["utf32"], kinds_of(collections.Counter(text)))


def _place(before: str, at: int) -> List[int]:
    """A byte, with its line and character, by the characters before it."""
    ends = [it.end() for it in LINE_END.finditer(before)]
    return [at, len(ends) + 1, len(before) - (ends[-1] if ends else 0) + 1]


def add_to(commands: "argparse._SubParsersAction[Any]") -> None:
    """Adds the parser of this subcommand."""
    parser = commands.add_parser("encodings", help="say what files would be in each encoding", description=ABOUT)
    parser.add_argument("files", metavar="FILE", nargs="+", help="a file")
    parser.add_argument("--json", action="store_true", help="print an object of JSON for each file and encoding")
    finding.add_words(parser)
    parser.set_defaults(run=run)


def run(words: argparse.Namespace) -> int:
    """Prints what files would be, and returns the status."""
    status = 0
    with Program(finding.find(words)) as program:
        for path in words.files:
            try:
                made = _all(path, program)
            except Refusal as fault:
                print(f"legacy encodings: {quote_path(path)}: {visible_text(str(fault))}", file=sys.stderr)
                status = 2
                continue
            for line in [json.dumps(dataclasses.asdict(it)) for it in made] if words.json else lines_of(path, made):
                print(line)
    return status


def lines_of(path: str, made: List[Consistent]) -> Iterator[str]:
    """What a person is shown of a file."""
    yield f"{quote_path(path)}: {quantity(os.path.getsize(path), 'bytes')}, consistent with {quantity(sum(not it.errors for it in made), 'encodings')}"
    for it in made:
        where = f", the first at byte {it.first[0]}, line {it.first[1]}, character {it.first[2]}" if it.first else ""
        kinds = ", ".join(f"{count} {kind}" for kind, count in it.kinds.items())
        yield f"  {it.encoding}: {quantity(it.errors, 'errors')}{where}; {kinds or 'no characters'}"
