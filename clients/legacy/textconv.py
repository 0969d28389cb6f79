"""`legacy textconv`, which shows git a file as text, and the text of a file with its damage, as `legacy diff` compares it. Git
starts it for each file, so what it imports is little."""
import argparse
import os
import re
import sys
from typing import TYPE_CHECKING, Any, List, NamedTuple, Optional

from gate import Document, Gate

from legacy import finding, rules
from legacy.terminals import quote_path, visible_text
from legacy.work.reading import LARGEST, Item, Program, Refusal, read, refusals
from legacy.work.walk import Entry, entry_of

if TYPE_CHECKING:
    from legacy.rules import Rules
    from legacy.work import Settings

# What an error is in a text.
BAD = "\ufffd"


class Side(NamedTuple):
    """A file's text, in which each error is followed by its bytes, and all its bytes; or why it has none."""

    text: Optional[str]
    content: bytes
    fault: str = ""


def side_of(entry: Entry, named: "Rules", program: Program) -> Side:
    """A file's text, or its bytes alone if no rule names its encoding."""
    rule = named.rule_of(os.fsencode(entry.inside))
    label = rule.label if rule else ""
    try:
        with refusals(label):
            content = read(Item(entry.path, entry.size, entry.time, label))
            text = program.ask(lambda gate: shown_text(gate, label, content)) if rule else None
    except Refusal as fault:
        return Side(None, b"", str(fault))
    return Side(text, content)


def offsets_of(document: Document, text: str, count: int) -> List[int]:
    """The places of a document's errors in its text, which has so many. They are found all at once, since a file under a wrong
    rule has an error for each second byte."""
    if text.count(BAD) == count:
        return [it.start() for it in re.finditer(BAD, text)]
    # (some of these characters are text)
    from legacy.ends import LINE_END

    starts = [0, *(it.end() for it in LINE_END.finditer(text))]
    return [starts[line] + character for _, (line, character), _ in document.diagnostics(unit="utf-32")]


def shown_text(gate: Gate, label: str, content: bytes) -> str:
    """The text of a document, in which each error is U+FFFD followed by its bytes."""
    with gate.open("shown", label, content) as document:
        text = document.text()
        errors = document.errors()
        parts, last = [], 0
        for (begin, end), at in zip(errors, offsets_of(document, text, len(errors)) if errors else ()):
            parts += [text[last : at + 1], f"<{content[begin:end].hex(' ')}>"]
            last = at + 1
        return "".join([*parts, text[last:]])


def textconv(path: str, settings: "Settings") -> bytes:
    """A file as text in UTF-8, for git. It is unchanged if no rule names its encoding, or if it is too large. Raises
    `Refusal` if it can't be read."""
    entry = _file(path)
    return _text(entry, settings.rules(entry.tree), settings.found)


def _file(path: str) -> Entry:
    entry = entry_of(path)
    if entry.fault:
        raise Refusal(entry.fault)
    return entry


def _text(entry: Entry, named: "Rules", found: finding.Found) -> bytes:
    with Program(found) as program:
        side = side_of(entry, named, program)
    if side.fault and not _is_too_large(entry.path):
        raise Refusal(side.fault)
    if side.fault:
        with open(entry.path, "rb") as file:
            return file.read()
    return side.content if side.text is None else side.text.encode()


def _is_too_large(path: str) -> bool:
    return os.path.isfile(path) and os.path.getsize(path) > LARGEST


def add_to(commands: "argparse._SubParsersAction[Any]") -> None:
    """Adds the parser of this subcommand."""
    parser = commands.add_parser(
        "textconv", help="show git a file as text", description="Print a file as text in UTF-8, each error as U+FFFD with its bytes behind it, for"
        " git's diff.NAME.textconv. git gives it files of the same name elsewhere, so its rule comes from -e or --default alone.")
    parser.add_argument("file", metavar="FILE", help="a file")
    rules.add_words(parser)
    finding.add_words(parser)
    # (what attributes name isn't an encoding of git's blobs)
    parser.set_defaults(run=run, attributes=False)


def run(words: argparse.Namespace) -> int:
    """Prints a file as text."""
    found = finding.find(words)
    try:
        entry = _file(words.file)
        sys.stdout.buffer.write(_text(entry, rules.rules_from(words, entry.tree or ".", found.labels), found))
    except Refusal as fault:
        print(f"legacy textconv: {quote_path(words.file)}: {visible_text(str(fault))}", file=sys.stderr)
        return 2
    return 0
