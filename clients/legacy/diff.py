"""`legacy diff`: what differs in two files or trees, as text.

    for it in diff("old", "new", Settings(found, encoding=[("*.txt", "shift_jis")])):
        print(it.old, it.new, it.fault, *it.lines)"""
import argparse
import functools
import os
import re
from typing import Any, Dict, Iterator, List, NamedTuple, Sequence

from legacy import work
from legacy.finding import Missing
from legacy.sequences import Edit, differences
from legacy.terminals import quote_path, visible_text
from legacy.textconv import Side, side_of, textconv
from legacy.work import Program, Settings
from legacy.work.walk import UNFOLLOWED, Entry, entry_of, walk

ABOUT = ("Show what differs in two files, or in the files of two trees, as text in UTF-8 and in the form of diff -u. An error is U+FFFD with its"
         " bytes behind it, as \ufffd<ff>. The status is 0 where the texts are the same, 1 where they differ, 2 where something couldn't be"
         " looked at.")

__all__ = ["Compared", "add_to", "diff", "run", "textconv", "unified_hunks"]

# A line with its end, as LSP has it, or the last one without.
LINE = re.compile("[^\r\n]*(?:\r\n|\r|\n)|[^\r\n]+")
# The lines around a difference.
CONTEXT = 3
NO_END = "\\ No newline at end of file\n"


class Compared(NamedTuple):
    """Two files that differ, or of which one couldn't be looked at, with the reason; and the lines that a person is shown."""

    old: str
    new: str
    lines: Sequence[str]
    fault: str = ""


class Reader:
    """Reads files as text, each by its rule."""

    def __init__(self, settings: Settings, program: Program):
        self._rules, self._program = functools.lru_cache(maxsize=8)(settings.rules), program

    def side(self, entry: Entry) -> Side:
        """A file's text, or its bytes alone if no rule names its encoding."""
        return Side(None, b"", entry.fault) if entry.fault else side_of(entry, self._rules(entry.tree), self._program)


def diff(old: str, new: str, settings: Settings, context: int = CONTEXT) -> Iterator[Compared]:
    """The files of two trees, or two files, that differ in a byte. Raises `Missing` if one is a folder and the other
    isn't."""
    _look_at(old, new)
    with Program(settings.found) as program:
        reader = Reader(settings, program)
        if not os.path.isdir(old):
            yield from _files(reader, entry_of(old), entry_of(new), context)
            return
        olds, news = (_entries(it) for it in (old, new))
        for inside in sorted({*olds, *news}):
            if inside in olds and inside in news:
                yield from _files(reader, olds[inside], news[inside], context)
            else:
                only = olds[inside].path if inside in olds else news[inside].path
                yield Compared(old, new, [f"Only in {quote_path(os.path.dirname(only))}: {quote_path(os.path.basename(only))}\n"])


def _look_at(old: str, new: str) -> None:
    """Raises `Missing` if one is a folder and the other isn't."""
    for folder, other in (old, new), (new, old):
        if os.path.isdir(folder) and not os.path.isdir(other):
            fault = entry_of(other).fault
            raise Missing(f"{other}: {fault}" if fault else f"a folder and a file can't be compared: {folder} and {other}")


def _entries(tree: str) -> Dict[bytes, Entry]:
    """The entries of a tree except links, by the bytes of the paths."""
    return {os.fsencode(it.inside): it for it in walk([tree]) if it.fault != UNFOLLOWED}


def _files(reader: Reader, old: Entry, new: Entry, context: int) -> Iterator[Compared]:
    first, second = (reader.side(it) for it in (old, new))
    lines: List[str] = []
    one, other = quote_path(old.path), quote_path(new.path)
    for entry, side in (old, first), (new, second):
        if side.fault:
            yield Compared(old.path, new.path, [f"{quote_path(entry.path)}: not compared: {visible_text(side.fault)}\n"], side.fault)
            return
    if first.text is not None and second.text is not None and first.text != second.text:
        lines = [f"--- {one}\n", f"+++ {other}\n", *unified_hunks(first.text, second.text, context)]
    elif first.content != second.content and first.text == second.text is not None:
        lines = [f"Files {one} and {other} have the same text in different bytes\n"]
    elif first.content != second.content:
        lines = [f"Files {one} and {other} differ, and no rule names the encodings of both\n"]
    if lines:
        yield Compared(old.path, new.path, lines)


def unified_hunks(old: str, new: str, context: int = CONTEXT) -> Iterator[str]:
    """The hunks of a difference. A line end other than LF is shown as \u240d, unless all are the same CR LF."""
    olds, news = LINE.findall(old), LINE.findall(new)
    plain = all(it.endswith("\r\n") or it[-1] not in "\r\n" for it in [*olds, *news])
    for hunk in _hunks(list(differences(olds, news)), context):
        begin, end = max(0, hunk[0].start - context), min(len(olds), hunk[-1].end + context)
        new_begin, new_end = max(0, hunk[0].new_start - context), min(len(news), hunk[-1].new_end + context)
        yield f"@@ -{_numbers(begin, end)} +{_numbers(new_begin, new_end)} @@\n"
        at = begin
        for it in hunk:
            yield from _mark(" ", olds[at : it.start], plain)
            yield from _mark("-", olds[it.start : it.end], plain)
            yield from _mark("+", news[it.new_start : it.new_end], plain)
            at = it.end
        yield from _mark(" ", olds[at:end], plain)


def _hunks(edits: Sequence[Edit], context: int) -> Iterator[List[Edit]]:
    """Edits whose context touches are one hunk."""
    begun: List[Edit] = []
    for it in edits:
        if begun and it.start - begun[-1].end > 2 * context:
            yield begun
            begun = []
        begun.append(it)
    if begun:
        yield begun


def _numbers(begin: int, end: int) -> str:
    return f"{begin + 1 if end > begin else begin},{end - begin}"


def _mark(mark: str, lines: Sequence[str], plain: bool) -> Iterator[str]:
    for line in lines:
        text = line.rstrip("\r\n")
        end = line[len(text) :].replace("\n", "")
        yield f"{mark}{text}{'' if plain else end.replace(chr(13), chr(0x240D))}\n"
        if text == line:
            yield NO_END


def add_to(commands: "argparse._SubParsersAction[Any]") -> None:
    """Adds the parser of this subcommand."""
    parser = commands.add_parser("diff", help="show what differs as text", description=ABOUT)
    parser.add_argument("old", metavar="A", help="a file, or a folder")
    parser.add_argument("new", metavar="B", help="another")
    parser.add_argument("-U", "--unified", metavar="N", type=int, default=CONTEXT, help="the lines around a difference (default: %(default)s)")
    work.add_fewer_words(parser)
    parser.set_defaults(run=run)


def run(words: argparse.Namespace) -> int:
    """Prints the difference, and returns the status."""
    status = 0
    for it in diff(words.old, words.new, work.settings_from(words), max(0, words.unified)):
        status = 2 if it.fault else max(status, 1)
        print(*it.lines, sep="", end="")
    return status
