"""`legacy review`: a plan of repairs in a browser, in which a person takes or leaves each edit, alone or all of a kind.

    with Review("plan.jsonl", finding.find()) as review:
        print(review.page(range(100)))
        review.write([3, 4])"""
import argparse
import collections
import contextlib
import os
import threading
from typing import Any, Collection, Dict, Iterator, List, NamedTuple, Optional, Sequence, Tuple

from gate import Document, Gate

from legacy import finding, plans
from legacy.ends import LINE_END
from legacy.finding import Found, Missing
from legacy.pages import draw_controls, readable
from legacy.repairs import Edit, Mended
from legacy.serving import Server
from legacy.terminals import quantity, quote_path
from legacy.work import DONE, FOUND, Item, Program, Refusal, refusals
from legacy.work.cuts import Part
from legacy.work.drafts import draft
from legacy.work.parts import is_long, items_of
from legacy.work.reading import read_part
from legacy.work.writing import signature, sync_names

ABOUT = ("Show a plan of legacy mend in a browser, at an address of this machine that is printed: each edit with its line before and after, and its"
         " bytes. You take or leave edits there, alone or all of a kind, and write the plan, which then has the edits that you took. The status"
         " is 0 where the plan was written, 2 where it couldn't be.")

# The code points of a line that are shown on each side of an edit.
AROUND = 60
# Rules of which all edits are one kind; of the others each pair of old and new bytes is.
WHOLE_RULES = ("twice", "high-bit")


class Shown(NamedTuple):
    """An edit on the page: its file, place and bytes. It has the text before it on its line, and its old and its new text, each with
    the text after it; or the reason for their absence."""

    number: int
    path: str
    line: int
    character: int
    old: str
    new: str
    before: str = ""
    was: str = ""
    after: str = ""
    becomes: str = ""
    then: str = ""
    fault: str = ""


class Review:
    """A plan under review. Raises `Missing` if it isn't one, or has been applied, since then it is what takes the edits back."""

    def __init__(self, path: str, found: Found, to: Optional[str] = None, force: bool = False):
        self.path, self._to, self._found = path, to or path, found
        self._known = self._signature()
        self._lines = plans.lines_of(path, force)
        self._rows = {it.path: it for it in plans.status(path, force)}
        mended = next((it for it in self._rows.values() if it.outcome == DONE), None)
        if mended and not to:
            raise Missing(f"{quote_path(path)}: {quote_path(mended.path)} is mended, and this plan takes that back; --to FILE writes another one")
        if to and os.path.lexists(to):
            raise Missing(f"{quote_path(to)} is there already")
        self.kinds, self._kind_of = kinds_of([it.row.edits[0] for it in self._lines])
        self._lock, self._program = threading.Lock(), Program(found)
        self._parts: Dict[str, List[Item]] = {}

    def _signature(self) -> Tuple[int, ...]:
        try:
            return signature(os.stat(self.path))
        except OSError as fault:
            raise Missing(f"{quote_path(self.path)}: {fault.strerror}") from fault

    def __enter__(self) -> "Review":
        return self

    def __exit__(self, *_: object) -> None:
        self._program.end()

    @property
    def count(self) -> int:
        """The number of edits."""
        return len(self._lines)

    def about(self) -> Dict[str, Any]:
        """What the page has from the beginning: the plan, its files, its kinds, and the kind of each edit."""
        return {"plan": readable(self.path), "files": len(self._rows), "kinds": self.kinds, "edits": self._kind_of}

    def page(self, numbers: Sequence[int]) -> List[Shown]:
        """These edits, by their numbers in the plan, as they are shown."""
        with self._lock:
            found: Dict[int, Shown] = {}
            for path in dict.fromkeys(self._lines[it].row.path for it in numbers):
                mine = sorted((it for it in numbers if self._lines[it].row.path == path), key=lambda it: self._edit(it).at)
                for shown in self._of_file(self._rows[path], mine):
                    found[shown.number] = shown
            return [found[it] for it in numbers]

    def _edit(self, number: int) -> Edit:
        return self._lines[number].row.edits[0]

    def _of_file(self, row: Mended, numbers: Sequence[int]) -> Iterator[Shown]:
        """Edits of one file, in its order."""
        plain = {it: Shown(it, readable(row.path), self._edit(it).line, self._edit(it).character, *_hex(self._edit(it))) for it in numbers}
        try:
            if row.outcome != FOUND:
                raise Refusal(row.reason or "it is mended already")
            with refusals(row.label):
                yield from self._in_lines(row, plain)
        except Refusal as fault:
            for it in plain.values():
                yield it._replace(
                    was=draw_controls(self._edit(it.number).was), becomes=draw_controls(self._edit(it.number).becomes), fault=str(fault))

    def _in_lines(self, row: Mended, plain: Dict[int, Shown]) -> Iterator[Shown]:
        left = list(plain)
        made: List[Shown] = []
        for item in self._items(row):
            assert item.part
            part, mine = item.part, []
            while left and (part.is_last or self._edit(left[0]).at < part.end):
                mine.append(left.pop(0))
            if mine:
                content = read_part(item, part)
                made += self._program.ask(lambda gate: list(_show_lines(gate, item, content, [(self._edit(it), plain[it]) for it in mine])))
        yield from made

    def _items(self, row: Mended) -> List[Item]:
        """The parts of a file; if it is short, one."""
        if row.path not in self._parts:
            status = os.stat(row.path)
            item = Item(row.path, status.st_size, status.st_mtime_ns, row.label)
            if is_long(item):
                self._parts[row.path] = list(items_of(item, self._found, 0))
            else:
                self._parts[row.path] = [item._replace(part=Part(0, 0, status.st_size, status.st_size, b"", True))]
        fault = self._parts[row.path][-1].fault
        if fault:
            raise Refusal(fault)
        return self._parts[row.path]

    def write(self, left: Collection[int]) -> str:
        """Writes the plan without these edits, and returns how many there are in it. Raises `Missing` if another program wrote it in
        the meantime."""
        left = set(left)
        if self._signature() != self._known:
            raise Missing(f"{quote_path(self.path)} has changed since it was read")
        taken = [line.text for number, line in enumerate(self._lines) if number not in left]
        try:
            with draft(self._to) as made:
                made.write("".join(it if it.endswith("\n") else it + "\n" for it in taken).encode())
                os.fchmod(made.number, os.stat(self.path).st_mode & 0o777)
                made.sync()
                made.replace(os.path.realpath(self._to)) if self._to == self.path else made.give_name(self._to)
            sync_names([self._to], os.path.dirname(self._to))
        except OSError as fault:
            raise Missing(f"{quote_path(self._to)}: {fault.strerror}") from fault
        return f"{quote_path(self._to)}: {quantity(len(taken), 'edits')} taken, {len(self._lines) - len(taken)} left"


def _hex(edit: Edit) -> Tuple[str, str]:
    return bytes.fromhex(edit.old).hex(" "), bytes.fromhex(edit.new).hex(" ")


def kinds_of(edits: Sequence[Edit]) -> Tuple[List[Dict[str, Any]], List[int]]:
    """The kinds of edits, the most frequent first, and the number of each edit's kind."""
    keys = [(it.rule, "", "") if it.rule in WHOLE_RULES else (it.rule, *_hex(it)) for it in edits]
    counts = collections.Counter(keys).most_common()
    numbers = {key: number for number, (key, _) in enumerate(counts)}
    return [{"rule": key[0], "old": key[1], "new": key[2], "count": count} for key, count in counts], [numbers[it] for it in keys]


def _show_lines(gate: Gate, item: Item, content: bytes, edits: Sequence[Tuple[Edit, Shown]]) -> Iterator[Shown]:
    """Edits of a part of a file with their lines, each made alone and taken back."""
    part = item.part
    assert part
    with gate.open("review", item.label, content, "sniff" if part.is_first else "keep") as document:
        for edit, shown in edits:
            at, old, new = edit.at - part.start + len(part.head), bytes.fromhex(edit.old), bytes.fromhex(edit.new)
            if content[at : at + len(old)] != old:
                yield shown._replace(fault="the plan's old bytes aren't there")
                continue
            before, was, after = _line(document, at, len(old))
            document.splice(at, len(old), new)
            _, becomes, then = _line(document, at, len(new))
            document.splice(at, len(new), old)
            before, was, after, becomes, then = map(draw_controls, (before, was, after, becomes, then))
            yield shown._replace(before=before, was=was, after=after, becomes=becomes, then=then)


def _line(document: Document, at: int, size: int) -> Tuple[str, str, str]:
    """What is before some bytes on their line, their text, and what is after them."""
    stat = document.stat()
    begin, end = (stat["utf32"] if it >= stat["bytes"] else document.place(it)["utf32"] for it in (at, at + size))
    first, last = max(0, begin - AROUND), min(stat["utf32"], end + AROUND)
    text = document.text(first, last)
    return LINE_END.split(text[: begin - first])[-1], text[begin - first : end - first], LINE_END.split(text[end - first :], 1)[0]


def add_to(commands: "argparse._SubParsersAction[Any]") -> None:
    """Adds the parser of this subcommand."""
    parser = commands.add_parser("review", help="take or leave the edits of a plan in a browser", description=ABOUT)
    parser.add_argument("plan", metavar="PLAN", help="a plan of legacy mend")
    parser.add_argument("--to", metavar="FILE", help="write the edits that are taken into this file, of which there must be none, and leave PLAN as it is")
    parser.add_argument("--force", action="store_true", help="take relative paths in the plan from this folder")
    finding.add_words(parser)
    parser.set_defaults(run=run)


def run(words: argparse.Namespace) -> int:
    """Serves the page until the plan is written, and returns the status."""
    with Review(words.plan, finding.find(words), words.to, words.force) as review, contextlib.closing(Server(review)) as server:
        print(server.address, flush=True)
        print(server.serve())
    return 0
