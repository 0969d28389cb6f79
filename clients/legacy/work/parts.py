"""Long files by parts: the items of their parts, and one row that is made of those of the parts."""
import contextlib
import io
import os
from typing import IO, Iterator

from gate import Gate

from legacy.finding import Found
from legacy.work import members, reading
from legacy.work.cuts import MOST, Part, Readable, Uncut, parts
from legacy.work.reading import Item, Program, Refusal, open_file, refusals
from legacy.work.rows import REFUSED, Before, Job, PartRow, Row

# A part that only says why there are no more.
NO_PART = Part(0, 0, 0, 0, b"", True)


def is_long(item: Item) -> bool:
    """Whether a file is looked at by parts, if the job does that."""
    is_stream = item.content is None or item.rest is not None
    return bool(item.label) and not item.fault and item.size > reading.WHOLE and is_stream


def items_of(item: Item, found: Found, beside: int) -> Iterator[Item]:
    """The parts of a file. If it can't be read or cut, the last one says so."""
    alone = item._replace(content=None, rest=None)
    try:
        with refusals(item.label), contextlib.ExitStack() as opened:
            if item.rest is not None:
                yield from _parts(alone, Chain(item.content or b"", item.rest), found, beside)
            else:
                yield from _parts(alone, opened.enter_context(open(open_file(item.path), "rb", buffering=0)), found, beside)
    except Refusal as fault:
        yield alone._replace(fault=str(fault), part=NO_PART)
    except members.FAULTS as fault:
        yield alone._replace(fault=f"not a readable archive: {fault}", part=NO_PART)


class Chain:
    """A file of which the first bytes were read."""

    def __init__(self, first: bytes, rest: IO[bytes]):
        self._first, self._rest = io.BytesIO(first), rest

    def read(self, size: int) -> bytes:
        """The next bytes, as many as there are of so many, or fewer."""
        return self._first.read(size) or self._rest.read(size)


def _parts(item: Item, file: Readable, found: Found, beside: int) -> Iterator[Item]:
    first = file.read(3) or b""
    encoding = effective_encoding(found, item.label, first)
    if encoding == "replacement":
        raise Refusal("of the encoding replacement no part is text")
    is_stream = isinstance(file, Chain)
    try:
        for part, content in parts(file, first, encoding, beside):
            # (a byte order mark decides alone at the start)
            yield item._replace(part=part, label=item.label if part.is_first else encoding, content=content if is_stream else None)
    except Uncut:
        raise Refusal(f"{MOST} bytes of it have no line end, and nothing else at which they can be cut") from None


def effective_encoding(found: Found, label: str, first: bytes) -> str:
    """The encoding of a file that begins so."""
    with Program(found) as program:
        return program.ask(lambda gate: _encoding(gate, label, first))


def _encoding(gate: Gate, label: str, first: bytes) -> str:
    with gate.open("head", label, first) as head:
        encoding: str = head.encoding
    return encoding


class Whole:
    """The row of a long file, to which those of its parts are added in order."""

    def __init__(self, job: Job, item: Item):
        self._job, self._item = job, item
        self._row = job.rows(item.path, item.size, item.label)
        self._before = Before()
        self._end = 0

    def add(self, part: PartRow, end: int) -> None:
        """Adds the row of a part, which ends at this byte."""
        self._end = end
        if self._row.outcome == REFUSED:
            return
        if part.made is None:
            self._refuse(part.reason)
            return
        self._job.join(self._row, part.made, self._before)
        self._before = Before(self._before.lines + part.lines, part.tail + (0 if part.lines else self._before.tail))

    def row(self) -> Row:
        """The row, once all parts are added."""
        self._row.size = max(self._row.size, self._end)
        if self._row.outcome != REFUSED:
            try:
                with refusals(self._item.label):
                    self._job.finish(self._row)
                    self._look_at_file()
            except Refusal as fault:
                self._refuse(str(fault))
        return self._row

    def _look_at_file(self) -> None:
        """Raises `Refusal` if the file isn't any more what it was when the tree was walked."""
        if self._item.rest is not None:
            return
        status = os.stat(self._item.path)
        if (status.st_size, status.st_mtime_ns) != (self._item.size, self._item.time):
            raise Refusal("it changed while it was read")

    def _refuse(self, why: str) -> None:
        self._row = self._job.rows(self._item.path, self._item.size, self._item.label, REFUSED, why)
