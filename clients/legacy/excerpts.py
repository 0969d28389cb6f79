"""A few lines of a large content, found without a table of all its lines. They are for encodings in which a line feed is
always one byte, and that byte always a line feed."""
from array import array
from typing import Iterable, List, NamedTuple, Optional

from legacy.lines import Lines, blocks, starts_after

# How many bytes of a content have their line feeds counted at a time.
BLOCK = 1 << 16
# The most places that a line is looked for at: it may be part of many longer ones.
PLACES = 2000


class Part(NamedTuple):
    """Lines of a text, with the start of each line's bytes and that of one more line after the last."""

    lines: Lines
    raw: bytes
    starts: "array[int]"

    def raws(self, first: int, last: int) -> bytes:
        """The bytes of some lines, without the last LF."""
        return self.raw[self.starts[first] : self.starts[last] - 1]


def part(lines: Lines, raw: bytes, start: int, end: int) -> Part:
    """Lines whose bytes begin and end at two places."""
    starts = array("q", [start])
    for it in blocks(raw, b"\n", start, end):
        starts.extend(starts_after(starts[-1], it))
    return Part(lines, raw, starts)


def excerpt(text: str, raw: bytes, bom: int, wanted: Iterable[str], start: int, end: int) -> Optional[Part]:
    """The wanted lines that are between two places of a text, as whole lines. Each is taken at its last place, with a CR at
    its end or without. `bom`: the bytes before the text. None if a line is part of too many others."""
    found: List[bytes] = []
    texts: List[str] = []
    for line in {it.rstrip("\r") for it in wanted}:
        at = last_place(text, line, start, end)
        if at is None:
            return None
        if at >= 0:
            first = behind_feeds(raw, text.count("\n", 0, at), bom)
            found.append(raw[first : _end(raw.find(b"\n", first), len(raw))])
            texts.append(text[at : _end(text.find("\n", at), len(text))])
    joined = b"\n".join(found)
    return part(Lines("\n".join(texts)), joined, 0, len(joined))


def _end(found: int, length: int) -> int:
    return length if found < 0 else found


def last_place(text: str, line: str, start: int, end: int) -> Optional[int]:
    """The last start of a line between two places, with a CR at its end or without. It is -1 if there is none, and None
    if the line is part of too many others."""
    behind = end
    for _ in range(PLACES):
        at = text.rfind(line, start, behind)
        if at < 0:
            return at
        rest = text[at + len(line) : at + len(line) + 2]
        if (at == 0 or text[at - 1] == "\n") and (rest[:1] in ("", "\n") or rest in ("\r", "\r\n")):
            return at
        behind = at + len(line) - 1
    return None


def behind_feeds(raw: bytes, count: int, start: int) -> int:
    """Where the line begins that has `count` line feeds between `start` and itself."""
    while count:
        feeds = raw.count(b"\n", start, start + BLOCK)
        if feeds >= count:
            break
        count, start = count - feeds, start + BLOCK
    for _ in range(count):
        start = raw.index(b"\n", start) + 1
    return start
