"""What `gate` isn't asked about: a file of ASCII, and stretches of ASCII lines in a file that has others too.

In all encodings except UTF-16, ISO-2022-JP and replacement, a byte of ASCII that reaches a decoder in its first state is
that character. A line feed brings each decoder into its first state: it isn't part of a longer character, and an error that
it cuts short restores it. So what is left without such lines decodes as it does in the file."""
import bisect
import codecs
from typing import Iterator, List, Tuple

from legacy.ends import Ends, ends_of

# Stretches are looked for by `BLOCK` bytes at a time, so that a file without any costs little, and one of fewer than
# `SHORTEST` would cost more than it saves.
BLOCK, SHORTEST = 512, 1024
MARKS = (codecs.BOM_UTF8, codecs.BOM_UTF16_BE, codecs.BOM_UTF16_LE)
# The encodings in which a byte of ASCII may be something else, and what it has to be in ISO-2022-JP for that.
OTHERS = ("UTF-16LE", "UTF-16BE", "replacement", "ISO-2022-JP")
ESCAPES = (b"\x0e", b"\x0f", b"\x1b")


def plain(content: bytes, encoding: str) -> bool:
    """Whether these bytes are ASCII in an encoding in which each of them is that character."""
    if not content.isascii():
        return False
    return encoding not in OTHERS or encoding == "ISO-2022-JP" and not any(it in content for it in ESCAPES)


def stretches(content: bytes) -> Iterator[Tuple[int, int]]:
    """The start and the end of stretches of ASCII lines. They begin at the start or after a line feed, and end after one
    or at the end."""
    begin = 0
    for at in range(0, len(content), BLOCK):
        if not content[at : at + BLOCK].isascii():
            if begin < at:
                yield from _lines(content, begin, at)
            begin = at + BLOCK
    yield from _lines(content, begin, len(content))


def _lines(content: bytes, begin: int, end: int) -> Iterator[Tuple[int, int]]:
    """The lines that are in a run of ASCII, if it has any."""
    first = content.find(b"\n", begin, end) + 1 if begin else 0
    last = end if end == len(content) else content.rfind(b"\n", begin, end) + 1
    if last - first >= SHORTEST and (first or not begin):
        yield first, last


class Rest:
    """What is left of a file in this encoding without its stretches of ASCII lines. It has its content, and the `bom` with
    which it is to be opened, since its start may not be that of the file. It has the number of removed bytes, with the line
    ends in them. If it is to be whole, nothing is removed."""

    def __init__(self, content: bytes, encoding: str, is_whole: bool = False):
        found = [] if is_whole or encoding in OTHERS or content.startswith(MARKS) else list(stretches(content))
        self.content, self.bom, self.taken, self.ends = content, "keep" if found else "sniff", 0, Ends()
        # Where each stretch would be in what is left, and the bytes and line ends that are taken out up to its end.
        self._at: List[int] = []
        self._before = [(0, 0)]
        parts, last = [], 0
        for begin, end in found:
            parts.append(content[last:begin])
            self._at.append(begin - self.taken)
            self.taken += end - begin
            self.ends += ends_of(content[begin:end])
            self._before.append((self.taken, self.ends.count))
            last = end
        if found:
            self.content = b"".join([*parts, content[last:]])

    def before(self, at: int) -> Tuple[int, int]:
        """The number of bytes and line ends that were removed before a byte of what is left."""
        return self._before[bisect.bisect_right(self._at, at)]
