"""The lines of a large text, held as numbers: where each begins, and its hash, by which lines are compared."""
import itertools
import operator
import re
from array import array
from typing import Iterator, List, Optional, TypeVar

# About how many code points or bytes are cut into lines at a time.
BLOCK = 1 << 18

_ASCII = re.compile("[\0-\t\v-\x7f]+")
Content = TypeVar("Content", str, bytes)


def blocks(content: Content, feed: Content, start: int, end: int) -> Iterator[List[Content]]:
    """The lines of a part of a content, some of them at a time."""
    while True:
        cut = content.find(feed, start + BLOCK, end) + 1 or end + 1
        yield content[start : cut - 1].split(feed)
        if cut > end:
            return
        start = cut


def starts_after(start: int, lines: "List[str] | List[bytes]") -> Iterator[int]:
    """The start of each line after one that begins at `start`. The last is the start of a line after all of them."""
    ends = itertools.accumulate(map(operator.add, map(len, lines), itertools.repeat(1)), initial=start)
    return itertools.islice(ends, 1, None)


class Lines:
    """The lines of a text, or of a part of it, without their LFs. Two lines of equal hash are taken for equal: a hash has
    64 bits, and nobody knows the key that the interpreter has for it."""

    def __init__(self, text: str, start: int = 0, end: Optional[int] = None):
        self.text = text
        # The start of each, and that of one more after the last.
        self.starts = array("q", [start])
        self.hashes = array("q")
        for lines in blocks(text, "\n", start, len(text) if end is None else end):
            self.hashes.extend(map(hash, lines))
            self.starts.extend(starts_after(self.starts[-1], lines))

    def __len__(self) -> int:
        return len(self.hashes)

    def __getitem__(self, line: int) -> str:
        return self.text[self.starts[line] : self.starts[line + 1] - 1]

    def letters(self, first: int, last: int) -> "array[int]":
        """The hashes of lines without their ASCII characters."""
        found = array("q")
        for lines in blocks(self.text, "\n", self.starts[first], self.starts[last] - 1) if first < last else ():
            found.extend(map(hash, _ASCII.sub("", "\n".join(lines)).split("\n")))
        return found
