"""The bytes of a document, held in pieces."""
import bisect
import itertools
from typing import List, Optional, Tuple, Union

# The bytes of a piece, and the fewest that an edit leaves of one, unless it is the last. An edit copies a few pieces and the
# list of all of them.
PIECE, SHORT = 1 << 15, 1 << 12

Piece = Union[bytes, memoryview]


class Content:
    """Bytes that don't change. An edit makes new ones, which share all pieces that it doesn't touch, so it copies little."""

    def __init__(self, content: bytes = b""):
        self._whole: Optional[bytes] = content
        self._length = len(content)
        self._pieces: List[Piece] = []
        # The places where pieces end.
        self._ends: List[int] = []
        # A range without an escape, once `last_escape` has found one.
        self._plain = 0, 0

    def __len__(self) -> int:
        return self._length

    @property
    def count(self) -> int:
        """How many pieces there are."""
        return len(self._pieces)

    def __getitem__(self, part: slice) -> bytes:
        """The bytes of a range."""
        begin, end, _ = part.indices(self._length)
        if self._whole is not None:
            return self._whole[begin:end]
        if begin >= end:
            return b""
        first, last = self._find(begin, end)
        start = self._ends[first] - len(self._pieces[first])
        return b"".join(self._pieces[first : last + 1])[begin - start : end - start]

    def whole(self) -> bytes:
        """All bytes. The first call after an edit joins the pieces."""
        if self._whole is None:
            self._whole = b"".join(self._pieces)
            # (pieces of the joined bytes need no memory of their own)
            self._pieces, self._ends = [], []
        return self._whole

    def splice(self, at: int, count: int, new: bytes) -> "Content":
        """These bytes with `count` bytes at a place replaced by others."""
        self._cut()
        first, last = self._find(at, at + count)
        start = self._ends[first] - len(self._pieces[first]) if self._pieces else 0
        if self._pieces and self._ends[last] - start - count + len(new) < SHORT:
            last += 1
        joined = b"".join(self._pieces[first : last + 1])
        edited = joined[: at - start] + new + joined[at - start + count :]
        made = Content()
        made._pieces = [*self._pieces[:first], *_pieces_of(edited), *self._pieces[last + 1 :]]
        made._ends = list(itertools.accumulate(map(len, made._pieces)))
        if made._pieces:
            made._whole, made._length = None, made._ends[-1]
        made._plain = self._plain_after(at, count, new)
        return made

    def _plain_after(self, at: int, count: int, new: bytes) -> Tuple[int, int]:
        """A range without an escape after an edit, as far as that is known."""
        low, high = self._plain
        if not low <= at:
            return 0, 0
        if at + count <= high and b"\x1b" not in new:
            return low, high - count + len(new)
        return low, min(high, at)

    def _cut(self) -> None:
        """Makes pieces of all bytes, without a copy."""
        if not self._pieces and self._whole:
            self._pieces = list(_pieces_of(memoryview(self._whole)))
            self._ends = list(itertools.accumulate(map(len, self._pieces)))

    def _find(self, begin: int, end: int) -> Tuple[int, int]:
        """The first and the last piece of a range."""
        most = max(len(self._ends) - 1, 0)
        first = min(bisect.bisect_right(self._ends, begin), most)
        last = min(bisect.bisect_left(self._ends, end, first), most)
        return first, last

    def last_escape(self, end: int) -> int:
        """The last place before `end` that has the byte 1B, or -1."""
        low, high = self._plain
        at, step = end, SHORT
        while at > 0:
            if low < at <= high:
                at = low
                continue
            begin = max(at - step, 0)
            found = self[begin:at].rfind(b"\x1b")
            if found >= 0:
                at = begin + found + 1
                break
            at, step = begin, step * 2
        self._plain = at, high if low <= end <= high else end
        return at - 1


def _pieces_of(content: Piece) -> List[Piece]:
    """The pieces that some bytes are cut into; bytes that are few stay whole."""
    if len(content) <= 2 * PIECE:
        return [content] if content else []
    return [content[at : at + PIECE] for at in range(0, len(content), PIECE)]
