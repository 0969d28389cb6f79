"""What a file says: its bytes as they were read, and their text in UTF-8; and which of that is kept."""
import codecs
import collections
import functools
import itertools
import zlib
from typing import Dict, FrozenSet, Iterable, Iterator, List, NamedTuple, Optional, Tuple

from legacy.ascii import plain
from legacy.mount.below import Signature

# The most bytes of a document of gate.
LARGEST = 16_777_216
# The most bytes of snapshots that are kept, and of how many texts it is kept how long they are; one such takes about 450 bytes.
KEPT, MOST_SIZES = 64 << 20, 1 << 17
# What the interpreter needs for a snapshot in addition to its bytes, with what leads to it, and for a line in addition to its own.
OBJECT, LINE = 700, 130
# How many lines of a text it is compared by, about.
SOME_LINES = 4096
# How many bytes are looked at by one call, about, during which no other thread continues.
PART = 1 << 18

# What numbers contents.
numbers = itertools.count()


class Lengths(NamedTuple):
    """How long a text is in UTF-8, and how many errors it has."""

    utf8: int
    errors: int


class Text(NamedTuple):
    """What bytes say: their text in UTF-8, the effective encoding, and the length of the byte order mark."""

    utf8: bytes
    encoding: str
    bom: int


class Snapshot:
    """A file as it was read, by its rule's label. The text of one that was about to go is made when it is wanted. `number` is
    the content's, by which other processes know it."""

    def __init__(self, signature: Signature, raw: bytes, label: str, text: Optional[Text], number: Optional[int] = None):
        self.signature, self.raw, self.label, self.text = signature, raw, label, text
        self.number = next(numbers) if number is None else number
        # Whether a file of this signature has these bytes for certain: else they are compared with its own at each use.
        self.settled = False
        self._lines = 0

    @property
    def utf8(self) -> bytes:
        """The text in UTF-8."""
        assert self.text
        return self.text.utf8

    @property
    def cost(self) -> int:
        """How many bytes of memory it takes, about, where it is kept; more once it has a text, and lines."""
        text = self.text.utf8 if self.text and self.text.utf8 is not self.raw else b""
        return OBJECT + len(self.raw) + len(text) + self._lines

    @functools.cached_property
    def lines(self) -> FrozenSet[bytes]:
        """Lines of the text, by which it is compared with others."""
        found = lines_of(self.utf8)
        self._lines = sum(map(len, found)) + LINE * len(found)
        return found


def own_text(raw: bytes, encoding: str) -> bool:
    """Whether bytes are their own text in UTF-8."""
    if encoding == "UTF-8":
        decoder = codecs.getincrementaldecoder("utf-8")()
        try:
            for at in range(0, len(raw), PART):
                decoder.decode(raw[at : at + PART])
            decoder.decode(b"", final=True)
        except UnicodeDecodeError:
            return False
        return not raw.startswith(codecs.BOM_UTF8)
    return plain(raw, encoding)


def lines_of(utf8: bytes) -> FrozenSet[bytes]:
    """The lines of a text that have something in them; of a text of many lines some, chosen by what they are."""
    feeds = sum(part.count(b"\n") for part in parts_of(utf8))
    mask = (1 << (feeds // SOME_LINES).bit_length()) - 1
    lines = itertools.chain.from_iterable(part.split(b"\n") for part in parts_of(utf8))
    return frozenset(line for line in lines if line.strip() and not zlib.crc32(line) & mask)


def parts_of(utf8: bytes) -> Iterator[bytes]:
    """The text by parts of whole lines, so that whoever looks at them one by one lets other threads continue in between."""
    at = 0
    while at < len(utf8):
        end = utf8.find(b"\n", at + PART) + 1 or len(utf8)
        yield utf8[at:end]
        at = end


class Shelf:
    """Snapshots, the last used ones last; the first go where they cost too much."""

    def __init__(self, most: int = KEPT):
        self._most, self._cost = most, 0
        self._kept: "collections.OrderedDict[Tuple[Signature, str], Snapshot]" = collections.OrderedDict()
        # (what each cost when that was looked at last)
        self._costs: Dict[Tuple[Signature, str], int] = {}

    def get(self, signature: Signature, label: str) -> Optional[Snapshot]:
        """The snapshot of a file that is unchanged."""
        found = self._kept.get((signature, label))
        if found:
            self._kept.move_to_end((signature, label))
        return found

    def put(self, snapshot: Snapshot) -> None:
        """Keeps a snapshot."""
        key = snapshot.signature, snapshot.label
        self._kept[key] = snapshot
        self._kept.move_to_end(key)
        self._weigh(key, snapshot.cost)

    def weigh_again(self, snapshots: Iterable[Snapshot]) -> None:
        """Of some snapshots, which may be on the shelf, more is kept now than was."""
        for it in snapshots:
            key = it.signature, it.label
            if self._kept.get(key) is it:
                self._weigh(key, it.cost)

    def _weigh(self, key: Tuple[Signature, str], cost: int) -> None:
        self._cost += cost - self._costs.get(key, 0)
        self._costs[key] = cost
        while self._cost > self._most and len(self._kept) > 1:
            self._cost -= self._costs.pop(self._kept.popitem(last=False)[0])

    def has(self, signature: Signature, label: str) -> bool:
        """Whether there is a snapshot of a file that is unchanged."""
        return (signature, label) in self._kept

    def now(self, old: Signature, now: Signature, label: str) -> None:
        """What was known by one signature has another."""
        found = self._kept.pop((old, label), None)
        if found:
            self._cost -= self._costs.pop((old, label))
            found.signature, found.settled = now, False
            self.put(found)

    def late(self, label: str) -> Iterator[Snapshot]:
        """The snapshots of a label that aren't empty, the last used one first."""
        return (it for it in list(reversed(self._kept.values())) if it.label == label and it.raw)


class Sizes:
    """How long the texts of files are in UTF-8, as long as these don't change; of the 131,072 (MOST_SIZES) last used ones."""

    def __init__(self, most: int = MOST_SIZES) -> None:
        self._most = most
        self._found: "collections.OrderedDict[Tuple[int, int, str], Tuple[Signature, int]]" = collections.OrderedDict()

    def get(self, signature: Signature, label: str) -> Optional[int]:
        """How long a file's text is, if that is known."""
        key = signature.device, signature.inode, label
        found = self._found.get(key)
        if not found or found[0] != signature:
            return None
        self._found.move_to_end(key)
        return found[1]

    def put(self, signature: Signature, label: str, size: int) -> None:
        """Keeps how long it is, instead of what was known of the file before."""
        key = signature.device, signature.inode, label
        self._found[key] = signature, size
        self._found.move_to_end(key)
        if len(self._found) > self._most:
            self._found.popitem(last=False)


class Past:
    """What was at a path before: the last few contents of each, the newest last."""

    def __init__(self, most: int = KEPT):
        self._most, self._cost = most, 0
        self._of: "collections.OrderedDict[bytes, List[Snapshot]]" = collections.OrderedDict()
        # (what a path's contents cost when they were put there: a text may be made later)
        self._costs: Dict[bytes, int] = {}

    def of(self, path: bytes, label: str) -> List[Snapshot]:
        """The contents that a path had, by one label."""
        return [it for it in self._of.get(path, ()) if it.label == label]

    def has(self, path: bytes) -> bool:
        """Whether something was at a path."""
        return path in self._of

    def put(self, path: bytes, snapshot: Snapshot) -> None:
        """Keeps what is about to leave a path."""
        if not snapshot.raw:
            return
        before = self._of.pop(path, [])
        self._cost -= self._costs.pop(path, 0)
        now = [*[it for it in before if it.raw != snapshot.raw][-3:], snapshot]
        while len(now) > 1 and sum(it.cost for it in now) > self._most // 2:
            del now[0]
        self._of[path], self._costs[path] = now, sum(it.cost for it in now)
        self._cost += self._costs[path]
        while self._cost > self._most and len(self._of) > 1:
            self._cost -= self._costs.pop(self._of.popitem(last=False)[0])
