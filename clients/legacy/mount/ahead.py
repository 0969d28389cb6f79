"""Small texts decoded before a program asks for them, many files at a time, by processes of their own. A program that lists a folder
and then reads two of its files is about to read them all: a search does that. One that asks how long a listed file is asks for all
of them, as `ls -l` does: then the lists say how long texts are."""
import collections
import contextlib
import logging
from typing import Callable, Dict, Iterator, List, NamedTuple, Optional, Sequence, Set

import trio

from legacy.mount.below import Signature, Source
from legacy.mount.interrupts import waits
from legacy.mount.snapshots import Sizes, Snapshot
from legacy.mount.workers import Workers

log = logging.getLogger("legacy.mount")

# The most files that are decoded together, and the most bytes of one, and about of all.
FILES, SMALL, ROOM = 32, 1 << 16, 1 << 20
# How many such parts of folders are decoded at once, and how many more may wait.
AT_ONCE, WAITING = 2, 16
# How many folders' lists are kept.
FOLDERS = 64
# How many entries of a folder are taken to fit in a reply, until one says how many do.
ENTRIES = 400


class Wanted(NamedTuple):
    """A file that may be decoded: its path, and the label of its rule."""

    path: bytes
    label: str


class Unmeasured(NamedTuple):
    """A file of which the length of the text is to be found out: its path, the label of its rule, and its signature."""

    path: bytes
    label: str
    signature: Signature


Part = List[Wanted]


class Listing:
    """The small texts of a folder in the order in which they were listed, in parts."""

    def __init__(self) -> None:
        self._parts: List[Part] = []
        self._room = 0
        self._places: Dict[bytes, int] = {}
        self._begun: Set[int] = set()
        self._first: Optional[bytes] = None
        # Whether a program asks how long listed files are, and how many entries fitted in the last reply.
        self.sizes_wanted, self.fits = False, ENTRIES

    def add(self, it: Wanted, size: int) -> None:
        """Adds a file, once."""
        if it.path in self._places:
            return
        if not self._parts or len(self._parts[-1]) == FILES or size > self._room:
            self._parts.append([])
            self._room = ROOM
        self._parts[-1].append(it)
        self._room -= size
        self._places[it.path] = len(self._parts) - 1

    def parts(self, path: bytes) -> Iterator[Part]:
        """The parts that to start because a file is read: from the second file on its own, and those next to it."""
        self._first = self._first or path
        place = self._places.get(path)
        if place is None or path == self._first:
            return
        for part in place, place + 1, place - 1:
            if 0 <= part < len(self._parts) and part not in self._begun:
                self._begun.add(part)
                yield self._parts[part]


class Ahead:
    """What is decoded ahead of need; `keep` takes what became of it."""

    def __init__(self, source: Source, workers: Workers, keep: Callable[[Snapshot], None]):
        self._source, self._workers, self._keep = source, workers, keep
        self._listings: "collections.OrderedDict[bytes, Listing]" = collections.OrderedDict()
        self._to, self._from = trio.open_memory_channel[Part](WAITING)
        self._coming: Dict[bytes, trio.Event] = {}

    def listing(self, folder: bytes) -> Listing:
        """A folder is listed again."""
        found = self._listings[folder] = Listing()
        self._listings.move_to_end(folder)
        if len(self._listings) > FOLDERS:
            self._listings.popitem(last=False)
        return found

    def read(self, path: bytes) -> Optional[trio.Event]:
        """A file is read. Returns what to wait for if it is being decoded."""
        coming = self._coming.get(path)
        listing = self._listings.get(path.rpartition(b"/")[0])
        for part in listing.parts(path) if listing else ():
            # (this one doesn't wait for the others)
            part = [it for it in part if it.path != path and it.path not in self._coming]
            try:
                self._to.send_nowait(part)
            except trio.WouldBlock:
                break
            self._coming.update(dict.fromkeys((it.path for it in part), trio.Event()))
        return coming

    def look(self, path: bytes) -> None:
        """A program asks how long a file is that it hasn't opened."""
        listing = self._listings.get(path.rpartition(b"/")[0])
        if listing:
            listing.sizes_wanted = True

    async def measure(self, files: Sequence[Unmeasured], sizes: Sizes) -> None:
        """Finds out how long the texts of small files are. (If that fails, a program that asks for one learns why.)"""
        asked = [(it.path, it.label) for it in files], [tuple(it.signature) for it in files]
        with contextlib.suppress(OSError):
            for it, size in zip(files, await waits.job(self._workers.do, "sizes", self._source.root, *asked)):
                if size is not None:
                    sizes.put(it.signature, it.label, size)

    async def serve(self) -> None:
        """Decodes what is wanted, one part after the other."""
        async for part in self._from:
            try:
                await self._decode(part)
            except OSError:
                pass  # (whoever reads one of them learns why)
            except Exception:
                log.exception("decoding ahead failed; this is a fault of the mount")
            finally:
                for it in part:
                    self._coming.pop(it.path).set()  # (one for all)

    async def _decode(self, part: Part) -> None:
        files = [(it.path, it.label) for it in part]
        for it, content in zip(part, await trio.to_thread.run_sync(self._workers.do, "texts", self._source.root, files)):
            if content:
                found, raw, text = content
                snapshot = Snapshot(found, raw, it.label, text)
                snapshot.settled = True
                self._keep(snapshot)
