"""Texts of files: read once a program needs them, and kept as long as the files don't change."""
import contextlib
import errno
import os
import re
from typing import AsyncIterator, Dict, List, Optional, Set, Tuple

import trio

from legacy.mount import repositories
from legacy.mount.ahead import Ahead
from legacy.mount.below import Place, Reading, Signature, Source, signature
from legacy.mount.interrupts import waits
from legacy.mount.parts import Parts
from legacy.mount.questions import Questions
from legacy.mount.snapshots import LARGEST, Lengths, Past, Shelf, Sizes, Snapshot, Text, own_text
from legacy.mount.workers import Workers
from legacy.mount.written import LONG, in_thread_if
from legacy.saving import Refused

# What a file's text is read by, instead of a label, that says of other files which charset they have.
CHARSET_UTF_8 = "charset = utf-8"
CHARSET = re.compile(rb"(?im)^([ \t]*charset[ \t]*[=:][ \t]*)[^\s#;]+")


class Reader:
    """The texts of a source's files."""

    def __init__(self, source: Source, questions: Questions, workers: Workers, for_small: Workers):
        self.source, self._questions, self._workers = source, questions, workers
        self.parts = Parts(source)
        # What repositories keep, if these are shown.
        self.kept: Optional[repositories.Kept] = None
        self.shelf, self.sizes, self.past = Shelf(), Sizes(), Past()
        self.ahead = Ahead(source, for_small, self.keep)
        self._reading: Dict[Tuple[Signature, str], trio.Event] = {}

    @contextlib.asynccontextmanager
    async def place(self, path: bytes) -> AsyncIterator[Place]:
        """Where a path leads, which stays that wherever its folder is moved."""
        folder = await self.parts.open(path, self.source.folder, path)
        try:
            yield Place(folder, os.path.basename(path) or b".")
        finally:
            os.close(folder)

    async def snapshot(self, path: bytes, label: str) -> Snapshot:
        """What is at a path now. Raises `Refused` if it is too large for a text."""
        if self.kept and label in (repositories.LABEL, repositories.INDEX):
            found, raw, text = await self.parts.ask(path, self.kept.content, path, label)
            return Snapshot(found, raw, label, Text(text, "UTF-8", 0))
        while True:
            coming = self.ahead.read(path)
            key = signature(await self.parts.ask(path, self.source.stat, path)), label
            kept = self.shelf.get(*key)
            if kept and kept.settled:
                return kept
            coming = coming or self._reading.get(key)
            if not coming:
                break
            await waits.during(coming.wait)
        done = self._reading[key] = trio.Event()
        try:
            return await self._read(path, key[0], label)
        finally:
            del self._reading[key]
            done.set()

    async def _read(self, path: bytes, found: Signature, label: str) -> Snapshot:
        fits(found.size)
        found, raw, settled = await self._raw(path, found.size > LONG)
        snapshot = self.shelf.get(found, label)
        if snapshot is None or snapshot.raw != raw:
            snapshot = Snapshot(found, raw, label, None)
            snapshot.text = await self.text(snapshot)
        snapshot.settled = settled
        self.keep(snapshot)
        return snapshot

    async def _raw(self, path: bytes, long: bool) -> Reading:
        """A file's bytes, read by a thread where that may take long."""
        if self.parts.of(path) is not None:
            return await self.parts.ask(path, self.source.read, path)
        found: Reading = await in_thread_if(long, self.source.read, path)
        return found

    async def leaves(self, path: bytes, label: str) -> None:
        """Remembers what is about to leave a path, if it is a text."""
        with contextlib.suppress(OSError):
            found = signature(await self.parts.ask(path, self.source.stat, path))
            known = self.shelf.get(found, label)
            if known and known.settled:
                self.past.put(path, known)
            elif found.size <= LARGEST:
                found, raw, _ = await self.parts.ask(path, self.source.read, path)
                self.past.put(path, known if known and known.raw == raw else Snapshot(found, raw, label, None))

    async def before(self, path: bytes, label: str) -> List[Snapshot]:
        """The last contents of a path, the newest last."""
        found = self.past.of(path, label)
        for it in found:
            if it.text is None:
                it.text = await self.text(it)
        return found

    def keep(self, snapshot: Snapshot) -> None:
        """Keeps what is known of a file."""
        self.shelf.put(snapshot)
        if snapshot.settled:
            self.sizes.put(snapshot.signature, snapshot.label, len(snapshot.utf8))

    async def text(self, of: Snapshot) -> Text:
        """What a content says."""
        raw, label = of.raw, of.label
        if label == CHARSET_UTF_8:
            return text_of_charset(raw)
        encoding = await self._questions.encoding(label)
        if await in_thread_if(len(raw) > LONG, own_text, raw, encoding):
            return Text(raw, encoding, 0)
        if len(raw) <= self._questions.longest:
            return await self._questions.text(raw, label)
        found: Text = await waits.job(self._workers.do, "text", raw, label, of.number)
        return found

    async def size(self, path: bytes, label: str, found: os.stat_result) -> Tuple[Signature, int]:
        """How long the text of a file is now. Raises `Refused` if it is too large for one."""
        if found.st_size <= self._questions.longest or self.shelf.has(signature(found), label):
            # A program that asks for the size is about to read it.
            snapshot = await self.snapshot(path, label)
            return snapshot.signature, len(snapshot.utf8)
        fits(found.st_size)
        read, raw, settled = await self._raw(path, True)
        size = (await self.lengths(raw, label)).utf8
        if settled:
            self.sizes.put(read, label, size)
        return read, size

    async def lengths(self, raw: bytes, label: str) -> Lengths:
        """How long the text of these bytes is, and how many errors it has."""
        if label == CHARSET_UTF_8:
            return Lengths(len(text_of_charset(raw).utf8), 0)
        encoding = await self._questions.encoding(label)
        if await in_thread_if(len(raw) > LONG, own_text, raw, encoding):
            return Lengths(len(raw), 0)
        if len(raw) <= self._questions.longest:
            return await self._questions.lengths(raw, label)
        found: Lengths = await waits.job(self._workers.do, "lengths", raw, label)
        return found

    def unknown(self, utf8: bytes, label: str) -> Set[str]:
        """The characters of a text that aren't ASCII, except those that the encoding is known to have."""
        return self._questions.letters(label).unknown(utf8)

    async def lacking(self, letters: Set[str], label: str) -> str:
        """One of these characters for which an encoding has no bytes, or nothing."""
        return await self._questions.lacking(letters, label) or ""

    async def encoding(self, label: str) -> str:
        """The name of the encoding that a label stands for."""
        return await self._questions.encoding(label)


def text_of_charset(raw: bytes) -> Text:
    """What a file that says which charset others have is shown as."""
    return Text(CHARSET.sub(rb"\1utf-8", raw), "UTF-8", 0)


def fits(size: int) -> None:
    """Whether a file is small enough for a document."""
    if size > LARGEST:
        raise Refused(errno.EFBIG, f"it has {size} bytes, and texts have at most {LARGEST}")


