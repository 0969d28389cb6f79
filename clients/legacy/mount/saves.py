"""Texts that programs wrote become bytes of the files below. What each is compared with, its base, depends on the way in
which it comes:

- written in place: the file at the first open for writing, as long as a program has it open. The edit is made at fsync and
  at each close, since a program looks at what these say.
- by renaming over another file: the file that is replaced.
- to a name that a file was renamed away from, or deleted at: the last content of that name.
- to a new name: the file read recently whose lines it has most of.

A file is written only if `gate` accepted all of its text, and only over what it was read as."""
import collections
import contextlib
import errno
import logging
import math
import os
import time
import unicodedata
from typing import Any, Awaitable, Callable, Deque, Iterable, List, Optional, Sequence, Set, Tuple

import trio

from legacy.mount.below import CHANGED, Place, Signature, set_times, read_at, signature
from legacy.mount.copies import copy_of
from legacy.mount.interrupts import aside, waits
from legacy.mount.reading import Reader
from legacy.mount.refusals import Refusals, program_of, printable
from legacy.mount.sending import Content
from legacy.mount.snapshots import LARGEST, Snapshot, Text, lines_of, numbers, own_text
from legacy.mount.storing import Store
from legacy.mount.tree import SOON, Handle, Made, Node, Session, partial_character, owner_of
from legacy.mount.workers import Workers
from legacy.mount.written import LONG, Written, in_thread_if
from legacy.saving import Refused
from legacy.rules import Rule

log = logging.getLogger("legacy.mount")

# The most bytes of a text in UTF-8.
LARGEST_TEXT = 3 * LARGEST + 3
# How alike a text has to be, by lines, to what it is compared with.
ALIKE = 0.3
# The seconds after which what was refused is tried again while it is written, and how many times as long as a save takes the
# next one waits.
REFUSED, SHARE = 60.0, 10
# How many bytes of a write are looked at in one go.
LOOKED = 1 << 17
# The most other contents, and bytes of them, that lines are looked for in.
OTHERS, BYTES_OF_OTHERS = 40, 1 << 20
# How many readings are known, by whom they were.
LAST_READ = 64
# How many paths are known at which files were deleted.
MOST_DELETED = 1000
BAD = "\ufffd"

Where = Callable[[], Tuple[bytes, bytes]]


class Saves:
    """Saves what programs write."""

    def __init__(self, reader: Reader, workers: Workers, refusals: Refusals, sync: bool, forget_pages: Callable[[int], Awaitable[None]]):
        self._reader, self._workers, self._refusals, self._sync = reader, workers, refusals, sync
        self._forget_pages = forget_pages
        # What threads have read last.
        self._read: Deque[Tuple[int, bytes, str]] = collections.deque(maxlen=LAST_READ)
        # The paths at which files were deleted.
        self._deleted: Set[bytes] = set()

    # While it is written.

    async def look(self, handle: Handle, offset: int, content: bytes) -> None:
        """Refuses a character that the encoding lacks at its write already: more programs look at what a write says than
        at what a close says. The text is kept all the same, to be rejected as a whole."""
        node = handle.node
        session = node.session
        assert session and node.rule
        joined = handle.begun + content if handle.begun and handle.end == offset else content
        handle.begun, handle.end = partial_character(joined[-4:]), offset + len(content)
        letters: Set[str] = set()
        for at in range(0, len(joined), LOOKED):
            if at:
                await trio.lowlevel.checkpoint()  # (others have their turn)
            # (a character that begins in this part is in it as a whole)
            letters |= self._reader.unknown(joined[at : at + LOOKED + 3], node.rule.label)
        letters.discard(BAD)
        while letters:
            lacking = await self._reader.lacking(letters, node.rule.label)
            if not lacking:
                return
            if not await self._is_known(lacking, node, session):
                encoding = await self._reader.encoding(node.rule.label)
                log.warning("%s: refused at a write: %s has no bytes in %s", printable(node.path), name_of(lacking), encoding)
                raise Refused(errno.EILSEQ, f"{name_of(lacking)} has no bytes in {encoding}")
            letters.remove(lacking)

    async def _is_known(self, letter: str, node: Node, session: Session) -> bool:
        """Whether a character is in what lines may be taken from: the base, what was at the path, and what was read
        recently. (A decoder may know bytes for it that no encoder gives.)"""
        label = session.base.label
        past = await self._reader.before(node.path, label) if node.path is not None else []
        contents = [session.base, *past, *list(self._reader.shelf.late(label))[:OTHERS]]
        found: bool = await trio.to_thread.run_sync(lambda: any(letter.encode() in it.utf8 for it in contents))
        return found

    # When it is to be saved.

    async def commit(self, node: Node, thread: int) -> None:
        """Saves what programs have written into a file. Raises `OSError` if it is refused."""
        async with waits.holding(node.lock):
            await self.commit_held(node, thread)

    async def flush(self, node: Node, thread: int) -> None:
        """Saves it if a program closes a handle or wants its text on the disk, and this may be a text that is meant."""
        if node.session and node.session.dirty:
            node.session.flushed = node.session.version
            async with waits.holding(node.lock):
                # (another program may have cut it meanwhile)
                if node.session and node.session.whole():
                    # (of a program that forks, a child closes what the program is still writing)
                    await self.commit_held(node, thread, aloud=False)

    async def save_late(self, nodes: Iterable[Node]) -> None:
        """Saves what programs have been writing for some seconds and still are, such as the output of a job. A text that
        adds to what is below is saved sooner than one that replaces it."""
        for node in list(nodes):
            session = node.session
            if session and session.dirty and time.monotonic() >= session.due and node.writers:
                if self._reader.parts.of(node.saved_at) is None:
                    await self._save_late(node, session)
                else:
                    # (a part of the source that hangs would hold up the files of all others)
                    session.due = math.inf
                    aside(self._save_late, node, session)

    async def _save_late(self, node: Node, session: Session) -> None:
        """Saves what programs are writing, and says when it is looked at next."""
        began = time.monotonic()
        # (what is under way is done, even if the mount ends)
        with trio.CancelScope(shield=True):
            pause = SOON
            try:
                await self._reader.parts.look_alive(node.saved_at)
                if began >= session.patient or await session.grows():
                    async with node.lock:
                        await self.commit_held(node, node.writer, partly=True)
                    pause = max(pause, SHARE * (time.monotonic() - began))
            except OSError:
                pause = max(REFUSED, SHARE * (time.monotonic() - began))
            finally:
                session.due = time.monotonic() + pause

    async def commit_held(self, node: Node, thread: int, partly: bool = False, aloud: bool = True) -> None:
        """Saves it for a caller that holds the inode's lock. `partly` if a character may yet be written to its end; not `aloud` if
        a refusal is said only once the program has closed its file."""
        session, rule, path = node.session, node.rule, node.saved_at
        if session is None or not session.dirty or path is None or rule is None:
            return
        began = time.monotonic()
        version, content = await session.copy()
        if version == session.refused:
            raise Refused(session.fault, node.refusal)
        rest = len(partial_character(content[-4:])) if partly else 0
        content = content[: len(content) - rest] if rest else content
        if partly and not content:
            return
        try:
            # (a folder may be moved at any time, and another one have its name)
            async with self._reader.place(node.saved_at or path) as place:
                made = await self._make_once(node, session, version, rule, content)
                store = self._store(place, session.below, session.modified)
                stored = await self._reader.parts.do(path, store_made, place, store, session, made)
        except InterruptedError:
            raise  # (it is saved once the file is closed, which its program is about to do)
        except OSError as fault:
            if isinstance(fault, Refused):
                session.refused, session.fault = version, fault.errno or errno.EIO
            await self._refuse(node, content, fault, session.program(thread), aloud)
            raise
        text = await self._text_of(made.raw, content, rule.label)
        session.below = node.shown = Snapshot(stored, made.raw, rule.label, text, made.number)
        self._reader.keep(session.below)
        if not rest:
            session.saved = version
        node.refusal = ""
        node.sent, node.below, session.made = stored, stored.inode, None
        if made.raw:
            node.drop_copy()
        if made.how != "unchanged":
            # (after a refusal an editor may put back what was there)
            await self._beside(path, len(content), self._refusals.accept, path, session.program(thread))
        log.info("%s: saved (%s), %.1f ms", printable(path), made.how, 1000 * (time.monotonic() - began))

    async def _make_once(self, node: Node, session: Session, version: int, rule: Rule, content: bytes) -> Made:
        """The bytes for a text; those that it had when they couldn't be written, where it has to be tried again."""
        if session.made and session.made[0] == (version, len(content)):
            return session.made[1]
        path = node.saved_at
        assert path is not None
        try:
            made = await self._make(path, rule, session.base, content)
        except Refused as refused:
            made = await self._make_as_read(node, session, rule, content, refused)
        session.made = (version, len(content)), made
        return made

    async def _make_as_read(self, node: Node, session: Session, rule: Rule, content: bytes, refused: Refused) -> Made:
        """The bytes of a temporary file with a rule of its own, in which each line with damage is another one. Its program is about to
        replace what it has read last in the folder, so that is the base. Raises `Refused`."""
        if refused.errno == errno.EILSEQ and node.is_temporary and not session.base.raw and BAD.encode() in content and node.path:
            folder, writer = os.path.dirname(node.path), node.writer
            for thread, path, label in list(reversed(self._read)):
                if label == rule.label and os.path.dirname(path) == folder and writer in (thread, program_of(thread)):
                    try:
                        base = with_mark(await self._reader.snapshot(path, label), getattr(rule, "mark", b""))
                        return await self._by_worker(rule, base, content, [])
                    except InterruptedError:
                        raise  # (nothing is refused by that)
                    except OSError:
                        continue
        raise refused

    def reads(self, thread: int, path: Optional[bytes], rule: Rule) -> None:
        """A program opens a file."""
        if path is not None:
            self._read.append((thread, path, rule.label))

    async def _refuse(self, node: Node, content: bytes, fault: OSError, program: int, aloud: bool) -> None:
        """Keeps a text that can't be saved beside its file, and says why."""
        node.refusal = str(fault) if isinstance(fault, Refused) else os.strerror(fault.errno or errno.EIO)
        path = node.saved_at
        assert path is not None
        await self._beside(path, len(content), self._refusals.reject, path, content, node.refusal, program, aloud)

    async def _beside(self, path: bytes, size: int, call: Callable[..., None], *words: Any) -> None:
        """Has something done to a refused text of a size, which lies beside a file: by a thread if that may take long."""
        if size > LONG or self._reader.parts.of(path) is not None:
            await self._reader.parts.do(path, call, *words)
        else:
            call(*words)

    async def _make(self, path: bytes, rule: Rule, base: Optional[Snapshot], content: bytes, own: Sequence[Snapshot] = ()) -> Made:
        """The bytes for a text, where what is known of them is a base and perhaps bytes of its own."""
        if len(content) > LARGEST_TEXT:
            raise Refused(errno.EFBIG, f"more than {LARGEST} bytes")
        if (base is None or not base.raw) and content:
            base = await self._likest(path, rule, content)
        if base is not None and base.utf8 == content:
            return Made(base.raw, "unchanged", base.number)
        mark = getattr(rule, "mark", b"")
        if base is None:
            encoding = await self._reader.encoding(rule.label)
            if not mark and await in_thread_if(len(content) > LONG, own_text, content, encoding):
                if len(content) > LARGEST:
                    raise Refused(errno.EFBIG, f"more than {LARGEST} bytes")
                return Made(content, "its own text", next(numbers))
            base = Snapshot(Signature(0, 0, 0, 0, 0), mark, rule.label, Text(b"", encoding, len(mark)))
        pool = [*self._reader.past.of(path, rule.label), *own]
        if not base.raw:
            pool = [*pool, *self._late(rule.label)]
        try:
            return await self._by_worker(rule, base, content, pool)
        except Refused as refused:
            more = [it for it in self._late(rule.label) if it not in pool]
            if refused.errno != errno.EILSEQ or not more:
                raise
            return await self._by_worker(rule, base, content, [*more, *pool])

    def _late(self, label: str) -> List[Snapshot]:
        """What was read recently, the last of it last, as much as lines are looked for in."""
        found: List[Snapshot] = []
        cost = 0
        for it in self._reader.shelf.late(label):
            cost += it.cost
            if cost > BYTES_OF_OTHERS or len(found) == OTHERS:
                break
            found.insert(0, it)
        return found

    async def _by_worker(self, rule: Rule, base: Snapshot, content: bytes, pool: Sequence[Snapshot]) -> Made:
        of, *others = [Content(it.number, it.raw, it.text) for it in (base, *pool)]
        number = next(numbers)
        raw, how = await waits.job(self._workers.do, "save", rule.label, of, content, others, number)
        return Made(raw, how, number)

    async def encode(self, rule: Rule, content: bytes) -> bytes:
        """The bytes of a text by itself."""
        nothing = Snapshot(Signature(0, 0, 0, 0, 0), b"", rule.label, Text(b"", await self._reader.encoding(rule.label), 0))
        return (await self._by_worker(rule, nothing, content, [])).raw

    async def _likest(self, path: bytes, rule: Rule, content: bytes) -> Optional[Snapshot]:
        """What a new text was made from, if anything: what was at its path, or what was read recently."""
        own = list(reversed(await self._reader.before(path, rule.label)))
        mark, encoding = getattr(rule, "mark", b""), await self._reader.encoding(rule.label)
        if own and own[0].text:
            # (what was at the path had the mark of its own, or none)
            mark, encoding = own[0].raw[: own[0].text.bom], own[0].text.encoding
        late = [it for it in self._reader.shelf.late(rule.label) if it.text and it.text.encoding == encoding][:OTHERS]
        found: Optional[Snapshot] = await trio.to_thread.run_sync(likest, content, own, late)
        self._reader.shelf.weigh_again(late)
        return with_mark(found, mark) if found and found not in own else found

    def note_deletion(self, path: bytes) -> None:
        """A file with a rule was deleted."""
        if len(self._deleted) >= MOST_DELETED:
            self._deleted.clear()
        self._deleted.add(path)

    async def keep_before(self, node: Node, path: bytes, rule: Rule) -> None:
        """Keeps what was deleted right before a file was made again, until that has a text, next to it: a mount that is killed
        leaves one of the two."""
        before = self._reader.past.of(path, rule.label) if path in self._deleted else []
        self._deleted.discard(path)
        if before:
            with contextlib.suppress(OSError):
                folder = await self._reader.parts.open(path, self._reader.source.folder, path)
                place = Place(folder, os.path.basename(path))
                node.copy = await self._reader.parts.do(path, copy_of, place, before[-1].raw, None, self._sync)
                if node.copy:
                    node.copy.holds(folder)
                else:
                    os.close(folder)
                if not node.born:
                    node.drop_copy()  # (its program is through with it already)

    async def end(self, node: Node, thread: int) -> None:
        """The last program that had a file open for writing has closed it."""
        async with node.lock:
            if node.writers:
                return  # (another one goes on with it)
            try:
                await self.commit_held(node, thread)
            except OSError:
                self._refusals.say(node.saved_at or b"")
                await self._put_back(node)
        session = node.session
        if session is None or node.writers:
            return
        node.mark_closed()
        if not session.dirty or session.below.raw:
            node.drop_copy()
        if node.path is not None and session.base.raw != session.below.raw:
            self._reader.past.put(node.path, session.base)
        node.session = None
        # A program that has opened it since continues with what is below.
        node.shown = session.below if node.handles else None
        if session.dirty:
            # What was refused isn't part of the file, and the kernel has pages of it.
            node.sends_anew()
            await self._forget_pages(node.ino)
        if session.data:
            await in_thread_if(session.data.size > LONG, session.data.close)

    async def _put_back(self, node: Node) -> None:
        """Restores a file that a program deleted in order to make it again, by a text that was then refused."""
        session, path, rule = node.session, node.path, node.rule
        if node.born and session and path is not None and rule and not session.below.raw:
            before = await self._reader.before(path, rule.label)
            if before:
                with contextlib.suppress(OSError):
                    async with self._reader.place(node.path or path) as place:
                        stored = await self._reader.parts.do(path, self._store(place, session.below, None).put, place, before[-1].raw)
                        session.below = node.shown = Snapshot(stored, before[-1].raw, rule.label, before[-1].text)
                        log.warning("%s: is as it was before it was deleted", printable(path))

    async def close(self, nodes: Iterable[Node], by_signal: bool) -> None:
        """Does what is done once a file is closed, after the end of the mount. (The system says that afterwards, and if the
        mount ends just then, not at all.) A user who unmounts has closed all files; if a signal ended the mount, what was
        refused can't become another text any more."""
        for node in list(nodes):
            session = node.session
            if session and session.dirty and session.version in ((session.refused,) if by_signal else (session.refused, session.flushed)):
                async with node.lock:
                    try:
                        await self.commit_held(node, node.writer)
                    except OSError:
                        self._refusals.say(node.saved_at or b"")
                        await self._put_back(node)
                node.session = None
            if node.copy and not (session and session.dirty and not session.below.raw):
                node.drop_copy()

    def reject_unsaved(self, nodes: Iterable[Node]) -> None:
        """Rejects what programs have written and not closed."""
        for node in nodes:
            if node.session and node.session.dirty and node.path is not None:
                content = node.session.text().copy()
                if content:
                    self._refusals.reject(node.path, content, "unmounted before the file was closed", program_of(node.writer))

    # When a name changes.

    async def rename(self, node: Node, where: Where, rule: Optional[Rule], over: bool, thread: int) -> None:
        """A text gets the name of a file with a rule: it is saved into that one's bytes. If the file has none, the text becomes the
        bytes. Inodes' locks are held; `where` has both paths as they are now, and `over` says whether there is such a file."""
        path, new = where()
        asks = self._reader.parts.ask
        async with self._reader.place(path) as came, self._reader.place(new) as goes:
            content, began = b"", time.monotonic()
            try:
                base = await self._reader.snapshot(new, rule.label) if over and rule else None
                own = node.shown if node.rule and rule and node.shown and node.shown.label == rule.label else None
                while True:
                    found, version = signature(await asks(path, came.stat)), node.session.version if node.session else 0
                    content = await self._content(node, came, path)
                    if rule:
                        made = await self._make(new, rule, base, content, [own] if own else [])
                    else:
                        made = Made(content, "as it is", next(numbers))
                    if (signature(await asks(path, came.stat)), node.session.version if node.session else 0) == (found, version):
                        break
                stored = await self._reader.parts.do(new, self._store(goes, base, found.modified, came).put, goes, made.raw)
            except Refused as refused:
                await self._beside(new, len(content), self._refusals.reject, new, content, str(refused), program_of(thread))
                raise
            # (in a thread: the system frees its bytes)
            await self._reader.parts.do(path, came.unlink)
            if not rule:
                await self._becomes_bytes(node, goes, stored)
        if base:
            self._reader.past.put(new, base)
        if rule:
            text = await self._text_of(made.raw, content, rule.label)
            await self._becomes(node, rule, Snapshot(stored, made.raw, rule.label, text, made.number), base)
        await self._beside(new, len(content), self._refusals.accept, new, program_of(thread))
        log.info("%s: saved by renaming %s (%s), %.1f ms", printable(new), printable(path), made.how, 1000 * (time.monotonic() - began))

    async def _content(self, node: Node, came: Place, path: bytes) -> bytes:
        """The text of what is renamed."""
        if node.session and node.session.data is not None:
            return (await node.session.copy())[1]
        if node.rule:
            assert node.path is not None
            return (await self._reader.snapshot(node.path, node.rule.label)).utf8
        return await self._reader.parts.do(path, content_of, came)

    async def _becomes(self, node: Node, rule: Rule, now: Snapshot, base: Optional[Snapshot]) -> None:
        """An inode is now a file with a rule, with the bytes that were just written."""
        self._reader.keep(now)
        node.rule, node.born, node.temporary = rule, False, 0.0
        node.below, node.shown, node.sent = now.signature.inode, now, None
        for it in node.handles:
            if it.descriptor is not None:
                os.close(it.descriptor)
                it.descriptor = None
        if node.session or node.writers:
            session = Session(now)
            session.base = base or now
            session.data = Written(now.utf8)
            node.session = session

    async def _becomes_bytes(self, node: Node, place: Place, now: Signature) -> None:
        """An inode is now a file without a rule."""
        for it in list(node.handles):
            it.descriptor = await self._reader.parts.open(node.path, place.open, os.O_RDWR if it.writes else os.O_RDONLY)
        node.rule, node.shown, node.session, node.sent = None, None, None, None
        node.below, node.born, node.temporary = now.inode, False, 0.0

    async def _text_of(self, raw: bytes, content: bytes, label: str) -> Text:
        """What is known of bytes whose text is this."""
        for mark, name in (b"\xef\xbb\xbf", "UTF-8"), (b"\xfe\xff", "UTF-16BE"), (b"\xff\xfe", "UTF-16LE"):
            if raw.startswith(mark):
                return Text(content, name, len(mark))
        return Text(content, await self._reader.encoding(label), 0)

    def _store(self, place: Place, below: Optional[Snapshot], modified: Optional[int], like: Optional[Place] = None) -> Store:
        """How the file below gets other bytes, if it is unchanged."""
        before = below.raw if below and not like else b""
        return Store(lambda: check_same(place, below), modified, self._sync, like, before, self._reader.source.state)


def store_made(place: Place, store: Store, session: Session, made: Made) -> Signature:
    """Writes the file below, if neither it nor its owner has changed."""
    if session.owner not in (None, owner_of(place.stat())):
        raise Refused(errno.EBUSY, CHANGED)
    if made.raw != session.below.raw or not is_same(place, session.below):
        return store.put(place, made.raw)
    with place.hold() as path:
        set_times(path, os.stat(path).st_atime_ns, session.modified or time.time_ns())
        return signature(os.stat(path))


def content_of(place: Place) -> bytes:
    """The bytes of a file that becomes a text."""
    file = place.open(os.O_RDONLY)
    try:
        size = os.fstat(file).st_size
        if size > LARGEST_TEXT:
            raise Refused(errno.EFBIG, f"more than {LARGEST} bytes")
        return read_at(file, size)
    finally:
        os.close(file)


def is_same(place: Place, below: Snapshot) -> bool:
    """Whether a file has the bytes that were read."""
    if below.settled and signature(place.stat()) == below.signature:
        return True
    file = place.open(os.O_RDONLY)
    try:
        return read_at(file, len(below.raw) + 1) == below.raw
    finally:
        os.close(file)


def check_same(place: Place, below: Optional[Snapshot]) -> None:
    """Raises `Refused` if a file has other bytes than were read."""
    if below is not None and not is_same(place, below):
        raise Refused(errno.EBUSY, CHANGED)


def likest(content: bytes, own: Sequence[Snapshot], late: Sequence[Snapshot]) -> Optional[Snapshot]:
    """The content that a text has most lines of: a few lines are enough for one of its own path, others have three of its
    lines at least, or all."""
    lines = lines_of(content)
    best, most = None, ALIKE
    for it in [*own, *late]:
        alike = len(lines & it.lines)
        share = alike / max(1, min(len(lines), len(it.lines)))
        if it in own:
            share = max(share, ALIKE + 0.01 if len(lines) < 4 else 0.0)
        elif alike < 3 and it.utf8 != content:
            continue
        if share > most:
            best, most = it, share
    return best


def with_mark(of: Snapshot, mark: bytes) -> Snapshot:
    """Another file's content, with the byte order mark that this one is to have, and no other."""
    assert of.text
    if of.raw[: of.text.bom] == mark:
        return of
    text = of.text._replace(bom=len(mark))
    return Snapshot(Signature(0, 0, 0, 0, 0), mark + of.raw[of.text.bom :], of.label, text)


def name_of(letter: str) -> str:
    """A character's number and name."""
    return f"U+{ord(letter):04X} {unicodedata.name(letter, '')}".strip()
