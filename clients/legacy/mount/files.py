"""The mount's answers to what programs do with files: open, read, write, close and change them."""
import contextlib
import errno
import functools
import logging
import os
import stat
from typing import Any, Optional, Tuple

import pyfuse3

from legacy.mount import unread
from legacy.mount.answers import Answers, FUSEError, changes, guard, lasts
from legacy.mount.below import read_at, signature, write
from legacy.mount.interrupts import aside, program, waits
from legacy.mount.locks import Key
from legacy.mount.refusals import program_of, printable
from legacy.mount.rights import OPENING, SEARCH, WRITE
from legacy.mount.saves import LARGEST_TEXT
from legacy.mount.snapshots import Snapshot, Text
from legacy.mount.tree import Handle, Node, Session, owner_of
from legacy.rules import Rule

log = logging.getLogger("legacy.mount")

# The flags of an open that mean nothing below: the kernel has looked at them, or they ask for aligned buffers.
NOT_BELOW = os.O_CREAT | os.O_EXCL | os.O_APPEND | os.O_NOFOLLOW | os.O_DIRECT
# The flag of a write to a file's end (os.RWF_APPEND, from Python 3.10 on).
AT_END = 0x10
# The bits of a mode that make a program one of more rights.
SET_ID = stat.S_ISUID | stat.S_ISGID


def reopen(path: bytes, flags: int, at_end: bool = False) -> int:
    """A descriptor of a file, of which `path` is one that was opened before. (It may be a FIFO by now.) What is written goes to its
    end if `at_end` is true."""
    if not stat.S_ISREG(os.stat(path).st_mode):
        raise FUSEError(errno.ESTALE)
    asked = flags & ~NOT_BELOW | os.O_CLOEXEC | os.O_NONBLOCK
    try:
        return os.open(path, asked | (os.O_APPEND if at_end else 0))
    except PermissionError:
        if not flags & os.O_APPEND:
            raise
        return os.open(path, asked | os.O_APPEND)  # (some files can only be appended to, by chattr +a)


def set_attributes(path: bytes, before: os.stat_result, attr: Any, fields: Any) -> None:
    """Changes what a file is, to which a path by a descriptor leads."""
    if fields.update_mode:
        os.chmod(path, stat.S_IMODE(attr.st_mode))
    if fields.update_uid or fields.update_gid:
        owner = attr.st_uid if fields.update_uid else -1, attr.st_gid if fields.update_gid else -1
        os.chown(path, *owner)
    if fields.update_atime or fields.update_mtime:
        modified = attr.st_mtime_ns if fields.update_mtime else before.st_mtime_ns
        accessed = attr.st_atime_ns if fields.update_atime else before.st_atime_ns
        os.utime(path, ns=(accessed, modified))


class Files(Answers):
    """What programs do with files."""

    def add_handle(self, node: Node, descriptor: Optional[int], flags: int, ctx: Any, found: Optional[os.stat_result] = None) -> int:
        """A handle of a file. `found` is what the descriptor's file is."""
        self.last += 1
        # (a thread may have ended by the time that its program's text is refused)
        writes = flags & os.O_ACCMODE != os.O_RDONLY
        lasts_longer = writes and node.rule or self.parts.of(node.path) is not None
        handle = Handle(node, descriptor, flags, program_of(ctx.pid) if lasts_longer else ctx.pid)
        if descriptor is not None and handle.writes and found:
            try:
                handle.lock = self.lock(node, descriptor, found)
            except OSError:
                os.close(descriptor)
                raise
        self.handles[self.last] = handle
        node.handles.add(handle)
        if flags & os.O_TRUNC:
            node.size = 0
        return self.last

    def lock(self, node: Node, descriptor: int, found: os.stat_result) -> Optional[Key]:
        """Locks a file below that is about to be open for writing."""
        try:
            return self.locks.take(descriptor, found)
        except OSError:
            log.warning("%s: not opened for writing: it is locked below", printable(node.path))
            raise

    @guard
    async def open(self, ino: int, flags: int, ctx: Any) -> Any:
        return await self.open_again(ino, flags, ctx)

    async def open_again(self, ino: int, flags: int, ctx: Any) -> Any:
        """A file that is opened."""
        node = self.tree.nodes[ino]
        writes = flags & os.O_ACCMODE != os.O_RDONLY
        if writes:
            self.view.takes_changes(node.rule, node.path)
        if not node.rule:
            return await self.open_as_it_is(node, flags, ctx)
        # (of a part that may hang it is asked first, since what was read may be left again meanwhile)
        if writes and self.parts.of(node.path) is not None:
            await self.parts.ask(node.path, self.view.look_writable, self.view.path_of(node))
        try:
            await self.read_and_check(node, node.rule, flags, ctx)
        except PermissionError:
            if not unread.is_for(flags):
                raise
            return await self.open_unread(node, node.rule, flags, ctx)
        self.saves.reads(ctx.pid, node.path, node.rule)
        return self.open_as_text(node, flags, ctx)

    async def read_and_check(self, node: Node, rule: Rule, flags: int, ctx: Any) -> None:
        """Has what is below as what is open of a file, if the program may open it."""
        while True:
            await self.view.read_for(node, rule, flags & os.O_ACCMODE != os.O_RDONLY, ctx.pid)
            await self.check_open(node, flags, ctx)
            # (while a part was asked, the last program that had the file open may have closed it)
            if node.shown or node.session:
                return

    async def open_as_it_is(self, node: Node, flags: int, ctx: Any) -> Any:
        """A file without a rule is opened."""
        descriptor = await self.open_below(node, ctx, flags & ~os.O_TRUNC)
        found = await self.parts.ask(node.path, os.fstat, descriptor)
        info = pyfuse3.FileInfo(fh=self.add_handle(node, descriptor, flags, ctx, found))
        if flags & os.O_TRUNC:
            # (which is locked by now)
            try:
                await self.parts.ask(node.path, self.as_asker, ctx, os.truncate, b"/proc/self/fd/%d" % descriptor, 0)
            except BaseException:
                await self.close(info.fh)
                raise
        return info

    async def open_below(self, node: Node, ctx: Any, flags: int, at_end: bool = False) -> int:
        """A descriptor of what an inode is below, opened with the rights of the program that asked."""
        def open_held() -> int:
            with self.view.hold(node) as path:
                descriptor = self.as_asker(ctx, reopen, path, flags, at_end)
            try:
                self.check(ctx, b"/proc/self/fd/%d" % descriptor, OPENING[flags & os.O_ACCMODE])
            except OSError:
                os.close(descriptor)
                raise
            return descriptor

        return await self.parts.open(node.path, open_held)

    def open_as_text(self, node: Node, flags: int, ctx: Any) -> Any:
        """A file with a rule is opened, of which it is known what is below."""
        writes = flags & os.O_ACCMODE != os.O_RDONLY
        if writes and node.path is not None and self.parts.of(node.path) is None:
            # (if that is refused, few programs would look at what a close says)
            self.view.look_writable(node.path)
        shown, written = node.shown, node.written
        # (of a file that may change under the same signature the kernel keeps nothing)
        current = shown.signature if shown and shown.settled else None
        if writes:
            session = node.writing()
            if flags & os.O_TRUNC:
                session.truncate(0)
            session.owner = session.owner or node.owner
            node.session = session
        info = pyfuse3.FileInfo(fh=self.add_handle(node, None, flags, ctx))
        info.keep_cache = written is None and current is not None and node.sent == current
        if not info.keep_cache:
            # (another opening may be answered and through before this one, which is to drop the pages)
            node.sent, self.handles[info.fh].fresh = None, current if written is None else None
        if node.is_misled(current):
            with contextlib.suppress(OSError):  # (where the kernel has forgotten it)
                pyfuse3.invalidate_inode(node.ino, attr_only=True)
        return info

    async def check_open(self, node: Node, flags: int, ctx: Any) -> None:
        """Raises a fault if others are let in, and the program may not open what was read of a file."""
        # (a file that a repository lacks is shown nevertheless, with the number of none)
        if self.view.options.others and node.shown and node.shown.signature.inode:
            inode, path = node.shown.signature.inode, node.saved_at
            if path is None:
                raise FUSEError(errno.ESTALE)
            found = await self.parts.ask(path, self.try_open, node, path, flags & os.O_ACCMODE, ctx)
            if found.st_ino != inode:
                raise FUSEError(errno.ESTALE)
            node.owner = owner_of(found)

    def try_open(self, node: Node, path: bytes, flags: int, ctx: Any) -> os.stat_result:
        """What a file is that a program may open."""
        with self.source.here(path) as place, place.hold() as held:
            self.view.check_rights(node, os.stat(held))
            self.as_asker(ctx, lambda: os.close(reopen(held, flags)))
            self.check(ctx, held, OPENING[flags])
            return os.stat(held)

    async def open_unread(self, node: Node, rule: Rule, flags: int, ctx: Any) -> Any:
        """A file that can't be read is opened in order to append to it."""
        if not unread.can_have(await self.reader.encoding(rule.label)):
            raise FUSEError(errno.EACCES)
        descriptor = await self.open_below(node, ctx, os.O_WRONLY, True)
        info = pyfuse3.FileInfo(fh=self.add_handle(node, None, flags, ctx))
        self.handles[info.fh].unread = unread.Unread(descriptor, functools.partial(self.saves.encode, rule))
        return info

    @guard
    @changes
    async def create(self, parent: int, name: bytes, mode: int, flags: int, ctx: Any) -> Any:
        path = self.view.new_path(parent, name)
        if not flags & os.O_EXCL and await self.view.look_for(path):
            # (someone else made it meanwhile)
            entry = await self.view.entry(parent, name)
            return await self.open_again(entry.st_ino, flags, ctx), entry
        descriptor = await self.parts.open(path, self.create_below, path, mode & 0o7777 & ~ctx.umask, ctx)
        found = await self.parts.ask(path, os.fstat, descriptor)
        self.tree.drop_form(path)
        there = self.tree.paths.get(path)
        if there:
            self.tree.drop_name(there, None, path)
        node = self.tree.at(path, found)
        node.mark_made(anew=self.reader.past.has(path))
        node.below = found.st_ino
        held: Optional[int] = descriptor
        if node.rule:
            held = None
            await self.parts.ask(path, os.close, descriptor)
            text = Text(b"", await self.reader.encoding(node.rule.label), 0)
            node.shown = Snapshot(signature(found), b"", node.rule.label, text)
            node.session = Session(node.shown)
            self.reader.sizes.put(node.shown.signature, node.rule.label, 0)
        info = pyfuse3.FileInfo(fh=self.add_handle(node, held, flags, ctx, found))
        node.lookups += 1
        if node.rule:
            # (a program that is to end gets the file all the same, and closes it)
            with contextlib.suppress(InterruptedError):
                await waits.apart(self.saves.keep_before, node, path, node.rule)
        return info, await self.view.attributes(node)

    def create_below(self, path: bytes, mode: int, ctx: Any) -> int:
        """A descriptor of a new file."""
        with self.source.here(path) as place:
            with self.asker(ctx):
                self.check(ctx, b"/proc/self/fd/%d" % place.folder, WRITE | SEARCH)
                descriptor = place.open(os.O_CREAT | os.O_EXCL | os.O_RDWR, mode)
            self.view.give_to_caller(path, ctx)
            return descriptor

    @guard
    async def read(self, fh: int, offset: int, size: int) -> bytes:
        handle = self.handles[fh]
        handle.note_request()
        program.set(handle.thread)
        if handle.descriptor is not None:
            return await self.parts.ask(handle.node.path, read_at, handle.descriptor, size, offset)
        written = handle.node.written
        if written is not None:
            return written.read(size, offset)
        assert handle.node.shown
        return handle.node.shown.utf8[offset : offset + size]

    @guard
    async def write(self, fh: int, offset: int, content: bytes) -> int:
        handle = self.handles[fh]
        program.set(handle.thread)
        if handle.unread:
            content, whole = await handle.unread.encode(content), len(content)
            await waits.apart(self.parts.do, handle.node.path, write, handle.unread.descriptor, content)
            return whole
        if handle.descriptor is None and handle.node.session:
            await handle.node.session.prepare()
        at_end = handle.writes_at_end(offset, len(content))
        if handle.descriptor is not None:
            return await self.parts.ask(handle.node.path, os.pwritev, handle.descriptor, [content], offset, AT_END if at_end else 0)
        session = handle.node.session
        assert session
        if at_end:
            await self.view.catch_up(handle.node)
            session.appends = True
            offset = session.text().size
        if offset + len(content) > LARGEST_TEXT:
            raise FUSEError(errno.EFBIG)
        session.write(offset, content)
        if not content.isascii():
            # (if it is interrupted, the text was written all the same)
            with contextlib.suppress(InterruptedError):
                await self.saves.look(handle, offset, content)
        return len(content)

    @guard
    async def flush(self, fh: int) -> None:
        handle = self.handles[fh]
        handle.note_request()
        if handle.unread:
            handle.unread.flush()
        if handle.descriptor is None and handle.writes:
            program.set(handle.thread)
            await self.parts.look_alive(handle.node.path)
            await self.save(handle)

    @lasts
    async def save(self, handle: Handle) -> None:
        """Saves what programs have written into a file that one of them closes, or wants to be on the disk."""
        await self.saves.flush(handle.node, handle.thread)

    @guard
    async def fsync(self, fh: int, datasync: bool) -> None:
        handle = self.handles[fh]
        program.set(handle.thread)
        if handle.descriptor is not None:
            await self.parts.wait_for(handle.node.path, os.fsync, handle.descriptor)
        else:
            await self.save(handle)

    @guard
    async def release(self, fh: int) -> None:
        await self.close(fh)

    async def close(self, fh: int) -> None:
        """A program has closed a file, or doesn't get it."""
        handle = self.handles.pop(fh)
        handle.note_request()
        handle.node.handles.discard(handle)
        self.locks.leave(handle.lock)
        program.set(0)
        if self.parts.of(handle.node.path) is None:
            await self.end(handle)
        else:
            # (nobody waits for it; and only so many requests may be under way)
            aside(self.end, handle)

    async def end(self, handle: Handle) -> None:
        """Closes what was open for a handle, or saves what the last program that had the file open for writing has left."""
        node = handle.node
        if handle.unread:
            await self.parts.close(node.path, handle.unread.descriptor)
        if handle.descriptor is not None:
            await self.parts.close(node.path, handle.descriptor)
        elif handle.writes and not node.writers:
            await self.saves.end(node, handle.thread)
        if not node.handles:
            node.shown = None
        self.tree.forget(node.ino)

    @guard
    @changes
    @lasts
    async def setattr(self, ino: int, attr: Any, fields: Any, fh: Optional[int], ctx: Any) -> Any:
        node = self.tree.nodes[ino]
        if fields.update_size:
            self.view.takes_changes(node.rule, node.path)
            await self.resize(node, attr.st_size, self.handles.get(fh) if fh is not None else None, ctx)
        # (a save that is under way would put a file like the one before in its place)
        async with waits.holding(node.lock):
            if node.path is not None:
                before, now = await self.parts.ask(node.path, self.set_below, node, attr, fields, ctx)
                if node.session:
                    node.session.owner = node.session.owner and owner_of(now)
                    node.session.modified = attr.st_mtime_ns if fields.update_mtime else node.session.modified
                await self.view.same_bytes(node, before)
        return await self.view.attributes(node)

    def set_below(self, node: Node, attr: Any, fields: Any, ctx: Any) -> Tuple[os.stat_result, os.stat_result]:
        """Changes what a file is, and returns what it was and is."""
        with self.view.hold(node) as path:
            before = os.stat(path)
            # (a write takes away what makes a program of more rights, whoever writes)
            takes = fields.update_mode and stat.S_IMODE(before.st_mode) & ~SET_ID == stat.S_IMODE(attr.st_mode)
            with contextlib.nullcontext() if takes else self.asker(ctx):
                set_attributes(path, before, attr, fields)
            return before, os.stat(path)

    async def resize(self, node: Node, size: int, handle: Optional[Handle], ctx: Any) -> None:
        """Cuts a file, or fills it with zeros."""
        handle = handle or next((it for it in node.handles if it.writes), None)
        if not node.rule:
            await self.resize_bytes(node, size, handle, ctx)
            return
        if size > LARGEST_TEXT:
            raise FUSEError(errno.EFBIG)
        if node.session and not node.writers:
            async with waits.holding(node.lock):
                pass  # (what its last writer left is being saved, and the session ends with that)
        alone = node.session is None
        if alone:
            await self.read_and_check(node, node.rule, os.O_WRONLY, ctx)
        if size and node.session:
            await node.session.prepare()
        session = node.writing()
        session.truncate(size)
        node.session = session
        if alone and not node.writers:
            try:
                await self.saves.commit(node, ctx.pid)
            finally:
                await self.saves.end(node, ctx.pid)

    async def resize_bytes(self, node: Node, size: int, handle: Optional[Handle], ctx: Any) -> None:
        """Cuts a file without a rule, or fills it with zeros."""
        if handle and handle.descriptor is not None:
            await self.parts.ask(node.path, os.truncate, handle.descriptor, size)
            return
        descriptor = await self.open_below(node, ctx, os.O_WRONLY)
        try:
            self.locks.leave(self.lock(node, descriptor, await self.parts.ask(node.path, os.fstat, descriptor)))
            await self.parts.ask(node.path, os.truncate, descriptor, size)
        finally:
            await self.parts.ask(node.path, os.close, descriptor)
