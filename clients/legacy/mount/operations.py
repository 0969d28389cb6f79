"""The mount's answers to the kernel, one call for each request: those to what files and folders are, and with files.py and names.py
all others. What is shown is in view.py, how it is saved in saves.py."""
import errno
import functools
import os
from typing import Any, List, Sequence, Tuple

import pyfuse3

from legacy.mount.ahead import SMALL, Wanted
from legacy.mount.answers import FUSEError, changes, guard
from legacy.mount.files import Files
from legacy.mount.folders import Folder, Looks, kinds_in, names_in
from legacy.mount.interrupts import program, waits
from legacy.mount.names import Names
from legacy.mount.parts import BRIEF
from legacy.mount.refusals import SUFFIX
from legacy.mount.status import NAME as STATUS
from legacy.mount.tree import ROOT

OWN = b"user.gate."
# The attributes that are a file's access lists, which whoever may look at the file may read.
LISTS = frozenset([b"system.posix_acl_access", b"system.posix_acl_default"])
# The attribute that makes a program of a file with more rights than its user's.
CAPABILITY = b"security.capability"
# The attribute of SELinux, and whether that is there.
CONTEXT, HAS_CONTEXTS = b"security.selinux", os.path.exists("/sys/fs/selinux/enforce")


class Operations(Files, Names):
    """What the kernel asks."""

    @guard
    async def lookup(self, parent: int, name: bytes, ctx: Any = None) -> Any:
        return await self.view.entry(parent, name)

    async def forget(self, inodes: Sequence[Tuple[int, int]]) -> None:
        for ino, lookups in inodes:
            self.tree.forget(ino, lookups)

    @guard
    async def getattr(self, ino: int, ctx: Any = None) -> Any:
        node = self.tree.nodes[ino]
        if node.rule and node.path is not None and not node.handles:
            self.reader.ahead.look(node.path)
        return await self.view.attributes(node)

    @guard
    async def readlink(self, ino: int, ctx: Any) -> bytes:
        node = self.tree.nodes[ino]
        return await self.parts.ask(node.path, self.source.link, self.view.path_of(node))

    @guard
    async def opendir(self, ino: int, ctx: Any) -> int:
        node = self.tree.nodes[ino]
        listed = await self.ask(node, ctx, names_in)
        entries = sorted(it for it in listed if not self.view.is_hidden(it))
        assert node.path is not None
        self.last += 1
        self.folders[self.last] = Folder(node, entries, self.reader.ahead.listing(node.path), ctx.pid)
        return self.last

    @guard
    async def readdir(self, fh: int, start: int, token: Any) -> None:
        node, entries, texts, thread, _ = self.folders[fh]
        program.set(thread)
        looks = Looks(self.view, texts.fits if texts.sizes_wanted else len(entries))
        if not texts.sizes_wanted:
            await self.list(fh, start, looks, token)
            return
        try:
            looks.look(self.view.path_of(node), entries[start : start + texts.fits])
            for part in looks.parts:
                await self.reader.ahead.measure(part, self.reader.sizes)
            texts.fits = await self.list(fh, start, looks, token) or 1
        finally:
            looks.leave()

    async def list(self, fh: int, start: int, looks: Looks, token: Any) -> int:
        """Says what entries of a folder are from a number on, as many as fit, and returns how many these are."""
        node, entries, texts, thread, kinds = self.folders[fh]
        count, attributes = 0, pyfuse3.EntryAttributes()
        # (what is asked of no part is asked of the folder itself, and nothing else runs meanwhile)
        stats = None if self.parts.is_some else self.view.stats(self.view.path_of(node))
        before = node.path + b"/" if node.path else b""
        for number in range(start, min(len(entries), start + looks.most)):
            name = entries[number]
            path = before + name
            looked = looks.of(name)
            try:
                if stats and not looked:
                    self.view.forget_rule(path)
                found = looked[1] if looked else stats(name) if stats else await self.view.look(path, BRIEF)
            except FileNotFoundError:
                continue
            except InterruptedError:
                raise
            except OSError:
                # (as on any file system it has its name all the same, and whoever asks what it is learns why that can't be said)
                kinds = kinds or await self.parts.ask(node.path, self.source.on, self.view.path_of(node), kinds_in)
                self.folders[fh] = Folder(node, entries, texts, thread, kinds)
                if not pyfuse3.readdir_reply(token, name, self.view.unseen(kinds.get(name, 0)), number + 1):
                    break
            else:
                entry = looked[0] if looked else self.tree.at(path, found)
                self.view.list_attributes(attributes, entry, found, looks.age if looked else 0.0)
                if not pyfuse3.readdir_reply(token, name, attributes, number + 1):
                    self.tree.forget(entry.ino)
                    break
                entry.lookups += 1
                if entry.rule and found.st_size <= SMALL and not self.view.is_known(entry, entry.rule):
                    texts.add(Wanted(path, entry.rule.label), found.st_size)
            count += 1
        return count

    @guard
    async def releasedir(self, fh: int) -> None:
        del self.folders[fh]

    @guard
    async def fsyncdir(self, fh: int, datasync: bool) -> None:
        node = self.folders[fh].node
        program.set(self.folders[fh].thread)
        await self.parts.wait_for(node.path, self.sync_folder, self.view.path_of(node))

    def sync_folder(self, path: bytes) -> None:
        """Waits until the disk has a folder's names."""
        with self.source.here(path) as place:
            descriptor = place.open(os.O_RDONLY | os.O_DIRECTORY)
            try:
                os.fsync(descriptor)
            finally:
                os.close(descriptor)

    @guard
    async def statfs(self, ctx: Any) -> Any:
        below, it = os.statvfs(self.source.root), pyfuse3.StatvfsData()
        for name in "f_bsize", "f_frsize", "f_blocks", "f_bfree", "f_bavail", "f_files", "f_ffree", "f_favail":
            setattr(it, name, getattr(below, name))
        it.f_namemax = below.f_namemax - len(SUFFIX)
        return it

    # Extended attributes.

    async def getxattr(self, ino: int, name: bytes, ctx: Any) -> bytes:
        # (`ls -l` asks for a list of each file, and most have none)
        path = self.tree.nodes[ino].path if name in LISTS and not self.parts.is_some else None
        if path is not None and self.source.lacks(path, name):
            self.taken += 1
            raise FUSEError(errno.ENODATA)
        found: bytes = await self.attribute(ino, name, ctx)
        return found

    @guard
    async def attribute(self, ino: int, name: bytes, ctx: Any) -> bytes:
        """An extended attribute of a file."""
        node = self.tree.nodes[ino]
        if name in LISTS and node.path is not None:
            return await self.parts.ask(node.path, self.source.attribute, node.path, name)
        if name == CAPABILITY and node.writers:
            # (asked before each write, which takes them away, if there are any: so does the one below)
            raise FUSEError(errno.ENODATA)
        if name == OWN + STATUS and ino == ROOT:
            return self.status()
        if name.startswith(OWN):
            own = await self.view.own(node, name[len(OWN):])
            if own is not None:
                return own.encode(errors="surrogateescape")
        if node.path is None:
            raise FUSEError(errno.ENODATA)
        try:
            get = functools.partial(self.as_asker, ctx, os.getxattr)
            return await self.parts.ask(node.path, self.source.on, node.path, get, name)
        except OSError as fault:
            if fault.errno == errno.ENODATA and name == CONTEXT and not HAS_CONTEXTS:
                # (on which ls asks no more for it, as it otherwise does for each file)
                raise FUSEError(errno.ENOTSUP) from None
            raise

    @guard
    async def listxattr(self, ino: int, ctx: Any) -> List[bytes]:
        node = self.tree.nodes[ino]
        if node.path is None:
            return []
        found: List[str] = await self.parts.ask(node.path, self.source.on, node.path, os.listxattr)
        return [os.fsencode(it) for it in found]

    @guard
    @changes
    async def setxattr(self, ino: int, name: bytes, value: bytes, ctx: Any) -> None:
        node = self.tree.nodes[ino]
        if name.startswith(OWN):
            raise FUSEError(errno.ENOTSUP)
        async with waits.holding(node.lock):
            before = await self.view.look_at(node)
            await self.ask(node, ctx, os.setxattr, name, value)
            await self.view.same_bytes(node, before)

    @guard
    @changes
    async def removexattr(self, ino: int, name: bytes, ctx: Any) -> None:
        node = self.tree.nodes[ino]
        async with waits.holding(node.lock):
            before = await self.view.look_at(node)
            await self.ask(node, ctx, os.removexattr, name)
            await self.view.same_bytes(node, before)
