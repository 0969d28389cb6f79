"""What the mount's answers to the kernel have in common: faults, what may be changed, and whose rights a call of the system has."""
import errno
import functools
import logging
from typing import Any, Awaitable, Callable, ContextManager, Dict, TypeVar

import pyfuse3
import trio

from legacy.mount.asker import asker, is_possible
from legacy.mount.folders import Folder
from legacy.mount.interrupts import program, waits
from legacy.mount.locks import Locks
from legacy.mount.rights import SEARCH, WRITE, check
from legacy.mount.saves import Saves
from legacy.mount.tree import Handle, Node
from legacy.mount.view import View

log = logging.getLogger("legacy.mount")
FUSEError = pyfuse3.FUSEError

Found = TypeVar("Found")


def guard(call: Callable[..., Awaitable[Any]]) -> Callable[..., Awaitable[Any]]:
    """A call whose fault is an error of one request. (On any other exception pyfuse3 ends the mount.)"""

    @functools.wraps(call)
    async def answer(self: "Answers", *words: Any) -> Any:
        self.under_way += 1
        self.taken += 1
        program.set(getattr(words[-1], "pid", 0) if words else 0)
        try:
            return await call(self, *words)
        except FUSEError:
            raise
        except OSError as fault:
            raise FUSEError(fault.errno or errno.EIO) from None
        except Exception:
            log.exception("%s failed; this is a fault of the mount", call.__name__)
            raise FUSEError(errno.EIO) from None
        finally:
            self.under_way -= 1

    return answer


def changes(call: Callable[..., Awaitable[Any]]) -> Callable[..., Awaitable[Any]]:
    """A call that changes something, which a mount that is read-only doesn't take."""

    @functools.wraps(call)
    async def change(self: "Answers", *words: Any) -> Any:
        if self.view.options.read_only:
            raise FUSEError(errno.EROFS)
        if self.parts.is_some:
            await self.parts.look_alive(*[self.tree.nodes[it].path for it in words if isinstance(it, int) and it in self.tree.nodes])
        return await call(self, *words)

    return change


def lasts(call: Callable[..., Awaitable[Any]]) -> Callable[..., Awaitable[Any]]:
    """A call that may have to wait for a part of the source until that answers. If its program is to end first, that is an error of the
    request, and the call continues."""

    @functools.wraps(call)
    async def last(self: "Answers", *words: Any) -> Any:
        return await (waits.apart(call, self, *words) if self.parts.is_some else call(self, *words))

    return last


class Answers(pyfuse3.Operations):  # type: ignore[misc]
    """What the answers to requests have in common."""

    enable_writeback_cache = False
    # (access lists decide too; the kernel asks for those below)
    enable_acl = True

    def __init__(self, view: View, saves: Saves):
        super().__init__()
        self.view, self.saves = view, saves
        self.source, self.tree, self.reader, self.parts = view.source, view.tree, view.reader, view.parts
        self.handles: Dict[int, Handle] = {}
        self.folders: Dict[int, Folder] = {}
        self.locks = Locks()
        self.last = 0
        # How many requests have been taken and not answered.
        self.under_way = 0
        # How many have been taken in all, and what the mount says of itself.
        self.taken = 0
        self.status: Callable[[], bytes] = bytes
        self.mounted = trio.Event()

    def asker(self, ctx: Any) -> ContextManager[None]:
        """Has calls of the system, until it is left, be those of the program that asked."""
        return asker(ctx, self.view.options.others and is_possible())

    def as_asker(self, ctx: Any, call: Callable[..., Found], *words: Any) -> Found:
        """What a call of the system returns that has the rights of the program that asked, in any thread."""
        with self.asker(ctx):
            return call(*words)

    async def ask(self, node: Node, ctx: Any, call: Callable[..., Found], *words: Any) -> Found:
        """What a call returns that is given a path to what an inode is below and `words`, with the rights of the program that asked. A part
        of the source is asked by a thread."""
        def answer() -> Found:
            with self.view.hold(node) as path:
                return self.as_asker(ctx, call, path, *words)

        return await self.parts.ask(node.path, answer)

    def at_place(self, ctx: Any, path: bytes, call: Callable[..., Found], *words: Any) -> Found:
        """What a call returns that changes a folder, with the rights of the program that asked, in any thread. It is given where a path
        leads, and `words`."""
        with self.source.here(path) as place, self.asker(ctx):
            self.check(ctx, b"/proc/self/fd/%d" % place.folder, WRITE | SEARCH)
            return call(place, *words)

    def check(self, ctx: Any, path: bytes, wanted: int) -> None:
        """Raises a fault if an ordinary user's mount lets others in, and the program that asked may not do something with what a path by
        a descriptor leads to."""
        if self.view.options.others:
            check(path, ctx, wanted)

    async def change(self, ctx: Any, path: bytes, call: Callable[..., Found], *words: Any) -> Found:
        """The same. A part of the source is asked by a thread, since it may hang at the change though it was alive."""
        return await self.parts.ask(path, self.at_place, ctx, path, call, *words)

    def init(self) -> None:
        """The kernel has taken the mount."""
        self.mounted.set()
