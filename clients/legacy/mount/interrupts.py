"""Programs that wait for the mount. A system call waits for its reply, whatever signal its program gets. So while the mount waits for
a process of its own or for another save, it looks for such signals itself, and then replies at once.

(The kernel says that a request is interrupted, and pyfuse3 doesn't hand that on.)"""
import contextlib
import contextvars
import errno
import logging
import os
import signal
from typing import Any, AsyncIterator, Awaitable, Callable, Dict, List, TypeVar

import trio

from legacy.mount.threads import ABANDON

log = logging.getLogger("legacy.mount")

# The thread that sent the request which a task is at, or 0 if no program waits for that.
program: "contextvars.ContextVar[int]" = contextvars.ContextVar("program", default=0)
# The signals by which somebody wants a program to end. (Of others a program doesn't expect that they interrupt a call on a file.)
ENDS = signal.SIGHUP, signal.SIGINT, signal.SIGQUIT, signal.SIGKILL, signal.SIGTERM
PENDING = sum(1 << number - 1 for number in ENDS)
# The flag of a process that is at its end, of the kernel's, and the field of proc_pid_stat(5) that has it, after the name.
EXITING, FLAGS = 0x4, 6
# The seconds between two looks.
PERIOD = 0.25

Found = TypeVar("Found")


def is_ending(thread: int) -> bool:
    """Whether a thread's program is to end: it has got a signal of those, or closes its files since it ends."""
    try:
        with open(f"/proc/{thread}/status", "rb") as file:
            masks = {line[:7]: int(line[7:], 16) for line in file if line.startswith((b"SigPnd:", b"ShdPnd:", b"SigBlk:"))}
        with open(f"/proc/{thread}/stat", "rb") as file:
            flags = int(file.read().rpartition(b")")[2].split()[FLAGS])
    except (OSError, ValueError, IndexError):
        return False
    return bool(flags & EXITING or (masks[b"SigPnd:"] | masks[b"ShdPnd:"]) & ~masks[b"SigBlk:"] & PENDING)


class Waits:
    """What programs wait for now."""

    def __init__(self) -> None:
        self._of: Dict[trio.CancelScope, int] = {}
        self._some = trio.Event()

    async def watch(self) -> None:
        """Gives up what programs wait for that are to end."""
        while True:
            await self._some.wait()
            await trio.sleep(PERIOD)
            if not self._of:
                self._some = trio.Event()
            for scope, thread in list(self._of.items()):
                if is_ending(thread):
                    scope.cancel()

    async def during(self, wait: Callable[..., Awaitable[Found]], *words: Any) -> Found:
        """Awaits something that can be cancelled. Raises `InterruptedError` if the program is to end first."""
        thread = program.get()
        if not thread:
            return await wait(*words)
        with trio.CancelScope() as scope:
            self._of[scope] = thread
            self._some.set()
            try:
                return await wait(*words)
            finally:
                del self._of[scope]
        raise InterruptedError(errno.EINTR, os.strerror(errno.EINTR))

    async def apart(self, call: Callable[..., Awaitable[Found]], *words: Any) -> Found:
        """Awaits something that can't be cancelled. If the program is to end first, this raises `InterruptedError`, and it continues."""
        return await (self.during(aside(call, *words)) if program.get() else call(*words))

    async def job(self, call: Callable[..., Found], *words: Any) -> Found:
        """Has a thread do something that delays nothing, and that may continue if no program waits for it."""
        async def run() -> Found:
            found: Found = await trio.to_thread.run_sync(call, *words, **ABANDON)
            return found

        return await self.during(run)

    @contextlib.asynccontextmanager
    async def holding(self, lock: trio.Lock) -> AsyncIterator[None]:
        """Holds a lock."""
        try:
            lock.acquire_nowait()
        except trio.WouldBlock:
            await self.during(lock.acquire)
        try:
            yield
        finally:
            lock.release()


def aside(call: Callable[..., Awaitable[Found]], *words: Any) -> Callable[[], Awaitable[Found]]:
    """Awaits something in a task of its own, and returns what waits for its outcome."""
    thread, done = program.get(), trio.Event()
    found: List[Found] = []
    faults: List[Exception] = []

    async def run() -> None:
        program.set(thread)
        try:
            found.append(await call(*words))
        except Exception as fault:
            faults.append(fault)
            if not hasattr(fault, "errno"):
                log.error("a task failed; this is a fault of the mount", exc_info=True)
        finally:
            done.set()

    async def outcome() -> Found:
        await done.wait()
        if not found:
            raise faults[0] if faults else InterruptedError(errno.EINTR, os.strerror(errno.EINTR))
        return found[0]

    trio.lowlevel.spawn_system_task(run)
    return outcome


# (of the one mount that a process serves)
waits = Waits()
