"""Parts of a source that lie on other file systems, such as those of a network, which may not answer. What is asked of them is
asked by threads, a few for each part, and answered within some seconds: so it holds up no request for another part."""
import contextlib
import errno
import os
import select
import threading
from typing import Any, Callable, Dict, List, Optional, Tuple, TypeVar

import trio

from legacy.mount import points
from legacy.mount.below import Source
from legacy.mount.interrupts import waits
from legacy.mount.threads import ABANDON

# The seconds that a program waits for a part, and that a list of a folder waits for a part that lies in it.
PATIENCE, BRIEF = 20.0, 1.0
# The most threads that wait for one part.
THREADS = 8

Found = TypeVar("Found")


class Parts:
    """The parts of a source, by their paths from its top."""

    def __init__(self, source: Source):
        self._source = source
        self._tops: Tuple[bytes, ...] = ()
        self._limiters: Dict[bytes, trio.CapacityLimiter] = {}
        self._look()

    def _look(self) -> None:
        """Takes the list of mounts. (What is mounted inside of another part comes before that.)"""
        top = os.path.join(os.readlink(self._source.root), b"")
        with contextlib.suppress(OSError):
            self._tops = tuple(sorted({it.point[len(top):] for it in points.mounts() if it.point.startswith(top)}, reverse=True))

    def watch(self) -> None:
        """Has a thread take the list again whenever the kernel says that it has changed."""
        def look() -> None:
            with open(points.LIST, "rb") as file:
                changes = select.poll()
                changes.register(file, select.POLLPRI)
                while changes.poll():
                    self._look()

        threading.Thread(target=look, daemon=True).start()

    def of(self, path: Optional[bytes]) -> Optional[bytes]:
        """The part that a path lies in; None for what lies on the file system of the source's top."""
        if path is not None:
            for top in self._tops:
                if path.startswith(top) and path[len(top) : len(top) + 1] in (b"", b"/"):
                    return top
        return None

    @property
    def is_some(self) -> bool:
        """Whether there is a part."""
        return bool(self._tops)

    async def ask(self, path: Optional[bytes], call: Callable[..., Found], *words: Any) -> Found:
        """What a call says of a path. Raises `TimeoutError` if the part doesn't answer."""
        part = self.of(path)
        return call(*words) if part is None else await self.by_thread(part, call, *words)

    async def by_thread(self, part: bytes, call: Callable[..., Found], *words: Any, patience: float = PATIENCE) -> Found:
        """What a call says of a path in a part, asked by a thread."""
        with trio.move_on_after(patience):
            return await waits.during(self._run, part, call, *words)
        raise TimeoutError(errno.ETIMEDOUT, os.strerror(errno.ETIMEDOUT))

    async def open(self, path: Optional[bytes], call: Callable[..., int], *words: Any) -> int:
        """The descriptor that a call opens. If the part answers too late, it is closed then."""
        late: List[bool] = []

        def run() -> int:
            found = call(*words)
            if late:
                os.close(found)
            return found

        try:
            return await self.ask(path, run)
        except BaseException:
            late.append(True)
            raise

    async def do(self, path: Optional[bytes], call: Callable[..., Found], *words: Any) -> Found:
        """What a call returns that writes at a path, done by a thread however long that takes. A part that hangs holds up no others."""
        part = self.of(path)
        found: Found = await trio.to_thread.run_sync(call, *words, limiter=None if part is None else self._limiter(part))
        return found

    async def close(self, path: Optional[bytes], descriptor: int) -> None:
        """Closes what a call opened, however long that takes."""
        if self.of(path) is None:
            os.close(descriptor)
        else:
            await self.do(path, os.close, descriptor)

    async def wait_for(self, path: Optional[bytes], call: Callable[..., Found], *words: Any) -> Found:
        """What a call returns that changes nothing and may take long, as one that waits for the disk. It is done by a thread, and given
        up if the program is to end."""
        return await waits.during(self._run, self.of(path), call, *words)

    async def _run(self, part: Optional[bytes], call: Callable[..., Found], *words: Any) -> Found:
        late: List[bool] = []

        def run() -> Found:
            # (by then its descriptor may be another file's)
            if late:
                raise InterruptedError(errno.EINTR, os.strerror(errno.EINTR))
            return call(*words)

        try:
            found: Found = await trio.to_thread.run_sync(run, **ABANDON, limiter=None if part is None else self._limiter(part))
            return found
        except BaseException:
            late.append(True)
            raise

    def _limiter(self, part: bytes) -> trio.CapacityLimiter:
        return self._limiters.setdefault(part, trio.CapacityLimiter(THREADS))

    async def look_alive(self, *paths: Optional[bytes]) -> None:
        """Raises `TimeoutError` if one of the parts that paths lie in doesn't answer now."""
        for part in {self.of(path) for path in paths} - {None}:
            assert part is not None
            await self.by_thread(part, self._source.on, part, os.statvfs)
