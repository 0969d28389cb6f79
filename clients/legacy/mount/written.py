"""The text that programs make of a file. The system holds it (memfd_create(2)). The interpreter would copy some MiB
to make them longer or to hand them out, and let no other thread continue meanwhile; a call of the system does."""
import os
from typing import Any, Callable

import trio

from legacy.mount.below import read_at

# From how many bytes on something takes the system long.
LONG = 1 << 18


class Written:
    """A text in UTF-8 that programs write anywhere."""

    _file = -1

    def __init__(self, utf8: bytes = b""):
        self._file = os.memfd_create("legacy-text")
        self.size = 0
        self.write(0, utf8)

    def write(self, at: int, content: bytes) -> None:
        """Puts bytes somewhere, and zeros before them if the text ended earlier."""
        left = memoryview(content)
        while left:
            count = os.pwrite(self._file, left, at)
            left, at = left[count:], at + count
        self.size = max(self.size, at)

    def truncate(self, size: int) -> None:
        """Cuts it, or fills it with zeros."""
        os.ftruncate(self._file, size)
        self.size = size

    def read(self, size: int, at: int = 0) -> bytes:
        """`size` bytes, starting at `at`, or fewer at its end."""
        return read_at(self._file, min(size, self.size - at), at)

    def copy(self) -> bytes:
        """All of it."""
        return self.read(self.size)

    def close(self) -> None:
        """Frees it."""
        file, self._file = self._file, -1
        if file >= 0:
            os.close(file)

    __del__ = close


async def in_thread_if(long: bool, call: Callable[..., Any], *words: Any) -> Any:
    """What a call returns, which a thread does if it takes the system long."""
    return await trio.to_thread.run_sync(call, *words) if long else call(*words)
