"""Files with a rule that may be written and not read, opened in order to append to them. What a program writes is encoded by
itself and appended, without a look at their bytes."""
import errno
import os
from typing import Awaitable, Callable

from legacy.ascii import OTHERS
from legacy.mount.tree import partial_character
from legacy.saving import Refused


def is_for(flags: int) -> bool:
    """Whether a program only appends to what it opens so."""
    return flags & os.O_ACCMODE == os.O_WRONLY and bool(flags & os.O_APPEND) and not flags & os.O_TRUNC


def can_have(encoding: str) -> bool:
    """Whether a text's bytes are the same after any other text."""
    return encoding not in OTHERS


class Unread:
    """Such a file, which `descriptor` has open. `encode` has the bytes of a text."""

    def __init__(self, descriptor: int, encode: Callable[[bytes], Awaitable[bytes]]):
        self.descriptor, self._encode = descriptor, encode
        # The beginning of a character that the last write ended in.
        self._begun = b""

    async def encode(self, content: bytes) -> bytes:
        """The bytes of what is whole of a text that is appended."""
        text = self._begun + content
        rest = partial_character(text[-4:])
        whole = text[: len(text) - len(rest)]
        found = await self._encode(whole) if whole else b""
        self._begun = rest
        return found

    def flush(self) -> None:
        """Raises `Refused` if the text ends inside a character."""
        if self._begun:
            raise Refused(errno.EILSEQ, "the text ends inside a character")
