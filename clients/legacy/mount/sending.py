"""Jobs on their way to the process that does them (worker.py). What is large is sent once. The process keeps the contents that
it had last, says which numbers these have, and gets a number instead of one that it has."""
import pickle
from typing import IO, Any, Container, Dict, NamedTuple, Optional

from legacy.documents import LARGE
from legacy.mount.snapshots import Text
from legacy.saving import Known

# The most contents that a process keeps: the one before a save and the one after it.
MOST = 2


class Content(NamedTuple):
    """A content of a file: a number that no other content has, its bytes, and what they say if that is at hand."""

    number: int
    raw: bytes
    text: Optional[Text]


class Sender(pickle.Pickler):
    """Writes a job; `there` are the numbers of the contents that the process has."""

    def __init__(self, to: IO[bytes], there: Container[int]):
        super().__init__(to, pickle.HIGHEST_PROTOCOL)
        self._there = there

    def persistent_id(self, it: Any) -> Optional[int]:
        """The number instead of a content."""
        return it.number if isinstance(it, Content) and it.number in self._there else None


class Receiver(pickle.Unpickler):
    """Reads a job, with what is known of contents instead of their numbers."""

    def __init__(self, come: IO[bytes], kept: "Kept"):
        super().__init__(come)
        self._kept = kept

    def persistent_load(self, number: Any) -> Known:
        """What is known of the content of a number."""
        return self._kept.of[number]


class Kept:
    """The large contents that a process had last."""

    def __init__(self) -> None:
        self.of: Dict[int, Known] = {}

    def keep(self, number: int, content: Known) -> None:
        """Keeps a content, if it is large."""
        if len(content.raw) >= LARGE:
            self.of.pop(number, None)
            self.of[number] = content
            if len(self.of) > MOST:
                del self.of[next(iter(self.of))]
