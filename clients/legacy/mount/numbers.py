"""Numbers of inodes. A file has the number that it has in the source, by each of its names. The number lasts after the kernel has
forgotten the file."""
import collections
import itertools
import os
from typing import Dict, Optional, Tuple

from legacy.rules import Rule

# The largest number that the kernel has a use of its own for.
ROOT = 1
# Where the numbers begin of what can't have its own, and what spreads the numbers of other file systems.
OTHERS, SPREAD, MOST = 1 << 62, 0x9E3779B97F4A7C15, (1 << 62) - 1
# The most files of which it is remembered that they have another number.
KEPT = 1 << 16

# A file: its device, its number there, and the label by which it is shown, since by another one it is another file here.
Key = Tuple[int, int, str]
NONE: Key = (0, 0, "")


class Numbers:
    """The numbers of a source's files. `device` is the one of its top."""

    def __init__(self, device: int) -> None:
        self._device = device
        self._more = itertools.count(OTHERS)
        # A file that is replaced when it is saved keeps the number; so does one whose own number was in use.
        self._numbers: "collections.OrderedDict[Key, int]" = collections.OrderedDict()
        self._files: Dict[int, Key] = {}

    def _own(self, device: int, inode: int) -> int:
        """The number that a file has by itself."""
        return inode if device == self._device else (inode + device * SPREAD) & MOST

    def of(self, found: os.stat_result, rule: Optional[Rule]) -> int:
        """The number of a file, or one that no other file has where its own is in use."""
        own, key = self._own(found.st_dev, found.st_ino), NONE
        if self._numbers:
            key = found.st_dev, found.st_ino, rule.label if rule else ""
            known = self._numbers.get(key)
            if known is not None:
                return known
        return own if own > ROOT and self._files.get(own, key) == key else self.another()

    def another(self) -> int:
        """A number that no file has."""
        return next(self._more)

    def keep(self, device: int, inode: int, rule: Optional[Rule], number: int) -> None:
        """Remembers which number a file has, unless it has that by itself."""
        if self._own(device, inode) == number or number == ROOT:
            return
        key = device, inode, rule.label if rule else ""
        if self._numbers.get(key) == number:
            return
        self._drop(self._files.get(number, key))
        self._drop(key)
        self._numbers[key], self._files[number] = number, key
        if len(self._numbers) > KEPT:
            self._drop(next(iter(self._numbers)))

    def _drop(self, key: Key) -> None:
        number = self._numbers.pop(key, None)
        if number is not None:
            self._files.pop(number, None)
