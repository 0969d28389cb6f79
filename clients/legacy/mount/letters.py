"""The characters of texts that aren't ASCII, and which of them an encoding is known to have."""
import re
from typing import Optional, Set

ASCII = bytes(range(128))
# How many characters are looked at one by one before an expression is made that passes over those that are known. And how
# many times more of these there have to be for another one.
WORTH, MORE = 300_000, 1.25


class Letters:
    """The characters that an encoding is known to have."""

    def __init__(self) -> None:
        self.known: Set[str] = set()
        self._passed: Optional["re.Pattern[str]"] = None
        self._count = self._looked = 0

    def unknown(self, utf8: bytes) -> Set[str]:
        """The characters of a text that aren't ASCII and not known; what isn't UTF-8 is passed over."""
        if utf8.isascii():
            return set()
        text = utf8.translate(None, ASCII).decode(errors="ignore")
        if self._passed:
            text = self._passed.sub("", text)
        self._looked += len(text)
        if self._looked > WORTH and len(self.known) > MORE * self._count:
            self._passed = re.compile(f"[{''.join(sorted(self.known))}]+")
            self._count, self._looked = len(self.known), 0
        return set(text) - self.known
