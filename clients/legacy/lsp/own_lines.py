"""Positions in a text of which an editor shows carriage returns: its lines end at line feeds alone, whatever LSP says."""
import bisect
import re
from typing import List

from legacy.lsp.protocol import Position
from legacy.lsp.standing import units_of

FEED = re.compile("\n")


class OwnLines:
    """A copy of an editor's text, with the places where its lines begin."""

    def __init__(self, text: str, unit: str):
        self._unit = unit
        self.set(text)

    def set(self, text: str) -> None:
        """Takes a whole text."""
        self.text = text
        self._starts: List[int] = [0, *(it.end() for it in FEED.finditer(text))]

    def replace(self, begin: int, end: int, text: str) -> None:
        """Makes an edit."""
        self.set(self.text[:begin] + text + self.text[end:])

    def offset(self, position: Position) -> int:
        """The place of a position. One after the end of its line, or of the text, is that end."""
        line, character = position
        if line >= len(self._starts):
            return len(self.text)
        at, last = self._starts[line], (self._starts[line + 1] - 1 if line + 1 < len(self._starts) else len(self.text))
        while character > 0 and at < last:
            character -= units_of(self.text[at], self._unit)
            at += 1
        return at

    def position(self, offset: int) -> Position:
        """The position of a place."""
        line = bisect.bisect_right(self._starts, offset) - 1
        return line, sum(units_of(it, self._unit) for it in self.text[self._starts[line] : offset])
