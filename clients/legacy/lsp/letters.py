"""Which characters an encoding has, as `gate` says it."""
from typing import Dict, List, Set

from gate import Fault, Gate

# The most characters that are asked about at once.
MOST = 20_000


class Letters:
    """The characters beyond ASCII that encodings are known to have, and those that they are known to lack."""

    def __init__(self) -> None:
        self._has: Dict[str, Set[str]] = {}
        self._lacks: Dict[str, Set[str]] = {}

    def lacking(self, gate: Gate, encoding: str, text: str) -> Set[str]:
        """The characters of a text for which the encoding has no bytes."""
        if text.isascii():
            return set()
        has, lacks = self._has.setdefault(encoding, set()), self._lacks.setdefault(encoding, set())
        letters = {it for it in text if it > "\x7f"}
        unknown = sorted(letters - has - lacks)
        for at in range(0, len(unknown), MOST):
            part = unknown[at : at + MOST]
            found = _missing(gate, encoding, part)
            lacks |= found
            has |= {*part} - found
        return letters & lacks

    def note(self, encoding: str, letter: str) -> None:
        """Remembers that the encoding lacks a character."""
        self._lacks.setdefault(encoding, set()).add(letter)
        self._has.setdefault(encoding, set()).discard(letter)


def _missing(gate: Gate, encoding: str, letters: List[str]) -> Set[str]:
    """Which of some characters the encoding lacks. Each is a line of a document, and one that lacks is a reference in ASCII there."""
    halves = {it for it in letters if "\ud800" <= it <= "\udfff"}
    asked = [it for it in letters if it not in halves]
    try:
        with gate.open("letters", "utf-8", "\n".join(asked).encode(), "keep") as document:
            raw = document.encode(encoding, mode="html")
        with gate.open("letters", encoding, raw, "keep") as document:
            lines = document.text().split("\n")
    except Fault as fault:
        if fault.name != "NoEncoder":
            raise
        return {*letters}
    return halves | {letter for letter, line in zip(asked, lines) if line == f"&#{ord(letter)};"}
