"""Characters that an editor shows and a document can't have, for which question marks are in the document instead.

A server can't refuse an edit, and `gate` can. So as many `?` are in the document as such a character has units in the
editor, and positions are the same in both texts."""
import re
from typing import List, NamedTuple, Optional, Sequence, Set, Tuple

# Why a character can't be in the document. The encoding lacks it; or it is U+FFFD, which stands for damage and was typed; or
# its bytes would be another text next to those that are there.
UNENCODABLE, DAMAGE_TYPED, NOT_KEPT = "unencodable", "damage-typed", "not-kept"
# What is in the document instead of a unit: an ASCII character that is the second byte of no pair.
STAND_IN = "?"
BAD = "\ufffd"


class Standing(NamedTuple):
    """A character of the editor's text for which there are `units` question marks in the document, starting at a code point. It has
    the reason, and the bytes that the character had there before, if it had some."""

    at: int
    units: int
    text: str
    reason: str
    raw: Optional[bytes] = None

    @property
    def end(self) -> int:
        """The code point after the question marks."""
        return self.at + self.units

    def move(self, by: int) -> "Standing":
        """This one, so many code points later."""
        return self._replace(at=self.at + by)


class Split(Exception):
    """An edit that begins or ends within one character."""


def units_of(letter: str, unit: str) -> int:
    """How many units a character has."""
    if unit == "utf-8":
        return len(letter.encode("utf-8", "surrogatepass"))
    return 2 if unit == "utf-16" and letter > "\uffff" else 1


def mask(text: str, at: int, unit: str, lacking: Set[str]) -> Tuple[str, List[Standing]]:
    """A text with question marks for the characters that are lacking, and what these stand for in a document that has it at a
    place."""
    if not lacking:
        return text, []
    parts: List[str] = []
    standings: List[Standing] = []
    last = 0
    for it in re.finditer(f"[{re.escape(''.join(lacking))}]", text):
        part, count = text[last : it.start()], units_of(it[0], unit)
        at += len(part)
        standings.append(Standing(at, count, it[0], _reason(it[0], lacking)))
        parts += [part, STAND_IN * count]
        at += count
        last = it.end()
    return "".join([*parts, text[last:]]), standings


class Cell(NamedTuple):
    """A character of the editor's text that an edit may put question marks for, with its bytes, if it is in the document. `reason`
    is set if question marks stand for it already, and `units` is how many code points of the document it is."""

    text: str
    raw: Optional[bytes] = None
    reason: Optional[str] = None
    units: int = 1


def cells_of(text: str, lacking: Set[str]) -> List[Cell]:
    """The characters of a text that is typed."""
    return [Cell(it, reason=_reason(it, lacking)) for it in text]


def mask_all(cells: Sequence[Cell], at: int, unit: str) -> Tuple[str, List[Standing]]:
    """A text with question marks for all characters except line ends, and what these stand for."""
    parts: List[str] = []
    standings: List[Standing] = []
    for it in cells:
        if it.text in "\r\n":
            parts.append(it.text)
        else:
            units = units_of(it.text, unit)
            standings.append(Standing(at, units, it.text, it.reason or NOT_KEPT, it.raw))
            parts.append(STAND_IN * units)
        at += len(parts[-1])
    return "".join(parts), standings


def _reason(letter: str, lacking: Set[str]) -> str:
    """Why a character that was typed can't be in the document."""
    if letter not in lacking:
        return NOT_KEPT
    return DAMAGE_TYPED if letter == BAD else UNENCODABLE


def shift(standings: Sequence[Standing], begin: int, end: int, count: int, fresh: Sequence[Standing]) -> Tuple[Standing, ...]:
    """What stands for something after a range of the document was replaced by `count` code points, with what is `fresh` there."""
    before = [it for it in standings if it.end <= begin]
    after = [it.move(begin + count - end) for it in standings if it.at >= end]
    within = [it for it in standings if begin <= it.at and it.end <= end and it.at < end]
    if len(before) + len(after) + len(within) < len(standings):
        raise Split()
    return (*before, *fresh, *after)


def unmask(text: str, standings: Sequence[Standing]) -> str:
    """The editor's text, of a document's."""
    parts: List[str] = []
    last = 0
    for it in standings:
        parts += [text[last : it.at], it.text]
        last = it.end
    return "".join([*parts, text[last:]])
