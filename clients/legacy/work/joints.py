"""Places of parts of a long file, moved to where they are in the file."""
from typing import Protocol

from gate import Gate

from legacy.work.cuts import Part
from legacy.work.rows import Before


class Placed(Protocol):
    """What has the start and the end of its bytes."""

    begin: int
    end: int


class Lined(Protocol):
    """What has a line and a character, both counted from 1."""

    line: int
    character: int


def has_head(part: Part) -> int:
    """How many line feeds a part begins with that aren't the file's: one if it has a head."""
    return 1 if part.head else 0


def move_bytes(place: Placed, part: Part) -> None:
    """Moves a place of what was looked at of a part to where it is in the file."""
    place.begin += part.start - len(part.head)
    place.end += part.start - len(part.head)


def move_line(place: Lined, before: Before) -> None:
    """Moves a line of a part, or a character of its first line, to where it is in the file."""
    place.character += before.tail if place.line == 1 else 0
    place.line += before.lines


def tail_of(gate: Gate, encoding: str, content: bytes) -> int:
    """The code points after the last line end of a part, which leaves the decoder in its first state."""
    if encoding.startswith("UTF-16"):
        with gate.open("tail", encoding, content, "keep") as document:
            return document.position(document.stat()["utf32"], unit="utf-32")[1]
    last = content[max(content.rfind(b"\n"), content.rfind(b"\r")) + 1 :]
    if not last:
        return 0
    with gate.open("tail", encoding, last, "keep") as document:
        tail: int = document.stat()["utf32"]
    return tail
