"""The states that a document had, so that a text that comes back has the bytes that it had then.

Editors don't say what is an undo. They send a text, and deleted damage comes back as U+FFFD. So each edit is compared with the
states before and after the present one, by lengths first."""
from typing import AnyStr, Callable, Generic, Iterator, List, NamedTuple, Optional, Sequence, Tuple

from legacy.lsp.standing import Standing

# In how many steps from the present state another one is sought, and how many steps are kept at most, with how many characters.
REACH, MOST, LARGEST = 200, 2000, 4_000_000


class Splice(Generic[AnyStr]):
    """A replacement of what is at a place."""

    __slots__ = ("at", "old", "new")

    def __init__(self, at: int, old: AnyStr, new: AnyStr):
        self.at = at
        self.old: AnyStr = old
        self.new: AnyStr = new

    def back(self) -> "Splice[AnyStr]":
        """What takes this one back."""
        return Splice(self.at, self.new, self.old)


class Step(NamedTuple):
    """An edit of the editor's text, and of the document's bytes, with what stood for what before it and after it."""

    text: "Splice[str]"
    raw: "Splice[bytes]"
    before: Tuple[Standing, ...]
    after: Tuple[Standing, ...]

    def back(self) -> "Step":
        """The step back."""
        return Step(self.text.back(), self.raw.back(), self.after, self.before)


def apply_all(path: Sequence["Splice[AnyStr]"], read: Callable[[int, int], AnyStr]) -> Tuple[int, int, AnyStr]:
    """What some splices, one after the other, make of a content that can be read: the range of it that they replace, and what is
    there then."""
    low = high = until = path[0].at if path else 0
    for it in path:
        low, end = min(low, it.at), it.at + len(it.old)
        if end > high:
            until, high = until + end - high, end
        high += len(it.new) - len(it.old)
    content = read(low, until)
    for it in path:
        content = content[: it.at - low] + it.new + content[it.at - low + len(it.old) :]
    return low, until, content


class History:
    """Steps, and how many of them lead to the present state; the others were taken back."""

    def __init__(self) -> None:
        self._steps: List[Step] = []
        self._present = self._size = 0

    def add(self, step: Step) -> None:
        """Adds a step from the present state. Steps that were taken back stay, followed by the steps back, since an editor may
        return to any state."""
        back = [it.back() for it in reversed(self._steps[self._present :])]
        for it in [*back, step]:
            self._steps.append(it)
            self._size += len(it.text.old) + len(it.text.new)
        while len(self._steps) > MOST or self._size > LARGEST and len(self._steps) > 1:
            first = self._steps.pop(0)
            self._size -= len(first.text.old) + len(first.text.new)
        self._present = len(self._steps)

    def find(self, begin: int, end: int, text: str, read: Callable[[int, int], str]) -> Optional[List[Step]]:
        """The steps that lead to a state with the text that an edit would make; None if there is none. `read` has the editor's
        text."""
        for path in self._paths(len(text) - (end - begin)):
            low, until, content = apply_all([it.text for it in path], read)
            first, last = min(low, begin), max(until, end)
            if read(first, low) + content + read(until, last) == read(first, begin) + text + read(end, last):
                return path
        return None

    def go(self, path: Sequence[Step]) -> None:
        """Makes the state to which a path leads the present one."""
        is_forward = self._present < len(self._steps) and path[0] is self._steps[self._present]
        self._present += len(path) if is_forward else -len(path)

    def _paths(self, growth: int) -> Iterator[List[Step]]:
        """The paths that make the text so much longer, short ones first in each direction."""
        before = [it.back() for it in reversed(self._steps[max(self._present - REACH, 0) : self._present])]
        for steps in before, self._steps[self._present : self._present + REACH]:
            length = 0
            for number, it in enumerate(steps, 1):
                length += len(it.text.new) - len(it.text.old)
                if length == growth:
                    yield steps[:number]
