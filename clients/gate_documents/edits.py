"""Edits of bytes: how one moves when others were made, and where two contents differ."""
from typing import AnyStr, Iterable, Optional, Tuple


class Edit:
    """An edit that was made: at byte `at` the bytes `new` replaced the bytes `old`. If `anew` is true, the copy was read again,
    and the edit is all that differs; what was done isn't known. `shifts` says whether the bytes right after it are read in
    another way than before: in another state of ISO-2022-JP, or as the rest of a character that it begins. It is None if text
    was meant, which is encoded for the state at its place."""

    def __init__(self, at: int, old: bytes, new: bytes, anew: bool = False, shifts: Optional[bool] = None):
        self.at, self.old, self.new, self.anew, self.shifts = at, old, new, anew, shifts

    def moves(self, at: int, count: int, shifts: Optional[bool] = None) -> Optional[int]:
        """The place of `count` bytes at `at` after this edit. Bytes before it stay, and bytes after it move. None if both have a
        byte in common, if one inserts between two bytes of the other, or if this is `anew`.

        It is also None if one of them has true `shifts` and the other lies right after it, unless that one is text, whose
        `shifts` is None. If both insert at one place, this one, which was accepted first, stays before the other."""
        if self.anew:
            return None
        end = self.at + len(self.old)
        if at >= end:
            is_read_otherwise = at == end and self.shifts and shifts is not None
            return None if is_read_otherwise else at + len(self.new) - len(self.old)
        return at if at + count < self.at + (not shifts) else None

    def behind(self, later: Iterable["Edit"]) -> Optional["Edit"]:
        """This edit at its place after later ones, so that it can be undone. None if one of them met its bytes."""
        at: Optional[int] = self.at
        for edit in later:
            at = None if at is None else edit.moves(at, len(self.new), self.shifts)
        return None if at is None else Edit(at, self.old, self.new, shifts=self.shifts)


def difference(old: AnyStr, new: AnyStr) -> Tuple[int, int, AnyStr]:
    """The place where two contents or texts begin to differ, the length of the part of the old one that differs, and the part
    of the new one."""
    at = _common_length(old, new)
    same = _common_length(old[at:][::-1], new[at:][::-1])
    return at, len(old) - at - same, new[at : len(new) - same]


def _common_length(one: AnyStr, other: AnyStr) -> int:
    """The length of the common beginning of both."""
    low, high = 0, min(len(one), len(other))
    while low < high:
        middle = (low + high + 1) // 2
        low, high = (middle, high) if one[low:middle] == other[low:middle] else (low, middle - 1)
    return low
