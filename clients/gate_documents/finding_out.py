"""Whether an edit was made whose reply was lost."""
from typing import Callable, Optional

from gate import Fault, Members
from gate_documents.copies import View, patch, splice
from gate_documents.edits import Edit


def unless_refused(meant: Callable[[], Edit]) -> Optional[Edit]:
    """What an edit would do, or None if it would be refused; but not if memory ran out."""
    try:
        return meant()
    except Fault as fault:
        if fault.name == "OutOfMemory":
            raise
        return None


def is_first(content: bytes, mine: Edit, rev: int, view: View) -> Optional[bool]:
    """Whether an edit of a revision, which had these bytes, made the next one, to judge by what came since both.

    If others came after it, the bytes that all of them left, at the beginning and at the end, are the fewest that one of them
    left. None if others edited the very bytes that would tell, or made more edits than are known."""
    made = splice(content, mine.at, len(mine.old), mine.new)
    first, later = view.since
    if view.stat["rev"] == rev + 1:
        return view.content == made and (first is None or _is_edit(first, mine.at, len(mine.old), len(mine.new)))
    if first is None or later is None:
        return None
    if view.content != patch(made, later, view.content):
        return False
    at: int = later["at"]
    if not later["del"] and not later["ins"]:
        # (if those after it left nothing, their place isn't known: they were at the end of all that isn't its own)
        at = first["at"] if first["at"] < mine.at else first["at"] + first["ins"]
    rest = min(len(content) - mine.at - len(mine.old), len(made) - at - later["del"])
    front = min(mine.at, at)
    if not _is_edit(first, front, len(content) - rest - front, len(view.content) - rest - front):
        return False
    # (an edit that inserts nothing is known by the bytes around its place)
    is_seen = mine.at + len(mine.new) <= at or mine.at >= at + later["del"]
    return True if is_seen else None


def _is_edit(since: Members, at: int, count: int, new: int) -> bool:
    """Whether `since` says this if that many bytes were replaced by so many new ones. If none were by none, it names no place."""
    return (since["at"], since["del"], since["ins"]) == ((at, count, new) if count or new else (0, 0, 0))
