"""The files that a command writes besides its rows: a page, a plan, a state. None of them takes the place of a file that isn't
of its kind, or comes to lie in a tree, unless the word --force says so."""
import os
import stat
from typing import Callable, Optional, Sequence

from legacy.finding import Missing
from legacy.terminals import quote_path
from legacy.work.walk import KINDS

# The first bytes of a file by which its kind is known.
FIRST = 512

HINT = "; --force takes it all the same"


def look_at_output(what: str, path: str, trees: Sequence[str], is_ours: Callable[[bytes], bool], force: bool) -> None:
    """Raises `Missing` if an output would replace a file of another kind, or would be a new file in one of the trees; unless it
    is forced. `is_ours` knows a file of the output's kind by its first bytes. What isn't a file is never replaced."""
    try:
        status = os.stat(path)
    except OSError:
        inside = None if force else tree_around(path, trees)
        if inside is not None:
            raise Missing(f"{what} {quote_path(path)} would lie in the tree {quote_path(inside)}{HINT}")
        return
    kind = next((text for holds, text in KINDS if holds(status.st_mode)), "a folder" if stat.S_ISDIR(status.st_mode) else "")
    if kind:
        raise Missing(f"{what} {quote_path(path)} is {kind}")
    if not force and not is_ours(first_bytes(what, path)):
        raise Missing(f"{what} {quote_path(path)} would replace a file that isn't of its kind{HINT}")


def first_bytes(what: str, path: str) -> bytes:
    """The first bytes of a file."""
    try:
        with open(os.open(path, os.O_RDONLY | os.O_NONBLOCK | os.O_CLOEXEC), "rb") as file:
            return file.read(FIRST)
    except OSError as fault:
        raise Missing(f"{what} {quote_path(path)}: {fault.strerror}") from fault


def tree_around(path: str, trees: Sequence[str]) -> Optional[str]:
    """The first of the trees that a path lies in, or that it is; None if it lies in none."""
    folder, name = os.path.split(path)
    place = os.path.join(os.path.realpath(folder or "."), name)
    for tree in trees:
        top = os.path.realpath(tree)
        if place == top or place.startswith(os.path.join(top, "")):
            return tree
    return None
