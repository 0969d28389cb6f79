"""The values of LSP 3.17 that this server reads, checked, and those that it sends."""
import os
import re
import urllib.parse
from typing import Any, Dict, List, NamedTuple, Optional, Tuple

from legacy.lsp.endpoint import INVALID_PARAMS, Failed

# A line and a character, both counted from 0.
Position = Tuple[int, int]

# Severities of diagnostics, and types of messages.
ERROR, WARNING, INFORMATION = 1, 2, 3
# The URI of a file of this machine. (Some editors leave # and ? in it as they are.)
FILE = re.compile("file:(?://(?:localhost)?(?=/))?(/(?!/).*)", re.DOTALL | re.IGNORECASE)
# The units in which an editor may count characters.
UNITS = ("utf-8", "utf-16", "utf-32")


class Change(NamedTuple):
    """A change of a text: of a range, or of the whole."""

    text: str
    start: Optional[Position] = None
    end: Optional[Position] = None


def member(params: Any, *names: str) -> Any:
    """What parameters have at a path of names. Raises that they aren't right."""
    for name in names:
        if not isinstance(params, dict) or name not in params:
            raise Failed(INVALID_PARAMS, f"the parameters have no {'.'.join(names)}")
        params = params[name]
    return params


def text_member(params: Any, *names: str) -> str:
    """The text that parameters have at a path of names."""
    found = member(params, *names)
    if not isinstance(found, str):
        raise Failed(INVALID_PARAMS, f"{'.'.join(names)} isn't a text")
    return found


def number_member(params: Any, *names: str) -> int:
    """The whole number that parameters have at a path of names."""
    found = member(params, *names)
    if not isinstance(found, int) or isinstance(found, bool) or not 0 <= found < 1 << 31:
        raise Failed(INVALID_PARAMS, f"{'.'.join(names)} isn't a whole number from 0 to 2,147,483,647")
    return found


def position_in(params: Any, *names: str) -> Position:
    """The position that parameters have at a path of names."""
    found = member(params, *names) if names else params
    return number_member(found, "line"), number_member(found, "character")


def range_in(params: Any, *names: str) -> Tuple[Position, Position]:
    """The range that parameters have at a path of names."""
    found = member(params, *names)
    return position_in(found, "start"), position_in(found, "end")


def changes_in(params: Any) -> List[Change]:
    """The changes that `textDocument/didChange` lists."""
    listed = member(params, "contentChanges")
    if not isinstance(listed, list):
        raise Failed(INVALID_PARAMS, "contentChanges isn't a list")
    return [Change(text_member(it, "text"), *range_in(it, "range")) if it.get("range") else Change(text_member(it, "text"))
            for it in listed if isinstance(it, dict)]


def range_of(start: Position, end: Position) -> Dict[str, Any]:
    """A range as the protocol has it."""
    return {"start": {"line": start[0], "character": start[1]}, "end": {"line": end[0], "character": end[1]}}


def path_of(uri: str) -> Optional[str]:
    """The path of a file's URI, whatever bytes it has; None for other URIs."""
    found = FILE.fullmatch(uri)
    path = os.fsdecode(urllib.parse.unquote_to_bytes(found[1])) if found else ""
    return path if path and "\0" not in path else None
