"""What an editor may show of a text in its status line."""
from typing import Any, Dict

from gate import Document
from legacy.lsp.opened import Opened
from legacy.lsp.shown import Shown


def status_of(opened: Opened) -> Dict[str, Any]:
    """The members of the notification `legacy/status`, without the text's URI."""
    status: Dict[str, Any] = {
        "label": opened.source.label, "origin": opened.source.origin, "isMounted": opened.source.is_mounted, "reason": opened.reason,
    }
    followed = opened.followed
    if followed:
        document = followed.document
        status.update(encoding=document.encoding, bom=document.bom > 0, damaged=followed.on(Document.stat)["errors"])
        status.update(lacking=len(followed.standings), lineEnds=_line_ends(opened.shown))
    return status


def _line_ends(shown: Shown) -> str:
    """What the editor does with line ends."""
    if shown.is_mixed:
        return "mixed"
    return "hidden" if shown.hidden else "shown"
