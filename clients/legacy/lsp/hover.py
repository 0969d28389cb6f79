"""What an editor shows of the character under the pointer: its bytes, and whether an encoder would write others."""
from typing import Any, Dict, Optional

from gate import Document, Fault
from legacy.lsp.diagnostics import name_of, reason_of
from legacy.lsp.opened import Opened
from legacy.lsp.protocol import Position, range_of
from legacy.lsp.standing import BAD

# The encoding of which a character alone has escapes, and so other bytes than within a text.
WITH_ESCAPES = "ISO-2022-JP"


def hover_at(opened: Opened, position: Position) -> Optional[Dict[str, Any]]:
    """The answer to `textDocument/hover`; None for ASCII, since editors ask wherever the cursor rests."""
    followed = opened.followed
    if not followed:
        return None
    at = opened.place(position)
    standing = next((it for it in followed.standings if it.at <= at < it.end), None)
    if standing:
        return _hover(opened, standing.at, standing.end, reason_of(standing, followed.document.encoding))
    text = followed.on(lambda it: _text_at(it, at))
    if text is None:
        return None
    return _hover(opened, at, at + 1, text)


def _hover(opened: Opened, begin: int, end: int, text: str) -> Dict[str, Any]:
    start, stop = opened.positions([begin, end])
    return {"contents": {"kind": "plaintext", "value": text}, "range": range_of(start, stop)}


def _text_at(document: Document, at: int) -> Optional[str]:
    """What is said of a character of a document."""
    if at >= document.stat()["utf32"]:
        return None
    letter, (begin, end) = document.text(at, at + 1), document.place(at, "utf-32")["place"]
    raw = document.part(begin, end)
    if letter <= "\x7f" and raw == letter.encode():
        return None
    place = f"byte {begin}" if end == begin + 1 else f"bytes {begin} to {end - 1}"
    if letter == BAD and (begin, end) in {it[0] for it in document.diagnostics(line=document.position(at)[0], most=1000)}:
        return f"{_hex(raw)}: doesn't decode as {document.encoding} ({place})"
    lines = [f"{letter} {name_of(letter)}", f"{_hex(raw)} in {document.encoding} ({place})"]
    other = _bytes_of(document, at)
    if other is not None and other != raw:
        lines.append(f"An encoder would write {_hex(other)}.")
    return "\n".join(lines)


def _bytes_of(document: Document, at: int) -> Optional[bytes]:
    """The bytes that an encoder gives for a character; None if it gives none, or others within a text."""
    if document.encoding == WITH_ESCAPES:
        return None
    try:
        return document.encode(document.encoding, at, at + 1)
    except Fault:
        return None


def _hex(raw: bytes) -> str:
    return raw.hex(" ").upper()
