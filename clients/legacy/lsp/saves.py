"""Files that this server reads and writes for an editor, which has them as UTF-8."""
import hashlib
from typing import Any, Dict, Optional

from legacy.lsp.diagnostics import reason_of
from legacy.lsp.endpoint import CONTENT_MODIFIED, REQUEST_FAILED, Failed
from legacy.lsp.files import Content, Unreadable, Unwritten, write_file
from legacy.lsp.opened import Opened, Tools
from legacy.lsp.sources import Source
from legacy.saving import Refused, read, save


def read_text(tools: Tools, source: Source) -> Dict[str, Any]:
    """The answer to `legacy/read`: a file's text, and what is known of its bytes."""
    content = _content(source)
    with tools.programs.one().open("read", source.label, content.raw) as document:
        damaged = document.stat()["errors"]
        return {
            "text": document.text(), "label": source.label, "origin": source.origin, "encoding": document.encoding, "bom": document.bom > 0,
            "damaged": damaged, "base": _digest(content.raw), "exists": content.status is not None,
        }


def write_opened(opened: Opened) -> Dict[str, Any]:
    """Writes the text that an editor has open, by the bytes that were followed."""
    followed = opened.followed
    if not followed or opened.source.is_mounted or opened.source.path is None:
        reason = "it is in a mount, in which the editor saves it" if opened.source.is_mounted else opened.reason
        raise Failed(REQUEST_FAILED, f"Not saved: {reason}")
    if followed.standings:
        it = followed.standings[0]
        line, character = opened.positions([it.at])[0]
        raise Failed(REQUEST_FAILED, f"Not saved: line {line + 1}, character {character + 1}: {reason_of(it, followed.document.encoding)}")
    opened.content = _write(opened.source.path, followed.on(lambda it: it.bytes), opened.content)
    return {"bytes": len(opened.content.raw), "base": _digest(opened.content.raw)}


def write_text(tools: Tools, source: Source, text: str, base: Optional[str]) -> Dict[str, Any]:
    """Writes a text that isn't open, into the bytes that it was read from."""
    content = _content(source)
    if base is not None and base != _digest(content.raw):
        raise Failed(CONTENT_MODIFIED, "Not saved: another program has changed the file meanwhile; read it again")
    if source.is_mounted or source.path is None:
        raise Failed(REQUEST_FAILED, "Not saved: it is in a mount, in which the editor saves it")
    gate = tools.programs.one()
    try:
        saved = save(gate, source.label, read(gate, source.label, content.raw), text)
    except Refused as fault:
        raise Failed(REQUEST_FAILED, f"Not saved: {fault}") from fault
    return {"bytes": len(saved.raw), "base": _digest(_write(source.path, saved.raw, content).raw)}


def _content(source: Source) -> Content:
    try:
        return source.read()
    except Unreadable as fault:
        raise Failed(REQUEST_FAILED, str(fault)) from fault


def _write(path: str, raw: bytes, known: Content) -> Content:
    """What a file is after it was written."""
    try:
        return write_file(path, raw, known)
    except Unwritten as fault:
        raise Failed(REQUEST_FAILED, f"Not saved: {fault}") from fault


def _digest(raw: bytes) -> str:
    """By which a client names the bytes that it has read."""
    return hashlib.sha256(raw).hexdigest()
