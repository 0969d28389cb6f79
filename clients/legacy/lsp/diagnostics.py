"""Diagnostics: what an editor is told of a text."""
import unicodedata
from typing import Any, Dict, Iterator, List

from gate import Document
from legacy.lsp.followed import Followed
from legacy.lsp.opened import Opened
from legacy.lsp.protocol import ERROR, INFORMATION, WARNING, Position, range_of
from legacy.lsp.standing import DAMAGE_TYPED, NOT_KEPT, UNENCODABLE, Standing

# The most places of damage that are listed, and the most bytes of one that are printed.
MOST, PRINTED = 1000, 16

Diagnostic = Dict[str, Any]


def diagnostics_of(opened: Opened) -> List[Diagnostic]:
    """All diagnostics of a text."""
    found: List[Diagnostic] = []
    if opened.followed:
        found += [*_standings(opened, opened.followed), *_damage(opened, opened.followed)]
    if opened.reason is not None:
        what = "Neither damage nor refusals are shown. Open the file by a mount (`legacy mount`), or as UTF-8 by `legacy/read`."
        found.append(_whole_line(opened.line, INFORMATION, "not-followed", f"{opened.reason}. {what}"))
    if opened.shown.is_mixed and opened.followed:
        text = "The file has line ends of several kinds, which this editor hides. Its next save may make them one kind."
        found.append(_whole_line(0, WARNING, "line-ends", text))
    if opened.refused and opened.followed:
        at = max(opened.refused.line - 1, 0)
        found.append(_whole_line(at, ERROR, "save-refused", f"A save would be refused: {opened.refused.reason}."))
    if opened.lost:
        text = f"The last save changed {opened.lost:,} bytes that no edit named: the editor wrote the file by its own codec."
        found.append(_whole_line(0, WARNING, "bytes-lost", text))
    return found


def _diagnostic(start: Position, end: Position, severity: int, code: str, text: str) -> Diagnostic:
    return {"range": range_of(start, end), "severity": severity, "code": code, "source": "legacy", "message": text}


def _whole_line(line: int, severity: int, code: str, text: str) -> Diagnostic:
    return _diagnostic((line, 0), (line + 1, 0), severity, code, text)


def name_of(letter: str) -> str:
    """A character by its number and its name."""
    name = unicodedata.name(letter, "")
    return f"U+{ord(letter):04X}{' ' if name else ''}{name}"


def reason_of(it: Standing, encoding: str) -> str:
    """Why a character can't be saved, for a person."""
    reasons = {
        UNENCODABLE: f"{name_of(it.text)} has no bytes in {encoding}. A save would be refused.",
        DAMAGE_TYPED: f"U+FFFD stands for bytes that don't decode as {encoding}. Typed or copied, it has no bytes. A save would be refused.",
        NOT_KEPT: f"The bytes of {name_of(it.text)}, next to those that are there, would be another text in {encoding}.",
    }
    return reasons[it.reason]


def _standings(opened: Opened, followed: Followed) -> Iterator[Diagnostic]:
    """What can't be saved."""
    listed = followed.standings[:MOST]
    places = opened.positions([at for it in listed for at in (it.at, it.end)])
    for it, start, end in zip(listed, places[::2], places[1::2]):
        yield _diagnostic(start, end, ERROR, it.reason, reason_of(it, followed.document.encoding))


def _damage(opened: Opened, followed: Followed) -> Iterator[Diagnostic]:
    """Bytes that don't decode."""
    encoding = followed.document.encoding
    total = followed.on(Document.stat)["errors"]
    if not total:
        return
    found = followed.on(lambda it: it.diagnostics(most=MOST, unit=opened.tools.unit))
    if opened.has_own_lines:
        offsets = followed.on(lambda it: [it.place(end)["utf32"] - 1 for (_, end), _, _ in found])
        places = opened.positions([at for it in offsets for at in (it, it + 1)])
        found = [(it[0], *pair) for it, pair in zip(found, zip(places[::2], places[1::2]))]
    for (begin, end), start, stop in found:
        raw = followed.document.part(begin, min(end, begin + PRINTED)).hex(" ").upper()
        text = f"{raw}{'..' if end - begin > PRINTED else ''}: bytes {begin} to {end - 1} don't decode as {encoding}."
        yield _diagnostic(start, stop, WARNING, "damage", text)
    if total > len(found):
        text = f"{total - len(found):,} more places of damage aren't listed."
        yield _whole_line(found[-1][1][0], INFORMATION, "damage", text)
