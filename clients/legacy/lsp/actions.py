"""Code actions: what a person may do about a character that can't be saved, or about damage."""
from typing import Any, Dict, Iterator, List, NamedTuple, Optional, Tuple

from gate import Document
from legacy.lsp.followed import Followed
from legacy.lsp.forms import forms_of
from legacy.lsp.opened import Opened
from legacy.lsp.protocol import Position, range_of
from legacy.lsp.standing import BAD, UNENCODABLE, Standing

# The most places that one request is about.
MOST = 20
QUICK_FIX = "quickfix"


class Fix(NamedTuple):
    """A replacement of ranges of the document by a text."""

    title: str
    ranges: List[Tuple[int, int]]
    text: str
    is_preferred: bool = False


def actions_in(opened: Opened, uri: str, start: Position, end: Position, diagnostics: List[Any]) -> List[Dict[str, Any]]:
    """The answer to `textDocument/codeAction`."""
    if not opened.followed:
        return []
    begin, behind = opened.place(start), opened.place(end)
    fixes = [*_for_standings(opened.followed, begin, behind), *_for_damage(opened.followed, begin, behind)]
    return [_action(opened, uri, it, diagnostics) for it in fixes]


def _action(opened: Opened, uri: str, fix: Fix, diagnostics: List[Any]) -> Dict[str, Any]:
    """A fix as the protocol has it."""
    places = opened.positions([at for it in fix.ranges for at in it])
    ranges = [range_of(*it) for it in zip(places[::2], places[1::2])]
    edits = [{"range": it, "newText": fix.text} for it in ranges]
    action: Dict[str, Any] = {"title": fix.title, "kind": QUICK_FIX, "edit": {"changes": {uri: edits}}, "isPreferred": fix.is_preferred}
    of = [it for it in diagnostics if isinstance(it, dict) and it.get("range") in ranges]
    return {**action, "diagnostics": of} if of else action


def _for_standings(followed: Followed, begin: int, end: int) -> Iterator[Fix]:
    """Fixes for characters that can't be saved."""
    near = [it for it in followed.standings if it.raw is None and it.at <= end and it.end >= begin][:MOST]
    for it in near:
        yield from _for_standing(followed, it)


def _for_standing(followed: Followed, it: Standing) -> Iterator[Fix]:
    """Fixes for one character, and for all of its kind."""
    here = [(it.at, it.end)]
    same = [(other.at, other.end) for other in followed.standings if other.text == it.text and other.raw is None]
    forms = forms_of(it.text, followed.lacking) if it.reason == UNENCODABLE else []
    for number, form in enumerate(forms):
        yield Fix(f"Replace {it.text} by {form}", here, form, number == 0)
        if len(same) > 1:
            yield Fix(f"Replace all {len(same)} {it.text} by {form}", same, form)
    if it.reason == UNENCODABLE and not "\ud800" <= it.text <= "\udfff":
        yield Fix(f"Replace {it.text} by &#{ord(it.text)};", here, f"&#{ord(it.text)};")
    yield Fix(f"Replace {_visible(it.text)} by ?", here, "?")
    yield Fix(f"Remove {_visible(it.text)}", here, "")
    if len(same) > 1:
        yield Fix(f"Remove all {len(same)} {_visible(it.text)}", same, "")


def _visible(letter: str) -> str:
    return f"U+{ord(letter):04X}" if letter == BAD or "\ud800" <= letter <= "\udfff" else letter


def _for_damage(followed: Followed, begin: int, end: int) -> Iterator[Fix]:
    """Fixes for bytes that don't decode."""

    def find(document: Document) -> List[Tuple[int, bytes]]:
        line = document.position(min(begin, document.stat()["utf32"]))[0]
        found = []
        for (first, last), _, _ in document.diagnostics(line=line, most=MOST):
            at = document.place(last)["utf32"] - 1
            if begin <= at + 1 and at <= end:
                found.append((at, document.part(first, last)))
        return found

    for at, raw in followed.on(find):
        name = raw.hex(" ").upper()
        letter = _without_high_bit(raw)
        if letter:
            yield Fix(f"Replace {name} by {letter} (its highest bit cleared)", [(at, at + 1)], letter, True)
        yield Fix(f"Replace {name} by ?", [(at, at + 1)], "?")
        yield Fix(f"Remove {name}", [(at, at + 1)], "")


def _without_high_bit(raw: bytes) -> Optional[str]:
    """The letter that a byte is without its highest bit."""
    letter = chr(raw[0] & 0x7F) if len(raw) == 1 else ""
    return letter if letter.isalpha() else None
