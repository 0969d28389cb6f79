"""What bytes leave to those after them: the state of a decoder, in which the next bytes are read."""
import re
from typing import Iterable, Tuple

from gate_documents.content import SHORT, Content

# The escapes of ISO-2022-JP, each of which shifts how the bytes after it are read.
ESCAPE = re.compile(rb"\x1b(?:\([BJI]|\$[@B])")
ASCII, TWO_BYTES = b"\x1b(B", b"\x1b$B"
# The bytes that begin a pair in most encodings, and in how many bytes before a place a run of them is first sought.
HIGH, NEAR = range(0x81, 0xFF), 1024


def _units(inner: Iterable[int], unit: bytes = b"..") -> Tuple[bytes, "re.Pattern[bytes]"]:
    return bytes(inner), re.compile(b"(?:%b){1,1000}|(.+)" % unit, re.DOTALL)


# Two things for each encoding whose characters have several bytes. First the bytes after which a decoder may be within a
# character, which it never is after any other. Then an expression for runs of these bytes: it finds whole characters, and at
# the end the beginning of one.
UNITS = {
    "Shift_JIS": _units([*range(0x81, 0xA0), *range(0xE0, 0xFD)]),
    "EUC-JP": _units([0x8E, 0x8F, *range(0xA1, 0xFF)], rb"\x8f[\xa1-\xfe].|(?!\x8f[\xa1-\xfe]).."),
    "ISO-2022-JP": _units(range(0x21, 0x7F)),
    **dict.fromkeys(("EUC-KR", "Big5"), _units(HIGH)),
    **dict.fromkeys(("GBK", "gb18030"), _units([*b"0123456789", *HIGH], rb"[0-9]|[\x81-\xfe](?:[\x81-\xfe]|[0-9](?:[0-9]|[\x81-\xfe].))")),
}


def state(encoding: str, content: Content, end: int) -> Tuple[bytes, bool]:
    """The state in which bytes starting at `end` are read, and whether an escape lies right before them, so that another one
    there is an error. In ISO-2022-JP the state is the escape that leads to it and the beginning of a character, in other
    encodings that beginning alone."""
    if encoding.startswith("UTF-16"):
        return content[end - end % 2 : end], False
    if encoding != "ISO-2022-JP":
        return _partial_character(encoding, content, 0, end), False
    at = content.last_escape(end)
    while at >= 0:
        escape = content[at : min(at + 3, end)]
        if ESCAPE.fullmatch(escape):
            escape = escape.replace(b"@", b"B")
            partial = _partial_character(encoding, content, at + 3, end) if escape == TWO_BYTES else b""
            return escape + partial, at + 3 == end
        at = content.last_escape(at)
    return ASCII, False


def _partial_character(encoding: str, content: Content, begin: int, end: int) -> bytes:
    """The beginning of a character in which a range ends, read from the first state. (In UTF-8 there is none that an edit of
    others continues, since what they put there begins with a first byte.)"""
    if encoding not in UNITS:
        return b""
    inner, units = UNITS[encoding]
    near, far = max(begin, end - NEAR), SHORT
    while len(run := content[near:end]) and not run.rstrip(inner) and near > begin:
        near, far = max(begin, near - far), far * 2
    rest = b""
    for it in units.finditer(run, len(run.rstrip(inner))):
        rest = it[1] or b""
    return rest
