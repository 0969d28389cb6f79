"""What the tests here have of each encoding in which documents are drawn: one row for it."""
from typing import Dict, List, NamedTuple, Optional, Sequence, Tuple


class Encoding(NamedTuple):
    """An encoding."""

    # What documents are made of: characters, errors, shifts, and at last line ends; and those to which lists of changes are
    # drawn, where that is other.
    own: List[bytes]
    listed: Optional[List[bytes]] = None
    # Leads and trails, by which a pointer is two bytes.
    paired: Optional[Tuple[Sequence[int], Sequence[int]]] = None
    # Of one of ASCII and pairs over an index of its own the pointers that have something else.
    over_own: Optional[Dict[int, str]] = None


ENCODINGS = {
    "UTF-8": Encoding(
        [b"\xc0\x80", b"\xed\xa0\x80", b"\xe2\x82", b"\xc3\xa9", b"letters", b"\xe2\x82\xac", b"\xf0\x9f\x98\x80", b"\r", b"\r\n"],
    ),
    "UTF-16LE": Encoding(
        [b"\x3d\xd8", b"\x00\xde", b"\xe9\x00", b"w\0o\0r\0d\0s\0", b"\xac\x20", b"\x3d\xd8\x00\xde", b"\n\0", b"\r\0\n\0"],
        [b"\x3d\xd8", b"\x00\xde", b"\xe9\x00", b"w\0o\0r\0d\0", b"\xac\x20", b"\x3d\xd8\x00\xde", b"\n\0", b"\r\0\n\0"],
    ),
    "UTF-16BE": Encoding(
        [b"\xd8\x3d", b"\xde\x00", b"\x00\xe9", b"\0w\0o\0r\0d\0s", b"\x20\xac", b"\xd8\x3d\xde\x00", b"\0\n", b"\0\r\0\n"],
        [b"\xd8\x3d", b"\xde\x00", b"\x00\xe9", b"\0w\0o\0r\0d", b"\x20\xac", b"\xd8\x3d\xde\x00", b"\0\n", b"\0\r\0\n"],
    ),
    "gb18030": Encoding(
        [b"\x81\x30\x81\x41", b"\xe3\x32\x9a\x36", b"\x81\x30\x81\x30", b"\x81A", b"words", b"\x90\x30\x81\x30", b"\r", b"\r\n"],
        [b"\x81\x30\x81\x41", b"\xe3\x32\x9a\x36", b"\x81\x30\x81\x30", b"\xb0\xa1", b"words", b"\x90\x30\x81\x30", b"\r", b"\r\n"],
        paired=(range(0x81, 0xFF), [*range(0x40, 0x7F), *range(0x80, 0xFF)]),
    ),
    "Shift_JIS": Encoding(
        [b"\x81\x30", b"\x82", b"\xf0\x40", b"\xb1", b"words", b"\x82\xa0\x88\x9f", b"\r", b"\r\n"],
        paired=([*range(0x81, 0xA0), *range(0xE0, 0xFD)], [*range(0x40, 0x7F), *range(0x80, 0xFD)]),
    ),
    "EUC-JP": Encoding(
        [b"\x8e\x41", b"\x8f\xa2", b"\x8e\xb1", b"\x8f\xa2\xaf", b"words", b"\xa4\xa2\xb0\xa1", b"\r", b"\r\n"],
        paired=(range(0xA1, 0xFF), range(0xA1, 0xFF)),
    ),
    "ISO-2022-JP": Encoding(
        [b"\x1b$", b"\x1b(I1", b"\x0e", b"\x1b(J\\~", b"\x1b$B$\"", b"$\"0!", b"\x1b(B", b"words", b"\r", b"\r\n"],
        [b"\x1b$", b"\x1b(I1\x1b(B", b"\x0e", b"\x1b(J\\~\x1b(B", b"\x1b$B$\"\x1b(B", b"words", b"\r", b"\r\n"],
        paired=(range(0x21, 0x7F), range(0x21, 0x7F)),
    ),
    "EUC-KR": Encoding(
        [b"\xb0A", b"\xff", b"words", b"\xb0\xa1\xb0\xa1", b"\r", b"\r\n"],
        [b"\xb0\x41", b"\xb0", b"\xb0\xa1", b"words", b"\xff", b"\r", b"\r\n"],
        paired=(range(0x81, 0xFF), range(0x41, 0xFF)),
        over_own={},
    ),
    "Big5": Encoding(
        [b"\x88A", b"\x81", b"\x88\x62", b"words", b"\xa4\x40\x88\xa5", b"\r", b"\r\n"],
        [b"\x88\x62", b"\xa4\x40", b"\xa4", b"words", b"\x88\x41", b"\r", b"\r\n"],
        paired=(range(0x81, 0xFF), [*range(0x40, 0x7F), *range(0xA1, 0xFF)]),
        over_own={1133: "\xca\u0304", 1135: "\xca\u030c", 1164: "\xea\u0304", 1166: "\xea\u030c"},
    ),
    "windows-1252": Encoding(
        [b"\x81", b"\xbb\xbf\xff", b"words", b"\x80", b"\r", b"\r\n"],
        [b"\x80", b"\xbb", b"\xff", b"words", b"\x81", b"\r", b"\r\n"],
    ),
    "replacement": Encoding([b"words", b"\r\n"]),
}
# Encodings that texts are encoded to, where growths are refused.
TARGETS = ["UTF-8", "UTF-16BE", "Shift_JIS", "EUC-KR", "gb18030", "windows-1252", "ISO-2022-JP"]
