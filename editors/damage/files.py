#!/usr/bin/env python3
"""Eleven files in legacy encodings: valid ones that no encoder would write so, and damaged ones. Each is there before
and after an edit of two characters: the first `ABCD` becomes `AxCD`, the second `AByD`.

usage: files.py DIR

writes NAME.before and NAME.after of each into DIR, and DIR/list with a line `NAME LABEL` for each. The bytes come from
Python's codecs and from the literals here.
"""
import pathlib
import sys
from typing import NamedTuple


class File(NamedTuple):
    name: str
    label: str  # of the Encoding Standard
    what: str  # what is unusual in it, in a few words
    damaged: bool
    word: str  # letters of its text that are not ASCII
    before: bytes
    unit: str = "ascii"  # the codec of the edited letters

    @property
    def after(self):
        after = self.before
        for old, new in ("ABCD", "AxCD"), ("ABCD", "AByD"):
            after = after.replace(old.encode(self.unit), new.encode(self.unit), 1)
        return after


ESC = b"\x1b"
SHIFTED, BACK = ESC + b"$B", ESC + b"(B"


def shift_jis():
    """Characters that NEC's and IBM's rows repeat, in bytes that an encoder wouldn't choose; then damage among them."""
    text = "図書館の計画についてお知らせします。\r\n本は約12,000冊です。表示ソ能力十。\r\n".encode("cp932")
    repeated = b"\x81\xca\xee\xf9\xfa\x54 \x81\xe0\x87\x90 \x81\xe6\xfa\x5b\x87\x9a\r\n"
    bad = b"\x8d\xfb\xff\x81A\x90\xc8 \xfd\xa0 \x81\r\n"
    yield File("shift_jis-repeated", "shift_jis", "characters of NEC's and IBM's rows", False, "図書館",
               text * 3 + b"first ABCD\r\n" + repeated + text + b"second ABCD\r\n" + repeated * 3 + text)
    yield File("shift_jis-damaged", "shift_jis", "8 bad bytes, an LF and a CR among CR LF", True, "図書館",
               text * 3 + b"first ABCD\r\n" + repeated + bad + text + b"a line with LF\na\rlone CR\r\nsecond ABCD\r\n"
               + bad + text * 2)


def iso_2022_jp():
    """Escapes that lead where the decoder is already, the set of 1978, Roman; then bytes of eight bits."""
    text = (SHIFTED + b"$3$s" + SHIFTED + b"$K$A$O" + BACK + b" ok\n" + ESC + b"(JRoman ABCD yen \\ " + BACK + b"\n"
            + ESC + b"$@F|K\\" + ESC + b"(J x" + BACK + b"\n" + SHIFTED + b"F|" + BACK + b"x" + SHIFTED + b"K\\" + BACK
            + b"\n")
    rest = text.replace(b"ABCD", b"abcd") * 2
    bad = SHIFTED + b"8l$G$9!#" + BACK + b" plain \xa4\xa2 8 bit\n"
    yield File("iso-2022-jp-escapes", "iso-2022-jp", "more escapes than an encoder writes", False, "こんにちは",
               text + rest + b"second ABCD\n" + rest)
    yield File("iso-2022-jp-damaged", "iso-2022-jp", "the same, and 2 bytes of eight bits", True, "こんにちは",
               text + rest + bad + b"second ABCD\n" + rest)


def chinese():
    yield File("big5-repeated", "big5", "characters that Big5 has twice", False, "圖書館",
               "圖書館 ABCD\n".encode("big5") + b"\xa2\xcc \xa1\xc3 \xf9\xfe\n" + b"second ABCD\n")
    text = "图书馆计划\n约一万二千册。\n".encode("gb18030")
    yield File("gb18030-forms", "gb18030", "80, A3 A0, forms of four bytes", False, "图书馆",
               text * 3 + b"first ABCD\n" + b"price \x80 12 \xa3\xa0|\n" + "é ĉ 𠀀 😀\n".encode("gb18030") + text
               + b"second ABCD\n" + b"\x84\x31\xa4\x37 and \xfe\x50\n" + text * 2)
    yield File("gbk-damaged", "gbk", "3 bad places", True, "图书馆",
               text * 3 + b"first ABCD\nprice \x80 12\nbad \xff \x81\x30 \x81\x30\x81x\n" + text
               + b"second ABCD\n" + text)


def others():
    yield File("euc-jp-rows", "euc-jp", "NEC's row and JIS X 0212", False, "図書館",
               "図書館 ABCD 計画\n".encode("euc-jp") + b"\x8f\xb0\xa1 \xad\xb5 \xfc\xe2\n" + b"second ABCD\n")
    text = "Café – „groß“ 12 €\r\n".encode("cp1252")
    yield File("windows-1252-controls", "windows-1252", "81 8D 8F 90 9D, one LF among CR LF", False, "„groß“",
               text * 4 + b"first ABCD\r\nunused \x81 \x8d \x8f \x90 \x9d here\r\na line with LF\n" + text * 2
               + b"second ABCD \x81\r\n" + text * 3)
    text = "Ein Brief, größer 😀\r\n".encode("utf-16-le")
    yield File("utf-16le-damaged", "utf-16le", "a byte order mark, a surrogate without its pair", True, "größer",
               b"\xff\xfe" + text + "first ABCD\r\n".encode("utf-16-le") + text * 2 + b"\x3d\xd8"
               + "x\r\nsecond ABCD\r\n".encode("utf-16-le") + text * 2, "utf-16-le")
    text = "Größe – 12 € 😀\n".encode()
    yield File("utf-8-damaged", "utf-8", "5 bad places", True, "Größe",
               text * 2 + b"first ABCD \xf0\x9f\x98\n" + text + b"\xc0\x80 \xed \xff\n"
               + b"second ABCD\n" + "a real \N{REPLACEMENT CHARACTER}\n".encode() + text)


FILES = [*shift_jis(), *iso_2022_jp(), *chinese(), *others()]


def main(folder):
    folder.mkdir(parents=True, exist_ok=True)
    for it in FILES:
        (folder / f"{it.name}.before").write_bytes(it.before)
        (folder / f"{it.name}.after").write_bytes(it.after)
    (folder / "list").write_text("".join(f"{it.name} {it.label}\n" for it in FILES))


if __name__ == "__main__":
    if len(sys.argv) != 2:
        sys.exit(__doc__.strip())
    main(pathlib.Path(sys.argv[1]))
