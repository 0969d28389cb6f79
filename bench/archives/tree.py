#!/usr/bin/env python3
"""Makes a tree of files in eleven encodings, damaged at known places, for tests and measures of `legacy`.

    bench/archives/tree.py [--files N] [--largest BYTES] [--seed N] [--indexes DIR] TOP

writes the files into TOP/tree, and TOP/made.jsonl: of each file its label and size, the places of its errors, its line
ends, its byte order mark, and the SHA-256 of its text in UTF-8, where it has one. A name ends in the label, so that
`-e '*.LABEL=LABEL'` is its rule; TOP/words has these words, a line each. Beside the files are things that are none, as a
FIFO and a link that circles, and files and folders that may not be read, which made.jsonl has too, each with why. What may
not be read is that of the user who makes the tree: root reads all.

The bytes are those of Python's codecs. Where damage is an error, and which bytes it takes, is as the decoders of the
Encoding Standard say. With --indexes only characters are used that these index files have, and only encodings that they
are enough for."""
import argparse
import codecs
import errno
import hashlib
import json
import os
import pathlib
import random
import socket
import sys
from typing import Any, Dict, Iterator, List, NamedTuple, Optional, Set, Tuple

# One byte more than a document of `gate` may have.
LONG = 16_777_216 + 1
# The files of one folder, at most.
FOLDER = 250
# The line ends of a file of one line, and of one without any, and what the system says of a file that may not be read.
ONE_LF = {"lf": 1, "crlf": 0, "cr": 0}
NO_ENDS = {"lf": 0, "crlf": 0, "cr": 0}
DENIED = os.strerror(errno.EACCES)

Places = List[Tuple[int, int]]


class Encoding(NamedTuple):
    """An encoding: its label, Python's codec, the index file it needs, words of it that are no ASCII, and damage, each its
    bytes and where in them errors are if an ASCII character, or a code unit of one, stands on both sides."""

    label: str
    codec: str
    needs: Optional[str]
    words: List[str]
    damage: List[Tuple[bytes, Places]]


JAPANESE = "図書館 計画 お知らせ 本 あ 亜 、。 カタカナ 東京 文字 符号".split()
CHINESE = "图书馆 计划 通知 书 啊 北京 文字 编码".split()
TRADITIONAL = "圖書館 計劃 通知 書 一 臺北 文字 編碼".split()
KOREAN = "도서관 계획 안내 책 가 서울 문자 부호".split()
GREEK = "βιβλιοθήκη σχέδιο Αθήνα γράμμα".split()
FRENCH = "bibliothèque élève façade «été» €".split()
BROKEN_LEAD = [(0, 1)]

ENCODINGS = [
    Encoding("utf-8", "utf-8", None, JAPANESE + KOREAN + FRENCH + ["😀"], [
        (b"\xff", [(0, 1)]), (b"\xe3\x81", [(0, 2)]), (b"\xc0\x80", [(0, 1), (1, 2)]), (b"\xf0\x9f\x98", [(0, 3)]),
        (b"\xed\xa0\x80", [(0, 1), (1, 2), (2, 3)]), (b"\x80\x80", [(0, 1), (1, 2)])]),
    Encoding("utf-16le", "utf-16-le", None, JAPANESE + CHINESE + ["😀"], [
        (b"\x00\xd8", [(0, 2)]), (b"\x00\xdc", [(0, 2)]), (b"\x00\xd8\x01\xd8", [(0, 2), (2, 4)])]),
    Encoding("utf-16be", "utf-16-be", None, JAPANESE + GREEK + ["😀"], [
        (b"\xd8\x00", [(0, 2)]), (b"\xdf\xff", [(0, 2)])]),
    Encoding("shift_jis", "cp932", "jis0208", JAPANESE, [
        (b"\xff", [(0, 1)]), (b"\xa0", [(0, 1)]), (b"\x82", BROKEN_LEAD), (b"\x81\xff", [(0, 2)]), (b"\xfd\xfe", [(0, 1), (1, 2)])]),
    Encoding("euc-jp", "euc_jp", "jis0208", JAPANESE, [
        (b"\xff", [(0, 1)]), (b"\xa4", BROKEN_LEAD), (b"\xa4\xff", [(0, 2)]), (b"\x80", [(0, 1)])]),
    Encoding("iso-2022-jp", "iso2022_jp", "jis0208", JAPANESE, [
        (b"\xa4", [(0, 1)]), (b"\x0e", [(0, 1)]), (b"\x80\xff", [(0, 1), (1, 2)])]),
    Encoding("euc-kr", "euc_kr", "euc-kr", KOREAN, [
        (b"\xff", [(0, 1)]), (b"\x80", [(0, 1)]), (b"\xb0", BROKEN_LEAD)]),
    Encoding("big5", "big5", "big5", TRADITIONAL, [
        (b"\xff", [(0, 1)]), (b"\x80", [(0, 1)]), (b"\xa4", BROKEN_LEAD)]),
    Encoding("gb18030", "gb18030", "gb18030", CHINESE, [
        (b"\xff", [(0, 1)]), (b"\xb0", BROKEN_LEAD), (b"\xb0\xff", [(0, 2)])]),
    Encoding("windows-1253", "cp1253", "windows-1253", GREEK, [(b"\xaa", [(0, 1)]), (b"\xff\xd2", [(0, 1), (1, 2)])]),
    # (each of its bytes is a character)
    Encoding("windows-1252", "cp1252", "windows-1252", FRENCH, []),
]


class Lines(NamedTuple):
    """Lines of an encoding's text, without line ends, each with its bytes."""

    encoding: Encoding
    lines: List[Tuple[str, bytes]]

    def ascii(self, text: str) -> bytes:
        """An ASCII text in the encoding."""
        return text.encode(self.encoding.codec)


def code_points(index: pathlib.Path) -> Set[str]:
    """The characters of an index file."""
    rows = (it.split() for it in index.read_text(encoding="utf-8").splitlines())
    return {chr(int(it[1], 16)) for it in rows if it and it[0].isdecimal()}


def known_words(encoding: Encoding, indexes: Optional[pathlib.Path]) -> List[str]:
    """The words that an encoding can have by the index files in a folder."""
    if encoding.needs is None or indexes is None:
        return encoding.words
    path = indexes / f"index-{encoding.needs}.txt"
    has = code_points(path) if path.is_file() else set()
    return [it for it in encoding.words if all(letter.isascii() or letter in has for letter in it)]


def lines_of(encoding: Encoding, words: List[str], draw: random.Random) -> Lines:
    """Some hundreds of lines, of words and of ASCII."""
    made = []
    for number in range(400):
        parts = [f"{number:03}", *(draw.choice(words) if draw.random() < 0.6 else draw.choice(["note", "see page 12", "(1998)"])
                                   for _ in range(draw.randrange(2, 14)))]
        text = " ".join(parts)
        made.append((text, text.encode(encoding.codec)))
    return Lines(encoding, made)


class Made(NamedTuple):
    """What was made: bytes, and what is to be found in them."""

    content: bytes
    errors: Places
    ends: Dict[str, int]
    text: Optional[str]  # (None where there are errors)


def make_file(lines: Lines, size: int, errors: int, mixed: bool, draw: random.Random) -> Made:
    """A file of some size, with as many damaged places, and line ends of one kind or of two."""
    kinds = [("lf", "\n"), ("crlf", "\r\n"), ("cr", "\r")]
    usual = draw.choice(kinds[:2])
    other = draw.choice([it for it in kinds if it != usual])
    parts: List[bytes] = []
    texts: List[str] = []
    places: Places = []
    ends = {"lf": 0, "crlf": 0, "cr": 0}
    length = 0
    average = sum(len(it) for _, it in lines.lines) // len(lines.lines)
    count = max(2, size // average)
    damaged = set(draw.sample(range(count), min(errors, count)))
    for number in range(count):
        text, raw = draw.choice(lines.lines)
        if number in damaged:
            before, bad, where = lines.ascii("damaged here:"), *draw.choice(lines.encoding.damage)
            places += [(length + len(before) + begin, length + len(before) + end) for begin, end in where]
            raw = before + bad + lines.ascii("!") + raw
        kind, end = other if mixed and number % 7 == 3 else usual
        ends[kind] += 1
        for part in raw, lines.ascii(end):
            parts.append(part)
            length += len(part)
        texts += [text, end]
    return Made(b"".join(parts), places, ends, None if places else "".join(texts))


def files(top: pathlib.Path, count: int, largest: int, seed: int, indexes: Optional[pathlib.Path]) -> Iterator[Dict[str, Any]]:
    """Makes the files, and returns the row of each."""
    draw = random.Random(seed)
    ready = [lines_of(it, words, draw) for it in ENCODINGS for words in [known_words(it, indexes)] if words]
    for number in range(count):
        lines = ready[number % len(ready)]
        encoding = lines.encoding
        size = int(1024 * (largest / 1024) ** (draw.random() ** 5))
        errors = draw.randrange(1, 6) if encoding.damage and draw.random() < 0.1 else 0
        it = make_file(lines, size, errors, draw.random() < 0.05, draw)
        mark, content, places = 0, it.content, it.errors
        if encoding.label.startswith("utf") and draw.random() < 0.3:
            content = "\ufeff".encode(encoding.codec) + content
            mark = len(content) - len(it.content)
            places = [(begin + mark, end + mark) for begin, end in places]
        path = top / "tree" / f"{number // FOLDER:03}" / f"{number:05}.{encoding.label}"
        path.parent.mkdir(parents=True, exist_ok=True)
        path.write_bytes(content)
        utf8 = None if it.text is None else hashlib.sha256(it.text.encode()).hexdigest()
        yield row(top, path, encoding.label, len(content), errors=places, ends=it.ends, mark=mark, utf8=utf8)


def others(top: pathlib.Path) -> Iterator[Dict[str, Any]]:
    """Makes what can't be looked at, a long file, and one of another encoding than its name says; returns the row of each."""
    folder = top / "tree" / "others"
    folder.mkdir(parents=True)
    marked = folder / "marked.shift_jis"
    marked.write_bytes(codecs.BOM_UTF8 + b"a text\n")
    yield row(top, marked, "shift_jis", 10, ends=ONE_LF, mark=3)
    large = folder / "large.utf-8"
    with large.open("wb") as file:
        file.truncate(LONG)
    yield row(top, large, "utf-8", LONG, ends=NO_ENDS, mark=0)
    yield from make_closed(top, folder)
    os.mkfifo(folder / "fifo.utf-8")
    yield row(top, folder / "fifo.utf-8", "", 0, why="a FIFO")
    with socket.socket(socket.AF_UNIX) as made_here:
        here = os.getcwd()
        os.chdir(folder)
        made_here.bind("socket.utf-8")
        os.chdir(here)
    yield row(top, folder / "socket.utf-8", "", 0, why="a socket")
    (folder / "circle").symlink_to("..")
    yield row(top, folder / "circle", "", 2, why="a symlink")
    (folder / "itself").symlink_to("itself")
    yield row(top, folder / "itself", "", 6, why="a symlink")
    named = folder / os.fsdecode(b"\xff\xe9.utf-8")
    named.write_bytes(b"named\n")
    yield row(top, named, "utf-8", 6, ends=ONE_LF, mark=0)
    # A damaged file in a folder in which nothing may be written.
    fixed = folder / "fixed" / "damaged.utf-8"
    fixed.parent.mkdir()
    fixed.write_bytes(b"damaged here:\xfe!\n")
    fixed.parent.chmod(0o555)
    yield row(top, fixed, "utf-8", 16, errors=[(13, 14)], ends=ONE_LF, mark=0)


def make_closed(top: pathlib.Path, folder: pathlib.Path) -> Iterator[Dict[str, Any]]:
    """Makes a file that may not be read, a folder whose names alone may be, and one whose names may not; returns the rows of
    what the user who makes them finds."""
    file, listed, sealed = folder / "closed.utf-8", folder / "listed" / "text.utf-8", folder / "sealed" / "text.utf-8"
    for path in file, listed, sealed:
        path.parent.mkdir(exist_ok=True)
        path.write_bytes(b"text\n")
    for path, mode in (file, 0), (listed.parent, 0o444), (sealed.parent, 0):
        path.chmod(mode)
    if os.geteuid() == 0:
        yield from (row(top, it, "utf-8", 5, ends=ONE_LF, mark=0) for it in (file, listed, sealed))
    else:
        yield row(top, file, "utf-8", 5, why=DENIED)
        yield from (row(top, it, "", 0, why=DENIED) for it in (listed, sealed.parent))


def row(top: pathlib.Path, path: pathlib.Path, label: str, size: int, **more: Any) -> Dict[str, Any]:
    """The row of a file."""
    return {"path": str(path.relative_to(top / "tree")), "label": label, "size": size, **more}


def make(
    top: pathlib.Path, count: int, largest: int = 4 << 20, seed: int = 1, indexes: Optional[pathlib.Path] = None
) -> List[Dict[str, Any]]:
    """Makes the tree, and returns the row of each file, in the order of paths."""
    rows = [*files(top, count, largest, seed, indexes), *others(top)]
    rows.sort(key=lambda it: os.fsencode(it["path"]))
    (top / "made.jsonl").write_text("".join(json.dumps(it) + "\n" for it in rows))
    (top / "words").write_text("".join(f"-e\n*.{it.label}={it.label}\n" for it in ENCODINGS))
    return rows


def main() -> int:
    """Makes the tree that the words ask for."""
    parser = argparse.ArgumentParser(description="Make a tree of files in eleven encodings, damaged at known places.")
    parser.add_argument("top", metavar="TOP", type=pathlib.Path)
    parser.add_argument("--files", metavar="N", type=int, default=20_000)
    parser.add_argument("--largest", metavar="BYTES", type=int, default=4 << 20)
    parser.add_argument("--seed", metavar="N", type=int, default=1)
    parser.add_argument("--indexes", metavar="DIR", type=pathlib.Path)
    words = parser.parse_args()
    rows = make(words.top, words.files, words.largest, words.seed, words.indexes)
    print(f"{len(rows)} files, {sum(it['size'] for it in rows) / 1e6:.0f} MB")
    return 0


if __name__ == "__main__":
    sys.exit(main())
