"""Index files for tests: the Standard's where they are found, else some that are made here from Python's codecs.

The latter have the pairs that Python's tables have, in the form and at the pointers of the Standard's files; they serve
where a test wants real text in a legacy encoding, and not each pair of the Standard."""
import atexit
import functools
import json
import pathlib
import shutil
import sys
import tempfile
from typing import Callable, Iterable, Iterator, Optional, Tuple

sys.path.insert(0, str(pathlib.Path(__file__).resolve().parent.parent.parent / "clients"))
from legacy import finding  # noqa: E402

# A pointer and its code point.
Row = Tuple[int, int]


@functools.lru_cache(maxsize=None)
def folder() -> pathlib.Path:
    """A folder of index files."""
    try:
        return finding.index_files()
    except finding.Missing:
        made = pathlib.Path(tempfile.mkdtemp(prefix="indexes-"))
        atexit.register(shutil.rmtree, made, ignore_errors=True)
        make(made)
        return made


def make(there: pathlib.Path) -> None:
    """Writes the index files that Python's codecs give."""
    for name, rows in [
        # (the pointers from 8836 to 10715 are private characters, which Shift_JIS has without the index)
        ("jis0208", (it for it in table("cp932", 11280, shift_jis) if not 8836 <= it[0] <= 10715)),
        ("jis0212", table("euc_jp", 94 * 94, lambda it: bytes([0x8F, 0xA1 + it // 94, 0xA1 + it % 94]))),
        ("big5", table("big5hkscs", 126 * 157, lambda it: double(it, 157, 0x40, 63, 0x62))),
        ("euc-kr", table("cp949", 23940, lambda it: bytes([0x81 + it // 190, 0x41 + it % 190]))),
        # (A3 A0 is a space in the Standard)
        ("gb18030", ((at, 0x3000 if code == 0xE5E5 else code)
                     for at, code in table("gb18030", 23940, lambda it: double(it, 190, 0x40, 63, 0x41)))),
        ("gb18030-ranges", ranges()),
        ("iso-2022-jp-katakana", ((at, ord(it)) for at, it in enumerate(KATAKANA))),
        *((f"windows-{it}", table(f"cp{it}", 128, lambda it: bytes([0x80 + it]), c1)) for it in range(1250, 1259)),
    ]:
        write(there, name, rows)


def write(there: pathlib.Path, name: str, rows: Iterable[Row]) -> None:
    """Writes an index file of these rows."""
    lines = [f"{pointer}\t0x{code:04X}\n" for pointer, code in rows]
    (there / f"index-{name}.txt").write_text("".join(lines), encoding="ascii")


def make_standard(there: pathlib.Path) -> None:
    """Writes what `gate-standard` fetches: all 34 index files as Python's codecs have them, and a label file with two encodings."""
    make(there)
    for name, codec in SINGLE.items():
        write(there, name, table(codec, 128, lambda it: bytes([0x80 + it]), c1))
    encodings = [{"name": "UTF-8", "labels": ["utf-8"]}, {"name": "Shift_JIS", "labels": ["shift_jis"]}]
    (there / "encodings.json").write_text(json.dumps([{"encodings": encodings}]), encoding="ascii")


# Python's codecs for the single-byte encodings that aren't code pages of Windows, by the names of their index files.
SINGLE = {
    "ibm866": "cp866", "koi8-r": "koi8_r", "koi8-u": "koi8_u", "macintosh": "mac_roman", "windows-874": "cp874", "x-mac-cyrillic": "mac_cyrillic",
    **{f"iso-8859-{it}": f"iso8859_{it}" for it in (2, 3, 4, 5, 6, 7, 8, 10, 13, 14, 15, 16)},
}


# What U+FF61 and on become in ISO-2022-JP.
KATAKANA = ("。「」、・ヲァィゥェォャュョッーアイウエオカキクケコサシスセソタチツテト"
            "ナニヌネノハヒフヘホマミムメモヤユヨラリルレロワン゛゜")


def table(codec: str, count: int, to_bytes: Callable[[int], bytes],
          otherwise: Callable[[bytes], Optional[int]] = lambda _: None) -> Iterator[Row]:
    """The pointers whose bytes are one character."""
    for pointer in range(count):
        raw = to_bytes(pointer)
        text = raw.decode(codec, "replace")
        code = ord(text) if len(text) == 1 and text != "\ufffd" else otherwise(raw)
        if code is not None:
            yield pointer, code


def c1(raw: bytes) -> Optional[int]:
    """The control that the Standard has where Python has nothing."""
    return raw[0] if raw[0] < 0xA0 else None


def shift_jis(pointer: int) -> bytes:
    lead, trail = divmod(pointer, 188)
    return bytes([lead + (0x81 if lead < 0x1F else 0xC1), trail + (0x40 if trail < 0x3F else 0x41)])


def double(pointer: int, width: int, low: int, few: int, high: int) -> bytes:
    """Two bytes, of which the second lies in two blocks."""
    lead, trail = divmod(pointer, width)
    return bytes([0x81 + lead, trail + (low if trail < few else high)])


def ranges() -> Iterator[Row]:
    """Where four bytes of gb18030 begin to be other code points than the next ones."""
    last = -1
    for pointer in range(39420):
        rest, fourth = divmod(pointer, 10)
        rest, third = divmod(rest, 126)
        first, second = divmod(rest, 10)
        code = ord(bytes([0x81 + first, 0x30 + second, 0x81 + third, 0x30 + fourth]).decode("gb18030"))
        if code != last + 1:
            yield pointer, code
        last = code
    yield 189000, 0x10000
