"""Which encoding of the Encoding Standard a name means: one of the Standard's own names, or of those that iconv, Python,
git and editors have.

Of iconv's names the table has those that are labels of the Standard. It also has those by which bytes above 9F, or
pairs of bytes, decode as by the Standard's index files, all of them or 98 of 100. UTF-32, CP437, CP850, EUC-TW and
JOHAB aren't encodings of the Standard."""
import json
import pathlib
import re
from typing import Dict, Mapping, NamedTuple, Optional

from legacy.finding import Missing


class Encoding(NamedTuple):
    """What a name means: the Standard's name in lower case, which is a label, and the byte order mark that the name asks
    for in new files."""

    label: str
    mark: bytes = b""


class Known(NamedTuple):
    """What is known of an encoding: its other names as `fold_name` leaves them, and how many bytes a character has at most."""

    names: str
    most: int = 1


# The Standard's encodings, in its order.
NAMES = {
    "utf-8": Known("cp65001", 4),
    "ibm866": Known("866"),
    "iso-8859-2": Known("latin2 l2 isoir101 csisolatin2 cp912"),
    "iso-8859-3": Known("latin3 l3 isoir109 csisolatin3"),
    "iso-8859-4": Known("latin4 l4 isoir110 csisolatin4"),
    "iso-8859-5": Known("cyrillic isoir144 csisolatincyrillic cp915"),
    "iso-8859-6": Known("arabic asmo708 ecma114 isoir127 csisolatinarabic cp1089"),
    "iso-8859-7": Known("greek greek8 ecma118 elot928 isoir126 csisolatingreek cp813"),
    "iso-8859-8": Known("hebrew isoir138 csisolatinhebrew cp916"),
    "iso-8859-8-i": Known(""),
    "iso-8859-10": Known("latin6 l6 isoir157 csisolatin6"),
    "iso-8859-13": Known("latin7 l7 baltic isoir179 cp921"),
    "iso-8859-14": Known("latin8 l8 isoceltic isoir199"),
    "iso-8859-15": Known("latin9 l9 isoir203 csisolatin9"),
    "iso-8859-16": Known("latin10 l10 isoir226"),
    "koi8-r": Known("koi8 cskoi8r"),
    "koi8-u": Known("koi8ru"),
    "macintosh": Known("mac csmacintosh macroman xmacroman cp10000"),
    "windows-874": Known("874 cp874 cp1162 885911 tis620 tis6200 tis62025291 tis62025330 isoir166 thai8 hpthai8"),
    "windows-1250": Known("cp1250 msee"),
    "windows-1251": Known("cp1251 mscyrl cp5347"),
    "windows-1252": Known("cp1252 msansi cp1004 88591 latin1 l1 isoir100 csisolatin1 cp819"
                          " ascii usascii csascii ansix34 ansix341968 ansix341986 iso646us isoir6 cp367"),
    "windows-1253": Known("cp1253 msgreek"),
    "windows-1254": Known("cp1254 msturk 88599 latin5 l5 isoir148 csisolatin5 cp920 ecma128 ts5881"),
    "windows-1255": Known("cp1255 mshebr"),
    "windows-1256": Known("cp1256 msarab cp9448"),
    "windows-1257": Known("cp1257 winbaltrim"),
    "windows-1258": Known("cp1258"),
    "x-mac-cyrillic": Known("maccyrillic macuk macukrainian xmacukrainian cp10007"),
    "gbk": Known("cp936 ms936 windows936 gb2312 csgb2312 euccn cngb gb13000", 4),
    "gb18030": Known("cp54936", 4),
    "big5": Known("cp950 bigfive cnbig5 big5hkscs csbig5", 2),
    "euc-jp": Known("ujis eucjpms eucjpwin eucjpopen cp51932 cseucpkdfmtjapanese", 3),
    "iso-2022-jp": Known("csiso2022jp", 2),
    "shift_jis": Known("sjis cp932 ms932 windows932 windows31j cswindows31j mskanji csshiftjis sjiswin sjisopen cp943", 2),
    "euc-kr": Known("cseuckr cp949 mscp949 uhc windows949 ksc5601 ksc56011987", 2),
    "utf-16be": Known("ucs2be unicodebig", 2),
    "utf-16le": Known("ucs2 ucs2le unicodelittle", 2),
    "x-user-defined": Known(""),
}
# Names that ask for a byte order mark: git writes one in UTF-16, in the order of this machine's iconv, and EditorConfig
# has utf-8-bom.
MARKED = {
    **dict.fromkeys(["utf8bom"], Encoding("utf-8", b"\xef\xbb\xbf")),
    **dict.fromkeys(["utf16", "utf16lebom", "unicode", "csunicode"], Encoding("utf-16le", b"\xff\xfe")),
    **dict.fromkeys(["utf16bebom"], Encoding("utf-16be", b"\xfe\xff")),
}


def fold_name(name: str) -> str:
    """A name without what its spellings differ in: case, separators, a year, and who counts it."""
    name = re.sub(r":\d{4}$", "", name.strip("\t\n\f\r ").lower())
    name = re.sub(r"[-_. ]", "", name)
    name = re.sub(r"^(csibm|ibm|xcp|cp)(?=\d)", "cp", name)
    return re.sub(r"^iso(?=8859)", "", name)


FOLDED: Dict[str, Encoding] = {
    **{fold_name(name): Encoding(label) for label, known in NAMES.items() for name in (label, *known.names.split())}, **MARKED}


def encoding_of(name: str, labels: Optional[Mapping[str, str]] = None) -> Optional[Encoding]:
    """The encoding that a name means, by the table or otherwise by these labels. None if it means none, or the
    Standard's replacement, in which no file is text."""
    found = FOLDED.get(fold_name(name))
    if found or not labels:
        return found
    label = labels.get(name.strip("\t\n\f\r ").lower())
    return Encoding(label) if label in NAMES else None


def labels_in(path: pathlib.Path) -> Dict[str, str]:
    """The labels of a label file (docs/ENCODINGS.md), each with its encoding's name in lower case."""
    try:
        groups = json.loads(path.read_text(encoding="utf-8"))
        entries = [entry for group in groups for entry in group["encodings"]]
        return {label.lower(): entry["name"].lower() for entry in reversed(entries) for label in reversed(entry["labels"])}
    except (OSError, ValueError, LookupError, TypeError, AttributeError) as fault:
        raise Missing(f"the label file {path} can't be read: {fault}") from fault
